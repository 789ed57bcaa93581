// ---- appended by the oracle, nothing above is changed ----
impl IPv4CP {
    pub fn oracle_get(&self) -> [(u32, bool); 4] {
        [
            (u32::from(self.peer_address), false),
            (u32::from(self.address.address), self.address.is_rejected),
            (
                u32::from(self.dns_server_1.address),
                self.dns_server_1.is_rejected,
            ),
            (
                u32::from(self.dns_server_2.address),
                self.dns_server_2.is_rejected,
            ),
        ]
    }
    pub fn oracle_set(&mut self, v: [(u32, bool); 4]) {
        self.peer_address = Ipv4Addr::from(v[0].0);
        self.address = IpOption {
            address: Ipv4Addr::from(v[1].0),
            is_rejected: v[1].1,
        };
        self.dns_server_1 = IpOption {
            address: Ipv4Addr::from(v[2].0),
            is_rejected: v[2].1,
        };
        self.dns_server_2 = IpOption {
            address: Ipv4Addr::from(v[3].0),
            is_rejected: v[3].1,
        };
    }
}
