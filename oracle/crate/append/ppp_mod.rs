// ---- appended by the oracle, nothing above is changed ----
impl<'a> PPP<'a> {
    pub fn oracle_get(&self, o: &mut crate::St) {
        o.phase = self.phase as u8;
        o.opening = self.opening;
        let (id, st, p) = self.lcp.oracle_get();
        (o.lcp_id, o.lcp_state) = (id, st);
        o.lcp_auth = p.auth == AuthType::PAP;
        (o.lcp_remote, o.lcp_map, o.lcp_rej) = (p.asyncmap_remote, p.asyncmap, p.asyncmap_rej);
        (o.pap_id, o.pap_state) = self.pap.oracle_get();
        let (id, st, p) = self.ipv4cp.oracle_get();
        (o.ip_id, o.ip_state) = (id, st);
        o.ip = p.oracle_get();
    }
    pub fn oracle_set(&mut self, o: &crate::St) {
        self.phase = match o.phase {
            0 => Phase::Dead,
            1 => Phase::Establish,
            2 => Phase::Auth,
            3 => Phase::Network,
            _ => Phase::Open,
        };
        self.opening = o.opening;
        let p = self.lcp.oracle_set(o.lcp_id, o.lcp_state);
        p.auth = if o.lcp_auth {
            AuthType::PAP
        } else {
            AuthType::None
        };
        (p.asyncmap_remote, p.asyncmap, p.asyncmap_rej) = (o.lcp_remote, o.lcp_map, o.lcp_rej);
        self.pap.oracle_set(o.pap_id, o.pap_state);
        self.ipv4cp.oracle_set(o.ip_id, o.ip_state).oracle_set(o.ip);
    }
}
