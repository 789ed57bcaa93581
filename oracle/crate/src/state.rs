//! All that a link keeps from call to call, as one plain record: what `dump` shows and `set` changes.

pub const READER: [&str; 4] = ["start", "address", "data", "complete"];
pub const PHASE: [&str; 5] = ["dead", "establish", "auth", "network", "open"];
const FSM: [&str; 5] = ["closed", "reqsent", "ackreceived", "acksent", "opened"];
const PAP: [&str; 3] = ["closed", "reqsent", "opened"];
const AUTH: [&str; 2] = ["none", "pap"];

#[derive(Clone, Copy, Default, PartialEq, Debug)]
pub struct St {
    pub r_state: u8,
    pub r_escape: bool,
    pub r_len: usize,
    pub phase: u8,
    pub opening: bool,
    pub lcp_id: u8,
    pub lcp_state: u8,
    pub lcp_auth: bool,
    pub lcp_remote: u32,
    pub lcp_map: u32,
    pub lcp_rej: bool,
    pub pap_id: u8,
    pub pap_state: u8,
    pub ip_id: u8,
    pub ip_state: u8,
    /// The peer's address, then our own address and the two name servers, each with whether it was rejected.
    pub ip: [(u32, bool); 4],
}

fn named(names: &[&str], v: &str) -> Option<u8> {
    names.iter().position(|x| *x == v).map(|x| x as u8)
}

fn number(v: &str) -> Option<usize> {
    v.parse().ok()
}

fn flag(v: &str) -> Option<bool> {
    number(v).map(|x| x != 0)
}

fn word(v: &str) -> Option<u32> {
    u32::from_str_radix(v, 16).ok()
}

fn put<T>(place: &mut T, value: Option<T>) -> bool {
    match value {
        Some(x) => {
            *place = x;
            true
        }
        None => false,
    }
}

impl St {
    pub fn show(&self) -> String {
        let reader = format!(
            "reader={} escape={} kept={}",
            READER[self.r_state as usize], self.r_escape as u8, self.r_len
        );
        let lcp = format!(
            "phase={} opening={} lcp={} lcpid={} auth={} remote={:08x} map={:08x} maprej={}",
            PHASE[self.phase as usize],
            self.opening as u8,
            FSM[self.lcp_state as usize],
            self.lcp_id,
            AUTH[self.lcp_auth as usize],
            self.lcp_remote,
            self.lcp_map,
            self.lcp_rej as u8
        );
        let ipcp = format!(
            "ipcp={} ipcpid={} peer={:08x} addr={:08x} addrrej={} dns1={:08x} dns1rej={} dns2={:08x} dns2rej={}",
            FSM[self.ip_state as usize],
            self.ip_id,
            self.ip[0].0,
            self.ip[1].0,
            self.ip[1].1 as u8,
            self.ip[2].0,
            self.ip[2].1 as u8,
            self.ip[3].0,
            self.ip[3].1 as u8
        );
        let pap = format!("pap={} papid={}", PAP[self.pap_state as usize], self.pap_id);
        format!("{reader} {lcp} {ipcp} {pap}")
    }

    /// Sets a field from its name and value as `show` writes them, and says whether there is such a field and value.
    pub fn set(&mut self, k: &str, v: &str) -> bool {
        match k {
            "reader" => put(&mut self.r_state, named(&READER, v)),
            "escape" => put(&mut self.r_escape, flag(v)),
            "kept" => put(&mut self.r_len, number(v)),
            "phase" => put(&mut self.phase, named(&PHASE, v)),
            "opening" => put(&mut self.opening, flag(v)),
            "lcp" => put(&mut self.lcp_state, named(&FSM, v)),
            "lcpid" => put(&mut self.lcp_id, number(v).map(|x| x as u8)),
            "auth" => put(&mut self.lcp_auth, named(&AUTH, v).map(|x| x == 1)),
            "remote" => put(&mut self.lcp_remote, word(v)),
            "map" => put(&mut self.lcp_map, word(v)),
            "maprej" => put(&mut self.lcp_rej, flag(v)),
            "ipcp" => put(&mut self.ip_state, named(&FSM, v)),
            "ipcpid" => put(&mut self.ip_id, number(v).map(|x| x as u8)),
            "peer" => put(&mut self.ip[0].0, word(v)),
            "addr" => put(&mut self.ip[1].0, word(v)),
            "addrrej" => put(&mut self.ip[1].1, flag(v)),
            "dns1" => put(&mut self.ip[2].0, word(v)),
            "dns1rej" => put(&mut self.ip[2].1, flag(v)),
            "dns2" => put(&mut self.ip[3].0, word(v)),
            "dns2rej" => put(&mut self.ip[3].1, flag(v)),
            "pap" => put(&mut self.pap_state, named(&PAP, v)),
            "papid" => put(&mut self.pap_id, number(v).map(|x| x as u8)),
            _ => false,
        }
    }
}
