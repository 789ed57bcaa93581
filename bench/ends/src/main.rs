//! The program `ends` over the crate, for bytes that are 0: a meeting of two fresh ends for each byte of standard input, with the same
//! generator, the same steps and the same table. `ends size` prints how many bytes a link takes.
use seen::pppos::{PPPoS, PPPoSAction};
use seen::{Config, St};
use std::io::Read;

const ROOM: usize = 795;
/// Phase Open and state Opened, as the accessors number them.
const OPEN: u8 = 4;

struct End {
    link: PPPoS<'static>,
    sent: usize,
    heard: usize,
    stuck: usize,
    before: St,
}

/// What an end is to know when the meeting is over.
struct Hoped {
    map: u32,
    address: u32,
}

#[derive(Default)]
struct Tally {
    meetings: usize,
    opened: usize,
    offered: usize,
    refused: usize,
    stuck: usize,
    rounds: usize,
    ends: usize,
    least: usize,
    most: usize,
}

fn draw(s: u32) -> u32 {
    ((s as u64 * 1103515245 + 12345) % 2147483648) as u32
}

impl End {
    fn fresh() -> End {
        let link = PPPoS::new(Config {
            username: b"",
            password: b"",
        });
        let before = link.oracle_get();
        End {
            link,
            sent: 0,
            heard: 0,
            stuck: 0,
            before,
        }
    }

    fn poll(&mut self, wire: &mut [u8], rx: &mut [u8], tally: &mut Tally) {
        let room = &mut wire[self.sent..][..ROOM];
        match self.link.poll(room, rx) {
            PPPoSAction::None => {}
            PPPoSAction::Received(_) => tally.refused += 1,
            PPPoSAction::Transmit(n) => self.sent += n,
        }
    }

    fn begin(&mut self, wire: &mut [u8], rx: &mut [u8], tally: &mut Tally) {
        if self.link.open().is_err() {
            tally.refused += 1;
        }
        self.poll(wire, rx, tally);
    }

    fn step(&mut self, src: &[u8], wire: &mut [u8], rx: &mut [u8], tally: &mut Tally) {
        let n = self.link.consume(src, rx);
        if !src.is_empty() && n == 0 {
            self.stuck += 1;
        }
        self.heard += n;
        self.poll(wire, rx, tally);
    }

    fn hoped(&self, peer: &End) -> Hoped {
        let offers = peer.link.oracle_get();
        Hoped {
            map: if offers.lcp_rej {
                self.before.lcp_remote
            } else {
                offers.lcp_map
            },
            address: if offers.ip[1].1 {
                self.before.ip[0].0
            } else {
                offers.ip[1].0
            },
        }
    }
}

fn frames(s: &[u8]) -> usize {
    s.iter().filter(|b| **b == 0x7E).count() / 2
}

impl Tally {
    fn with_end(&mut self, e: &End, hoped: &Hoped, wire: &[u8]) {
        let k = e.link.oracle_get();
        self.opened += (k.phase == OPEN && k.lcp_state == OPEN && k.ip_state == OPEN) as usize;
        self.offered += (k.lcp_remote == hoped.map && k.ip[0].0 == hoped.address) as usize;
        self.stuck += e.stuck;
        self.rounds += (k.lcp_id < e.before.lcp_id) as usize;
        self.rounds += (k.ip_id < e.before.ip_id) as usize;
        let n = frames(&wire[..e.sent]);
        self.ends += 1;
        self.least = self.least.min(n);
        self.most = self.most.max(n);
    }

    fn show(&self) {
        println!("meetings of two ends: {}", self.meetings);
        println!(
            "ends in phase Open with LCP and IPv4CP Opened: {}",
            self.opened
        );
        println!(
            "ends that know map and address as offered: {}",
            self.offered
        );
        println!("refused calls: {}", self.refused);
        println!("steps that were handed bytes and took none: {}", self.stuck);
        println!("ids that passed 255: {}", self.rounds);
        println!("both ends offer name servers, ends: {}", self.ends);
        println!("    fewest frames written by one: {}", self.least);
        println!("    most: {}", self.most);
    }
}

fn meet(seed: u32, wires: &mut [[u8; 2048]; 2], rxs: &mut [[u8; 27]; 2], tally: &mut Tally) -> u32 {
    let [wa, wb] = wires;
    let [ra, rb] = rxs;
    let (mut a, mut b) = (End::fresh(), End::fresh());
    a.begin(wa, ra, tally);
    b.begin(wb, rb, tally);
    let (to_a, to_b) = (a.hoped(&b), b.hoped(&a));
    let mut seed = draw(draw(seed));
    let mut turns = 10000;
    while turns > 0 && (a.heard != b.sent || b.heard != a.sent) {
        turns -= 1;
        seed = draw(seed);
        let n = (seed / 0x2_0000 % 41) as usize;
        if seed / 0x1_0000 % 2 == 0 {
            let n = n.min(b.sent - a.heard);
            a.step(&wb[a.heard..][..n], wa, ra, tally);
        } else {
            let n = n.min(a.sent - b.heard);
            b.step(&wa[b.heard..][..n], wb, rb, tally);
        }
    }
    tally.meetings += 1;
    tally.with_end(&a, &to_a, wa);
    tally.with_end(&b, &to_b, wb);
    seed
}

fn main() {
    if std::env::args().nth(1).is_some() {
        println!("{}", std::mem::size_of::<PPPoS>());
        return;
    }
    let mut wires = [[0; 2048]; 2];
    let mut rxs = [[0; 27]; 2];
    let mut tally = Tally {
        least: usize::MAX,
        ..Tally::default()
    };
    let mut seed = 1;
    let mut part = [0; 4096];
    let mut input = std::io::stdin().lock();
    loop {
        let n = input.read(&mut part).unwrap_or(0);
        if n == 0 {
            break;
        }
        for _ in 0..n {
            seed = meet(seed, &mut wires, &mut rxs, &mut tally);
        }
    }
    tally.show();
}
