//! The status program over the crate: received bytes from standard input, the six status lines at the end. It has no standard
//! library, as firmware has none, so that the size of its code says something.
#![no_std]
#![no_main]
use ppproto::pppos::PPPoS;
use ppproto::{Config, Phase, Status};

extern "C" {
    fn read(fd: i32, buf: *mut u8, len: usize) -> isize;
    fn write(fd: i32, buf: *const u8, len: usize) -> isize;
    fn abort() -> !;
}

#[panic_handler]
fn panicked(_: &core::panic::PanicInfo) -> ! {
    unsafe { abort() }
}

/// The core library names it; no panic unwinds here.
#[no_mangle]
extern "C" fn rust_eh_personality() {}

fn read_full(buf: &mut [u8]) -> usize {
    let mut n = 0;
    while n < buf.len() {
        let rest = &mut buf[n..];
        let got = unsafe { read(0, rest.as_mut_ptr(), rest.len()) };
        if got <= 0 {
            break;
        }
        n += got as usize;
    }
    n
}

fn put(s: &[u8]) {
    unsafe { write(1, s.as_ptr(), s.len()) };
}

fn decimal(n: u8) {
    let digits = [48 + n / 100, 48 + n / 10 % 10, 48 + n % 10];
    put(&digits[if n < 10 {
        2
    } else if n < 100 {
        1
    } else {
        0
    }..]);
}

fn address(name: &[u8], octets: Option<[u8; 4]>) {
    put(name);
    match octets {
        None => put(b"none"),
        Some(o) => {
            for (i, n) in o.iter().enumerate() {
                if i > 0 {
                    put(b".");
                }
                decimal(*n);
            }
        }
    }
    put(b"\n");
}

fn show(s: Status) {
    put(b"phase=");
    let phase: &[u8] = match s.phase {
        Phase::Dead => b"dead\n",
        Phase::Establish => b"establish\n",
        Phase::Auth => b"auth\n",
        Phase::Network => b"network\n",
        Phase::Open => b"open\n",
    };
    put(phase);
    put(b"ipv4=");
    put(if s.ipv4.is_some() { &b"up\n"[..] } else { b"down\n" });
    let (mut own, mut peer, mut dns) = (None, None, [None, None]);
    if let Some(ip) = s.ipv4 {
        own = ip.address.map(|a| a.octets());
        peer = ip.peer_address.map(|a| a.octets());
        dns = ip.dns_servers.map(|d| d.map(|a| a.octets()));
    }
    address(b"address=", own);
    address(b"peer=", peer);
    address(b"dns1=", dns[0]);
    address(b"dns2=", dns[1]);
}

/// A poll after each consume; two turns in a row that take nothing end it.
fn feed(link: &mut PPPoS, tx: &mut [u8], rx: &mut [u8], src: &[u8]) {
    let mut at = 0;
    let mut idle = 0;
    while at < src.len() {
        if idle == 2 {
            return;
        }
        let n = link.consume(&src[at..], rx);
        link.poll(tx, rx);
        at += n;
        idle = if n == 0 { idle + 1 } else { 0 };
    }
}

#[no_mangle]
pub extern "C" fn main() -> i32 {
    let mut tx = [0; 795];
    let mut rx = [0; 1600];
    let mut link = PPPoS::new(Config {
        username: b"",
        password: b"",
    });
    if link.open().is_err() {
        return 1;
    }
    link.poll(&mut tx, &mut rx);
    loop {
        let mut part = [0; 4096];
        let n = read_full(&mut part);
        if n == 0 {
            break;
        }
        feed(&mut link, &mut tx, &mut rx, &part[..n]);
    }
    show(link.status());
    0
}
