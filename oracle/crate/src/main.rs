//! The crate, driven by text lines from standard input. README.md beside the scripts has the lines and their answers.
//! This file takes the place of the crate's lib.rs. `--raw` shows panics as they are; `--batch` does not flush each line.
#![allow(dead_code, unused_imports)]
pub(crate) mod fmt;
mod ppp;
pub mod pppos;
mod refusal;
mod state;
mod wire;
pub use ppp::{Config, Ipv4Status, Phase, Status};
pub use state::St;

/// As in the crate's lib.rs.
#[derive(Debug, PartialEq, Eq, Clone, Copy)]
pub struct InvalidStateError;

use pppos::oracle_reach::{crc16, FrameReader, FrameWriter};
use pppos::{PPPoS, PPPoSAction};
use state::{PHASE, READER};
use std::io::{BufRead, Write};
use std::panic::{catch_unwind, AssertUnwindSafe};

const CAP: usize = 70000;
const MAX_CREDENTIALS: usize = 120;

fn unhex(s: &str) -> Option<Vec<u8>> {
    if s == "-" || s.is_empty() {
        return Some(vec![]);
    }
    if s.len() % 2 != 0 {
        return None;
    }
    (0..s.len() / 2)
        .map(|i| u8::from_str_radix(&s[2 * i..2 * i + 2], 16).ok())
        .collect()
}

fn hex(b: &[u8]) -> String {
    if b.is_empty() {
        return "-".into();
    }
    b.iter().map(|x| format!("{x:02x}")).collect()
}

/// A lent buffer: hex, with the trailing run of the fill byte as its count.
fn shown(b: &[u8], fill: u8) -> String {
    let mut n = b.len();
    while n > 0 && b[n - 1] == fill {
        n -= 1;
    }
    format!("{}+{}", hex(&b[..n]), b.len() - n)
}

/// The words of a line. A word that is missing or garbled counts as the default: lines come from scripts that have them right.
struct Words<'a>(Vec<&'a str>);

impl<'a> Words<'a> {
    fn at(&self, i: usize) -> Option<&'a str> {
        self.0.get(i).copied()
    }
    fn bytes(&self, i: usize) -> Vec<u8> {
        self.at(i).and_then(unhex).unwrap_or_default()
    }
    fn number(&self, i: usize, default: usize) -> usize {
        self.at(i)
            .and_then(|x| x.parse().ok())
            .unwrap_or(default)
            .min(CAP)
    }
}

struct World {
    raw: bool,
    link: PPPoS<'static>,
    rx: Vec<u8>,
    rx_fill: u8,
    tx: Vec<u8>,
    tx_fill: u8,
    writer_buf: Vec<u8>,
    writer_len: usize,
    writer_crc: u16,
    writer_map: u32,
    reader: FrameReader,
    reader_buf: Vec<u8>,
}

/// A link borrows its name and password for good.
fn link(name: Vec<u8>, password: Vec<u8>) -> PPPoS<'static> {
    PPPoS::new(Config {
        username: name.leak(),
        password: password.leak(),
    })
}

impl World {
    fn new(raw: bool) -> World {
        World {
            raw,
            link: link(vec![], vec![]),
            rx: vec![0; CAP],
            rx_fill: 0,
            tx: vec![0xee; CAP],
            tx_fill: 0xee,
            writer_buf: vec![],
            writer_len: 0,
            writer_crc: 0,
            writer_map: 0xffff_ffff,
            reader: FrameReader::new(),
            reader_buf: vec![],
        }
    }

    fn line(&mut self, line: &str) -> String {
        let w = Words(line.split_whitespace().collect());
        match w.0[0] {
            "reset" => {
                *self = World::new(self.raw);
                "reset ok".into()
            }
            "fill" => self.fill(&w),
            "new" => self.new_link(&w),
            "open" => if self.link.open().is_ok() {
                "open ok"
            } else {
                "open refuse 2"
            }
            .into(),
            "consume" => self.consume(&w),
            "poll" => self.poll(&w),
            "send" => self.send(&w),
            "part" => self.part(&w),
            "status" => self.status(),
            "dump" => format!("dump {}", self.link.oracle_get().show()),
            "set" => self.set(&w),
            "crc" => {
                let seed = w
                    .at(1)
                    .and_then(|x| u16::from_str_radix(x, 16).ok())
                    .unwrap_or(0xffff);
                format!("crc {:04x}", crc16(seed, &w.bytes(2)))
            }
            "wnew" => {
                self.writer_buf = vec![self.tx_fill; w.number(1, 0)];
                (self.writer_len, self.writer_crc) = (0, 0);
                self.writer_map = w
                    .at(2)
                    .and_then(|x| u32::from_str_radix(x, 16).ok())
                    .unwrap_or(0xffff_ffff);
                "wnew ok".into()
            }
            "wstart" | "wappend" | "wfinish" => self.write(&w),
            "rnew" => {
                self.reader = FrameReader::new();
                self.reader_buf = vec![self.rx_fill; w.number(1, 0)];
                "rnew ok".into()
            }
            "rset" => {
                let state = READER.iter().position(|x| Some(*x) == w.at(1)).unwrap_or(0) as u8;
                self.reader
                    .oracle_set(state, w.at(2) == Some("1"), w.number(3, 0));
                "rset ok".into()
            }
            "rconsume" => self.read(&w),
            "rreceive" => self.receive(),
            _ => "bad command".into(),
        }
    }

    fn fill(&mut self, w: &Words) -> String {
        let b = w.bytes(2).first().copied().unwrap_or(0);
        match w.at(1) {
            Some("rx") => {
                self.rx_fill = b;
                self.rx.fill(b);
            }
            Some("tx") => {
                self.tx_fill = b;
                self.tx.fill(b);
            }
            _ => return "fill bad".into(),
        }
        "fill ok".into()
    }

    fn new_link(&mut self, w: &Words) -> String {
        let (name, password) = (w.bytes(1), w.bytes(2));
        if !self.raw && name.len() + password.len() > MAX_CREDENTIALS {
            self.link = link(vec![], vec![]);
            return "new refuse 4".into();
        }
        match catch_unwind(AssertUnwindSafe(|| link(name, password))) {
            Ok(k) => {
                self.link = k;
                "new ok".into()
            }
            Err(_) => format!("new panic # {}", refusal::last().1),
        }
    }

    fn consume(&mut self, w: &Words) -> String {
        let room = w.number(1, 1600);
        let src = w.bytes(2);
        let mut note = String::new();
        let answer = if !self.raw && room < self.link.oracle_get().r_len {
            "refuse 3 0".to_string()
        } else {
            let (link, rx) = (&mut self.link, &mut self.rx);
            match catch_unwind(AssertUnwindSafe(|| link.consume(&src, &mut rx[..room]))) {
                Ok(n) => format!("ok {n}"),
                Err(_) => {
                    note = format!(" # {}", refusal::last().1);
                    "panic".into()
                }
            }
        };
        format!(
            "consume {answer} rx={}{note}",
            shown(&self.rx[..room], self.rx_fill)
        )
    }

    fn poll(&mut self, w: &Words) -> String {
        let (tx_room, rx_room) = (w.number(1, 795), w.number(2, 1600));
        let (answer, note) = if !self.raw && rx_room < self.link.oracle_get().r_len {
            ("refuse 3".to_string(), String::new())
        } else {
            self.poll_lent(tx_room, rx_room)
        };
        let tx = shown(&self.tx[..tx_room], self.tx_fill);
        let rx = shown(&self.rx[..rx_room], self.rx_fill);
        format!("poll {answer} tx={tx} rx={rx}{note}")
    }

    /// Where the crate panics, what it had changed is put back: a refused poll changes nothing, but that all refusals except 1 drop the frame.
    fn poll_lent(&mut self, tx_room: usize, rx_room: usize) -> (String, String) {
        let mut before = self.link.oracle_get();
        let (tx_before, rx_before) = (self.tx[..tx_room].to_vec(), self.rx[..rx_room].to_vec());
        let (link, rx, tx) = (&mut self.link, &mut self.rx, &mut self.tx);
        match catch_unwind(AssertUnwindSafe(|| {
            link.poll(&mut tx[..tx_room], &mut rx[..rx_room])
        })) {
            Ok(PPPoSAction::None) => ("none".into(), String::new()),
            Ok(PPPoSAction::Received(r)) => {
                (format!("received {} {}", r.start, r.end), String::new())
            }
            Ok(PPPoSAction::Transmit(n)) => (format!("transmit {n}"), String::new()),
            Err(_) => {
                let (number, why) = refusal::last();
                let note = format!(" # {why}");
                if self.raw {
                    return (format!("panic {number}"), note);
                }
                let told = if number == 7 {
                    format!(" {}", refusal::offset(&rx_before[1..before.r_len - 2]))
                } else {
                    String::new()
                };
                if number != 1 && before.r_state == 3 {
                    (before.r_state, before.r_len) = (1, 0);
                }
                self.link.oracle_set(&before);
                self.tx[..tx_room].copy_from_slice(&tx_before);
                self.rx[..rx_room].copy_from_slice(&rx_before);
                (format!("refuse {number}{told}"), note)
            }
        }
    }

    fn send(&mut self, w: &Words) -> String {
        let room = w.number(1, 4096);
        let src = w.bytes(2);
        let (link, tx) = (&mut self.link, &mut self.tx);
        let answer = match catch_unwind(AssertUnwindSafe(|| link.send(&src, &mut tx[..room]))) {
            Ok(Ok(n)) => format!("ok {n}"),
            Ok(Err(_)) => "refuse 1".into(),
            Err(_) => format!("panic # {}", refusal::last().1),
        };
        format!("send {answer} tx={}", shown(&self.tx[..room], self.tx_fill))
    }

    /// The crate has no such call: its caller takes the part of the receive buffer itself.
    fn part(&self, w: &Words) -> String {
        let (from, to, room) = (w.number(1, 0), w.number(2, 0), w.number(3, 1600));
        if from > to || to > room {
            return "part 0 -".into();
        }
        format!("part {from} {}", hex(&self.rx[from..to]))
    }

    fn status(&self) -> String {
        let s = self.link.status();
        let up = s.ipv4.is_some();
        let (address, peer, dns) = match &s.ipv4 {
            Some(i) => (i.address, i.peer_address, i.dns_servers),
            None => (None, None, [None, None]),
        };
        let text = |a: Option<std::net::Ipv4Addr>| a.map_or("none".to_string(), |x| x.to_string());
        format!(
            "status phase={} ipv4={} address={} peer={} dns1={} dns2={}",
            PHASE[s.phase as usize],
            if up { "up" } else { "down" },
            text(address),
            text(peer),
            text(dns[0]),
            text(dns[1])
        )
    }

    fn set(&mut self, w: &Words) -> String {
        let mut s = self.link.oracle_get();
        for word in &w.0[1..] {
            let (k, v) = word.split_once('=').unwrap_or((word, ""));
            if !s.set(k, v) {
                return format!("set bad {word}");
            }
        }
        self.link.oracle_set(&s);
        "set ok".into()
    }

    fn write(&mut self, w: &Words) -> String {
        let name = w.0[0];
        let (buf, len, crc, map) = (
            &mut self.writer_buf,
            self.writer_len,
            self.writer_crc,
            self.writer_map,
        );
        let mut writer = FrameWriter::oracle_resume(buf, len, crc, map);
        let result = match name {
            "wstart" => writer.start(),
            "wappend" => writer.append(&w.bytes(1)),
            _ => writer.finish(),
        };
        let (len, crc) = writer.oracle_get();
        (self.writer_len, self.writer_crc) = (len, crc);
        let answer = if result.is_ok() { "ok" } else { "refuse 1" };
        format!(
            "{name} {answer} len={len} crc={crc:04x} buf={}",
            shown(&self.writer_buf, self.tx_fill)
        )
    }

    fn reader(&self) -> String {
        let (state, escape, len) = self.reader.oracle_get();
        format!(
            "reader={} escape={} kept={len}",
            READER[state as usize], escape as u8
        )
    }

    fn read(&mut self, w: &Words) -> String {
        let src = w.bytes(1);
        let (reader, buf) = (&mut self.reader, &mut self.reader_buf);
        let answer = match catch_unwind(AssertUnwindSafe(|| reader.consume(buf, &src))) {
            Ok(n) => format!("ok {n}"),
            Err(_) => "panic".into(),
        };
        format!(
            "rconsume {answer} {} rx={}",
            self.reader(),
            shown(&self.reader_buf, self.rx_fill)
        )
    }

    fn receive(&mut self) -> String {
        let reader = &mut self.reader;
        let answer = match catch_unwind(AssertUnwindSafe(|| reader.receive())) {
            Ok(Some(r)) => format!("{}..{}", r.start, r.end),
            Ok(None) => "none".into(),
            Err(_) => "panic".into(),
        };
        format!("rreceive {answer} {}", self.reader())
    }
}

fn main() {
    refusal::note_panics();
    let has = |word: &str| std::env::args().any(|a| a == word);
    let (raw, batch) = (has("--raw"), has("--batch"));
    let mut world = World::new(raw);
    let mut out = std::io::BufWriter::new(std::io::stdout().lock());
    for line in std::io::stdin().lock().lines() {
        let line = line.unwrap();
        let line = line.trim();
        if line.is_empty() || line.starts_with('#') {
            continue;
        }
        let answer = world.line(line);
        writeln!(out, "{answer}").unwrap();
        if !batch {
            out.flush().unwrap();
        }
    }
    out.flush().unwrap();
}
