//! The check value and the frame of one packet, the static library beside the crate.
//!
//! With no argument: a line for each case, its name and the nanoseconds of a call of the library and of the crate, each the best of
//! several rounds that take turns. With the number of a case, `ours` or `crate`, and a number: so many calls, to count instructions.
#[path = "crate/crc.rs"]
mod crc;
#[path = "crate/frame_writer.rs"]
mod frame_writer;

use frame_writer::FrameWriter;
use std::hint::black_box;
use std::time::Instant;

extern "C" {
    fn ppp_crc16(seed: u16, src: *const u8, src_len: usize) -> u16;
    fn ppp_encode(
        buf: *mut u8,
        buf_len: usize,
        asyncmap: u32,
        src: *const u8,
        src_len: usize,
    ) -> usize;
}

const ROUNDS: usize = 40;
const ROUND_BYTES: usize = 200_000;

enum What {
    Crc,
    Encode(u32),
}

struct Case {
    name: String,
    what: What,
    src: Vec<u8>,
}

/// A call from outside in both cases: nothing of the one or the other is drawn into the loop.
#[inline(never)]
fn crate_crc(seed: u16, src: &[u8]) -> u16 {
    crc::crc16(seed, src)
}

#[inline(never)]
fn crate_encode(buf: &mut [u8], asyncmap: u32, src: &[u8]) -> usize {
    let mut w = FrameWriter::new_with_asyncmap(buf, asyncmap);
    if w.start().is_err() || w.append(src).is_err() || w.finish().is_err() {
        return 0;
    }
    w.len()
}

fn call(ours: bool, what: &What, src: &[u8], buf: &mut [u8]) -> usize {
    match (what, ours) {
        (What::Crc, true) => unsafe { ppp_crc16(0xFFFF, src.as_ptr(), src.len()) as usize },
        (What::Crc, false) => crate_crc(0xFFFF, src) as usize,
        (What::Encode(map), true) => unsafe {
            ppp_encode(buf.as_mut_ptr(), buf.len(), *map, src.as_ptr(), src.len())
        },
        (What::Encode(map), false) => crate_encode(buf, *map, src),
    }
}

#[inline(never)]
fn measured(ours: bool, case: &Case, buf: &mut [u8], times: usize) {
    for _ in 0..times {
        black_box(call(ours, &case.what, black_box(&case.src), buf));
    }
}

/// Bytes that no map escapes.
fn plain(n: usize) -> Vec<u8> {
    (0..n).map(|i| 0x80 + (i * 7 % 0x60) as u8).collect()
}

fn cases() -> Vec<Case> {
    let mut all = vec![];
    for n in [2, 16, 128, 1500, 65536] {
        all.push(Case {
            name: format!("check value of {n} bytes"),
            what: What::Crc,
            src: (0..n).map(|i| (i * 31 % 251) as u8).collect(),
        });
    }
    for map in [0, 0xFFFF_FFFF] {
        for n in [1, 40, 128, 1500] {
            all.push(Case {
                name: format!("frame of {n} plain bytes, map {map:08X}"),
                what: What::Encode(map),
                src: plain(n),
            });
            all.push(Case {
                name: format!("frame of {n} escaped bytes, map {map:08X}"),
                what: What::Encode(map),
                src: vec![0x7E; n],
            });
        }
    }
    all
}

fn time(case: &Case, buf: &mut [u8]) {
    let times = ROUND_BYTES / case.src.len().max(20);
    let mut best = [f64::MAX; 2];
    for round in 0..2 * ROUNDS {
        let start = Instant::now();
        measured(round % 2 == 0, case, buf, times);
        let took = start.elapsed().as_nanos() as f64 / times as f64;
        best[round % 2] = best[round % 2].min(took);
    }
    println!("{}\t{:.2}\t{:.2}", case.name, best[0], best[1]);
}

fn main() {
    let mut buf = vec![0; 2 * 65536 + 9];
    let mut other = buf.clone();
    let words: Vec<String> = std::env::args().collect();
    if words.len() == 4 {
        let i: usize = words[1].parse().unwrap();
        let times: usize = words[3].parse().unwrap();
        measured(words[2] == "ours", &cases()[i], &mut buf, times);
        return;
    }
    for case in cases() {
        let ours = call(true, &case.what, &case.src, &mut buf);
        let theirs = call(false, &case.what, &case.src, &mut other);
        assert!(ours == theirs && buf == other, "{} differs", case.name);
        time(&case, &mut buf);
    }
}
