//! The static library beside the original crate: the same bytes go to both, and each answer and each byte of the buffer is compared.
mod crc;
mod frame_writer;

use frame_writer::FrameWriter;

extern "C" {
    fn ppp_crc16(seed: u16, src: *const u8, src_len: usize) -> u16;
    fn ppp_encode(
        buf: *mut u8,
        buf_len: usize,
        asyncmap: u32,
        src: *const u8,
        src_len: usize,
    ) -> usize;
}

const LENGTHS: [usize; 23] = [
    0, 1, 2, 3, 4, 15, 16, 17, 63, 64, 65, 127, 128, 129, 255, 256, 257, 511, 512, 513, 1499, 1500,
    1501,
];
const FILL: u8 = 0xEE;
const SHOWN: usize = 8;

/// Random numbers that are the same in every run (splitmix64).
struct Dice(u64);

impl Dice {
    fn next(&mut self) -> u64 {
        self.0 = self.0.wrapping_add(0x9E37_79B9_7F4A_7C15);
        let z = (self.0 ^ (self.0 >> 30)).wrapping_mul(0xBF58_476D_1CE4_E5B9);
        let z = (z ^ (z >> 27)).wrapping_mul(0x94D0_49BB_1331_11EB);
        z ^ (z >> 31)
    }

    /// Half of the bytes are such that a map may have them escaped, or that are always escaped, or that lie beside those.
    fn byte(&mut self) -> u8 {
        let x = self.next();
        match x % 8 {
            0..=2 => (x >> 8) as u8 % 0x21,
            3 => 0x7C + (x >> 8) as u8 % 4,
            _ => (x >> 8) as u8,
        }
    }

    fn bytes(&mut self, n: usize) -> Vec<u8> {
        (0..n).map(|_| self.byte()).collect()
    }
}

#[derive(Default)]
struct Tally {
    crc: usize,
    frames: usize,
    refusals: usize,
    differ: usize,
}

impl Tally {
    fn differs(&mut self, what: String) {
        self.differ += 1;
        if self.differ <= SHOWN {
            println!("differs: {what}");
        }
    }

    fn crc(&mut self, seed: u16, src: &[u8]) {
        self.crc += 1;
        let theirs = crc::crc16(seed, src);
        let ours = unsafe { ppp_crc16(seed, src.as_ptr(), src.len()) };
        if ours != theirs {
            self.differs(format!(
                "crc of {} bytes from {seed:04x}: crate {theirs:04x}, library {ours:04x}",
                src.len()
            ));
        }
    }

    /// `ours` and `theirs` are a buffer each, longer than the room: what lies behind the room is compared too.
    fn encode(&mut self, room: usize, map: u32, src: &[u8], ours: &mut [u8], theirs: &mut [u8]) {
        ours.fill(FILL);
        theirs.fill(FILL);
        let mut writer = FrameWriter::new_with_asyncmap(&mut theirs[..room], map);
        let done = writer
            .start()
            .and_then(|_| writer.append(src))
            .and_then(|_| writer.finish());
        let count = if done.is_ok() { writer.len() } else { 0 };
        let answer = unsafe { ppp_encode(ours.as_mut_ptr(), room, map, src.as_ptr(), src.len()) };
        if done.is_ok() {
            self.frames += 1;
        } else {
            self.refusals += 1;
        }
        if answer != count || ours != theirs {
            self.differs(format!(
                "{} bytes, map {map:08x}, room {room}: crate {count}, library {answer}, buffers {}",
                src.len(),
                if ours == theirs { "alike" } else { "differ" }
            ));
        }
    }

    /// Every room from none to the whole frame and one more.
    fn every_room(&mut self, map: u32, src: &[u8]) {
        let longest = 2 * src.len() + 9;
        let (mut ours, mut theirs) = (vec![0; longest + 8], vec![0; longest + 8]);
        let mut writer = FrameWriter::new_with_asyncmap(&mut theirs, map);
        writer.start().unwrap();
        writer.append(src).unwrap();
        writer.finish().unwrap();
        let whole = writer.len();
        for room in 0..=whole + 1 {
            self.encode(room, map, src, &mut ours, &mut theirs);
        }
    }

    /// C may pass NULL where it passes no bytes; Rust's own empty slices are never NULL.
    fn null(&mut self) {
        let none = std::ptr::null();
        let nowhere = std::ptr::null_mut();
        let mut buf = [FILL; 8];
        let plain = [0x7E, 0xFF, 0x03, 0x1C, 0xC2, 0x7E, FILL, FILL];
        unsafe {
            if ppp_crc16(0x1234, none, 0) != 0x1234 {
                self.differs("crc of NULL".into());
            }
            if ppp_encode(nowhere, 0, 0, none, 0) != 0 {
                self.differs("a frame into NULL".into());
            }
            if ppp_encode(buf.as_mut_ptr(), buf.len(), 0, none, 0) != 6 || buf != plain {
                self.differs("the frame of NULL".into());
            }
        }
    }
}

fn main() {
    let mut dice = Dice(1662);
    let mut tally = Tally::default();
    for n in (0..300).chain(LENGTHS).chain([4095, 4096, 65535, 65536]) {
        for seed in [0xFFFF, 0x00FF, 0x0000, dice.next() as u16] {
            tally.crc(seed, &dice.bytes(n));
        }
    }
    let maps = [0, 0xFFFF_FFFF]
        .into_iter()
        .chain((0..32).map(|bit| 1 << bit));
    for map in maps {
        for n in LENGTHS {
            let src = dice.bytes(n);
            tally.every_room(map, &src);
        }
        // Every byte there is, so that each map meets the byte of its bit.
        let all: Vec<u8> = (0..=255).collect();
        tally.every_room(map, &all);
    }
    for _ in 0..2000 {
        let map = dice.next() as u32;
        let n = dice.next() as usize % 24;
        let src = dice.bytes(n);
        tally.every_room(map, &src);
    }
    tally.null();
    println!(
        "{} check values, {} frames and {} refusals compared, {} differ",
        tally.crc, tally.frames, tally.refusals, tally.differ
    );
    std::process::exit((tally.differ != 0) as i32);
}
