//! Which refusal a panic stands for. The crate has no refusal numbers: where its input is at fault it panics, and the place tells why.
use std::cell::RefCell;

/// The sources whose lines are looked up, as they were built: the order matters, since one name ends another.
const SOURCES: [(&str, &str); 6] = [
    ("ppp/option_fsm.rs", include_str!("ppp/option_fsm.rs")),
    ("ppp/pap.rs", include_str!("ppp/pap.rs")),
    ("pppos/mod.rs", include_str!("pppos/mod.rs")),
    ("ppp/mod.rs", include_str!("ppp/mod.rs")),
    (
        "pppos/frame_reader.rs",
        include_str!("pppos/frame_reader.rs"),
    ),
    ("wire.rs", include_str!("wire.rs")),
];

#[derive(Default)]
struct Panic {
    file: String,
    line: u32,
    message: String,
}

thread_local! { static LAST: RefCell<Panic> = RefCell::default(); }

/// Has each panic noted in place of printed.
pub fn note_panics() {
    std::panic::set_hook(Box::new(|info| {
        let payload = info.payload();
        let message = payload.downcast_ref::<String>().cloned();
        let message = message.or(payload.downcast_ref::<&str>().map(|x| x.to_string()));
        let (file, line) = info
            .location()
            .map_or((String::new(), 0), |x| (x.file().to_string(), x.line()));
        let message = message.unwrap_or_default();
        LAST.with(|last| {
            *last.borrow_mut() = Panic {
                file,
                line,
                message,
            }
        });
    }));
}

/// The number of the refusal that the last panic stands for (0: none), and the panic in words.
pub fn last() -> (u32, String) {
    LAST.with(|last| {
        let last = last.borrow();
        let found = SOURCES.iter().find(|(name, _)| last.file.ends_with(name));
        let (name, text) = found.map_or((last.file.as_str(), ""), |x| *x);
        let line = text
            .lines()
            .nth((last.line as usize).saturating_sub(1))
            .unwrap_or("")
            .trim();
        let said = last.message.replace('\n', " ");
        (
            number(name, line, &last.message),
            format!("{name}:{} {line} | {said}", last.line),
        )
    })
}

fn number(name: &str, line: &str, message: &str) -> u32 {
    let at = |part: &str| line.contains(part);
    if message.contains("BufferFullError") {
        1
    } else if at("rx_buf[range") && message.contains("starts at 1 but ends at 0") {
        5
    } else if at("rx_buf[range") || at("buf[0] == 0x03") || at("&buf[..self.len]") {
        3
    } else if at("pkt[0..2].try_into") || at("Some(1..len - 2)") {
        5
    } else if at("let id = pkt[3]") || at("panic!(\"too short\")") {
        11
    } else if at("pkt[2] = Code::EchoReply") {
        12
    } else if name == "ppp/pap.rs" && at("pkt[..len + 2]") {
        13
    } else if message.contains("MalformedError") {
        7
    } else if at("unwrap!(Vec::from_slice") {
        8
    } else if message.contains("rx ConfigureReq: too many options") {
        9
    } else if at("assert!(len <= buf.len())") {
        10
    } else {
        0
    }
}

/// Where the options of a packet are malformed: the offset of the first one at fault from the first option byte. The crate does not say, so
/// that this is a walk of its own over the bytes up to the packet's Length.
pub fn offset(packet: &[u8]) -> usize {
    let length = usize::from(packet[4]) << 8 | usize::from(packet[5]);
    let options = &packet[6..length + 2];
    let mut at = 0;
    while at + 1 < options.len() {
        let size = usize::from(options[at + 1]);
        if size < 2 || at + size > options.len() {
            return at;
        }
        at += size;
    }
    at
}
