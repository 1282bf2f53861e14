//! Random stores: right ones, and such as break the rules in one place or
//! another.

use super::rng::Rng;
use super::Generator;
use crate::script::{Call, MOST_STORE};
use crate::station::{FeatureIndex, Port, PortNumber, Station, Version};
use crate::store::HEADER;

/// The fields of a line, in their order.
const WPID: usize = 1;
const SERIAL: usize = 2;
const REPORTS: usize = 3;
const VERSION: usize = 4;
const FIRST_INDEX: usize = 5;

impl Generator {
    pub(super) fn store(&mut self) -> Call {
        let length = self.station.store_text().len();
        Call::Store(self.lent(length))
    }

    pub(super) fn restore(&mut self) -> Call {
        // One that is accepted ends what waits, so these are few.
        let text = if self.rng.chance(5) {
            self.right_store()
        } else {
            self.broken_store()
        };
        Call::Restore(text)
    }

    /// The station's own, one that was written before, or some other station's.
    pub(super) fn right_store(&mut self) -> Vec<u8> {
        let written = self.rng.below(self.stores.len().max(1));
        match (self.rng.below(4), self.stores.get(written)) {
            (0, _) => self.station.store_text().into_bytes(),
            (1 | 2, Some(store)) => store.clone(),
            _ => random_store(&mut self.rng),
        }
    }

    pub(super) fn broken_store(&mut self) -> Vec<u8> {
        let text = match self.rng.below(3) {
            0 => self.right_store(),
            _ => random_store(&mut self.rng),
        };
        let mut text = break_store(&mut self.rng, text);
        // Two faults: the first of them counts.
        if self.rng.chance(15) {
            text = break_store(&mut self.rng, text);
        }
        text.truncate(MOST_STORE);
        text
    }

    /// The own store, torn at some byte.
    pub(super) fn torn_store(&mut self) -> Vec<u8> {
        let mut text = self.station.store_text().into_bytes();
        text.truncate(self.rng.below(text.len()));
        text
    }
}

/// The store of a random station, often with few devices.
fn random_store(rng: &mut Rng) -> Vec<u8> {
    let mut station = Station::default();
    let percent = rng.pick(&[0, 15, 40, 70, 100]);
    let known = rng.pick(&[40, 80, 100]);
    for number in PortNumber::ALL {
        if number != PortNumber::RECEIVER && rng.chance(percent) {
            *station.port_mut(number) = random_port(rng, known);
        }
    }
    station.store_text().into_bytes()
}

/// A paired device as a store has it; its serial and its version are known so
/// many times in a hundred.
fn random_port(rng: &mut Rng, known: usize) -> Port {
    let index = |rng: &mut Rng| match rng.below(4) {
        0 => rng.pick(&[0, 9, 10, 62, 63]),
        1 => 0,
        _ => rng.below(64) as u8,
    };
    Port {
        paired: true,
        wpid: rng.pick(&[0x0000, 0x2010, 0x2010, 0x4024, 0xABCD, 0xFFFF]),
        serial: rng.chance(known).then(|| edge_number(rng)),
        reports: match rng.below(3) {
            0 => edge_number(rng),
            _ => rng.pick(&[0x0000_000E, 0x0000_401A, 0xFFFF_FFFF]),
        },
        version: rng.chance(known).then(|| Version {
            major: rng.pick(&[0, 1, 2, 2, 4, 9, 10, 99, 100, 255]),
            minor: rng.pick(&[0, 0, 1, 5, 10, 100, 200, 255]),
        }),
        features: [0; 5].map(|_| FeatureIndex(index(rng))),
        ..Port::default()
    }
}

fn edge_number(rng: &mut Rng) -> u32 {
    match rng.below(3) {
        0 => rng.pick(&[0, 1, 0x0A1B_2C3D, 0x8000_0000, 0xFFFF_FFFF]),
        _ => u32::from_be_bytes([rng.byte(), rng.byte(), rng.byte(), rng.byte()]),
    }
}

// ---------------------------------------------------------------------------
// Breaking

/// One change to a text, after which it seldom is a store.
fn break_store(rng: &mut Rng, mut text: Vec<u8>) -> Vec<u8> {
    match rng.below(50) {
        0..=6 => text.truncate(rng.below(text.len() + 1)),
        7 => drop(text.pop()),
        8..=17 => text = with_first_line(rng, &text),
        18..=34 => text = break_lines(rng, &text),
        35 | 36 => text.extend(rng.pick(&[
            &b"\n"[..],
            b"\0",
            b" ",
            b"\r\n",
            b"\t",
            b"1",
            b"pads\t1\n",
            b"7\t2010\t-\t0000000E\t2.0\t0\t0\t0\t0\t0\n",
        ])),
        37..=41 => change_byte(rng, &mut text),
        42..=44 => text = long_text(rng, text),
        45 => text = text.to_ascii_lowercase(),
        46 => text = text.to_ascii_uppercase(),
        47 => text = crlf(&text),
        48 => text = (0..rng.below(60)).map(|_| rng.byte()).collect(),
        _ => text = text.repeat(2),
    }
    text
}

fn change_byte(rng: &mut Rng, text: &mut Vec<u8>) {
    let at = rng.below(text.len() + 1);
    let byte = rng.pick(b"\t\n\r 019afAFG.-+,\0\x7F\x80\xFF");
    match (rng.below(4), at < text.len()) {
        (0, true) => drop(text.remove(at)),
        (1, true) => text[at] = byte,
        (2, true) => text.insert(at, text[at]),
        _ => text.insert(at, byte),
    }
}

/// First lines that are none.
const WRONG_FIRST_LINES: [&[u8]; 17] = [
    b"",
    b"",
    b"",
    b"\n",
    b"pads\n",
    b"pads 1\n",
    b"Pads\t1\n",
    b"PADS\t1\n",
    b"pads\t\t1\n",
    b"pads\t1\t\n",
    b"pads\t1 \n",
    b"pads\t1\r\n",
    b" pads\t1\n",
    b"\xEF\xBB\xBFpads\t1\n",
    b"pad\t1\n",
    b"padss\t1\n",
    b"pads\t1\npads\t1\n",
];

/// Small editions, and those that 1 begins.
const OTHER_EDITIONS: [&str; 10] = ["0", "0", "2", "2", "3", "10", "11", "12", "19", "100"];
/// One more than what fits into 8, 16, 32 and 64 bits.
const WRAPPED_EDITIONS: [&str; 4] = ["257", "65537", "4294967297", "18446744073709551617"];
const WRONG_EDITIONS: [&str; 18] = [
    "01", "01", "00", "00", "02", "001", "", "", "-", "+2", "-2", "2a", "A", "2 ", " 2", "2.0",
    "0x2", "2\t",
];

/// The same devices under another first line.
fn with_first_line(rng: &mut Rng, text: &[u8]) -> Vec<u8> {
    let rest = text.strip_prefix(HEADER.as_bytes()).unwrap_or(text);
    let mut changed = match rng.below(12) {
        0..=6 => ["pads\t", &edition(rng), "\n"].concat().into(),
        7 => ["pads\t", &edition(rng)].concat().into(),
        _ => rng.pick(&WRONG_FIRST_LINES).to_vec(),
    };
    if rng.chance(80) {
        changed.extend(rest);
    }
    changed
}

/// What may stand where the edition's number is due.
fn edition(rng: &mut Rng) -> String {
    match rng.below(14) {
        0..=4 => rng.pick(&OTHER_EDITIONS).to_owned(),
        5 => rng.pick(&WRAPPED_EDITIONS).to_owned(),
        6 => {
            let count = rng.between(2, 25);
            digits(rng, count)
        }
        7 => {
            let count = rng.between(100, 900);
            digits(rng, count)
        }
        8 => "0".repeat(rng.between(2, 400)),
        _ => rng.pick(&WRONG_EDITIONS).to_owned(),
    }
}

/// A decimal number of so many digits.
fn digits(rng: &mut Rng, count: usize) -> String {
    let first = rng.pick(b"123456789");
    let rest = (1..count).map(|_| rng.pick(b"0123456789"));
    std::iter::once(first).chain(rest).map(char::from).collect()
}

fn crlf(text: &[u8]) -> Vec<u8> {
    let mut changed = Vec::new();
    for &byte in text {
        if byte == b'\n' {
            changed.push(b'\r');
        }
        changed.push(byte);
    }
    changed
}

/// A text of thousands of bytes: a long edition, many lines, a long line.
fn long_text(rng: &mut Rng, text: Vec<u8>) -> Vec<u8> {
    let length = match rng.below(3) {
        0 => MOST_STORE,
        1 => MOST_STORE - 1,
        _ => rng.between(300, MOST_STORE),
    };
    match rng.below(6) {
        0 => [b"pads\t", &vec![b'7'; length - 6][..], b"\n"].concat(),
        1 => [b"pads\t", &vec![b'7'; length - 5][..]].concat(),
        2 => {
            let times = length / text.len().max(1) + 1;
            let mut long = text.repeat(times);
            long.truncate(length);
            long
        }
        3 => {
            let mut long = text;
            long.resize(length, rng.pick(b"\n0\t\0 "));
            long
        }
        4 => {
            let line = b"1\t2010\t-\t0000000E\t2.0\t0\t0\t0\t0\t";
            let mut long = [HEADER.as_bytes(), line].concat();
            long.resize(length - 1, b'0');
            long.push(b'\n');
            long
        }
        _ => vec![rng.byte(); length],
    }
}

// ---------------------------------------------------------------------------
// Lines of devices

/// Changes one line of a device, or the order of two.
fn break_lines(rng: &mut Rng, text: &[u8]) -> Vec<u8> {
    let parts = text.split_inclusive(|&byte| byte == b'\n');
    let mut lines: Vec<Vec<u8>> = parts.map(<[u8]>::to_vec).collect();
    if lines.len() < 2 {
        let number = rng.pick(&PortNumber::ALL[..6]);
        lines.resize_with(1, || HEADER.as_bytes().to_vec());
        lines.push(random_port(rng, 50).store_line(number).into_bytes());
    }
    let at = rng.between(1, lines.len() - 1);
    match rng.below(12) {
        0 => {
            let other = rng.between(1, lines.len() - 1);
            lines.swap(at, other);
        }
        1 => {
            let again = lines[at].clone();
            lines.insert(rng.between(at, lines.len()), again);
        }
        2 => lines.insert(rng.between(1, lines.len()), b"\n".to_vec()),
        4 => lines[at] = crlf(&lines[at]),
        3 => lines.push(
            rng.pick(&lines.iter().map(|line| &line[..]).collect::<Vec<_>>())
                .to_vec(),
        ),
        _ => break_line(rng, &mut lines[at]),
    }
    lines.concat()
}

/// Words that no field of this sort may be. What lies just beside the rules
/// comes more often.
const WRONG_PORTS: [&str; 14] = [
    "0", "0", "0", "7", "7", "255", "255", "02", "02", "8", "-", "", "256", "257",
];
const WRONG_WPIDS: [&str; 7] = ["201", "02010", "-", "20G0", "abcd", "201a", ""];
const WRONG_SERIALS: [&str; 6] = ["1234567", "123456789", "", "--", "0a1b2c3d", "0000000G"];
const WRONG_REPORTS: [&str; 5] = ["-", "E", "0000000e", "00000000E", ""];
const WRONG_VERSIONS: [&str; 18] = [
    "256.0", "0.256", "256.0", "0.256", "2", "2.", ".0", ".", "2.0.0", "2.00", "2.00", "02.0",
    "2.-", "-.-", "2,0", "1000.0", "0.1000", "",
];
const WRONG_INDEXES: [&str; 18] = [
    "64", "64", "64", "65", "99", "100", "255", "256", "00", "00", "00", "01", "063", "-", "-", "",
    "A", "3F",
];

fn break_line(rng: &mut Rng, line: &mut Vec<u8>) {
    let ended = line.last() == Some(&b'\n');
    let content = &line[..line.len() - usize::from(ended)];
    let parts = content.split(|&byte| byte == b'\t');
    let mut fields: Vec<Vec<u8>> = parts.map(<[u8]>::to_vec).collect();
    let index = FIRST_INDEX + rng.below(5);
    let any = rng.below(fields.len());
    match rng.below(20) {
        0..=2 => set(&mut fields, 0, rng.pick(&WRONG_PORTS)),
        3 => set(&mut fields, WPID, rng.pick(&WRONG_WPIDS)),
        4 => set(&mut fields, SERIAL, rng.pick(&WRONG_SERIALS)),
        5 => set(&mut fields, REPORTS, rng.pick(&WRONG_REPORTS)),
        6..=8 => set(&mut fields, VERSION, rng.pick(&WRONG_VERSIONS)),
        9..=12 => set(&mut fields, index, rng.pick(&WRONG_INDEXES)),
        13 | 14 => {
            let at = rng.pick(&[WPID, SERIAL, REPORTS]);
            if let Some(field) = fields.get_mut(at) {
                field.make_ascii_lowercase();
            }
        }
        15 => drop(fields.remove(any)),
        16 => fields.insert(any + 1, rng.pick(&["0", "", "8", "-"]).into()),
        17 => fields.push(rng.pick(&["", "0", "8"]).into()),
        18 => fields[any].extend(rng.pick(&[" ", "\r", "\0", "0", "."]).bytes()),
        _ => {
            let before = rng.pick(&[" ", "0", "+", "-"]).bytes();
            fields[any].splice(0..0, before);
        }
    }
    *line = fields.join(&b'\t');
    if ended {
        line.push(b'\n');
    }
}

fn set(fields: &mut [Vec<u8>], at: usize, word: &str) {
    if let Some(field) = fields.get_mut(at) {
        *field = word.into();
    }
}
