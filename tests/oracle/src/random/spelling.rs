//! Spelling calls as lines of a script, in any of the ways the replay page
//! allows, and lines that are no call.

use super::rng::Rng;
use crate::script::{parse, Call, Lent, Line, MOST_BYTES, MOST_LENT, MOST_STORE};
use crate::station::Key;

type Words = Vec<Vec<u8>>;

/// A line that is this call, without its newline.
pub fn spell(rng: &mut Rng, call: &Call) -> Vec<u8> {
    let words = words(rng, call);
    let mut line = join(rng, &words);
    if rng.chance(4) {
        line.splice(0..0, spaces(rng));
    }
    if rng.chance(4) {
        line.extend(spaces(rng));
    }
    if rng.chance(8) {
        line.push(b'\r');
    }
    line
}

/// An empty line or a comment, without its newline.
pub fn spell_silent(rng: &mut Rng) -> Vec<u8> {
    match rng.below(6) {
        0 | 1 => Vec::new(),
        2 => b"\r".to_vec(),
        3 => b"#".to_vec(),
        4 => b"# tick\r".to_vec(),
        _ => [b"#".to_vec(), rubbish(rng, 40)].concat(),
    }
}

/// A line that is no call, most often near to one.
pub fn spell_no_call(rng: &mut Rng, call: &Call) -> Vec<u8> {
    loop {
        let line = break_line(rng, call);
        if parse(&line) == Line::NoCall {
            return line;
        }
    }
}

// ---------------------------------------------------------------------------
// Words

fn words(rng: &mut Rng, call: &Call) -> Words {
    match call {
        Call::Take(report) => named("take", [], hex_list(rng, report)),
        Call::Read(report) => named("read", [], hex_list(rng, report)),
        Call::Mouse(payload) => named("mouse", [], hex_list(rng, payload)),
        Call::Tick => named("tick", [], vec![]),
        Call::Dump => named("dump", [], vec![]),
        Call::GetPaired(lent) => named("get-paired", lent_words(lent), vec![]),
        Call::List(lent) => named("list", lent_words(lent), vec![]),
        Call::Store(lent) => named("store", lent_words(lent), vec![]),
        Call::Restore(text) => named("restore", [], hex_list(rng, text)),
        Call::Cancel { port, key } => {
            let [byte2, byte3] = key_words(rng, key);
            named("cancel", [decimal(*port), byte2, byte3], vec![])
        }
        Call::Switch {
            bits,
            timeout,
            lent,
        } => {
            let [offset, length] = lent_words(lent);
            let (bits, timeout) = (hex(rng, *bits), hex(rng, *timeout));
            named("switch", [bits, timeout, offset, length], vec![])
        }
        Call::Led { port, value, lent } => {
            let [offset, length] = lent_words(lent);
            let value = hex(rng, *value);
            named("led", [decimal(*port), value, offset, length], vec![])
        }
        Call::Frame { .. } | Call::Request { .. } => frame_words(rng, call),
    }
}

/// The words of a request or a frame; only a request has ticks.
fn frame_words(rng: &mut Rng, call: &Call) -> Words {
    let (name, port, key, ticks, lent, parameters) = match call {
        Call::Request {
            port,
            key,
            ticks,
            lent,
            parameters,
        } => ("request", port, key, Some(*ticks), lent, parameters),
        Call::Frame {
            port,
            key,
            lent,
            parameters,
        } => ("frame", port, key, None, lent, parameters),
        _ => unreachable!("neither a request nor a frame"),
    };
    let [byte2, byte3] = key_words(rng, key);
    let mut words = named(name, [decimal(*port), byte2, byte3], vec![]);
    words.extend(ticks.map(decimal));
    words.extend(lent_words(lent));
    words.extend(hex_list(rng, parameters));
    words
}

fn named<const N: usize>(name: &str, arguments: [Vec<u8>; N], list: Words) -> Words {
    let name = std::iter::once(name.as_bytes().to_vec());
    name.chain(arguments).chain(list).collect()
}

fn decimal(number: impl Into<u16>) -> Vec<u8> {
    number.into().to_string().into_bytes()
}

fn lent_words(lent: &Lent) -> [Vec<u8>; 2] {
    [decimal(lent.offset), decimal(lent.length)]
}

fn key_words(rng: &mut Rng, key: &Key) -> [Vec<u8>; 2] {
    [hex(rng, key.byte2), hex(rng, key.byte3)]
}

fn hex_list(rng: &mut Rng, bytes: &[u8]) -> Words {
    bytes.iter().map(|&byte| hex(rng, byte)).collect()
}

fn hex(rng: &mut Rng, byte: u8) -> Vec<u8> {
    let mut word = format!("{byte:02X}").into_bytes();
    if rng.chance(15) {
        word[0].make_ascii_lowercase();
    }
    if rng.chance(15) {
        word[1].make_ascii_lowercase();
    }
    word
}

fn join(rng: &mut Rng, words: &Words) -> Vec<u8> {
    let mut line = Vec::new();
    let wide = rng.chance(5);
    for (position, word) in words.iter().enumerate() {
        if position > 0 {
            line.push(b' ');
            if wide && rng.chance(30) {
                line.extend(spaces(rng));
            }
        }
        line.extend(word);
    }
    line
}

/// One or a few spaces, seldom thousands.
fn spaces(rng: &mut Rng) -> Vec<u8> {
    let count = match rng.below(500) {
        0 => rng.between(1000, 20000),
        _ => rng.between(1, 4),
    };
    vec![b' '; count]
}

/// Any bytes but newlines.
fn rubbish(rng: &mut Rng, most: usize) -> Vec<u8> {
    let bytes = (0..rng.below(most + 1)).map(|_| rng.byte());
    bytes.filter(|&byte| byte != b'\n').collect()
}

// ---------------------------------------------------------------------------
// Lines that are no call

/// A line that no call may look like; whether it is one is not looked at.
fn break_line(rng: &mut Rng, call: &Call) -> Vec<u8> {
    let mut words = words(rng, call);
    match rng.below(28) {
        0..=13 => {
            break_words(rng, &mut words);
            join(rng, &words)
        }
        14..=18 => {
            let mut line = join(rng, &words);
            break_spacing(rng, &mut line);
            line
        }
        19 => too_long_list(rng),
        20 => too_long_buffer(rng),
        23 => too_great_port(rng),
        21 => rubbish(rng, 60),
        22 => {
            let long = rng.between(11, 3000);
            vec![rng.pick(b"0aAt#"); long]
        }
        _ => odd_line(rng).to_vec(),
    }
}

fn odd_line(rng: &mut Rng) -> &'static [u8] {
    rng.pick(&[
        b" ",
        b"   \r",
        b"\t",
        b"\r\r",
        b" # tick",
        b"\t# tick",
        b"\xEF\xBB\xBFtick",
        b"tick\0",
        b"tick;",
        b"getpaired 0 15",
        b"get_paired 0 15",
        b"listing 0 400",
        b"stored 0 400",
        b"restore pads 1",
        b"store",
        b"request",
        b"cancel",
        b"led 1",
        b"take take",
        b"take 10,01,00",
        b"00",
        b"10 01 00 13 00 00 00",
    ])
}

fn break_words(rng: &mut Rng, words: &mut Words) {
    // More often an argument than one of a long list of bytes.
    let end = if rng.chance(60) { 7 } else { words.len() };
    let at = rng.below(words.len().min(end));
    let after_name = rng.between(1, words.len());
    match rng.below(12) {
        0 => drop(words.remove(at)),
        1 => words.truncate(at.max(1)),
        2 => words.insert(
            after_name,
            rng.pick(&[&b"x"[..], b"tick", b"0", b"-"]).to_vec(),
        ),
        3 => words.push(rng.pick(&[&b"00"[..], b"0", b"FF", b"#", b"now"]).to_vec()),
        4 => words[0].make_ascii_uppercase(),
        5 => words[0][0].make_ascii_uppercase(),
        6..=8 => words[at] = number_beyond(rng),
        _ => break_word(rng, &mut words[at]),
    }
}

/// A number that some argument may not be.
fn number_beyond(rng: &mut Rng) -> Vec<u8> {
    let numbers = [
        "256",
        "4097",
        "65535",
        "65536",
        "70000",
        "4294967296",
        "4294967297",
        "18446744073709551616",
        "-1",
        "+1",
        "00",
        "01",
        "1.0",
        "1e1",
        "0x10",
    ];
    rng.pick(&numbers).as_bytes().to_vec()
}

fn break_word(rng: &mut Rng, word: &mut Vec<u8>) {
    let at = rng.below(word.len());
    match rng.below(6) {
        0 => drop(word.remove(at)),
        1 => word.insert(at, word[at]),
        2 => word.insert(0, b'0'),
        3 => word.insert(0, rng.pick(b"+-")),
        4 => word.insert(at, rng.pick(b"\t\0\x0B\x0C\x7F\x80\xA0\xFF_#")),
        _ => word[at] = rng.pick(b"GgZ-+.,:;/@`'\"\t\0\x80\xFFxO"),
    }
}

fn break_spacing(rng: &mut Rng, line: &mut Vec<u8>) {
    let gaps: Vec<usize> = (0..line.len()).filter(|&at| line[at] == b' ').collect();
    let gap = rng.pick_if_any(&gaps);
    match (rng.below(7), gap) {
        (0, Some(gap)) => line[gap] = b'\t',
        (1, Some(gap)) => line[gap] = b'\r',
        (2, Some(gap)) => drop(line.remove(gap)),
        (3, Some(gap)) => line.insert(gap, b'\t'),
        (4, _) => line.push(b'\t'),
        (5, _) => line.insert(0, rng.pick(b"\t\r\0")),
        _ => line.extend(rng.pick(&[&b"\r\r"[..], b"\r ", b"\t\r"])),
    }
}

fn too_long_list(rng: &mut Rng) -> Vec<u8> {
    let starts = [
        ("take", MOST_BYTES),
        ("read", MOST_BYTES),
        ("mouse", MOST_BYTES),
        ("request 2 00 11 10 0 7", MOST_BYTES),
        ("frame 2 00 11 0 7", MOST_BYTES),
        ("restore", MOST_STORE),
        // A store, but for what is too much of it.
        ("restore 70 61 64 73 09 31 0A", MOST_STORE - 7),
        ("restore 70 61 64 73 09 32 0A", MOST_STORE - 7),
    ];
    let (start, most) = rng.pick(&starts);
    let list = vec!["00"; most + rng.between(1, 3)].join(" ");
    format!("{start} {list}").into_bytes()
}

fn too_long_buffer(rng: &mut Rng) -> Vec<u8> {
    let length = usize::from(MOST_LENT) + rng.between(1, 2);
    let line = match rng.below(7) {
        0 => format!("request 2 00 11 10 0 {length} 00 00 5A"),
        1 => format!("frame 2 00 11 0 {length} 00 00 5A"),
        2 => format!("switch 03 0A 0 {length}"),
        3 => format!("get-paired 0 {length}"),
        4 => format!("led 2 01 0 {length}"),
        5 => format!("store 0 {length}"),
        _ => format!("list 0 {length}"),
    };
    line.into_bytes()
}

fn too_great_port(rng: &mut Rng) -> Vec<u8> {
    // Each is a port in its low eight bits.
    let port = rng.pick(&[257, 258, 511, 512 + 3, 65535]);
    let line = match rng.below(4) {
        0 => format!("request {port} 00 11 10 0 7 00 00 5A"),
        1 => format!("frame {port} 00 11 0 7 00 00 5A"),
        2 => format!("led {port} 01 0 15"),
        _ => format!("cancel {port} 00 11"),
    };
    line.into_bytes()
}
