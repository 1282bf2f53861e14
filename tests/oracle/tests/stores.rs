//! 02, Ask 3: the store, as texts and as scripts.

mod common;

use common::{answers, held, last, output};
use oracle::random::Generator;
use oracle::script::{make, parse, Answer, Call, Line, MOST_STORE};
use oracle::station::{Refusal, Station};
use oracle::store::{read_store, Unread, HEADER, MOST_LINES};

const LINE: &str = "2\t2010\t-\t0000000E\t2.0\t0\t0\t0\t0\t0\n";

/// The line of a script that reads this text.
fn restore(text: impl AsRef<[u8]>) -> String {
    let bytes = text.as_ref().iter().map(|byte| format!(" {byte:02X}"));
    format!("restore{}\n", bytes.collect::<String>())
}

/// Cases f and c.
const PAIRED: &str = "take 20 02 41 00 10 20 0E 00 00 00 00 00 00 00 00\n\
                      request 2 00 11 50 0 7 00 00 5A\ntake 10 02 00 11 02 00 5A\n";

/// What a text is read as, with nothing kept from before.
fn read(text: impl AsRef<[u8]>) -> Result<Station, Unread> {
    read_store(text.as_ref())
}

fn broken(line: u8) -> Result<Station, Unread> {
    Err(Unread::BrokenLine(line))
}

// ---------------------------------------------------------------------------
// What is a store, said once more: a text that is a list of lines.

/// Whether a text is a store of edition 1.
fn is_store(text: &[u8]) -> bool {
    let Some(body) = text.strip_prefix(HEADER.as_bytes()) else {
        return false;
    };
    let Ok(body) = std::str::from_utf8(body) else {
        return false;
    };
    if !body.is_empty() && !body.ends_with('\n') {
        return false;
    }
    let lines: Vec<&str> = body.split_terminator('\n').collect();
    let ports: Vec<&str> = lines
        .iter()
        .map(|line| &line[..line.len().min(1)])
        .collect();
    ports.windows(2).all(|pair| pair[0] < pair[1]) && lines.iter().all(|line| is_line(line))
}

fn is_line(line: &str) -> bool {
    let fields: Vec<&str> = line.split('\t').collect();
    let is_serial = |word: &str| word == "-" || is_hex(word, 8);
    let is_version = |word: &str| {
        let parts: Vec<&str> = word.split('.').collect();
        word == "-" || (parts.len() == 2 && parts.iter().all(|part| is_number(part, 255)))
    };
    fields.len() == 10
        && ["1", "2", "3", "4", "5", "6"].contains(&fields[0])
        && is_hex(fields[1], 4)
        && is_serial(fields[2])
        && is_hex(fields[3], 8)
        && is_version(fields[4])
        && fields[5..].iter().all(|word| is_number(word, 63))
}

fn is_hex(word: &str, digits: usize) -> bool {
    word.len() == digits && word.chars().all(|digit| "0123456789ABCDEF".contains(digit))
}

fn is_number(word: &str, most: usize) -> bool {
    (0..=most).any(|number| number.to_string() == word)
}

/// Whether the first line, newline included, names another edition.
fn is_other_edition(text: &[u8]) -> bool {
    let lines = first_lines(text, 1);
    let Some(number) = lines.strip_prefix(b"pads\t") else {
        return false;
    };
    let Some((&newline, number)) = number.split_last() else {
        return false;
    };
    newline == b'\n'
        && number != b"1"
        && (number == b"0"
            || (number
                .first()
                .is_some_and(|first| (b'1'..=b'9').contains(first))
                && number.iter().all(|digit| digit.is_ascii_digit())))
}

/// Lines 1 to `count` of a text, or as many as there are.
fn first_lines(text: &[u8], count: usize) -> &[u8] {
    let ends = (0..text.len()).filter(|&at| text[at] == b'\n');
    let end = ends.map(|at| at + 1).nth(count.wrapping_sub(1));
    &text[..if count == 0 {
        0
    } else {
        end.unwrap_or(text.len())
    }]
}

/// The reader in words without a loop: 15 by the first line; 16 with N exactly
/// when it isn't 15, lines 1 to N - 1 are a store or N is 1, and lines 1 to N
/// are not; else the station whose store this is.
fn check(text: &[u8]) {
    let read = read(text);
    let is_other = is_other_edition(text);
    assert_eq!(read == Err(Unread::OtherEdition), is_other, "{text:?}");
    for line in 1..=10 {
        let before = line == 1 || is_store(first_lines(text, line - 1));
        let is_broken = !is_other && before && !is_store(first_lines(text, line));
        assert_eq!(
            read == broken(line as u8),
            is_broken,
            "{text:?}, line {line}"
        );
        assert!(line <= MOST_LINES + 1 || !is_broken);
    }
    assert_eq!(read.is_ok(), is_store(text), "{text:?}");
    if let Ok(station) = read {
        assert_eq!(station.store_text().as_bytes(), text);
    }
}

// ---------------------------------------------------------------------------
// Texts

/// Document 02's example.
#[test]
fn example() {
    let text = format!("{HEADER}{LINE}");
    let mut buffer = [0xEE; 41];
    let mut station = Station::default();
    for line in PAIRED.lines() {
        let Line::Call(call) = parse(line.as_bytes()) else {
            panic!("{line} is no call");
        };
        make(&mut station, &call);
    }
    assert_eq!(station.store(1, &mut buffer), Ok(39));
    assert_eq!(&buffer[1..40], text.as_bytes());
    assert_eq!([buffer[0], buffer[40]], [0xEE; 2]);
    assert_eq!(read(text), Ok(station));
}

#[test]
fn every_text_of_a_random_script() {
    let mut generator = Generator::new(21);
    let mut texts = 0;
    for _ in 0..60_000 {
        if let Line::Call(Call::Restore(text)) = parse(&generator.answered_line()) {
            check(&text);
            texts += 1;
        }
    }
    assert!(texts > 3000, "{texts}");
}

/// Torn at every byte, and with every byte changed, left out or put in.
#[test]
fn every_text_beside_a_store() {
    let lines = [
        "1\t1001\t00000000\tFFFFFFFF\t0.0\t1\t2\t3\t62\t63\n",
        LINE,
        "6\t88AF\t0A1B2C3D\t0000000E\t255.10\t0\t9\t10\t19\t20\n",
    ];
    for count in 0..=lines.len() {
        let text = (HEADER.to_owned() + &lines[..count].concat()).into_bytes();
        assert!(is_store(&text));
        check(&text);
        for at in 0..=text.len() {
            check(&text[..at]);
            for byte in b"\t\n\r 0123456789aAfFgG.-+\0\xFF" {
                check(&[&text[..at], &[*byte], &text[at..]].concat());
                if at < text.len() {
                    check(&[&text[..at], &[*byte], &text[at + 1..]].concat());
                }
            }
            if at < text.len() {
                check(&[&text[..at], &text[at + 1..]].concat());
            }
        }
    }
}

/// Lines of every port, right and wrong ones, in every order of three.
#[test]
fn every_order_of_ports() {
    let line = |port: &str| format!("{port}{}", &LINE[1..]);
    let ports = ["0", "1", "2", "3", "4", "5", "6", "7", "02", "255", "-", ""];
    for a in ports {
        for b in ports {
            for c in ports {
                let text = [HEADER.to_owned(), line(a), line(b), line(c)].concat();
                check(text.as_bytes());
                check(&[text.as_bytes(), b"\n"].concat());
            }
        }
    }
    let six: String = (1..=6).map(|port| line(&port.to_string())).collect();
    let full = HEADER.to_owned() + &six;
    assert!(read(&full).is_ok());
    for more in ["\n", "7", &line("7"), &line("6"), "x", "\0"] {
        assert_eq!(read(full.clone() + more), broken(8), "{more:?}");
        assert_eq!(read(full.clone() + more + "\n\n\n"), broken(8), "{more:?}");
    }
}

/// Each field alone takes these words and no others.
#[test]
fn every_field() {
    let fields: Vec<&str> = LINE.trim_end().split('\t').collect();
    let with = |at: usize, word: &str| {
        let mut fields = fields.clone();
        fields[at] = word;
        read(format!("{HEADER}{}\n", fields.join("\t")))
    };
    for at in 5..10 {
        for number in 0..300 {
            let is_read = with(at, &number.to_string()).is_ok();
            assert_eq!(is_read, number <= 63, "index {number}");
            assert_eq!(with(at, &format!("0{number}")), broken(2));
        }
    }
    for number in 0..300 {
        assert_eq!(with(4, &format!("{number}.0")).is_ok(), number <= 255);
        assert_eq!(with(4, &format!("0.{number}")).is_ok(), number <= 255);
        assert_eq!(with(4, &format!("0{number}.0")), broken(2));
        assert_eq!(with(4, &format!("0.0{number}")), broken(2));
        assert_eq!(
            with(0, &number.to_string()).is_ok(),
            (1..=6).contains(&number)
        );
    }
    for word in ["256", "65536", "4294967296", "18446744073709551616"] {
        for at in 0..10 {
            assert_eq!(with(at, word), broken(2), "{word}");
        }
        assert_eq!(with(4, &format!("{word}.0")), broken(2), "{word}");
        assert_eq!(with(4, &format!("2.{word}")), broken(2), "{word}");
    }
}

#[test]
fn editions() {
    for other in ["0", "2", "3", "9", "10", "11", "19", "100", "257", "65537"] {
        assert_eq!(read(format!("pads\t{other}\n")), Err(Unread::OtherEdition));
        let followed = format!("pads\t{other}\n{LINE}rubbish");
        assert_eq!(read(followed), Err(Unread::OtherEdition));
        assert_eq!(read(format!("pads\t{other}")), broken(1));
        assert_eq!(read(format!("pads\t0{other}\n")), broken(1));
        assert_eq!(read(format!("pads\t{other}\r\n")), broken(1));
        assert_eq!(read(format!("Pads\t{other}\n")), broken(1));
        assert_eq!(read(format!("pads {other}\n")), broken(1));
    }
    for count in 2..=MOST_STORE - 6 {
        let digits = "9".repeat(count);
        assert_eq!(read(format!("pads\t{digits}\n")), Err(Unread::OtherEdition));
        assert_eq!(read(format!("pads\t0{digits}\n")), broken(1));
        let ones = "1".repeat(count);
        assert_eq!(read(format!("pads\t{ones}\n")), Err(Unread::OtherEdition));
    }
    for none in [
        "", "-", "+2", "-2", "2a", "A", " 2", "2 ", "1.0", "01", "00",
    ] {
        assert_eq!(read(format!("pads\t{none}\n")), broken(1), "{none:?}");
    }
}

#[test]
fn lines_that_break() {
    assert_eq!(read(""), broken(1));
    assert_eq!(read("pads\t1"), broken(1));
    assert_eq!(read("\n"), broken(1));
    assert_eq!(read(LINE), broken(1));
    assert_eq!(read(format!("{HEADER}\n")), broken(2));
    assert_eq!(read(format!("{HEADER}{HEADER}")), broken(2));
    assert_eq!(read(format!("{HEADER}{}", LINE.trim_end())), broken(2));
    assert_eq!(read(format!("{HEADER}{LINE}{LINE}")), broken(3));
    assert_eq!(read(format!("{HEADER}{LINE}\n{LINE}")), broken(3));
}

/// Two texts never restore one station, and what is written is read.
#[test]
fn round_trips() {
    let mut station = Station::default();
    let mut generator = Generator::new(22);
    let mut written = 0;
    for _ in 0..30_000 {
        let Line::Call(call) = parse(&generator.answered_line()) else {
            continue;
        };
        make(&mut station, &call);
        let text = station.store_text();
        let restored = read(&text).expect("what is written is read");
        assert_eq!(restored.store_text(), text);
        for (number, port) in station.ports() {
            let kept = restored.port(number);
            if port.paired {
                assert_eq!(kept.store_line(number), port.store_line(number));
                assert_eq!(
                    (
                        kept.wpid,
                        kept.serial,
                        kept.reports,
                        kept.version,
                        kept.features
                    ),
                    (
                        port.wpid,
                        port.serial,
                        port.reports,
                        port.version,
                        port.features
                    )
                );
            }
            let mut fresh = kept.clone();
            fresh.paired = false;
            fresh.wpid = 0;
            fresh.serial = None;
            fresh.reports = 0;
            fresh.version = None;
            fresh.features = Default::default();
            assert_eq!((fresh, kept.paired), (Default::default(), port.paired));
        }
        written += usize::from(text.len() > HEADER.len());
    }
    assert!(written > 10_000);
}

// ---------------------------------------------------------------------------
// Scripts

#[test]
fn store_is_a_writer() {
    let text = format!("{HEADER}{LINE}");
    let bytes: String = text.bytes().map(|byte| format!(" {byte:02X}")).collect();
    let script = |call: &str| last(PAIRED.to_owned() + call);
    assert_eq!(script("store 0 39"), format!("wrote 39:{bytes}"));
    assert_eq!(script("store 2 42"), format!("wrote 39: EE EE{bytes} EE"));
    assert_eq!(
        script("store 0 38"),
        format!("refused 10:{}", " EE".repeat(38))
    );
    assert_eq!(
        script("store 1 39"),
        format!("refused 10:{}", " EE".repeat(39))
    );
    assert_eq!(script("store 65535 2"), "refused 10: EE EE");
    assert_eq!(script("store 0 0"), "refused 10:");
    assert_eq!(last("store 0 7"), "wrote 7: 70 61 64 73 09 31 0A");
}

#[test]
fn accepted_read_replaces_the_station() {
    let busy = PAIRED.to_owned()
        + "take 20 02 42 00 00 00 00 00 00 00 00 00 00 00 00\n\
           request 2 01 01 50 0 7 00 00 00\nrequest 255 80 00 50 0 7 00 00 00\n\
           request 255 00 12 50 0 7 00 00 01\ntake 10 FF 00 12 04 05 01\n\
           request 3 00 11 50 0 7 00 00 5A\ntake 10 03 00 11 02 00 5A\n\
           take 20 04 41 00 10 20 0E 00 00 00 00 00 00 00 00\n";
    let script = busy.clone() + &restore(format!("{HEADER}{LINE}"));
    assert_eq!(last(&script), "restored");
    let fresh = output("dump");
    let restored = output(script.clone() + "dump\n");
    let fresh: Vec<&str> = fresh.lines().collect();
    let restored: Vec<&str> = restored.lines().rev().take(7).collect();
    for (slot, line) in restored.into_iter().rev().enumerate() {
        if slot == 1 {
            let device = "port=2 paired=1 wpid=2010 reports=0000000E link=down version=2.0 \
                          features=0,0,0,0,0 battery=- places=-,-,-,- serial=-";
            assert_eq!(line, device);
        } else {
            assert_eq!(line, fresh[slot]);
        }
    }
    let late = "take 10 02 01 01 00 00 00\n";
    assert!(last(script + late).starts_with("stray "));
    assert!(last(busy + late).starts_with("reply "));
}

#[test]
fn refused_read_leaves_the_station() {
    let busy = PAIRED.to_owned() + "request 2 01 01 50 0 7 00 00 00\n";
    for (text, answer) in [
        (String::new(), "refused 16 line=1"),
        ("pads\t2\n".to_owned(), "refused 15"),
        (format!("{HEADER}{LINE}{LINE}"), "refused 16 line=3"),
        (format!("{HEADER}3{}x", &LINE[1..]), "refused 16 line=3"),
    ] {
        let script = busy.clone() + &restore(text);
        assert_eq!(last(&script), answer);
        for port in [1, 2, 3, 255] {
            assert_eq!(held(&script, port), held(&busy, port));
        }
    }
}

#[test]
fn at_most_4096_bytes_are_read() {
    let text = |digits: usize| format!("pads\t{}\n", "7".repeat(digits));
    assert_eq!(last(restore(text(MOST_STORE - 6))), "refused 15");
    assert_eq!(last(restore(text(MOST_STORE - 5))), "line 1 is no call");
    assert_eq!(last(restore("\n".repeat(MOST_STORE))), "refused 16 line=1");
    assert_eq!(
        last(restore("\n".repeat(MOST_STORE + 1))),
        "line 1 is no call"
    );
    assert_eq!(last("restore"), "refused 16 line=1");
    assert_eq!(last("restore  "), "refused 16 line=1");
    let full = (HEADER.to_owned() + LINE).into_bytes();
    let line = restore(&full).replace(' ', "    ");
    assert_eq!(last(line), "restored");
}

#[test]
fn lines_that_are_no_call() {
    for line in [
        "store",
        "store 0",
        "store 0 4097",
        "store 0 7 00",
        "store 00 7",
        "restore 7",
        "restore 0",
        "restore 70 6",
        "restore pads",
        "Restore",
        "restored",
        "store 0 07",
    ] {
        assert_eq!(parse(line.as_bytes()), Line::NoCall, "{line}");
    }
}

#[test]
fn store_calls_refuse_with_these_numbers() {
    let mut station = Station::default();
    let answer = make(&mut station, &Call::Restore(b"pads\t2\n".to_vec()));
    assert_eq!(answer.refusal(), Some(Refusal::OtherEdition));
    let answer = make(&mut station, &Call::Restore(vec![]));
    assert_eq!(answer, Answer::BrokenLine(1));
    assert_eq!(answer.refusal(), Some(Refusal::BrokenLine));
    assert_eq!(
        [Refusal::OtherEdition, Refusal::BrokenLine].map(Refusal::number),
        [15, 16]
    );
}

/// What waited before a read is gone: a tick ends nothing.
#[test]
fn requests_are_lost_uncounted() {
    let script = PAIRED.to_owned()
        + "request 2 01 01 1 0 7 00 00 00\nrequest 255 80 00 1 0 7 00 00 00\n"
        + &restore(format!("{HEADER}{LINE}"))
        + "tick\ncancel 2 01 01\nrequest 2 01 01 1 0 7 00 00 00\ntick\n";
    let lines = answers(script);
    assert_eq!(
        lines[lines.len() - 5..],
        [
            "restored",
            "ended 0 0 0 0 0 0 0",
            "refused 13",
            "wrote 7: 10 02 01 01 00 00 00",
            "ended 0 1 0 0 0 0 0"
        ]
    );
}
