//! Counts which stores the calls of a script write and read, and in which ways
//! those that are refused break the rules.

use crate::script::{Answer, Call, MOST_STORE};
use crate::station::{FeatureIndex, Link, Port, PortNumber, Refusal, Station};
use crate::store::{read_store, Unread, HEADER};
use crate::tally::{self, Row};

type Test = fn(&Seen) -> bool;

/// What is counted by a number, and the numbers that occur.
const BY_NUMBER: [(Sort, &str, std::ops::RangeInclusive<usize>); 3] = [
    (Sort::Wrote, "store written; by devices, 0 to 6", 0..=6),
    (Sort::Restored, "store read; by devices, 0 to 6", 0..=6),
    (Sort::Broken, "refused 16; by line, 1 to 8", 1..=8),
];

/// The most numbers in a row of those.
const NUMBERS: usize = 8;

/// What else is counted: the calls of a sort that pass a test.
const KINDS: [(Sort, &str, Test); 64] = [
    (Sort::Wrote, "wrote: serial, version, index known", |seen| {
        seen.devices(0).any(|port| {
            let found = port
                .features
                .iter()
                .any(|&index| index != FeatureIndex::NOT_FOUND);
            port.serial.is_some() && port.version.is_some() && found
        })
    }),
    (
        Sort::Wrote,
        "wrote: an unpaired port that has a record",
        |seen| {
            seen.ports(0)
                .any(|port| !port.paired && port.version.is_some())
        },
    ),
    (Sort::Wrote, "wrote: what is not stored is known", |seen| {
        let is_known = |port: &Port| port.battery.is_some() && port.link == Link::Up;
        seen.devices(0)
            .any(|port| is_known(port) && port.waiting_count() > 0)
    }),
    (Sort::NoRoom, "refused 10: no room for the store", |_| true),
    (Sort::Restored, "restored: the station's own", |seen| {
        seen.text == seen.stations[0].store_text().as_bytes()
    }),
    (Sort::Restored, "restored: what a store gave", |seen| {
        seen.written.iter().any(|written| written == seen.text)
    }),
    (Sort::Restored, "restored: nothing is another", |seen| {
        seen.stations[0] == seen.stations[1]
    }),
    (Sort::Restored, "restored: a device is new", |seen| {
        seen.pairs()
            .any(|[before, after]| !before.paired && after.paired)
    }),
    (Sort::Restored, "restored: a device is gone", |seen| {
        seen.pairs()
            .any(|[before, after]| before.paired && !after.paired)
    }),
    (Sort::Restored, "restored: a device is another", |seen| {
        let both = |[before, after]: &[&Port; 2]| before.paired && after.paired;
        seen.pairs()
            .filter(both)
            .any(|[before, after]| before.wpid != after.wpid)
    }),
    (
        Sort::Restored,
        "restored: a device that stays loses its link",
        |seen| seen.kept().any(|[before, _]| before.link == Link::Up),
    ),
    (Sort::Restored, "restored: .. its battery", |seen| {
        seen.kept().any(|[before, _]| before.battery.is_some())
    }),
    (Sort::Restored, "restored: .. its requests", |seen| {
        seen.kept().any(|[before, _]| before.waiting_count() > 0)
    }),
    (
        Sort::Restored,
        "restored: an unpaired port is made fresh",
        |seen| {
            let unpaired = |[before, after]: &[&Port; 2]| !before.paired && !after.paired;
            seen.pairs()
                .filter(unpaired)
                .any(|[before, after]| before != after)
        },
    ),
    (
        Sort::Restored,
        "restored: the receiver loses requests",
        |seen| seen.stations[0].port(PortNumber::RECEIVER).waiting_count() > 0,
    ),
    (
        Sort::Restored,
        "restored: the receiver loses its version",
        |seen| {
            seen.stations[0]
                .port(PortNumber::RECEIVER)
                .version
                .is_some()
        },
    ),
    (
        Sort::Restored,
        "restored: more bytes than a report may have",
        |seen| seen.text.len() > 256,
    ),
    (Sort::Other, "refused 15: edition 0", |seen| {
        seen.edition() == b"0"
    }),
    (Sort::Other, "refused 15: edition 2", |seen| {
        seen.edition() == b"2"
    }),
    (Sort::Other, "refused 15: edition 10 to 19", |seen| {
        seen.edition().len() == 2 && seen.edition()[0] == b'1'
    }),
    (
        Sort::Other,
        "refused 15: 1 in its low 8 to 64 bits",
        |seen| {
            let number: Option<u128> = seen.edition_text().and_then(|text| text.parse().ok());
            number
                .is_some_and(|number| [8, 16, 32, 64].iter().any(|bits| number == (1 << bits) + 1))
        },
    ),
    (Sort::Other, "refused 15: hundreds of digits", |seen| {
        seen.edition().len() >= 200
    }),
    (Sort::Other, "refused 15: 4096 bytes", |seen| {
        seen.text.len() == MOST_STORE
    }),
    (Sort::Other, "refused 15: nothing follows", |seen| {
        seen.lines().count() == 1
    }),
    (
        Sort::Other,
        "refused 15: a line of edition 1 follows",
        |seen| {
            let rest = seen.lines().skip(1).collect::<Vec<_>>().concat();
            !rest.is_empty() && read_store(&[HEADER.as_bytes(), &rest].concat()).is_ok()
        },
    ),
    (Sort::Other, "refused 15: what follows breaks too", |seen| {
        let rest = seen.lines().skip(1).collect::<Vec<_>>().concat();
        read_store(&[HEADER.as_bytes(), &rest].concat()).is_err()
    }),
    (Sort::Broken, "line 1: the empty text", |seen| {
        seen.text.is_empty()
    }),
    (Sort::Broken, "line 1: torn before the number", |seen| {
        !seen.text.is_empty() && b"pads\t".starts_with(seen.text)
    }),
    (Sort::Broken, "line 1: torn before the newline", |seen| {
        seen.text == b"pads\t1"
    }),
    (Sort::Broken, "line 1: another edition, torn", |seen| {
        let whole = [seen.text, b"\n"].concat();
        seen.lines().count() == 1 && read_store(&whole) == Err(Unread::OtherEdition)
    }),
    (Sort::Broken, "line 1: edition 01", |seen| {
        seen.line() == b"pads\t01\n"
    }),
    (Sort::Broken, "line 1: edition 00", |seen| {
        seen.line() == b"pads\t00\n"
    }),
    (Sort::Broken, "line 1: no edition", |seen| {
        seen.line() == b"pads\t\n"
    }),
    (Sort::Broken, "line 1: a sign", |seen| {
        seen.line().starts_with(b"pads\t+") || seen.line().starts_with(b"pads\t-")
    }),
    (Sort::Broken, "line 1: capitals", |seen| {
        seen.line() != HEADER.as_bytes() && seen.line().eq_ignore_ascii_case(HEADER.as_bytes())
    }),
    (Sort::Broken, "line 1: a carriage return", |seen| {
        seen.line() == b"pads\t1\r\n"
    }),
    (Sort::Broken, "line 1: an empty one", |seen| {
        seen.number == 1 && seen.line() == b"\n"
    }),
    (
        Sort::Broken,
        "line 1: missing, the second is there",
        |seen| {
            let with = [HEADER.as_bytes(), seen.text].concat();
            seen.number == 1 && !seen.text.is_empty() && read_store(&with).is_ok()
        },
    ),
    (Sort::Device, "line: torn in it", |seen| {
        !seen.line().ends_with(b"\n") && !seen.is_mended_by(&[seen.line(), b"\n"].concat())
    }),
    (Sort::Device, "line: torn before its newline", |seen| {
        seen.is_mended_by(&[seen.line(), b"\n"].concat())
    }),
    (Sort::Device, "line: an empty one", |seen| {
        seen.line() == b"\n"
    }),
    (Sort::Device, "line: the port before it again", |seen| {
        seen.is_right_alone() && seen.port_before() == seen.field(0)
    }),
    (Sort::Device, "line: a lower port", |seen| {
        seen.is_right_alone() && seen.field(0) < seen.port_before()
    }),
    (Sort::Device, "line: port 0", |seen| {
        seen.is_right_with(0, b"0")
    }),
    (Sort::Device, "line: port 7", |seen| {
        seen.is_right_with(0, b"7")
    }),
    (Sort::Device, "line: port 255", |seen| {
        seen.is_right_with(0, b"255")
    }),
    (Sort::Device, "line: port 02", |seen| {
        seen.is_right_with(0, b"02")
    }),
    (Sort::Device, "line: after six devices", |seen| {
        seen.number == 8
    }),
    (Sort::Device, "line: small letters in a WPID", |seen| {
        seen.has_small_letters(1)
    }),
    (Sort::Device, "line: .. in a serial", |seen| {
        seen.has_small_letters(2)
    }),
    (Sort::Device, "line: .. in a bitfield", |seen| {
        seen.has_small_letters(3)
    }),
    (Sort::Device, "line: a bitfield -", |seen| {
        seen.field(3) == b"-"
    }),
    (
        Sort::Device,
        "line: a part of a version above 255",
        |seen| seen.field(4) == b"256.0" || seen.field(4) == b"0.256",
    ),
    (Sort::Device, "line: .. with a leading zero", |seen| {
        seen.field(4) == b"2.00" || seen.field(4) == b"02.0"
    }),
    (
        Sort::Device,
        "line: a version of one part, or of three",
        |seen| seen.field(4) == b"2" || seen.field(4) == b"2.0.0",
    ),
    (Sort::Device, "line: index 64", |seen| seen.has_index(b"64")),
    (Sort::Device, "line: index 00", |seen| seen.has_index(b"00")),
    (Sort::Device, "line: index -", |seen| seen.has_index(b"-")),
    (Sort::Device, "line: nine fields", |seen| {
        seen.fields().count() == 9
    }),
    (Sort::Device, "line: eleven fields", |seen| {
        seen.fields().count() == 11
    }),
    (Sort::Device, "line: a tab at its end", |seen| {
        seen.line()
            .strip_suffix(b"\t\n")
            .is_some_and(|line| seen.is_mended_by(&[line, b"\n"].concat()))
    }),
    (Sort::Device, "line: a carriage return at its end", |seen| {
        seen.line()
            .strip_suffix(b"\r\n")
            .is_some_and(|line| seen.is_mended_by(&[line, b"\n"].concat()))
    }),
    (Sort::Device, "line: another that breaks follows", |seen| {
        let rest = seen.lines().skip(seen.number).collect::<Vec<_>>().concat();
        read_store(&[HEADER.as_bytes(), &rest].concat()).is_err()
    }),
    (Sort::Broken, "refused 16: 4096 bytes", |seen| {
        seen.text.len() == MOST_STORE
    }),
];

/// The calls of interest.
#[derive(Clone, Copy, Debug, PartialEq, Eq)]
enum Sort {
    /// A store that was written.
    Wrote,
    /// One that did not fit.
    NoRoom,
    /// A read that was accepted.
    Restored,
    /// One that was refused with 15.
    Other,
    /// One that was refused with 16.
    Broken,
    /// One that was refused with 16 for the line of a device; it is of the
    /// sort above too.
    Device,
}

impl Sort {
    fn is_of(self, other: Sort) -> bool {
        self == other || (self == Sort::Device && other == Sort::Broken)
    }
}

/// A store that was written or read.
struct Seen<'a> {
    sort: Sort,
    /// Of a read.
    text: &'a [u8],
    /// The line that breaks the rules, or else the number of devices.
    number: usize,
    stations: [&'a Station; 2],
    /// The stores that were written before it.
    written: &'a [Vec<u8>],
}

/// What is asked of the stations before and after it.
impl Seen<'_> {
    fn ports(&self, station: usize) -> impl Iterator<Item = &Port> {
        self.stations[station].ports().map(|(_, port)| port)
    }

    fn devices(&self, station: usize) -> impl Iterator<Item = &Port> {
        self.ports(station).filter(|port| port.paired)
    }

    fn pairs(&self) -> impl Iterator<Item = [&Port; 2]> {
        self.ports(0).zip(self.ports(1)).map(<[&Port; 2]>::from)
    }

    /// The devices that are the same in what is stored.
    fn kept(&self) -> impl Iterator<Item = [&Port; 2]> {
        self.pairs()
            .filter(|[before, after]| {
                let [before, after] =
                    [before, after].map(|port| port.store_line(PortNumber::ALL[0]));
                after == before
            })
            .filter(|[before, after]| before.paired && after.paired)
    }
}

/// What is asked of a text that was read.
impl Seen<'_> {
    fn lines(&self) -> impl Iterator<Item = &[u8]> {
        self.text.split_inclusive(|&byte| byte == b'\n')
    }

    /// What stands for the edition.
    fn edition(&self) -> &[u8] {
        let first = self.lines().next().unwrap_or_default();
        let rest = first.strip_prefix(b"pads\t").unwrap_or_default();
        rest.strip_suffix(b"\n").unwrap_or(rest)
    }

    fn edition_text(&self) -> Option<&str> {
        std::str::from_utf8(self.edition()).ok()
    }

    /// The line that breaks the rules.
    fn line(&self) -> &[u8] {
        self.lines().nth(self.number - 1).unwrap_or_default()
    }

    fn fields(&self) -> impl Iterator<Item = &[u8]> {
        let line = self.line();
        line.strip_suffix(b"\n")
            .unwrap_or(line)
            .split(|&byte| byte == b'\t')
    }

    fn field(&self, at: usize) -> &[u8] {
        self.fields().nth(at).unwrap_or_default()
    }

    /// The port of the line before it; 0 where there is none.
    fn port_before(&self) -> &[u8] {
        let before = self.lines().nth(self.number - 2).unwrap_or_default();
        if self.number == 2 {
            b"0"
        } else {
            &before[..1]
        }
    }

    /// Whether the line would be the first device's in a store.
    fn is_right_alone(&self) -> bool {
        read_store(&[HEADER.as_bytes(), self.line()].concat()).is_ok()
    }

    /// Whether only this field of the line is wrong, and it is this word.
    fn is_right_with(&self, at: usize, word: &[u8]) -> bool {
        let mut fields: Vec<&[u8]> = self.fields().collect();
        if self.field(at) != word {
            return false;
        }
        fields[at] = b"1";
        let line = [&fields.join(&b'\t'), &b"\n"[..]].concat();
        read_store(&[HEADER.as_bytes(), &line].concat()).is_ok()
    }

    /// Whether the text would be read beyond this line if it were another.
    fn is_mended_by(&self, line: &[u8]) -> bool {
        let before: Vec<&[u8]> = self.lines().take(self.number - 1).collect();
        read_store(&[&before.concat(), line].concat()).is_ok()
    }

    fn has_small_letters(&self, at: usize) -> bool {
        let mut fields: Vec<Vec<u8>> = self.fields().map(<[u8]>::to_vec).collect();
        let Some(field) = fields.get_mut(at) else {
            return false;
        };
        let is_small = field.iter().any(u8::is_ascii_lowercase);
        field.make_ascii_uppercase();
        is_small && self.is_mended_by(&[fields.join(&b'\t'), b"\n".to_vec()].concat())
    }

    /// Whether this word stands for an index, which alone is wrong.
    fn has_index(&self, word: &[u8]) -> bool {
        (5..10).any(|at| self.is_right_with(at, word))
    }
}

#[derive(Debug)]
pub struct Tally {
    by_number: [[u64; NUMBERS]; BY_NUMBER.len()],
    kinds: [u64; KINDS.len()],
    /// The stores that were written.
    written: Vec<Vec<u8>>,
}

impl Default for Tally {
    fn default() -> Tally {
        Tally {
            by_number: [[0; NUMBERS]; BY_NUMBER.len()],
            kinds: [0; KINDS.len()],
            written: Vec::new(),
        }
    }
}

impl tally::Tally for Tally {
    fn rows(&self) -> Vec<Row> {
        let by_number = BY_NUMBER.iter().zip(&self.by_number);
        let by_number = by_number.map(|((_, name, range), counts)| {
            let counts = &counts[..range.clone().count()];
            Row::by(*name, counts)
        });
        let kinds = KINDS.iter().zip(self.kinds);
        by_number
            .chain(kinds.map(|((_, name, _), count)| Row::one(name, count)))
            .collect()
    }

    fn add(&mut self, stations: [&Station; 2], call: &Call, answer: &Answer) {
        let Some((sort, text, number)) = sort(stations, call, answer) else {
            return;
        };
        let seen = Seen {
            sort,
            text,
            number,
            stations,
            written: &self.written,
        };
        for ((of, _, range), counts) in BY_NUMBER.iter().zip(&mut self.by_number) {
            if seen.sort.is_of(*of) {
                counts[number - range.start()] += 1;
            }
        }
        for ((of, _, test), count) in KINDS.iter().zip(&mut self.kinds) {
            *count += u64::from(seen.sort.is_of(*of) && test(&seen));
        }
        if sort == Sort::Wrote {
            self.written.push(stations[0].store_text().into_bytes());
        }
    }
}

/// The sort of a call, the text that it reads, and what is counted of it.
fn sort<'a>(
    stations: [&Station; 2],
    call: &'a Call,
    answer: &Answer,
) -> Option<(Sort, &'a [u8], usize)> {
    let devices = stations[1].ports().filter(|(_, port)| port.paired).count();
    match (call, answer) {
        (Call::Store(_), Answer::Written(Ok(_), _)) => Some((Sort::Wrote, &[], devices)),
        (Call::Store(_), _) => Some((Sort::NoRoom, &[], devices)),
        (Call::Restore(text), Answer::Restored) => Some((Sort::Restored, text, devices)),
        (Call::Restore(text), Answer::Refused(Refusal::OtherEdition)) => {
            Some((Sort::Other, text, devices))
        }
        (Call::Restore(text), Answer::BrokenLine(1)) => Some((Sort::Broken, text, 1)),
        (Call::Restore(text), Answer::BrokenLine(line)) => {
            Some((Sort::Device, text, usize::from(*line)))
        }
        _ => None,
    }
}
