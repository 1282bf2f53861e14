//! Counts how often the calls of a script take radio reports with padding,
//! where it is dirty, and how often it is not looked at.

use crate::script::{Answer, Call};
use crate::station::{
    dj, is_clean, split_payload, Family, Link, PortNumber, Refusal, ReportId, Station,
};
use crate::tally::{self, Row};

type Test = fn(&Seen) -> bool;

/// The types that have padding.
const PADDED: [u8; 5] = [1, 2, 3, 4, 8];

/// What is counted for each of them: the reports of a sort and an id.
const BY_TYPE: [(Sort, ReportId, &str); 4] = [
    (Sort::Clean, ReportId::DjShort, "taken, short"),
    (Sort::Clean, ReportId::DjLong, "taken, long"),
    (Sort::Dirty, ReportId::DjShort, "refused 17, short"),
    (Sort::Dirty, ReportId::DjLong, "refused 17, long"),
];

/// What is counted for each device.
const BY_DEVICE: [(Sort, &str); 2] = [(Sort::Clean, "taken"), (Sort::Dirty, "refused 17")];

/// What else is counted: the calls of a sort that pass a test.
const KINDS: [(Sort, &str, Test); 24] = [
    (Sort::Clean, "taken: payload does not end in 0", |seen| {
        seen.payload.last() != Some(&0)
    }),
    (Sort::Clean, "taken: link comes up", |seen| {
        seen.link == Some(Link::Down)
    }),
    (Sort::Dirty, "dirty: first byte alone", |seen| {
        seen.alone() == Some(0)
    }),
    (Sort::Dirty, "dirty: last alone, short", |seen| {
        seen.is_alone(14) && seen.id == ReportId::DjShort
    }),
    (Sort::Dirty, "dirty: last alone, long", |seen| {
        seen.is_alone(31)
    }),
    (Sort::Dirty, "dirty: one between, short", |seen| {
        seen.is_between() && seen.id == ReportId::DjShort
    }),
    (Sort::Dirty, "dirty: one between, long", |seen| {
        seen.is_between() && seen.id == ReportId::DjLong
    }),
    (Sort::Dirty, "dirty: where a short report ends", |seen| {
        seen.is_alone(14) && seen.id == ReportId::DjLong
    }),
    (Sort::Dirty, "dirty: behind its end", |seen| {
        seen.is_alone(15)
    }),
    (Sort::Dirty, "dirty: one bit", |seen| {
        let bits = seen.padding.iter().map(|byte| byte.count_ones());
        bits.sum::<u32>() == 1
    }),
    (Sort::Dirty, "dirty: two bytes 80, which cancel", |seen| {
        seen.dirty().eq(&[0x80, 0x80])
    }),
    (Sort::Dirty, "dirty: three bytes or more", |seen| {
        seen.dirty().count() >= 3
    }),
    (Sort::Dirty, "dirty: link stays down", |seen| {
        seen.link == Some(Link::Down)
    }),
    (Sort::Dirty, "dirty: link stays up", |seen| {
        seen.link == Some(Link::Up)
    }),
    (Sort::Early, "dirty, not looked at: refused 5", |seen| {
        seen.refusal == Some(Refusal::NoSuchPort)
    }),
    (Sort::Early, "dirty, not looked at: refused 7", |seen| {
        seen.refusal == Some(Refusal::Unpaired)
    }),
    (Sort::Early, "dirty, not looked at: refused 8", |seen| {
        seen.refusal == Some(Refusal::UndeclaredType)
    }),
    (Sort::Read, "dirty, not looked at: read, short", |seen| {
        seen.id == ReportId::DjShort
    }),
    (Sort::Read, "dirty, not looked at: read, long", |seen| {
        seen.id == ReportId::DjLong
    }),
    (Sort::Free, "all payload: type 0", |seen| {
        seen.report_type == 0
    }),
    (Sort::Free, "all payload: type 5", |seen| {
        seen.report_type == 5
    }),
    (Sort::Free, "all payload: another type, short", |seen| {
        seen.is_another() && seen.id == ReportId::DjShort
    }),
    (Sort::Free, "all payload: another type, long", |seen| {
        seen.is_another() && seen.id == ReportId::DjLong
    }),
    (Sort::Above, "type 32 more than a padded one", |seen| {
        PADDED.contains(&(seen.report_type - 32))
    }),
];

/// The calls of interest.
#[derive(Clone, Copy, Debug, PartialEq, Eq)]
enum Sort {
    /// A report with padding that is taken.
    Clean,
    /// One that is refused with 17.
    Dirty,
    /// One with dirty padding that is refused with another number.
    Early,
    /// One with dirty padding that is read without a station.
    Read,
    /// A report that is all payload, does not end in 0 and is taken.
    Free,
    /// A report of a type above 31 that does not end in 0.
    Above,
}

/// A radio report that was taken, refused or read.
struct Seen<'a> {
    id: ReportId,
    report_type: u8,
    payload: &'a [u8],
    padding: &'a [u8],
    refusal: Option<Refusal>,
    device: Option<PortNumber>,
    /// The device's before the call.
    link: Option<Link>,
}

impl<'a> Seen<'a> {
    fn new(before: &Station, report: &'a [u8], answer: &Answer) -> Option<Seen<'a>> {
        let id = ReportId::from_byte(*report.first()?)?;
        let is_whole = id.family() == Family::Dj && report.len() == id.length();
        if !is_whole || report[2] > dj::LAST_RADIO {
            return None;
        }
        let (payload, padding) = split_payload(report[2], &report[id.start()..]);
        let device = PortNumber::device(report[1]).ok();
        Some(Seen {
            id,
            report_type: report[2],
            payload,
            padding,
            refusal: answer.refusal(),
            device,
            link: device.map(|device| before.port(device).link),
        })
    }

    fn sort(&self, call: &Call) -> Option<Sort> {
        let is_padded = !self.padding.is_empty();
        let is_dirty = !is_clean(self.padding);
        let ends_in_0 = self.payload.last() == Some(&0);
        match (call, self.refusal) {
            (Call::Read(_), None) => is_dirty.then_some(Sort::Read),
            (Call::Read(_), Some(_)) => None,
            (_, None) if is_padded => Some(Sort::Clean),
            (_, None) => (!ends_in_0).then_some(Sort::Free),
            (_, Some(Refusal::DirtyPadding)) => Some(Sort::Dirty),
            (_, Some(_)) if self.report_type > 31 => (!ends_in_0).then_some(Sort::Above),
            (_, Some(_)) => is_dirty.then_some(Sort::Early),
        }
    }

    /// The bytes of the padding that aren't zero.
    fn dirty(&self) -> impl Iterator<Item = &u8> {
        self.padding.iter().filter(|&&byte| byte != 0)
    }

    /// Where the only one of them is in the padding.
    fn alone(&self) -> Option<usize> {
        let at = self.padding.iter().position(|&byte| byte != 0)?;
        (self.dirty().count() == 1).then_some(at)
    }

    /// Whether the only one of them is this byte of the report.
    fn is_alone(&self, byte: usize) -> bool {
        let padding = self.id.start() + self.payload.len();
        self.alone().is_some_and(|at| padding + at == byte)
    }

    /// Whether the only one of them is neither the first nor the last byte.
    fn is_between(&self) -> bool {
        let inner = 1..self.padding.len() - 1;
        self.alone().is_some_and(|at| inner.contains(&at))
    }

    fn is_another(&self) -> bool {
        self.report_type != 0 && self.report_type != 5
    }
}

#[derive(Debug)]
pub struct Tally {
    by_type: [[u64; PADDED.len()]; BY_TYPE.len()],
    by_device: [[u64; 6]; BY_DEVICE.len()],
    kinds: [u64; KINDS.len()],
}

impl Default for Tally {
    fn default() -> Tally {
        Tally {
            by_type: [[0; PADDED.len()]; BY_TYPE.len()],
            by_device: [[0; 6]; BY_DEVICE.len()],
            kinds: [0; KINDS.len()],
        }
    }
}

impl tally::Tally for Tally {
    fn rows(&self) -> Vec<Row> {
        let by_type = BY_TYPE
            .iter()
            .zip(&self.by_type)
            .map(|((_, _, name), counts)| {
                Row::by(format!("{name}; by type, 1 to 4 and 8"), counts)
            });
        let by_device = BY_DEVICE.iter().zip(&self.by_device);
        let by_device =
            by_device.map(|((_, name), counts)| Row::by(format!("{name}; by device"), counts));
        let kinds = KINDS.iter().zip(self.kinds);
        by_type
            .chain(by_device)
            .chain(kinds.map(|((_, name, _), count)| Row::one(name, count)))
            .collect()
    }

    fn add(&mut self, [before, _]: [&Station; 2], call: &Call, answer: &Answer) {
        let (Call::Take(report) | Call::Read(report)) = call else {
            return;
        };
        let Some(seen) = Seen::new(before, report, answer) else {
            return;
        };
        let Some(sort) = seen.sort(call) else {
            return;
        };
        for ((of, id, _), counts) in BY_TYPE.iter().zip(&mut self.by_type) {
            for (padded, count) in PADDED.iter().zip(counts) {
                *count += u64::from((*of, *id, *padded) == (sort, seen.id, seen.report_type));
            }
        }
        for ((of, _), counts) in BY_DEVICE.iter().zip(&mut self.by_device) {
            if let Some(device) = seen.device {
                counts[device.position()] += u64::from(*of == sort);
            }
        }
        for ((of, _, test), count) in KINDS.iter().zip(&mut self.kinds) {
            *count += u64::from(*of == sort && test(&seen));
        }
    }
}
