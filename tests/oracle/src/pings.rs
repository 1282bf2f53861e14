//! Counts how often the calls of a script answer a ping, and how often they
//! only seem to.

use crate::script::{Answer, Call};
use crate::station::{ErrorKind, Key, Outcome, PortNumber, Refusal, Station, Taken, Waiting};
use crate::tally::{self, Row};

type Test = fn(&Seen) -> bool;

/// What is counted for each port.
const BY_PORT: [(Sort, &str); 2] = [
    (Sort::Answers, "ping answered"),
    (Sort::Differs, "ping byte differs"),
];

/// What is counted of all ports together: the calls of a sort that pass a test.
const KINDS: [(Sort, &str, Test); 41] = [
    (Sort::Answers, "answered: short ping, short reply", |seen| {
        seen.sizes() == (3, 3)
    }),
    (Sort::Answers, "answered: short ping, long reply", |seen| {
        seen.sizes() == (3, 16)
    }),
    (Sort::Answers, "answered: long ping, short reply", |seen| {
        seen.sizes() == (16, 3)
    }),
    (Sort::Answers, "answered: long ping, long reply", |seen| {
        seen.sizes() == (16, 16)
    }),
    (Sort::Answers, "answered: after another byte", |seen| {
        seen.own_ping().is_some_and(|ping| ping.missed)
    }),
    (Sort::Answers, "answered: while others wait", |seen| {
        seen.other_bytes().count() > 0
    }),
    (Sort::Differs, "differs: short ping, short reply", |seen| {
        seen.sizes() == (3, 3)
    }),
    (Sort::Differs, "differs: short ping, long reply", |seen| {
        seen.sizes() == (3, 16)
    }),
    (Sort::Differs, "differs: long ping, short reply", |seen| {
        seen.sizes() == (16, 3)
    }),
    (Sort::Differs, "differs: long ping, long reply", |seen| {
        seen.sizes() == (16, 16)
    }),
    (Sort::Differs, "differs: version not known", |seen| {
        seen.major().is_none()
    }),
    (Sort::Differs, "differs: major 1, no notice", |seen| {
        seen.major() == Some(1)
    }),
    (Sort::Differs, "differs: another major", |seen| {
        seen.major().is_some_and(|major| major != 1)
    }),
    (Sort::Differs, "differs: by one bit", |seen| {
        (seen.third() ^ seen.kept(2)).count_ones() == 1
    }),
    (Sort::Differs, "differs: is the ping's first", |seen| {
        seen.third() == seen.kept(0)
    }),
    (Sort::Differs, "differs: is the ping's second", |seen| {
        seen.third() == seen.kept(1)
    }),
    (Sort::Differs, "differs: is the ping's byte 3", |seen| {
        seen.third() == seen.key.byte3
    }),
    (Sort::Differs, "differs: is the software id", |seen| {
        seen.third() == seen.key.software_id()
    }),
    (Sort::Differs, "differs: ping byte comes first", |seen| {
        seen.parameters[0] == seen.kept(2)
    }),
    (Sort::Differs, "differs: ping byte comes second", |seen| {
        seen.parameters[1] == seen.kept(2)
    }),
    (Sort::Differs, "differs: ping byte comes fourth", |seen| {
        seen.parameters.get(3) == Some(&seen.kept(2))
    }),
    (Sort::Differs, "differs: another software id's", |seen| {
        seen.other_bytes().any(|byte| byte == seen.third())
    }),
    (Sort::Differs, "differs: another port's", |seen| {
        seen.is_elsewhere()
    }),
    (Sort::Differs, "differs: one's that expired", |seen| {
        seen.is_late(End::Expired)
    }),
    (Sort::Differs, "differs: one's that was cancelled", |seen| {
        seen.is_late(End::Cancelled)
    }),
    (Sort::Differs, "differs: one's that was dropped", |seen| {
        seen.is_late(End::Dropped)
    }),
    (Sort::Differs, "differs: one's that failed", |seen| {
        seen.is_late(End::Failed)
    }),
    (Sort::Differs, "differs: one's that was answered", |seen| {
        seen.is_late(End::Answered)
    }),
    (Sort::Differs, "differs: one's from before a read", |seen| {
        seen.is_late(End::Lost)
    }),
    (
        Sort::FindsNone,
        "no ping waits: before a read it did",
        |seen| seen.is_late(End::Lost),
    ),
    (Sort::FindsNone, "no ping waits: stray", |seen| {
        seen.outcome == Some(Outcome::Stray)
    }),
    (Sort::FindsNone, "no ping waits: plain", |seen| {
        seen.outcome == Some(Outcome::Plain)
    }),
    (Sort::FindsNone, "no ping waits: another port's", |seen| {
        seen.is_elsewhere()
    }),
    (Sort::FindsNone, "no ping waits: event", |seen| {
        seen.outcome == Some(Outcome::Event) && seen.other_bytes().count() > 0
    }),
    (Sort::Fails, "failed, another byte 6: 8F", |seen| {
        seen.is_error(ErrorKind::Hidpp10)
    }),
    (Sort::Fails, "failed, another byte 6: FF", |seen| {
        seen.is_error(ErrorKind::Hidpp20)
    }),
    (Sort::Free, "not compared: GetFeature", |seen| {
        seen.key.byte2 == 0 && seen.key.function() == 0
    }),
    (Sort::Free, "not compared: functions 2 to 15", |seen| {
        seen.key.byte2 == 0 && seen.key.function() > 1
    }),
    (Sort::Free, "not compared: another index", |seen| {
        (1..0x40).contains(&seen.key.byte2) && seen.key.function() == 1
    }),
    (Sort::Free, "not compared: register 10 to 1F", |seen| {
        seen.key.byte2 >= 0x80 && seen.key.function() == 1
    }),
    (Sort::Again, "not compared: 11 for a ping", |seen| {
        seen.key.is_ping()
    }),
];

/// The calls of interest.
#[derive(Clone, Copy, Debug, PartialEq, Eq)]
enum Sort {
    /// A reply to a ping.
    Answers,
    /// A report with the key of a ping that waits, and another third parameter.
    Differs,
    /// A report with the key of a ping, where none with that key waits.
    FindsNone,
    /// An error to a ping, with another third parameter.
    Fails,
    /// A reply to what is no ping, with another third parameter.
    Free,
    /// A request that waits already, with another third parameter.
    Again,
}

/// How a ping ended.
#[derive(Clone, Copy, Debug, PartialEq, Eq)]
enum End {
    Answered,
    Failed,
    Expired,
    Cancelled,
    Dropped,
    /// A store was read.
    Lost,
}

/// A ping as it was asked.
#[derive(Clone, Copy, Debug)]
struct Ping {
    port: PortNumber,
    key: Key,
    /// The third parameter.
    byte: u8,
    /// The number of parameters.
    length: usize,
    /// Whether a report with its key and another byte came.
    missed: bool,
}

/// A HID++ report that was taken, or a request, and what was there before it.
struct Seen<'a> {
    port: PortNumber,
    /// Of an error, the key that it names.
    key: Key,
    parameters: &'a [u8],
    /// Of a report.
    outcome: Option<Outcome>,
    refusal: Option<Refusal>,
    /// The request that waited with this key.
    asked: Option<Waiting>,
    before: &'a Station,
    pings: &'a [Ping],
    ended: &'a [(Ping, End)],
}

/// What is asked of a call.
impl Seen<'_> {
    fn sort(&self) -> Option<Sort> {
        let another = self.third() != self.kept(2);
        match (self.outcome, self.asked) {
            (None, _) => {
                let again = self.refusal == Some(Refusal::AlreadyWaiting);
                (again && another).then_some(Sort::Again)
            }
            (Some(Outcome::Reply { .. }), _) if self.key.is_ping() => Some(Sort::Answers),
            (Some(Outcome::Reply { .. }), _) => another.then_some(Sort::Free),
            _ if !self.key.is_ping() => None,
            (Some(Outcome::Error { .. }), _) => another.then_some(Sort::Fails),
            (Some(_), None) => Some(Sort::FindsNone),
            (Some(_), Some(_)) => Some(Sort::Differs),
        }
    }

    fn is_error(&self, of: ErrorKind) -> bool {
        matches!(self.outcome, Some(Outcome::Error { kind, .. }) if kind == of)
    }

    fn third(&self) -> u8 {
        self.parameters[2]
    }

    /// A parameter of the request that waited.
    fn kept(&self, index: usize) -> u8 {
        self.asked.map_or(0, |asked| asked.parameters[index])
    }

    fn is_own(&self, ping: &Ping) -> bool {
        (ping.port, ping.key) == (self.port, self.key)
    }

    fn own_ping(&self) -> Option<&Ping> {
        self.pings.iter().find(|ping| self.is_own(ping))
    }

    /// The numbers of parameters of the ping and of the report.
    fn sizes(&self) -> (usize, usize) {
        let asked = self.own_ping().map_or(0, |ping| ping.length);
        (asked, self.parameters.len())
    }

    fn major(&self) -> Option<u8> {
        let version = self.before.port(self.port).version;
        version.map(|version| version.major)
    }

    /// The bytes of the port's pings with other software ids.
    fn other_bytes(&self) -> impl Iterator<Item = u8> + '_ {
        let pings = self.pings.iter().filter(|ping| ping.port == self.port);
        let others = pings.filter(|ping| ping.key != self.key);
        others.map(|ping| ping.byte)
    }

    /// Whether it has the key and the byte of a ping of another port.
    fn is_elsewhere(&self) -> bool {
        let mut others = self.pings.iter().filter(|ping| ping.port != self.port);
        others.any(|ping| ping.key == self.key && ping.byte == self.third())
    }

    /// Whether it has the byte of the last ping with its key, which ended so.
    fn is_late(&self, end: End) -> bool {
        let mut ended = self.ended.iter();
        let last = ended.find(|(ping, _)| self.is_own(ping));
        last.is_some_and(|(ping, how)| ping.byte == self.third() && *how == end)
    }
}

#[derive(Debug)]
pub struct Tally {
    by_port: [[u64; 7]; BY_PORT.len()],
    kinds: [u64; KINDS.len()],
    /// The pings that wait.
    pings: Vec<Ping>,
    /// The last ping of each port and key that waits no longer.
    ended: Vec<(Ping, End)>,
}

impl Default for Tally {
    fn default() -> Tally {
        Tally {
            by_port: [[0; 7]; BY_PORT.len()],
            kinds: [0; KINDS.len()],
            pings: Vec::new(),
            ended: Vec::new(),
        }
    }
}

impl tally::Tally for Tally {
    fn add(&mut self, [before, after]: [&Station; 2], call: &Call, answer: &Answer) {
        self.add_seen(before, call, answer);
        self.follow(call, answer, after);
    }

    fn rows(&self) -> Vec<Row> {
        let by_port = BY_PORT.iter().zip(&self.by_port);
        let by_port = by_port.map(|((_, name), ports)| Row::by(format!("{name}; by port"), ports));
        let kinds = KINDS.iter().zip(self.kinds);
        by_port
            .chain(kinds.map(|((_, name, _), count)| Row::one(name, count)))
            .collect()
    }
}

impl Tally {
    fn add_seen(&mut self, before: &Station, call: &Call, answer: &Answer) {
        let Some((port, key, parameters)) = named(call, answer) else {
            return;
        };
        let mut waiting = before.port(port).waiting();
        let seen = Seen {
            port,
            key,
            parameters,
            outcome: outcome(answer),
            refusal: answer.refusal(),
            asked: waiting.find(|waiting| waiting.key == key).copied(),
            before,
            pings: &self.pings,
            ended: &self.ended,
        };
        let Some(sort) = seen.sort() else {
            return;
        };
        for ((of, _), counts) in BY_PORT.iter().zip(&mut self.by_port) {
            counts[port.position()] += u64::from(*of == sort);
        }
        for ((of, _, test), count) in KINDS.iter().zip(&mut self.kinds) {
            *count += u64::from(*of == sort && test(&seen));
        }
        let mut pings = self.pings.iter_mut();
        if let Some(ping) = pings.find(|ping| (ping.port, ping.key) == (port, key)) {
            ping.missed |= sort == Sort::Differs;
        }
    }

    /// Keeps the pings that wait apart from those that ended.
    fn follow(&mut self, call: &Call, answer: &Answer, station: &Station) {
        for ping in std::mem::take(&mut self.pings) {
            let mut waiting = station.port(ping.port).waiting();
            if waiting.any(|waiting| waiting.key == ping.key) {
                self.pings.push(ping);
            } else {
                let same = |(old, _): &(Ping, End)| (old.port, old.key) == (ping.port, ping.key);
                self.ended.retain(|old| !same(old));
                self.ended.push((ping, end(&ping, call, answer)));
            }
        }
        if let (Some((port, key, parameters)), Answer::Written(Ok(length), _)) =
            (named(call, answer), answer)
        {
            if key.is_ping() {
                self.pings.push(Ping {
                    port,
                    key,
                    byte: parameters[2],
                    length: length - 4,
                    missed: false,
                });
            }
        }
    }
}

/// The port, the key and the parameters of a report that was taken or of a
/// request; the latter are three or more.
fn named<'a>(call: &'a Call, answer: &Answer) -> Option<(PortNumber, Key, &'a [u8])> {
    match (call, answer) {
        (Call::Take(report), Answer::Taken(Taken::Hidpp { port, key, .. })) => {
            Some((*port, *key, &report[4..]))
        }
        (
            Call::Request {
                port,
                key,
                parameters,
                ..
            },
            _,
        ) if parameters.len() >= 3 => {
            let port = PortNumber::device_or_receiver(*port).ok()?;
            Some((port, *key, parameters))
        }
        _ => None,
    }
}

fn outcome(answer: &Answer) -> Option<Outcome> {
    match answer {
        Answer::Taken(Taken::Hidpp { outcome, .. }) => Some(*outcome),
        _ => None,
    }
}

/// How this call ended the ping. A reply on another port drops it.
fn end(ping: &Ping, call: &Call, answer: &Answer) -> End {
    let its_own = named(call, answer).is_some_and(|(port, _, _)| port == ping.port);
    match (call, outcome(answer)) {
        (Call::Tick, _) => End::Expired,
        (Call::Cancel { .. }, _) => End::Cancelled,
        (Call::Restore(_), _) => End::Lost,
        (_, Some(Outcome::Reply { .. })) if its_own => End::Answered,
        (_, Some(Outcome::Error { .. })) => End::Failed,
        _ => End::Dropped,
    }
}
