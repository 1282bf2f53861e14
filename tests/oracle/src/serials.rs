//! Counts how often the calls of a script tell a serial, and how often they
//! only seem to.

use crate::script::{Answer, Call};
use crate::station::{asked_serial, Key, Notice, Outcome, PortNumber, Station, Taken};
use crate::tally::{self, Row};

/// What a told serial did, counted for each device.
pub const TOLD: [&str; 4] = [
    "serial became known",
    "serial told again",
    "serial changed, none dropped",
    "serial changed, some dropped",
];

/// What told no serial although it nearly does, and what became of one.
pub const NEARLY: [&str; 12] = [
    "requests dropped for another serial",
    "no serial: short reply",
    "no serial: reply with another first parameter than the request",
    "no serial: request with a first parameter of no device",
    "no serial: device not paired",
    "no serial: reply to another sub id",
    "no serial: reply on a device's port",
    "no serial: error in place of the reply",
    "no serial: no request waits",
    "serial forgotten, unpaired",
    "serial forgotten, paired with another WPID",
    "serial kept, paired with the same WPID",
];

#[derive(Debug, Default)]
pub struct Tally {
    told: [[u64; 6]; TOLD.len()],
    nearly: [u64; NEARLY.len()],
}

impl tally::Tally for Tally {
    fn add(&mut self, stations: [&Station; 2], call: &Call, answer: &Answer) {
        if let (Call::Take(report), Answer::Taken(taken)) = (call, answer) {
            self.add_taken(stations, report, taken);
        }
    }

    fn rows(&self) -> Vec<Row> {
        let told = TOLD.iter().zip(&self.told);
        let told = told.map(|(kind, devices)| Row::by(format!("{kind}; by device"), devices));
        let nearly = NEARLY.iter().zip(self.nearly);
        told.chain(nearly.map(|(kind, count)| Row::one(kind, count)))
            .collect()
    }
}

impl Tally {
    fn add_taken(&mut self, [before, after]: [&Station; 2], report: &[u8], taken: &Taken) {
        match *taken {
            Taken::Hidpp {
                outcome, port, key, ..
            } if key.byte3 == Key::PAIRING_INFORMATION.byte3 => {
                let mut waiting = before.port(port).waiting();
                let kept = waiting.find(|waiting| waiting.key == key);
                let kept = kept.map(|waiting| waiting.parameters[0]);
                let from = (port, key);
                match (outcome, kept) {
                    (Outcome::Reply { dropped }, Some(kept)) => {
                        self.replied(from, kept, report, dropped, [before, after]);
                    }
                    (Outcome::Error { .. }, Some(kept)) if asks(from, kept) => self.nearly(7, 1),
                    (Outcome::Stray, None) if report.len() == 20 && asks(from, report[4]) => {
                        self.nearly(8, 1);
                    }
                    _ => (),
                }
            }
            Taken::Notice(Notice::Unpaired { port, .. } | Notice::Paired { port, .. }) => {
                let [before, after] = [before, after].map(|station| station.port(port));
                match (before.serial, after.serial) {
                    (Some(_), Some(_)) => self.nearly(11, 1),
                    (Some(_), None) if after.paired => self.nearly(10, 1),
                    (Some(_), None) => self.nearly(9, 1),
                    _ => (),
                }
            }
            _ => (),
        }
    }

    /// A reply to a request that was kept with this first parameter.
    fn replied(
        &mut self,
        (port, key): (PortNumber, Key),
        kept: u8,
        report: &[u8],
        dropped: u8,
        stations: [&Station; 2],
    ) {
        let Some(device) = asked_serial(kept) else {
            let same = report[4] == kept && report.len() == 20;
            return self.nearly(3, u64::from(same && is_from_receiver((port, key))));
        };
        let [before, after] = stations.map(|station| station.port(device));
        if report.len() != 20 {
            self.nearly(1, 1);
        } else if report[4] != kept {
            self.nearly(2, 1);
        } else if key != Key::PAIRING_INFORMATION {
            self.nearly(5, 1);
        } else if port != PortNumber::RECEIVER {
            self.nearly(6, 1);
        } else if !before.paired {
            self.nearly(4, 1);
        } else {
            let told = match (before.serial, dropped) {
                (None, _) => 0,
                (known, _) if known == after.serial => 1,
                (_, 0) => 2,
                _ => 3,
            };
            self.told[told][usize::from(device.byte()) - 1] += 1;
            self.nearly(0, dropped.into());
        }
    }

    fn nearly(&mut self, kind: usize, count: u64) {
        self.nearly[kind] += count;
    }
}

fn is_from_receiver(from: (PortNumber, Key)) -> bool {
    from == (PortNumber::RECEIVER, Key::PAIRING_INFORMATION)
}

/// Whether a request there with this first parameter asks for a serial.
fn asks(from: (PortNumber, Key), parameter: u8) -> bool {
    is_from_receiver(from) && asked_serial(parameter).is_some()
}
