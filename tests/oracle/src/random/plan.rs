//! Plans: several calls that together reach what single ones seldom do.

use super::writers::Draft;
use super::Generator;
use crate::script::{Call, Lent};
use crate::station::{dj, Key, PortNumber, BATTERY_LEVEL_STATUS, WIRELESS_DEVICE_STATUS};

/// One call of a plan. It is made when its turn comes, for the station as it
/// stands then.
#[derive(Clone, Copy)]
pub enum Step {
    /// Any allowed request.
    Request(u8),
    Ping(u8),
    GetFeature(u8, u16),
    /// A request to the index that the port holds for the battery.
    AskBattery(u8),
    /// A request for the device's serial, or nearly that.
    AskSerial(u8),
    /// A reply that tells the device's serial, or nearly that.
    TellSerial(u8),
    /// A reply to the youngest request of the port.
    Reply(u8),
    /// An error for it.
    Fail(u8),
    /// A cancel of it.
    Cancel(u8),
    /// A reply to some ping of the port, or nearly that.
    AnswerPing(u8),
    Event(u8),
    /// A radio report of the device, or nearly that.
    Radio(u8),
    Pair(u8),
    Unpair(u8),
    LinkDown(u8),
    Tick,
    List,
    Store,
    /// A read of a right store.
    Restore,
    /// A read of the own one.
    RestoreOwn,
    /// A read of one that breaks the rules, or nearly that.
    RestoreBroken,
    /// A read of the own store as far as it was written.
    RestoreTorn,
    Dump,
}

impl Generator {
    pub(super) fn make_plan(&mut self) {
        let mut steps = match self.rng.below(20) {
            0 => self.clearing(),
            1..=3 => self.filling(),
            4..=7 => self.finding(),
            8..=11 => self.pinging(),
            12 => self.restarting(),
            _ => self.telling(),
        };
        steps.reverse();
        self.plan = steps;
    }

    /// Unpairs every device, and lists and stores those that are left.
    fn clearing(&mut self) -> Vec<Step> {
        let devices = self.ports_where(|port| port.paired);
        let unpairing = devices.iter().rev();
        let mut steps: Vec<Step> = unpairing
            .flat_map(|&device| [Step::Unpair(device), Step::List])
            .collect();
        steps.extend([Step::List, Step::Store, Step::Pair(self.device())]);
        steps.extend([Step::List, Step::Store]);
        steps
    }

    /// More requests for a port than it has places for.
    fn filling(&mut self) -> Vec<Step> {
        let port = self.device_or_receiver();
        let ends = [Step::Tick, Step::Dump, Step::Unpair(port), Step::Pair(port)];
        let mut steps = vec![Step::Request(port); 6];
        steps.push(self.rng.pick(&ends));
        steps
    }

    /// Features and a version for a port, then reports that use them.
    fn finding(&mut self) -> Vec<Step> {
        let port = self.device_or_receiver();
        let mut steps = Vec::new();
        if self.rng.chance(30) {
            steps.push(Step::Unpair(port));
        }
        if self.rng.chance(50) {
            steps.push(Step::Pair(port));
        }
        steps.extend([
            Step::GetFeature(port, BATTERY_LEVEL_STATUS),
            Step::Reply(port),
        ]);
        if self.rng.chance(70) {
            let wireless = Step::GetFeature(port, WIRELESS_DEVICE_STATUS);
            steps.extend([wireless, Step::Reply(port)]);
        }
        if self.rng.chance(50) {
            steps.extend([Step::Ping(port), Step::Reply(port)]);
        }
        for _ in 0..self.rng.between(1, 3) {
            if self.rng.chance(30) {
                steps.push(Step::LinkDown(port));
            }
            match self.rng.below(5) {
                0 | 1 => steps.push(Step::Event(port)),
                2 | 3 => steps.extend([Step::AskBattery(port), Step::Reply(port)]),
                _ => steps.push(Step::Radio(port)),
            }
            steps.push(Step::Dump);
        }
        steps
    }

    /// Pings of a port that end or go on waiting, are made anew with another
    /// byte, and are answered or nearly so.
    fn pinging(&mut self) -> Vec<Step> {
        let port = match self.rng.between(1, 7) as u8 {
            7 => PortNumber::RECEIVER.byte(),
            device => device,
        };
        let mut steps = Vec::new();
        for _ in 0..self.rng.between(2, 5) {
            let pings = self.rng.pick(&[1, 1, 1, 2, 3]);
            steps.extend(vec![Step::Ping(port); pings]);
            match self.rng.below(12) {
                0..=3 => steps.push(Step::Tick),
                4 | 5 => steps.push(Step::Cancel(port)),
                6 | 7 => steps.push(Step::Fail(port)),
                8 => steps.push(Step::Unpair(port)),
                9 => steps.push(Step::Reply(port)),
                10 => steps.push(Step::Ping(self.device_or_receiver())),
                _ => (),
            }
            steps.push(Step::Ping(port));
            let answers = self.rng.between(1, 3);
            steps.extend(vec![Step::AnswerPing(port); answers]);
            if self.rng.chance(30) {
                steps.push(Step::Dump);
            }
        }
        steps
    }

    /// The serial of a device several times, while requests wait there.
    fn telling(&mut self) -> Vec<Step> {
        let device = self.rng.between(1, 6) as u8;
        let mut steps = Vec::new();
        let paired = self.port(device).is_some_and(|port| port.paired);
        if self.rng.chance(if paired { 15 } else { 90 }) {
            steps.push(Step::Pair(device));
        }
        for _ in 0..self.rng.between(3, 6) {
            let requests = self.rng.pick(&[0, 0, 0, 0, 1, 2, 4]);
            steps.extend(vec![Step::Request(device); requests]);
            steps.push(Step::AskSerial(device));
            match self.rng.below(16) {
                0 => steps.extend([Step::Unpair(device), Step::Pair(device)]),
                1 => steps.push(Step::Unpair(device)),
                2 => steps.push(Step::Pair(device)),
                3 => steps.push(Step::Tick),
                _ => (),
            }
            steps.push(Step::TellSerial(device));
            if self.rng.chance(40) {
                steps.push(Step::Dump);
            }
        }
        steps
    }

    /// What a device has told is stored, reads are tried, one is accepted,
    /// and a reply comes to what waited before.
    fn restarting(&mut self) -> Vec<Step> {
        let port = self.device_or_receiver();
        let mut steps = vec![Step::Pair(port), Step::Ping(port), Step::Reply(port)];
        if self.rng.chance(50) {
            steps.extend([Step::Event(port), Step::Request(port), Step::Request(255)]);
        }
        steps.extend([Step::Ping(port), Step::Store]);
        for _ in 0..self.rng.between(0, 3) {
            steps.push(self.rng.pick(&[Step::RestoreTorn, Step::RestoreBroken]));
        }
        steps.push(Step::Restore);
        match self.rng.below(3) {
            0 => steps.extend([Step::Request(port), Step::Pair(port)]),
            1 => steps.extend([Step::RestoreOwn, Step::Dump]),
            _ => steps.push(Step::Dump),
        }
        if self.rng.chance(50) {
            steps.push(Step::Ping(port));
        }
        let answers = self.rng.between(2, 4);
        steps.extend(vec![Step::AnswerPing(port); answers]);
        steps.extend([Step::Store, Step::List]);
        steps
    }

    pub(super) fn planned(&mut self, step: Step) -> Call {
        match step {
            Step::Request(port) => {
                let draft = self.fresh_draft(port);
                fitting(draft)
            }
            Step::Ping(port) => self.ask_version(port),
            Step::GetFeature(port, feature) => {
                self.planned_request(port, 0, 0, &feature.to_be_bytes())
            }
            Step::AskBattery(port) => self.ask_battery(port),
            Step::AskSerial(device) => self.ask_serial(device),
            Step::TellSerial(device) => Call::Take(self.tell_serial(device)),
            Step::Reply(port) => Call::Take(self.reply_on(port)),
            Step::Fail(port) => Call::Take(self.error_on(port)),
            Step::Cancel(port) => self.cancel_on(port),
            Step::AnswerPing(port) => Call::Take(self.answer_ping(port)),
            Step::Event(port) => Call::Take(self.event_on(port)),
            Step::Radio(port) => Call::Take(self.radio_of(port)),
            Step::Pair(port) => Call::Take(self.paired(port)),
            Step::Unpair(port) => Call::Take(self.dj(port, dj::UNPAIRED, &[])),
            Step::LinkDown(port) => Call::Take(self.dj(port, dj::LINK, &[1])),
            Step::Tick => Call::Tick,
            Step::List => self.list(),
            Step::Store => self.store(),
            Step::Restore => Call::Restore(self.right_store()),
            Step::RestoreOwn => Call::Restore(self.station.store_text().into_bytes()),
            Step::RestoreBroken => Call::Restore(self.broken_store()),
            Step::RestoreTorn => Call::Restore(self.torn_store()),
            Step::Dump => Call::Dump,
        }
    }

    /// A ping with one of few software ids, so that they come again.
    fn ask_version(&mut self, port: u8) -> Call {
        let key = Key {
            byte2: 0,
            byte3: 0x10 + self.rng.pick(&[1, 1, 1, 2, 3, 15]),
        };
        let start = self.ping_parameters();
        fitting(Draft {
            port,
            key,
            ticks: self.rng.pick(&[1, 1, 1, 3, 9]),
            parameters: self.parameters(key, &start),
        })
    }

    /// Most often function 0; no other tells the battery.
    fn ask_battery(&mut self, port: u8) -> Call {
        let byte2 = match self.index_of(port, BATTERY_LEVEL_STATUS) {
            0 => self.feature_byte(),
            index => index,
        };
        let function = self.rng.pick(&[0, 0, 0, 1, 2, 15]);
        self.planned_request(port, byte2, function, &[1])
    }

    /// Now and then on another port, with another sub id or for another
    /// device.
    fn ask_serial(&mut self, device: u8) -> Call {
        let mut port = PortNumber::RECEIVER.byte();
        let mut key = Key::PAIRING_INFORMATION;
        match self.rng.below(20) {
            0 => port = device,
            1 => key.byte2 = 0x82,
            2 => key.byte2 = 0x81,
            _ => (),
        }
        let parameter = self.serial_parameter(device);
        self.request_of(port, key, &[parameter])
    }

    fn planned_request(&mut self, port: u8, byte2: u8, function: u8, start: &[u8]) -> Call {
        let key = Key {
            byte2,
            byte3: function * 16 + self.rng.between(1, 15) as u8,
        };
        self.request_of(port, key, start)
    }

    fn request_of(&mut self, port: u8, key: Key, start: &[u8]) -> Call {
        fitting(Draft {
            port,
            key,
            ticks: self.rng.pick(&[1, 3, 9, 255]),
            parameters: self.parameters(key, start),
        })
    }
}

/// The request with a lent buffer of just its size.
fn fitting(draft: Draft) -> Call {
    let lent = Lent {
        offset: 0,
        length: 4 + draft.parameters.len() as u16,
    };
    draft.request(lent)
}
