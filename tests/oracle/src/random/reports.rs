//! Random reports, aimed at what waits, is held or is declared.

use super::Generator;
use crate::station::{
    asked_serial, dj, split_payload, Key, PortNumber, ReportId, Waiting, BATTERY_LEVEL_STATUS,
    FIRST_SERIAL, WIRELESS_DEVICE_STATUS,
};

impl Generator {
    pub(super) fn report(&mut self) -> Vec<u8> {
        let mut report = match self.rng.below(100) {
            0..=15 => self.reply(),
            16..=25 => self.error(),
            26..=32 => self.near_reply(),
            33..=42 => self.event(),
            43..=49 => self.unrequested(),
            50..=59 => {
                let port = self.device();
                self.paired(port)
            }
            60..=61 => self.empty_list(),
            62..=64 => self.unpaired(),
            65..=69 => self.link(),
            70..=73 => self.other_notice(),
            74..=89 => self.radio(),
            _ => self.refused_report(),
        };
        if self.rng.chance(5) {
            self.damage(&mut report);
        }
        report
    }

    /// A report that begins so and is filled up to the length of its id.
    fn filled(&mut self, id: ReportId, start: &[u8]) -> Vec<u8> {
        let mut report = vec![id.byte()];
        report.extend(start);
        let missing = id.length().saturating_sub(report.len());
        report.extend(self.edge_bytes(missing));
        report.truncate(id.length());
        report
    }

    fn hidpp(&mut self, port: u8, key: Key, parameters: &[u8]) -> Vec<u8> {
        let id = self.rng.pick(&[ReportId::HidppShort, ReportId::HidppLong]);
        let start = [&[port, key.byte2, key.byte3], parameters].concat();
        self.filled(id, &start)
    }

    pub(super) fn dj(&mut self, port: u8, report_type: u8, parameters: &[u8]) -> Vec<u8> {
        let id = self.rng.pick(&[ReportId::DjShort, ReportId::DjLong]);
        let start = [&[port, report_type], parameters].concat();
        self.filled(id, &start)
    }
}

/// HID++ reports.
impl Generator {
    /// A reply to a request that waits, with values that records take.
    fn reply(&mut self) -> Vec<u8> {
        match self.some_waiting() {
            Some((port, waiting)) => self.reply_to(port, &waiting),
            None => self.unrequested(),
        }
    }

    /// A reply to the request in the highest place of the port.
    pub(super) fn reply_on(&mut self, port: u8) -> Vec<u8> {
        match self.youngest(port) {
            Some(waiting) => self.reply_to(port, &waiting),
            None => self.reply(),
        }
    }

    fn reply_to(&mut self, port: u8, waiting: &Waiting) -> Vec<u8> {
        let battery = self.index_of(port, BATTERY_LEVEL_STATUS);
        let parameters = match (waiting.key.byte2, waiting.key.function()) {
            (0, 0) => vec![self.returned_index(port)],
            (0, 1) => self.ping_answer(port, waiting, 10),
            (byte2, _) if byte2 == battery => self.battery(),
            (0x80.., _) if waiting.key.byte3 == Key::PAIRING_INFORMATION.byte3 => {
                self.pairing_information(waiting.parameters[0])
            }
            _ => vec![],
        };
        self.hidpp(port, waiting.key, &parameters)
    }

    /// A version and the ping's byte, its third parameter; this many times in
    /// a hundred another byte.
    fn ping_answer(&mut self, port: u8, ping: &Waiting, missed: usize) -> Vec<u8> {
        let mut answer = vec![
            self.rng.pick(&[0, 1, 1, 1, 2, 2, 2, 4, 4, 255]),
            self.rng.pick(&[0, 0, 1, 2, 5, 255]),
            ping.parameters[2],
        ];
        if self.rng.chance(missed) {
            answer[2] = self.missed_byte(port, ping);
            // The right byte may come at another place.
            match self.rng.below(6) {
                0 => answer[0] = ping.parameters[2],
                1 => answer[1] = ping.parameters[2],
                2 => answer.push(ping.parameters[2]),
                _ => (),
            }
        }
        answer
    }

    /// A byte that is near the ping's in the request, or is another ping's.
    fn missed_byte(&mut self, port: u8, ping: &Waiting) -> u8 {
        let [first, second, third] = ping.parameters;
        let others = match self.rng.below(14) {
            0 => vec![first],
            1 => vec![second],
            2 => vec![ping.key.byte3],
            3 => vec![ping.key.software_id()],
            4 | 5 => vec![third ^ 1 << self.rng.below(8)],
            6 => vec![self.edge_byte()],
            7..=9 => self.other_pings(port, ping.key),
            _ => self.earlier_bytes(port, ping.key),
        };
        let others: Vec<u8> = others.into_iter().filter(|&byte| byte != third).collect();
        self.rng.pick_if_any(&others).unwrap_or(third ^ 1)
    }

    /// The bytes of the pings that wait with this key on another port, or with
    /// another one on this.
    fn other_pings(&self, port: u8, key: Key) -> Vec<u8> {
        let mut bytes = Vec::new();
        for (number, held) in self.station.ports() {
            let pings = held.waiting().filter(|waiting| waiting.key.is_ping());
            let others = pings.filter(|ping| (number.byte() == port) != (ping.key == key));
            bytes.extend(others.map(|ping| ping.parameters[2]));
        }
        bytes
    }

    /// The third parameters of the requests made there of late with this key.
    fn earlier_bytes(&self, port: u8, key: Key) -> Vec<u8> {
        let recent = self.recent.iter().filter(|(at, _)| *at == port);
        let same = recent.filter(|(_, request)| request.key == key);
        same.map(|(_, request)| request.parameters[2]).collect()
    }

    /// A report that answers some ping of the port, or nearly that; where none
    /// waits, one made there of late. Now and then it is an event, or of
    /// another port.
    pub(super) fn answer_ping(&mut self, port: u8) -> Vec<u8> {
        let waiting = self.port(port).into_iter().flat_map(|port| port.waiting());
        let recent = self.recent.iter().filter(|(at, _)| *at == port);
        let recent = recent.map(|(_, request)| request);
        let is_ping = |request: &&Waiting| request.key.is_ping();
        let mut pings: Vec<Waiting> = waiting.filter(is_ping).copied().collect();
        if pings.is_empty() {
            pings = recent.filter(is_ping).copied().collect();
        }
        let Some(ping) = self.rng.pick_if_any(&pings) else {
            return self.near_reply();
        };
        let (mut to, mut key) = (port, ping.key);
        let parameters = self.ping_answer(port, &ping, 60);
        match self.rng.below(16) {
            0 => key.byte3 &= 0xF0,
            1 => to = self.device_or_receiver(),
            _ => (),
        }
        self.hidpp(to, key, &parameters)
    }

    /// An error for the request in the highest place of the port.
    pub(super) fn error_on(&mut self, port: u8) -> Vec<u8> {
        match self.youngest(port) {
            Some(waiting) => self.error_report(port, waiting.key),
            None => self.error(),
        }
    }

    /// The request in the highest place of a port.
    pub(super) fn youngest(&self, port: u8) -> Option<Waiting> {
        self.port(port)?.waiting().last().copied()
    }

    /// A reply of the receiver that tells a device's serial. Now and then it
    /// is short, for another parameter, of another port or sub id.
    pub(super) fn tell_serial(&mut self, device: u8) -> Vec<u8> {
        let mut id = ReportId::HidppLong;
        let mut port = PortNumber::RECEIVER.byte();
        let mut key = Key::PAIRING_INFORMATION;
        let asked = match self.asked_parameter() {
            Some(parameter) if self.rng.chance(40) => parameter,
            _ => FIRST_SERIAL - 1 + device,
        };
        let mut parameters = self.pairing_information(asked);
        match self.rng.below(20) {
            0 => id = ReportId::HidppShort,
            1 => parameters[0] = self.serial_parameter(device),
            2 => port = device,
            3 => key.byte2 = 0x82,
            // An error, whose offsets 3 to 5 name the request and the code.
            4 => {
                let named = key;
                key = Key {
                    byte2: 0x8F,
                    byte3: named.byte2,
                };
                parameters = vec![named.byte3, 3];
            }
            _ => (),
        }
        let start = [&[port, key.byte2, key.byte3], &parameters[..]].concat();
        self.filled(id, &start)
    }

    /// The first parameter of the request for register B5 that waits.
    fn asked_parameter(&self) -> Option<u8> {
        let mut waiting = self.station.port(PortNumber::RECEIVER).waiting();
        let request = waiting.find(|waiting| waiting.key == Key::PAIRING_INFORMATION)?;
        Some(request.parameters[0])
    }

    /// The first parameter and the serial of the device that it names: often
    /// the one that is known, or one bit or the order of the bytes apart.
    fn pairing_information(&mut self, parameter: u8) -> Vec<u8> {
        let device = asked_serial(parameter).map(PortNumber::byte);
        let known = device.and_then(|device| self.port(device)?.serial);
        let serial = match known {
            Some(serial) if self.rng.chance(30) => serial,
            Some(serial) if self.rng.chance(40) => {
                let bit = 1 << self.rng.below(32);
                self.rng.pick(&[serial ^ bit, serial.swap_bytes()])
            }
            _ => {
                let usual = [0, 1, 0x1234_5678, 0xFB84_1B86, 0x8000_0000, 0xFFFF_FFFF];
                self.rng.pick(&usual)
            }
        };
        [&[parameter][..], &serial.to_be_bytes()].concat()
    }

    /// Often an index that the port already holds for another feature.
    fn returned_index(&mut self, port: u8) -> u8 {
        let features = [BATTERY_LEVEL_STATUS, WIRELESS_DEVICE_STATUS];
        let held = features.map(|feature| self.index_of(port, feature));
        match self.rng.below(20) {
            0 => self.rng.byte(),
            1..=3 => self.rng.pick(&[0, 1, 62, 63, 63, 64, 64, 65, 0x80, 0xFF]),
            4..=9 => self.rng.pick(&held),
            _ => self.rng.pick(&[4, 5, 5, 6]),
        }
    }

    fn battery(&mut self) -> Vec<u8> {
        let mut battery = [0; 3].map(|_| self.rng.between(0, 100) as u8);
        if self.rng.chance(50) {
            let at = self.rng.below(3);
            let edges = [0, 100, 100, 100, 101, 101, 0x80, 255];
            battery[at] = self.rng.pick(&edges);
        }
        battery.to_vec()
    }

    /// An error for a request that waits; 0xFF isn't one for all of them.
    fn error(&mut self) -> Vec<u8> {
        match self.some_waiting() {
            Some((port, waiting)) => self.error_report(port, waiting.key),
            None => self.near_reply(),
        }
    }

    fn error_report(&mut self, port: u8, named: Key) -> Vec<u8> {
        let code = if self.rng.chance(60) {
            1
        } else {
            self.edge_byte()
        };
        let key = Key {
            byte2: self.rng.pick(&[0x8F, 0xFF]),
            byte3: named.byte2,
        };
        self.hidpp(port, key, &[named.byte3, code])
    }

    /// A reply or an error that misses a waiting request, or comes too late.
    fn near_reply(&mut self) -> Vec<u8> {
        let (port, key) = match self.rng.below(10) {
            0..=2 => self.recent_request(),
            3 => (self.device_or_receiver(), self.ping()),
            _ => self.missed_request(),
        };
        if self.rng.chance(50) {
            return self.error_report(port, key);
        }
        let mut parameters = self.battery();
        let earlier = self.earlier_bytes(port, key);
        if let Some(byte) = self.rng.pick_if_any(&earlier) {
            parameters[2] = byte;
        }
        self.hidpp(port, key, &parameters)
    }

    fn ping(&mut self) -> Key {
        Key {
            byte2: 0,
            byte3: 0x10 + self.rng.between(1, 15) as u8,
        }
    }

    fn recent_request(&mut self) -> (u8, Key) {
        match self.rng.pick_if_any(&self.recent) {
            Some((port, request)) => (port, request.key),
            None => (self.focus[0], self.ping()),
        }
    }

    fn missed_request(&mut self) -> (u8, Key) {
        let (mut port, mut key) = match self.some_waiting() {
            Some((port, waiting)) => (port, waiting.key),
            None => (self.device_or_receiver(), self.any_key()),
        };
        match self.rng.below(4) {
            0 => port = self.device_or_receiver(),
            1 => key.byte2 = key.byte2.wrapping_add(self.rng.pick(&[1, 0xFF, 0x40])),
            2 => key.byte3 ^= 0x10 << self.rng.below(4),
            _ => key.byte3 ^= 1 << self.rng.below(4),
        }
        (port, key)
    }

    fn event(&mut self) -> Vec<u8> {
        let holders = self.ports_where(|port| {
            let features = [BATTERY_LEVEL_STATUS, WIRELESS_DEVICE_STATUS];
            features
                .iter()
                .any(|&feature| port.index_of(feature).0 != 0)
        });
        let port = match self.rng.pick_if_any(&holders) {
            Some(port) if self.rng.chance(85) => port,
            _ => self.device_or_receiver(),
        };
        self.event_on(port)
    }

    /// Event 0 of a feature that the port holds, or nearly that.
    pub(super) fn event_on(&mut self, port: u8) -> Vec<u8> {
        let features = [BATTERY_LEVEL_STATUS, WIRELESS_DEVICE_STATUS];
        let feature = self.rng.pick(&features);
        let byte2 = match self.index_of(port, feature) {
            0 => self.feature_byte(),
            index => index,
        };
        let byte3 = match self.rng.below(10) {
            0 => 0x10,
            1 => self.rng.pick(&[0x01, 0x0F, 0x20, 0xF0]),
            _ => 0x00,
        };
        let parameters = self.battery();
        self.hidpp(port, Key { byte2, byte3 }, &parameters)
    }

    fn unrequested(&mut self) -> Vec<u8> {
        let port = self.device_or_receiver();
        let key = self.any_key();
        self.hidpp(port, key, &[])
    }
}

/// DJ reports.
impl Generator {
    pub(super) fn paired(&mut self, port: u8) -> Vec<u8> {
        let flags = self.rng.pick(&[0, 0, 0, 1, 1, 4, 0x80, 0xFC, 0xFD]);
        let wpid = self.paired_wpid(port);
        let reports = match self.rng.below(6) {
            0 => self.rng.pick(&[0, 1, 0x8000_0000, 0xFFFF_FFFF]),
            1 => u32::from_le_bytes([0; 4].map(|_| self.rng.byte())),
            2 => self.rng.pick(&[0x0000_0E1E, 0x0000_013F]),
            _ => 0x0000_011E | 1 << self.rng.below(32),
        };
        let mut parameters = vec![flags];
        parameters.extend(wpid.to_le_bytes());
        parameters.extend(reports.to_le_bytes());
        self.dj(port, dj::PAIRED, &parameters)
    }

    fn paired_wpid(&mut self, port: u8) -> u16 {
        let paired = self.port(port).filter(|port| port.paired);
        match paired.map(|port| port.wpid) {
            Some(wpid) if self.rng.chance(45) => wpid,
            // One bit or the order of the bytes apart from the one held.
            Some(wpid) if self.rng.chance(30) => {
                self.rng.pick(&[wpid ^ 1, wpid ^ 0x8000, wpid.swap_bytes()])
            }
            // WPID 0 is what an unpaired port holds.
            _ => self.rng.pick(&[0x2010, 0x1020, 0x4024, 0x0000, 0xFFFF]),
        }
    }

    fn empty_list(&mut self) -> Vec<u8> {
        let port = self.rng.byte();
        let flags = self.rng.byte() | dj::EMPTY_LIST;
        self.dj(port, dj::PAIRED, &[flags])
    }

    fn unpaired(&mut self) -> Vec<u8> {
        let busy = self.ports_where(|port| port.waiting_count() > 0);
        let port = match self.rng.pick_if_any(&busy) {
            Some(port) if self.rng.chance(50) => port,
            _ => self.device(),
        };
        self.dj(port, dj::UNPAIRED, &[])
    }

    fn link(&mut self) -> Vec<u8> {
        let port = self.device();
        let flags = self.rng.pick(&[0, 0, 1, 1, 2, 3, 0xFE, 0xFF]);
        self.dj(port, dj::LINK, &[flags])
    }

    fn other_notice(&mut self) -> Vec<u8> {
        let port = self.device_or_receiver();
        let report_type = match self.rng.below(2) {
            0 => self.rng.pick(&[0x43, 0x44, 0x7E, 0x7F]),
            _ => self.rng.between(0x43, 0x7F) as u8,
        };
        self.dj(port, report_type, &[])
    }

    fn radio(&mut self) -> Vec<u8> {
        let paired = self.ports_where(|port| port.paired);
        let port = match self.rng.pick_if_any(&paired) {
            Some(port) if self.rng.chance(90) => port,
            _ => self.device(),
        };
        self.radio_of(port)
    }

    /// A radio report of a type that the device declares, or nearly that.
    pub(super) fn radio_of(&mut self, port: u8) -> Vec<u8> {
        let report_type = match self.rng.below(10) {
            0 => self.rng.between(0, 0x3F) as u8,
            1 => self.rng.between(32, 0x3F) as u8,
            2..=5 => self.rng.pick(&[1, 2, 3, 4, 8]),
            _ => self.declared_type(port),
        };
        let mut report = self.dj(port, report_type, &[]);
        let start = ReportId::DjShort.start();
        let payload = split_payload(report_type, &report[start..]).0;
        let padding = start + payload.len();
        if padding < report.len() {
            self.pad(&mut report, padding);
        }
        report
    }

    /// Padding from this offset on: most often clean, else dirty in one byte
    /// or in two, and now and then whatever the report was filled with.
    fn pad(&mut self, report: &mut [u8], padding: usize) {
        if self.rng.chance(5) {
            return;
        }
        report[padding..].fill(0);
        if self.rng.chance(75) {
            return;
        }
        let last = report.len() - 1;
        // Behind the end of a short report, in a long one.
        let behind = last.min(ReportId::DjShort.length());
        let at = match self.rng.below(10) {
            0 | 1 => padding,
            2 | 3 => last,
            4 => ReportId::DjShort.length() - 1,
            5 => behind,
            6 => self.rng.between(behind, last),
            _ => self.rng.between(padding, last),
        };
        report[at] = match self.rng.below(2) {
            0 => 1 << self.rng.below(8),
            _ => self.rng.between(1, 255) as u8,
        };
        if self.rng.chance(25) {
            // Two that are 0 in a sum of eight bits.
            let other = self.rng.between(padding, last);
            report[at] = 0x80;
            report[other] = 0x80;
        }
    }

    fn declared_type(&mut self, port: u8) -> u8 {
        let declares = |t: &u8| self.port(port).is_some_and(|port| port.declares(*t));
        let declared: Vec<u8> = (0..32).filter(declares).collect();
        self.rng.pick_if_any(&declared).unwrap_or(0x1F)
    }
}

/// Reports with something wrong.
impl Generator {
    /// A report that one of the refusals 1 to 6 is for.
    fn refused_report(&mut self) -> Vec<u8> {
        match self.rng.below(12) {
            0 => vec![],
            1 => self.unknown_id(),
            2 | 3 => self.wrong_length(),
            4 | 5 => self.down_only(),
            6..=9 => self.wrong_port(),
            _ => {
                let port = self.device_or_receiver();
                let key = self.reserved_key();
                self.hidpp(port, key, &[])
            }
        }
    }

    fn unknown_id(&mut self) -> Vec<u8> {
        let length = self.rng.pick(&[1, 2, 7, 15, 20, 32, 33]);
        let mut report = self.edge_bytes(length);
        report[0] = match self.rng.below(2) {
            0 => self.rng.pick(&[0x00, 0x0F, 0x12, 0x1F, 0x22, 0xFF]),
            _ => self.rng.byte(),
        };
        report
    }

    fn wrong_length(&mut self) -> Vec<u8> {
        let near = [6, 7, 8, 14, 15, 16, 19, 20, 21, 31, 32, 33];
        let length = match self.rng.below(2) {
            0 => self.rng.pick(&near),
            _ => self.rng.between(1, 40),
        };
        let mut report = self.edge_bytes(length);
        report[0] = self.rng.pick(&[0x10, 0x11, 0x20, 0x21]);
        report
    }

    fn down_only(&mut self) -> Vec<u8> {
        let port = match self.rng.below(2) {
            0 => self.device(),
            _ => self.rng.byte(),
        };
        let report_type = self.rng.pick(&[0x0E, 0x0E, 0x80, 0x81, 0xC0, 0xFF]);
        self.dj(port, report_type, &[])
    }

    fn reserved_key(&mut self) -> Key {
        Key {
            byte2: self.rng.pick(&[0x84, 0x88, 0x8E, 0x90, 0xA5, 0xFE]),
            byte3: self.edge_byte(),
        }
    }

    /// Any report whose port is none, or the receiver where only devices are.
    fn wrong_port(&mut self) -> Vec<u8> {
        if self.rng.chance(40) {
            let port = self.no_port();
            let key = match self.rng.below(3) {
                0 => self.reserved_key(),
                _ => self.any_key(),
            };
            return self.hidpp(port, key, &[]);
        }
        let port = match self.rng.below(2) {
            0 => PortNumber::RECEIVER.byte(),
            _ => self.no_port(),
        };
        let report_type = match self.rng.below(2) {
            0 => self.rng.between(0, dj::LAST_RADIO.into()) as u8,
            _ => self.rng.pick(&[0x40, 0x41, 0x41, 0x42, 0x43, 0x7F]),
        };
        let flags = self.rng.pick(&[0, 1, 1, 2]);
        self.dj(port, report_type, &[flags])
    }

    fn damage(&mut self, report: &mut Vec<u8>) {
        let at = self.rng.below(report.len().max(1));
        match self.rng.below(5) {
            0 => report.truncate(at),
            1 => report.push(0),
            _ if report.is_empty() => report.push(0x10),
            2 => report[at] = self.rng.byte(),
            3 => report[at] ^= 1 << self.rng.below(8),
            _ => report[0] = self.rng.pick(&[0x10, 0x11, 0x20, 0x21]),
        }
    }
}
