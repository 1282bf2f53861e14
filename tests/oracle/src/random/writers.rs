//! Random calls that write, and cancels.

use super::{Generator, DJ_FRAME};
use crate::script::{Call, Lent, MOST_BYTES, MOST_LENT};
use crate::station::{
    Key, PortNumber, BATTERY_LEVEL_STATUS, FIRST_SERIAL, KNOWN_FEATURES, WIRELESS_DEVICE_STATUS,
};

/// A request before it is given an offset to be written at.
pub struct Draft {
    pub port: u8,
    pub key: Key,
    pub ticks: u16,
    pub parameters: Vec<u8>,
}

impl Draft {
    pub fn request(self, lent: Lent) -> Call {
        Call::Request {
            port: self.port,
            key: self.key,
            ticks: self.ticks,
            lent,
            parameters: self.parameters,
        }
    }

    fn frame(self, lent: Lent) -> Call {
        Call::Frame {
            port: self.port,
            key: self.key,
            lent,
            parameters: self.parameters,
        }
    }
}

/// Requests and frames.
impl Generator {
    pub(super) fn request(&mut self) -> Call {
        let (draft, lent) = self.draft_and_lent();
        draft.request(lent)
    }

    pub(super) fn frame(&mut self) -> Call {
        let (draft, lent) = self.draft_and_lent();
        draft.frame(lent)
    }

    /// About one in three has something wrong, some two or three things, so
    /// that the order of the refusals matters.
    fn draft_and_lent(&mut self) -> (Draft, Lent) {
        let port = self.requested_port();
        let mut draft = match self.rng.below(10) {
            0 => self.repeated(port),
            _ => self.fresh_draft(port),
        };
        let spoilt = self.rng.chance(22);
        if spoilt {
            self.spoil(&mut draft);
            if self.rng.chance(30) {
                self.spoil(&mut draft);
            }
        }
        let length = 4 + draft.parameters.len();
        let lent = if spoilt && self.rng.chance(30) {
            self.too_small(length)
        } else {
            self.lent(length)
        };
        (draft, lent)
    }

    pub(super) fn fresh_draft(&mut self, port: u8) -> Draft {
        let software_id = self.rng.pick(&[1, 1, 2, 3, 0x0E, 0x0F]);
        let (byte2, function, mut start) = self.purpose(port);
        let byte3 = match byte2 {
            0x80..=0x83 => self.rng.pick(&[0x00, 0x02, 0x11, 0xB5, 0xF1, 0xFF]),
            _ => function * 16 + software_id,
        };
        let key = Key { byte2, byte3 };
        if byte2 >= 0x80 && byte3 == Key::PAIRING_INFORMATION.byte3 {
            let device = self.device();
            start = vec![self.serial_parameter(device)];
        }
        Draft {
            port,
            key,
            ticks: self.ticks(),
            parameters: self.parameters(key, &start),
        }
    }

    /// Often a port where some wait already, so that ports fill up.
    fn requested_port(&mut self) -> u8 {
        let busy = self.ports_where(|port| port.waiting_count() >= 2);
        match self.rng.pick_if_any(&busy) {
            Some(port) if self.rng.chance(35) => port,
            _ => self.device_or_receiver(),
        }
    }

    /// Byte 2, the function and the first parameters of a useful request.
    fn purpose(&mut self, port: u8) -> (u8, u8, Vec<u8>) {
        match self.rng.below(20) {
            0..=3 => (0, 1, self.ping_parameters().to_vec()),
            4..=8 => (0, 0, self.asked_feature().to_be_bytes().to_vec()),
            9..=12 => match self.index_of(port, BATTERY_LEVEL_STATUS) {
                0 => (self.feature_byte(), 0, vec![1]),
                index => (index, 0, vec![]),
            },
            13..=15 => (self.rng.pick(&[0x80, 0x81, 0x82, 0x83]), 0, vec![]),
            _ => (self.feature_byte(), self.rng.below(16) as u8, vec![1]),
        }
    }

    /// The first two are most often 0, the third is one of few values.
    pub(super) fn ping_parameters(&mut self) -> [u8; 3] {
        let third = match self.rng.below(4) {
            0 => self.edge_byte(),
            _ => self
                .rng
                .pick(&[0x00, 0x01, 0x11, 0x5A, 0x5A, 0x5B, 0x5B, 0xFF]),
        };
        match self.rng.below(4) {
            0 => [self.edge_byte(), self.edge_byte(), third],
            _ => [0, 0, third],
        }
    }

    /// The first parameter that asks for a device's serial, or nearly that.
    pub(super) fn serial_parameter(&mut self, device: u8) -> u8 {
        let asked = FIRST_SERIAL - 1 + device;
        match self.rng.below(16) {
            0 => self.rng.pick(&[0x2F, 0x2F, 0x36, 0x36, 0x00, 0xFF]),
            1 => asked ^ self.rng.pick(&[0x10, 0x70, 0x80]),
            2 => FIRST_SERIAL + self.rng.below(6) as u8,
            _ => asked,
        }
    }

    fn asked_feature(&mut self) -> u16 {
        let unknown = [0x0002, 0x0100, 0x0300, 0x0010, 0x4B1D, 0x1D00, 0xFFFF];
        let of_use = [BATTERY_LEVEL_STATUS, WIRELESS_DEVICE_STATUS];
        match self.rng.below(10) {
            0 => self.rng.pick(&unknown),
            1..=3 => self.rng.pick(&KNOWN_FEATURES),
            _ => self.rng.pick(&of_use),
        }
    }

    fn ticks(&mut self) -> u16 {
        match self.rng.below(4) {
            0 => self.rng.pick(&[4, 5, 9, 20, 100, 254, 255]),
            _ => self.rng.pick(&[1, 2, 2, 3, 6]),
        }
    }

    /// Parameters of a size that goes with the key.
    pub(super) fn parameters(&mut self, key: Key, start: &[u8]) -> Vec<u8> {
        let length = match key.byte2 {
            0x82 => 16,
            0x80 | 0x81 | 0x83 => 3,
            _ => self.rng.pick(&[3, 3, 16]),
        };
        let mut parameters = start.to_vec();
        parameters.extend(self.edge_bytes(length - start.len()));
        parameters
    }

    /// A request that waits already, on its own port or on this one.
    fn repeated(&mut self, port: u8) -> Draft {
        let Some((its_port, waiting)) = self.some_waiting() else {
            return self.fresh_draft(port);
        };
        Draft {
            port: if self.rng.chance(85) { its_port } else { port },
            key: waiting.key,
            ticks: self.ticks(),
            parameters: self.parameters(waiting.key, &waiting.parameters),
        }
    }

    /// Makes the request one that 5 or 9 is for.
    fn spoil(&mut self, draft: &mut Draft) {
        match self.rng.below(9) {
            0 | 1 => draft.port = self.no_port(),
            2 | 3 => draft.ticks = self.rng.pick(&[0, 0, 256, 257, 65535]),
            4 => self.spoil_length(draft),
            5 => {
                let bytes = [0x40, 0x40, 0x41, 0x7F, 0x84, 0x84, 0x8F, 0xFE, 0xFF];
                draft.key.byte2 = self.rng.pick(&bytes);
            }
            6 => {
                let wrong_sizes = [(0x82, 3), (0x80, 16), (0x81, 16), (0x83, 16)];
                let (byte2, length) = self.rng.pick(&wrong_sizes);
                draft.key.byte2 = byte2;
                draft.parameters.resize(length, 0);
            }
            7 => draft.key.byte3 &= 0xF0,
            _ => {
                draft.key.byte2 = 0;
                draft.key.byte3 &= 0x0F;
                let start = draft.parameters.iter_mut().take(2);
                start.for_each(|byte| *byte = 0);
            }
        }
    }

    fn spoil_length(&mut self, draft: &mut Draft) {
        let length = match self.rng.below(30) {
            0 => MOST_BYTES,
            _ => self.rng.pick(&[0, 1, 2, 4, 5, 15, 17, 32]),
        };
        draft.parameters.resize(length, 1);
    }
}

/// The other writers.
impl Generator {
    /// A lent buffer and an offset in it, most often with room for `length`.
    pub(super) fn lent(&mut self, length: usize) -> Lent {
        if self.rng.chance(15) {
            return self.too_small(length);
        }
        let most = usize::from(MOST_LENT);
        let offset = self.rng.pick(&[0, 0, 0, 1, 2, 3, 17]);
        match self.rng.below(200) {
            0 => lend(offset, most),
            1 => lend(most.saturating_sub(length), most),
            2..=80 => lend(offset, offset + length),
            _ => lend(offset, offset + length + self.rng.between(1, 4)),
        }
    }

    fn too_small(&mut self, length: usize) -> Lent {
        let offset = self.rng.pick(&[0, 0, 0, 1, 2, 3, 17]);
        let end = offset + length;
        match self.rng.below(16) {
            0 | 1 => lend(offset, 0),
            2 | 3 => lend(end + self.rng.below(3), end),
            4 => lend(65535 - self.rng.below(3) * length, end),
            // Offsets that would fit if their high bits were lost.
            5 => lend(self.rng.pick(&[256, 4096, 32768, 61440]), end),
            6 | 7 => lend(offset, self.rng.below(end)),
            _ => lend(offset, end - 1),
        }
    }

    pub(super) fn cancel(&mut self) -> Call {
        let (mut port, mut key) = match self.some_waiting() {
            Some((port, waiting)) => (port, waiting.key),
            None => (self.device_or_receiver(), self.any_key()),
        };
        match self.rng.below(10) {
            0 => port = self.no_port(),
            1 => port = self.device_or_receiver(),
            2 => key.byte2 ^= 1,
            3 => key.byte3 ^= 0x10,
            4 => key = self.any_key(),
            _ => (),
        }
        Call::Cancel { port, key }
    }

    /// Cancels the request in the highest place of the port.
    pub(super) fn cancel_on(&mut self, port: u8) -> Call {
        match self.youngest(port) {
            Some(waiting) => Call::Cancel {
                port,
                key: waiting.key,
            },
            None => self.cancel(),
        }
    }

    pub(super) fn switch(&mut self) -> Call {
        let bits = match self.rng.below(3) {
            0 => self.rng.pick(&[0x40, 0x80, 0xC0, 0xFF]),
            _ => self.rng.below(0x40) as u8,
        };
        Call::Switch {
            bits,
            timeout: self.edge_byte(),
            lent: self.lent(DJ_FRAME),
        }
    }

    pub(super) fn led(&mut self) -> Call {
        let port = match self.rng.below(4) {
            0 => PortNumber::RECEIVER.byte(),
            1 => self.no_port(),
            _ => self.device(),
        };
        Call::Led {
            port,
            value: self.edge_byte(),
            lent: self.lent(DJ_FRAME),
        }
    }

    pub(super) fn list(&mut self) -> Call {
        let length = self.station.listing().len();
        Call::List(self.lent(length))
    }
}

fn lend(offset: usize, length: usize) -> Lent {
    Lent {
        offset: offset.min(65535) as u16,
        length: length.min(usize::from(MOST_LENT)) as u16,
    }
}
