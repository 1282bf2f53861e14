//! Random scripts. The generator follows its own script on a station, so that
//! replies, errors, events, repeats, cancels and radio reports aim at what
//! waits or is declared at that point.

mod blocks;
mod plan;
mod reports;
mod rng;
mod spelling;
mod stores;
mod writers;

use std::io::{self, Write};

use crate::script::{make, parse, Answer, Call, Line, MOST_BYTES};
use crate::station::{Key, Port, PortNumber, Station, Waiting};
pub use blocks::write_runs;
use plan::Step;
use rng::Rng;
use spelling::{spell, spell_no_call, spell_silent};

/// Writes a random script in which `count` lines are answered; lines that
/// are no call count, empty lines and comments come on top. The last call is
/// a dump.
pub fn write_script(seed: u64, count: u64, mut output: impl Write) -> io::Result<()> {
    let mut generator = Generator::new(seed);
    for remaining in (0..count).rev() {
        while generator.rng.chance(3) {
            output.write_all(&spell_silent(&mut generator.rng))?;
            output.write_all(b"\n")?;
        }
        if remaining > 0 {
            output.write_all(&generator.answered_line())?;
            output.write_all(b"\n")?;
        } else {
            output.write_all(&spell(&mut generator.rng, &Call::Dump))?;
        }
    }
    // The last line of a script may lack its newline.
    if generator.rng.chance(50) {
        output.write_all(b"\n")?;
    }
    output.flush()
}

pub struct Generator {
    rng: Rng,
    station: Station,
    /// The two devices that most calls are about for a while.
    focus: [u8; 2],
    /// Calls that a longer aim still needs, the next one last.
    plan: Vec<Step>,
    /// Requests made of late with their ports, whether they still wait or not.
    recent: Vec<(u8, Waiting)>,
    /// Stores written of late.
    stores: Vec<Vec<u8>>,
}

const DJ_FRAME: usize = 15;
const MOST_RECENT: usize = 6;
const MOST_STORES: usize = 3;

impl Generator {
    pub fn new(seed: u64) -> Generator {
        Generator {
            rng: Rng::new(seed),
            station: Station::default(),
            focus: [1, 2],
            plan: Vec::new(),
            recent: Vec::new(),
            stores: Vec::new(),
        }
    }

    fn next_call(&mut self) -> Call {
        if self.rng.below(150) == 0 {
            self.focus = [0; 2].map(|_| self.rng.between(1, 6) as u8);
        }
        if self.plan.is_empty() && self.rng.below(25) == 0 {
            self.make_plan();
        }
        let step = if self.rng.chance(85) {
            self.plan.pop()
        } else {
            None
        };
        match step {
            Some(step) => self.planned(step),
            None => self.call(),
        }
    }

    /// A call of the station, which the generator makes on its own.
    pub fn station_call(&mut self) -> Call {
        loop {
            let call = self.next_call();
            if call.is_of_station() {
                self.follow(&call);
                return call;
            }
        }
    }

    /// A line that has an answer, without its newline.
    pub fn answered_line(&mut self) -> Vec<u8> {
        let call = self.next_call();
        let line = if self.rng.chance(4) {
            spell_no_call(&mut self.rng, &call)
        } else {
            spell(&mut self.rng, &call)
        };
        if let Line::Call(call) = parse(&line) {
            self.follow(&call);
        }
        line
    }

    fn follow(&mut self, call: &Call) {
        let answer = make(&mut self.station, call);
        if let (Call::Store(lent), Answer::Written(Ok(length), buffer)) = (call, answer) {
            let offset = usize::from(lent.offset);
            self.stores.push(buffer[offset..offset + length].to_vec());
            if self.stores.len() > MOST_STORES {
                self.stores.remove(0);
            }
        }
        if let Call::Request {
            port,
            key,
            parameters,
            ..
        } = call
        {
            let parameter = |index| parameters.get(index).copied().unwrap_or(0);
            let request = Waiting {
                key: *key,
                parameters: [0, 1, 2].map(parameter),
                ticks: 0,
            };
            self.recent.push((*port, request));
            if self.recent.len() > MOST_RECENT {
                self.recent.remove(0);
            }
        }
    }

    fn call(&mut self) -> Call {
        match self.rng.below(220) {
            0..=102 => Call::Take(self.report()),
            103..=142 => self.request(),
            143..=148 => self.cancel(),
            149..=158 => Call::Tick,
            159..=162 => self.switch(),
            163..=165 => Call::GetPaired(self.lent(DJ_FRAME)),
            166..=169 => self.led(),
            170..=173 => self.list(),
            174..=181 => Call::Read(self.report()),
            182..=188 => self.frame(),
            189..=194 => Call::Mouse(self.payload()),
            195 => self.longest(),
            196..=198 => self.store(),
            199..=215 => self.restore(),
            _ => Call::Dump,
        }
    }

    /// A list of bytes at the limit, which no call accepts.
    fn longest(&mut self) -> Call {
        let mut list = self.report();
        list.resize(MOST_BYTES - self.rng.below(2), 0);
        match self.rng.below(3) {
            0 => Call::Take(list),
            1 => Call::Read(list),
            _ => Call::Mouse(list),
        }
    }

    fn payload(&mut self) -> Vec<u8> {
        let length = match self.rng.below(8) {
            0 => self.rng.pick(&[0, 1, 6, 8, 12, 29]),
            _ => 7,
        };
        let mut payload = self.edge_bytes(length);
        if length == 7 && self.rng.chance(60) {
            let nibbles = [0x07, 0x08, 0x0F, 0x70, 0x80, 0xF0, 0x87, 0x78];
            payload[3] = self.rng.pick(&nibbles);
            payload[4] = self.rng.pick(&[0x00, 0x7F, 0x80, 0xFF]);
        }
        payload
    }
}

/// Bytes and ports.
impl Generator {
    /// A byte, most often one at an edge.
    fn edge_byte(&mut self) -> u8 {
        match self.rng.below(3) {
            0 => 0,
            1 => self.rng.pick(&[0x00, 0x01, 0x02, 0x7F, 0x80, 0xFF]),
            _ => self.rng.byte(),
        }
    }

    fn edge_bytes(&mut self, count: usize) -> Vec<u8> {
        (0..count).map(|_| self.edge_byte()).collect()
    }

    fn device(&mut self) -> u8 {
        if self.rng.chance(80) {
            self.rng.pick(&self.focus)
        } else {
            self.rng.between(1, 6) as u8
        }
    }

    fn device_or_receiver(&mut self) -> u8 {
        if self.rng.chance(20) {
            PortNumber::RECEIVER.byte()
        } else {
            self.device()
        }
    }

    fn no_port(&mut self) -> u8 {
        self.rng.pick(&[0, 7, 8, 9, 0x7F, 0x80, 0xFE])
    }

    fn port(&self, byte: u8) -> Option<&Port> {
        let number = PortNumber::device_or_receiver(byte).ok()?;
        Some(self.station.port(number))
    }

    /// The index that a port holds for a feature; 0 where none.
    fn index_of(&self, port: u8, feature: u16) -> u8 {
        self.port(port).map_or(0, |port| port.index_of(feature).0)
    }

    fn ports_where(&self, holds: impl Fn(&Port) -> bool) -> Vec<u8> {
        let ports = self.station.ports().filter(|(_, port)| holds(port));
        ports.map(|(number, _)| number.byte()).collect()
    }

    /// Some request that waits, with its port.
    fn some_waiting(&mut self) -> Option<(u8, Waiting)> {
        let all = self.station.ports().flat_map(|(number, port)| {
            let byte = number.byte();
            port.waiting().map(move |&waiting| (byte, waiting))
        });
        let all: Vec<_> = all.collect();
        self.rng.pick_if_any(&all)
    }

    /// A byte 2 that is a feature index; few values, so that they meet.
    fn feature_byte(&mut self) -> u8 {
        match self.rng.below(4) {
            0 => self.rng.between(0, 0x3F) as u8,
            1 => self.rng.pick(&[0, 1, 0x3F]),
            _ => self.rng.pick(&[4, 5, 6]),
        }
    }

    fn any_key(&mut self) -> Key {
        Key {
            byte2: match self.rng.below(4) {
                0 => self.rng.byte(),
                1 => self.rng.pick(&[0x80, 0x81, 0x82, 0x83]),
                2 => self.rng.pick(&[0x3F, 0x40, 0x41, 0x7F, 0x5A]),
                _ => self.feature_byte(),
            },
            byte3: self.edge_byte(),
        }
    }
}
