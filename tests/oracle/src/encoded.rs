//! Encoded calls: blocks of bytes that are made on a fresh station and
//! answered by rows, as tests/encoded/README.md says.

use std::io::{self, Read, Write};

use crate::script::LENT;
use crate::station::{Frame, Key, Link, Notice, Outcome, Refusal, Station, Taken};
use crate::store::Unread;

pub const HEADER: usize = 12;
pub const ROW: usize = 10;
/// The refusal of blocks that are no calls.
pub const MALFORMED: u8 = 31;
/// The number of kinds of row.
pub const KINDS: usize = 19;
/// The kinds of row of a store that is read.
pub const UNREAD: u8 = 17;
pub const RESTORED: u8 = 18;

/// The number by which a block says its call.
pub mod opcode {
    pub const TAKE: u8 = 0;
    pub const REQUEST: u8 = 1;
    pub const CANCEL: u8 = 2;
    pub const TICK: u8 = 3;
    pub const SWITCH: u8 = 4;
    pub const GET_PAIRED: u8 = 5;
    pub const LED: u8 = 6;
    pub const LIST: u8 = 7;
    pub const STORE: u8 = 8;
    pub const RESTORE: u8 = 9;
    /// Above it is none.
    pub const LAST: u8 = 9;
}

pub type Row = [u8; ROW];

// ---------------------------------------------------------------------------
// Blocks

/// One block: what its header says, and its data.
#[derive(Clone, Debug, Default, PartialEq, Eq)]
pub struct Block {
    pub opcode: u8,
    pub arguments: [u8; 3],
    pub ticks: u16,
    pub offset: u16,
    pub lent: u16,
    pub data: Vec<u8>,
}

impl Block {
    pub fn encode(&self, output: &mut Vec<u8>) {
        output.push(self.opcode);
        output.extend(self.arguments);
        for number in [self.ticks, self.offset, self.data.len() as u16, self.lent] {
            output.extend(number.to_le_bytes());
        }
        output.extend(&self.data);
    }

    /// The first block, and what follows it.
    fn decode(bytes: &[u8]) -> Option<(Block, &[u8])> {
        let (header, rest) = bytes.split_at_checked(HEADER)?;
        let number = |at: usize| u16::from_le_bytes([header[at], header[at + 1]]);
        let (data, rest) = rest.split_at_checked(usize::from(number(8)))?;
        let block = Block {
            opcode: header[0],
            arguments: [header[1], header[2], header[3]],
            ticks: number(4),
            offset: number(6),
            lent: number(10),
            data: data.to_vec(),
        };
        (block.opcode <= opcode::LAST).then_some((block, rest))
    }

    /// How much of the arena the call is lent.
    pub fn room(&self) -> usize {
        match self.opcode {
            opcode::TAKE | opcode::CANCEL | opcode::TICK | opcode::RESTORE => 0,
            _ => usize::from(self.lent),
        }
    }

    fn make(&self, station: &mut Station, lent: &mut [u8]) -> Row {
        let [a, b, c] = self.arguments;
        let key = Key { byte2: b, byte3: c };
        let offset = usize::from(self.offset);
        match self.opcode {
            opcode::TAKE => take_row(station.take(&self.data)),
            opcode::REQUEST => {
                let frame = Frame {
                    port: a,
                    key,
                    parameters: &self.data,
                };
                written_row(station.request(&frame, self.ticks, offset, lent))
            }
            opcode::CANCEL => match station.cancel(a, key) {
                Err(refusal) => row(14, &[refusal.number()]),
                Ok(()) => row(15, &[]),
            },
            opcode::TICK => row(16, &station.tick()),
            opcode::SWITCH => written_row(station.switch(a, b, offset, lent)),
            opcode::GET_PAIRED => written_row(station.get_paired(offset, lent)),
            opcode::LED => written_row(station.led(a, b, offset, lent)),
            opcode::LIST => written_row(station.list(offset, lent)),
            opcode::STORE => written_row(station.store(offset, lent)),
            _ => restored_row(station.restore(&self.data)),
        }
    }
}

/// Every block, where they use up the bytes and an arena of this length.
fn decode(mut bytes: &[u8], mut arena: usize) -> Option<Vec<Block>> {
    let mut blocks = Vec::new();
    while !bytes.is_empty() {
        let (block, rest) = Block::decode(bytes)?;
        arena = arena.checked_sub(block.room())?;
        bytes = rest;
        blocks.push(block);
    }
    (arena == 0).then_some(blocks)
}

// ---------------------------------------------------------------------------
// Rows

fn row(kind: u8, values: &[u8]) -> Row {
    let mut row = [0; ROW];
    row[0] = kind;
    row[1..=values.len()].copy_from_slice(values);
    row
}

fn written_row(written: Result<usize, Refusal>) -> Row {
    match written {
        Err(refusal) => row(12, &[refusal.number()]),
        Ok(length) => row(13, &(length as u16).to_le_bytes()),
    }
}

/// The row of a store that is read; with 16 comes the number of the line.
fn restored_row(restored: Result<(), Unread>) -> Row {
    match restored {
        Ok(()) => row(RESTORED, &[]),
        Err(unread) => {
            let line = match unread {
                Unread::OtherEdition => 0,
                Unread::BrokenLine(line) => line,
            };
            row(UNREAD, &[unread.refusal().number(), line])
        }
    }
}

fn take_row(taken: Result<Taken, Refusal>) -> Row {
    match taken {
        Err(refusal) => row(0, &[refusal.number()]),
        Ok(Taken::Hidpp {
            outcome,
            port,
            key,
            length,
        }) => {
            let mut values = vec![port.byte(), key.byte2, key.byte3, 4, length as u8];
            let kind = match outcome {
                Outcome::Reply { dropped } => {
                    values.push(dropped);
                    1
                }
                Outcome::Stray => 2,
                Outcome::Plain => 3,
                Outcome::Event => 4,
                Outcome::Error { code, kind } => {
                    values.extend([code, kind.byte()]);
                    5
                }
            };
            row(kind, &values)
        }
        Ok(Taken::Radio {
            report_type,
            length,
        }) => row(6, &[report_type, 3, length as u8]),
        Ok(Taken::Notice(notice)) => notice_row(notice),
    }
}

fn notice_row(notice: Notice) -> Row {
    match notice {
        Notice::Unpaired { port, dropped } => row(7, &[port.byte(), dropped]),
        Notice::Paired {
            port,
            more,
            wpid,
            reports,
            dropped,
        } => {
            let mut values = vec![port.byte(), u8::from(more)];
            values.extend(wpid.to_le_bytes());
            values.extend(reports.to_le_bytes());
            values.push(dropped);
            row(8, &values)
        }
        Notice::EmptyList => row(9, &[]),
        Notice::Link { port, link } => row(10, &[port.byte(), u8::from(link == Link::Up)]),
        Notice::Other { port, report_type } => row(11, &[port.byte(), report_type]),
    }
}

// ---------------------------------------------------------------------------
// Runs

/// Makes encoded calls on a fresh station: the number of bytes of rows, or
/// the refusal, which leaves the arena and the answers as they stood.
pub fn run(encoded: &[u8], mut arena: &mut [u8], answers: &mut [u8]) -> Result<usize, u8> {
    let blocks = decode(encoded, arena.len()).ok_or(MALFORMED)?;
    let length = blocks.len() * ROW;
    if length > answers.len() {
        return Err(Refusal::DoesNotFit.number());
    }
    let mut station = Station::default();
    for (block, row) in blocks.iter().zip(answers.chunks_exact_mut(ROW)) {
        let (lent, rest) = arena.split_at_mut(block.room());
        row.copy_from_slice(&block.make(&mut station, lent));
        arena = rest;
    }
    Ok(length)
}

/// How many runs were refused and how, and how often each kind of row came.
#[derive(Debug, Default)]
pub struct Tally {
    pub malformed: u64,
    pub no_room: u64,
    pub kinds: [u64; KINDS],
    /// Requests dropped by replies that told another serial.
    pub dropped: u64,
    /// Radio reports refused for their padding.
    pub dirty: u64,
}

impl Tally {
    pub fn is_complete(&self) -> bool {
        let counts = [self.malformed, self.no_room, self.dropped, self.dirty];
        counts.iter().chain(&self.kinds).all(|&count| count > 0)
    }

    fn add(&mut self, row: &[u8]) {
        self.kinds[usize::from(row[0])] += 1;
        if row[0] == 1 {
            self.dropped += u64::from(row[6]);
        }
        if row[..2] == [0, Refusal::DirtyPadding.number()] {
            self.dirty += 1;
        }
    }
}

/// Makes each run of a file: the lengths of the encoded calls, of the arena
/// and of the answers in four bytes each, the encoded calls, the arena.
/// Writes what it leaves: the refusal, the length of the rows in four bytes,
/// the arena, the answers.
pub fn run_all(mut input: impl Read, mut output: impl Write) -> io::Result<Tally> {
    let mut tally = Tally::default();
    while let Some(lengths) = read_lengths(&mut input)? {
        let [encoded, arena, answers] = lengths;
        let encoded = read_bytes(&mut input, encoded)?;
        let mut arena = read_bytes(&mut input, arena)?;
        let mut answers = vec![LENT; answers];
        let ran = run(&encoded, &mut arena, &mut answers);
        match ran {
            Err(MALFORMED) => tally.malformed += 1,
            Err(_) => tally.no_room += 1,
            Ok(length) => {
                let rows = answers[..length].chunks_exact(ROW);
                rows.for_each(|row| tally.add(row));
            }
        }
        output.write_all(&[ran.err().unwrap_or(0)])?;
        output.write_all(&(ran.unwrap_or(0) as u32).to_le_bytes())?;
        output.write_all(&arena)?;
        output.write_all(&answers)?;
    }
    output.flush()?;
    Ok(tally)
}

fn read_lengths(input: &mut impl Read) -> io::Result<Option<[usize; 3]>> {
    let mut bytes = Vec::new();
    input.take(12).read_to_end(&mut bytes)?;
    if bytes.is_empty() {
        return Ok(None);
    }
    let numbers = bytes.chunks(4).map(|part| part.try_into());
    let numbers: Result<Vec<[u8; 4]>, _> = numbers.collect();
    match numbers.ok().as_deref() {
        Some(&[encoded, arena, answers]) => Ok(Some(
            [encoded, arena, answers].map(|part| u32::from_le_bytes(part) as usize),
        )),
        _ => Err(io::ErrorKind::UnexpectedEof.into()),
    }
}

fn read_bytes(input: &mut impl Read, length: usize) -> io::Result<Vec<u8>> {
    let mut bytes = vec![0; length];
    input.read_exact(&mut bytes)?;
    Ok(bytes)
}
