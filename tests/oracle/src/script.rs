//! Replay scripts: reading lines as calls, making the calls, and writing the
//! answers, as the replay page says.

use std::fmt::{self, Display, Formatter};
use std::io::{self, BufRead, Write};

use crate::station::{
    read, read_mouse, write_frame, Frame, Key, Movement, Notice, Outcome, Port, PortNumber,
    Reading, Refusal, Station, Taken, Waiting,
};
use crate::store::Unread;

/// The most bytes of a report, payload or parameter list.
pub const MOST_BYTES: usize = 256;
/// The most bytes of a lent buffer.
pub const MOST_LENT: u16 = 4096;
/// The most bytes of a store that is read.
pub const MOST_STORE: usize = 4096;
/// What every byte of a lent buffer holds before the call.
pub const LENT: u8 = 0xEE;

// ---------------------------------------------------------------------------
// Calls

/// A lent buffer of `length` bytes and the offset in it to write at.
#[derive(Clone, Copy, Debug, PartialEq, Eq)]
pub struct Lent {
    pub offset: u16,
    pub length: u16,
}

#[derive(Clone, Debug, PartialEq, Eq)]
pub enum Call {
    Take(Vec<u8>),
    Request {
        port: u8,
        key: Key,
        ticks: u16,
        lent: Lent,
        parameters: Vec<u8>,
    },
    Cancel {
        port: u8,
        key: Key,
    },
    Tick,
    Switch {
        bits: u8,
        timeout: u8,
        lent: Lent,
    },
    GetPaired(Lent),
    Led {
        port: u8,
        value: u8,
        lent: Lent,
    },
    List(Lent),
    Store(Lent),
    Restore(Vec<u8>),
    Read(Vec<u8>),
    Frame {
        port: u8,
        key: Key,
        lent: Lent,
        parameters: Vec<u8>,
    },
    Mouse(Vec<u8>),
    Dump,
}

impl Call {
    /// Whether it is made on the station: the others need none, or only show.
    pub fn is_of_station(&self) -> bool {
        !matches!(
            self,
            Call::Read(_) | Call::Frame { .. } | Call::Mouse(_) | Call::Dump
        )
    }
}

/// The sorts of word that follow a call's name.
#[derive(Clone, Copy)]
enum Argument {
    /// HH.
    Byte,
    /// N, at most 255.
    Port,
    /// N.
    Number,
    /// N, at most `MOST_LENT`.
    Length,
}

/// Room for the most arguments a call has before its list of bytes.
type Arguments = [u16; 6];

/// One row of the replay page's table of calls.
struct Form {
    name: &'static [u8],
    arguments: &'static [Argument],
    /// How many bytes at most the list at the line's end has; none where 0.
    list: usize,
    build: fn(Arguments, Vec<u8>) -> Call,
}

use Argument::{Byte, Length, Number, Port as PortWord};

const FORMS: [Form; 14] = [
    Form {
        name: b"take",
        arguments: &[],
        list: MOST_BYTES,
        build: |_, list| Call::Take(list),
    },
    Form {
        name: b"request",
        arguments: &[PortWord, Byte, Byte, Number, Number, Length],
        list: MOST_BYTES,
        build: |[port, byte2, byte3, ticks, offset, length], parameters| Call::Request {
            port: port as u8,
            key: key(byte2, byte3),
            ticks,
            lent: Lent { offset, length },
            parameters,
        },
    },
    Form {
        name: b"cancel",
        arguments: &[PortWord, Byte, Byte],
        list: 0,
        build: |[port, byte2, byte3, ..], _| Call::Cancel {
            port: port as u8,
            key: key(byte2, byte3),
        },
    },
    Form {
        name: b"tick",
        arguments: &[],
        list: 0,
        build: |_, _| Call::Tick,
    },
    Form {
        name: b"switch",
        arguments: &[Byte, Byte, Number, Length],
        list: 0,
        build: |[bits, timeout, offset, length, ..], _| Call::Switch {
            bits: bits as u8,
            timeout: timeout as u8,
            lent: Lent { offset, length },
        },
    },
    Form {
        name: b"get-paired",
        arguments: &[Number, Length],
        list: 0,
        build: |[offset, length, ..], _| Call::GetPaired(Lent { offset, length }),
    },
    Form {
        name: b"led",
        arguments: &[PortWord, Byte, Number, Length],
        list: 0,
        build: |[port, value, offset, length, ..], _| Call::Led {
            port: port as u8,
            value: value as u8,
            lent: Lent { offset, length },
        },
    },
    Form {
        name: b"list",
        arguments: &[Number, Length],
        list: 0,
        build: |[offset, length, ..], _| Call::List(Lent { offset, length }),
    },
    Form {
        name: b"store",
        arguments: &[Number, Length],
        list: 0,
        build: |[offset, length, ..], _| Call::Store(Lent { offset, length }),
    },
    Form {
        name: b"restore",
        arguments: &[],
        list: MOST_STORE,
        build: |_, list| Call::Restore(list),
    },
    Form {
        name: b"read",
        arguments: &[],
        list: MOST_BYTES,
        build: |_, list| Call::Read(list),
    },
    Form {
        name: b"frame",
        arguments: &[PortWord, Byte, Byte, Number, Length],
        list: MOST_BYTES,
        build: |[port, byte2, byte3, offset, length, ..], parameters| Call::Frame {
            port: port as u8,
            key: key(byte2, byte3),
            lent: Lent { offset, length },
            parameters,
        },
    },
    Form {
        name: b"mouse",
        arguments: &[],
        list: MOST_BYTES,
        build: |_, list| Call::Mouse(list),
    },
    Form {
        name: b"dump",
        arguments: &[],
        list: 0,
        build: |_, _| Call::Dump,
    },
];

fn key(byte2: u16, byte3: u16) -> Key {
    Key {
        byte2: byte2 as u8,
        byte3: byte3 as u8,
    }
}

// ---------------------------------------------------------------------------
// Words

impl Argument {
    fn parse(self, word: &[u8]) -> Option<u16> {
        match self {
            Byte => parse_byte(word).map(u16::from),
            PortWord => parse_number(word).filter(|&port| port <= 255),
            Number => parse_number(word),
            Length => parse_number(word).filter(|&length| length <= MOST_LENT),
        }
    }
}

/// HH: two hexadecimal digits in either case.
fn parse_byte(word: &[u8]) -> Option<u8> {
    let &[high, low] = word else { return None };
    let digit = |byte: u8| char::from(byte).to_digit(16);
    Some((digit(high)? * 16 + digit(low)?) as u8)
}

/// N: a decimal number 0 to 65535 without a sign and without a leading zero.
fn parse_number(word: &[u8]) -> Option<u16> {
    if word.is_empty() || (word.len() > 1 && word[0] == b'0') {
        return None;
    }
    word.iter().try_fold(0u16, |value, &byte| {
        let digit = char::from(byte).to_digit(10)?;
        value.checked_mul(10)?.checked_add(digit as u16)
    })
}

// ---------------------------------------------------------------------------
// Lines

/// What one line of a script is.
#[derive(Clone, Debug, PartialEq, Eq)]
pub enum Line {
    /// An empty line or a comment: no output.
    Silent,
    Call(Call),
    NoCall,
}

/// A word as far as it matters; no call has a longer one than `get-paired`.
#[derive(Default)]
struct Word {
    bytes: [u8; 10],
    length: usize,
}

impl Word {
    /// Whether the word still had room for the byte.
    fn push(&mut self, byte: u8) -> bool {
        let room = self.bytes.get_mut(self.length);
        self.length += usize::from(room.is_some());
        room.map(|last| *last = byte).is_some()
    }

    fn bytes(&self) -> &[u8] {
        &self.bytes[..self.length]
    }
}

/// The words of a call as they come in.
#[derive(Default)]
struct Words {
    form: Option<&'static Form>,
    arguments: Arguments,
    given: usize,
    list: Vec<u8>,
}

impl Words {
    /// Adds a word; `None` where no call continues so.
    fn push(&mut self, word: &[u8]) -> Option<()> {
        let Some(form) = self.form else {
            self.form = Some(FORMS.iter().find(|form| form.name == word)?);
            return Some(());
        };
        if let Some(argument) = form.arguments.get(self.given) {
            self.arguments[self.given] = argument.parse(word)?;
            self.given += 1;
        } else if self.list.len() < form.list {
            self.list.push(parse_byte(word)?);
        } else {
            return None;
        }
        Some(())
    }

    fn finish(self) -> Option<Call> {
        let form = self.form?;
        let complete = self.given == form.arguments.len();
        complete.then(|| (form.build)(self.arguments, self.list))
    }
}

/// Reads a line byte by byte, in memory that doesn't grow with the line.
#[derive(Default)]
pub struct LineParser {
    state: State,
    words: Words,
    word: Word,
    /// A carriage return that is ignored if the line ends here.
    held_return: bool,
}

#[derive(Clone, Copy, Default, PartialEq, Eq)]
enum State {
    #[default]
    Empty,
    Comment,
    Call,
    NoCall,
}

impl LineParser {
    /// The next byte of the line, its newline left out.
    pub fn push(&mut self, byte: u8) {
        if std::mem::take(&mut self.held_return) {
            self.push_content(b'\r');
        }
        if byte == b'\r' {
            self.held_return = true;
        } else {
            self.push_content(byte);
        }
    }

    fn push_content(&mut self, byte: u8) {
        if self.state == State::Empty {
            self.state = if byte == b'#' {
                State::Comment
            } else {
                State::Call
            };
        }
        if self.state != State::Call {
            return;
        }
        let goes_on = if byte == b' ' {
            self.end_word().is_some()
        } else {
            self.word.push(byte)
        };
        if !goes_on {
            self.state = State::NoCall;
        }
    }

    fn end_word(&mut self) -> Option<()> {
        let word = std::mem::take(&mut self.word);
        if word.length == 0 {
            return Some(());
        }
        self.words.push(word.bytes())
    }

    /// Ends the line and is ready for the next one.
    pub fn end(&mut self) -> Line {
        let mut line = std::mem::take(self);
        match line.state {
            State::Empty | State::Comment => Line::Silent,
            State::NoCall => Line::NoCall,
            State::Call => line
                .end_word()
                .and_then(|()| line.words.finish())
                .map_or(Line::NoCall, Line::Call),
        }
    }
}

/// Reads one whole line, its newline left out.
pub fn parse(line: &[u8]) -> Line {
    let mut parser = LineParser::default();
    line.iter().for_each(|&byte| parser.push(byte));
    parser.end()
}

// ---------------------------------------------------------------------------
// Answers

#[derive(Clone, Debug, PartialEq, Eq)]
pub enum Answer {
    Refused(Refusal),
    /// A writer's answer, with the whole lent buffer after the call.
    Written(Result<usize, Refusal>, Vec<u8>),
    Taken(Taken),
    Cancelled,
    Ended([u8; 7]),
    Restored,
    /// Refused with 16, which comes with the number of the line.
    BrokenLine(u8),
    Read(Reading),
    Moved(Movement),
    Dump(Box<Station>),
}

impl Answer {
    pub fn refusal(&self) -> Option<Refusal> {
        match self {
            Answer::Refused(refusal) | Answer::Written(Err(refusal), _) => Some(*refusal),
            Answer::BrokenLine(_) => Some(Refusal::BrokenLine),
            _ => None,
        }
    }
}

/// Makes one call on the station.
pub fn make(station: &mut Station, call: &Call) -> Answer {
    match call {
        Call::Take(report) => answer(station.take(report), Answer::Taken),
        Call::Cancel { port, key } => answer(station.cancel(*port, *key), |()| Answer::Cancelled),
        Call::Tick => Answer::Ended(station.tick()),
        Call::Restore(text) => match station.restore(text) {
            Ok(()) => Answer::Restored,
            Err(Unread::BrokenLine(line)) => Answer::BrokenLine(line),
            Err(unread) => Answer::Refused(unread.refusal()),
        },
        Call::Read(report) => answer(read(report), Answer::Read),
        Call::Mouse(payload) => answer(read_mouse(payload), Answer::Moved),
        Call::Dump => Answer::Dump(Box::new(station.clone())),
        Call::Request { lent, .. }
        | Call::Switch { lent, .. }
        | Call::GetPaired(lent)
        | Call::Led { lent, .. }
        | Call::List(lent)
        | Call::Store(lent)
        | Call::Frame { lent, .. } => {
            let mut buffer = vec![LENT; usize::from(lent.length)];
            let result = write(station, call, usize::from(lent.offset), &mut buffer);
            Answer::Written(result, buffer)
        }
    }
}

fn answer<T>(result: Result<T, Refusal>, accepted: impl FnOnce(T) -> Answer) -> Answer {
    result.map_or_else(Answer::Refused, accepted)
}

/// Makes one of the writers' calls.
fn write(
    station: &mut Station,
    call: &Call,
    offset: usize,
    buffer: &mut [u8],
) -> Result<usize, Refusal> {
    match call {
        Call::Request {
            port,
            key,
            ticks,
            parameters,
            ..
        } => station.request(&frame(*port, *key, parameters), *ticks, offset, buffer),
        Call::Frame {
            port,
            key,
            parameters,
            ..
        } => write_frame(&frame(*port, *key, parameters), offset, buffer),
        Call::Switch { bits, timeout, .. } => station.switch(*bits, *timeout, offset, buffer),
        Call::GetPaired(_) => station.get_paired(offset, buffer),
        Call::Led { port, value, .. } => station.led(*port, *value, offset, buffer),
        Call::List(_) => station.list(offset, buffer),
        Call::Store(_) => station.store(offset, buffer),
        Call::Take(_)
        | Call::Cancel { .. }
        | Call::Tick
        | Call::Restore(_)
        | Call::Read(_)
        | Call::Mouse(_)
        | Call::Dump => unreachable!("no writer"),
    }
}

fn frame(port: u8, key: Key, parameters: &[u8]) -> Frame<'_> {
    Frame {
        port,
        key,
        parameters,
    }
}

/// The answer's line or lines, without the last newline.
impl Display for Answer {
    fn fmt(&self, f: &mut Formatter) -> fmt::Result {
        match self {
            Answer::Refused(refusal) => write!(f, "refused {}", refusal.number()),
            Answer::Written(Ok(length), buffer) => {
                write!(f, "wrote {length}:")?;
                fmt_bytes(f, buffer)
            }
            Answer::Written(Err(refusal), buffer) => {
                write!(f, "refused {}:", refusal.number())?;
                fmt_bytes(f, buffer)
            }
            Answer::Taken(taken) => fmt_taken(f, taken),
            Answer::Cancelled => f.write_str("cancelled"),
            Answer::Ended([a, b, c, d, e, g, receiver]) => {
                write!(f, "ended {a} {b} {c} {d} {e} {g} {receiver}")
            }
            Answer::Restored => f.write_str("restored"),
            Answer::BrokenLine(line) => {
                write!(f, "refused {} line={line}", Refusal::BrokenLine.number())
            }
            Answer::Read(reading) => fmt_reading(f, reading),
            Answer::Moved(movement) => write!(
                f,
                "moved buttons={:04X} x={} y={} wheel={} pan={}",
                movement.buttons, movement.x, movement.y, movement.wheel, movement.pan
            ),
            Answer::Dump(station) => fmt_dump(f, station),
        }
    }
}

/// Each byte after a space.
fn fmt_bytes(f: &mut Formatter, bytes: &[u8]) -> fmt::Result {
    const DIGITS: &[u8; 16] = b"0123456789ABCDEF";
    for byte in bytes {
        let high = DIGITS[usize::from(byte >> 4)];
        let low = DIGITS[usize::from(byte & 0x0F)];
        let text = [b' ', high, low];
        f.write_str(std::str::from_utf8(&text).map_err(|_| fmt::Error)?)?;
    }
    Ok(())
}

fn fmt_taken(f: &mut Formatter, taken: &Taken) -> fmt::Result {
    match taken {
        Taken::Hidpp {
            outcome,
            port,
            key,
            length,
        } => {
            let name = match outcome {
                Outcome::Reply { .. } => "reply",
                Outcome::Stray => "stray",
                Outcome::Plain => "plain",
                Outcome::Event => "event",
                Outcome::Error { .. } => "error",
            };
            write!(f, "{name} port={} ", port.byte())?;
            write!(f, "byte2={:02X} byte3={:02X} ", key.byte2, key.byte3)?;
            write!(f, "start=4 length={length}")?;
            match outcome {
                Outcome::Reply { dropped } => write!(f, " dropped={dropped}"),
                Outcome::Error { code, kind } => {
                    write!(f, " code={code:02X} kind={:02X}", kind.byte())
                }
                Outcome::Stray | Outcome::Plain | Outcome::Event => Ok(()),
            }
        }
        Taken::Radio {
            report_type,
            length,
        } => write!(f, "radio type={report_type:02X} start=3 length={length}"),
        Taken::Notice(notice) => fmt_notice(f, notice),
    }
}

fn fmt_notice(f: &mut Formatter, notice: &Notice) -> fmt::Result {
    match notice {
        Notice::Unpaired { port, dropped } => {
            write!(f, "unpaired port={} dropped={dropped}", port.byte())
        }
        Notice::Paired {
            port,
            more,
            wpid,
            reports,
            dropped,
        } => write!(
            f,
            "paired port={} more={} wpid={wpid:04X} reports={reports:08X} dropped={dropped}",
            port.byte(),
            u8::from(*more)
        ),
        Notice::EmptyList => f.write_str("empty-list"),
        Notice::Link { port, link } => write!(f, "link port={} {}", port.byte(), link.text()),
        Notice::Other { port, report_type } => {
            write!(f, "other port={} type={report_type:02X}", port.byte())
        }
    }
}

fn fmt_reading(f: &mut Formatter, reading: &Reading) -> fmt::Result {
    write!(
        f,
        "report id={:02X} device={:02X} byte2={:02X} byte3={:02X} start={} length={}",
        reading.id.byte(),
        reading.device,
        reading.byte2,
        reading.byte3,
        reading.id.start(),
        reading.id.parameters()
    )
}

fn fmt_dump(f: &mut Formatter, station: &Station) -> fmt::Result {
    for (position, (number, port)) in station.ports().enumerate() {
        if position > 0 {
            f.write_str("\n")?;
        }
        fmt_port(f, number, port)?;
    }
    Ok(())
}

fn fmt_port(f: &mut Formatter, number: PortNumber, port: &Port) -> fmt::Result {
    write!(
        f,
        "port={} paired={} wpid={:04X} reports={:08X} link={} version={} features={} battery={} places={} serial={}",
        number.byte(),
        u8::from(port.paired),
        port.wpid,
        port.reports,
        port.link.text(),
        port.version_text(),
        port.features.map(|index| index.0.to_string()).join(","),
        port.battery_text(),
        port.places.map(place_text).join(","),
        port.serial_text(),
    )
}

fn place_text(place: Option<Waiting>) -> String {
    let Some(Waiting {
        key,
        parameters: [a, b, c],
        ticks,
    }) = place
    else {
        return "-".to_owned();
    };
    let Key { byte2, byte3 } = key;
    format!("{byte2:02X}:{byte3:02X}:{a:02X}:{b:02X}:{c:02X}:{ticks}")
}

// ---------------------------------------------------------------------------
// Replay

/// Which side of a replay failed.
#[derive(Debug)]
pub enum Failure {
    Input(io::Error),
    Output(io::Error),
}

/// Makes every call of a script on one station that starts fresh.
pub fn replay(input: impl BufRead, mut output: impl Write) -> Result<(), Failure> {
    let mut station = Station::default();
    let mut number: u64 = 0;
    for_each_line(input, |line| {
        number += 1;
        match line {
            Line::Silent => Ok(()),
            Line::NoCall => writeln!(output, "line {number} is no call"),
            Line::Call(call) => writeln!(output, "{}", make(&mut station, &call)),
        }
    })?;
    output.flush().map_err(Failure::Output)
}

/// Makes the calls of a script on one station that starts fresh, and hands on
/// each with its answer and the station before and after it.
pub fn for_each_call(
    input: impl BufRead,
    mut each: impl FnMut([&Station; 2], &Call, &Answer),
) -> Result<(), Failure> {
    let mut station = Station::default();
    for_each_line(input, |line| {
        if let Line::Call(call) = line {
            let before = station.clone();
            let answer = make(&mut station, &call);
            each([&before, &station], &call, &answer);
        }
        Ok(())
    })
}

/// Hands on each line of a script; the last may lack its newline.
fn for_each_line(
    mut input: impl BufRead,
    mut each: impl FnMut(Line) -> io::Result<()>,
) -> Result<(), Failure> {
    let mut parser = LineParser::default();
    let mut unfinished = false;
    loop {
        let chunk = match input.fill_buf() {
            Ok(chunk) => chunk,
            Err(error) if error.kind() == io::ErrorKind::Interrupted => continue,
            Err(error) => return Err(Failure::Input(error)),
        };
        let Some(&last) = chunk.last() else { break };
        for &byte in chunk {
            if byte == b'\n' {
                each(parser.end()).map_err(Failure::Output)?;
            } else {
                parser.push(byte);
            }
        }
        unfinished = last != b'\n';
        let length = chunk.len();
        input.consume(length);
    }
    if unfinished {
        each(parser.end()).map_err(Failure::Output)?;
    }
    Ok(())
}
