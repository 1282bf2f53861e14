//! The store: what is kept of the paired devices, as text. 02, Ask 3.

use crate::station::{put, FeatureIndex, Port, PortNumber, Refusal, Station, Version};

/// The first line of the edition that is written and read.
pub const HEADER: &str = "pads\t1\n";

/// The most lines of a store: the first one, and one for each device.
pub const MOST_LINES: usize = 7;

/// Why a text was not read.
#[derive(Clone, Copy, Debug, PartialEq, Eq)]
pub enum Unread {
    OtherEdition,
    /// The first line that breaks the rules, counted from 1.
    BrokenLine(u8),
}

impl Unread {
    pub fn refusal(self) -> Refusal {
        match self {
            Unread::OtherEdition => Refusal::OtherEdition,
            Unread::BrokenLine(_) => Refusal::BrokenLine,
        }
    }
}

// ---------------------------------------------------------------------------
// Writing

impl Station {
    /// Writes the store: refusal 10.
    pub fn store(&self, offset: usize, buffer: &mut [u8]) -> Result<usize, Refusal> {
        put(self.store_text().as_bytes(), offset, buffer)
    }

    pub fn store_text(&self) -> String {
        let devices = self.ports().filter(|(_, port)| port.paired);
        let lines = devices.map(|(number, port)| port.store_line(number));
        HEADER.to_owned() + &lines.collect::<String>()
    }
}

impl Port {
    pub fn store_line(&self, number: PortNumber) -> String {
        let [a, b, c, d, e] = self.features.map(|index| index.0);
        format!(
            "{}\t{:04X}\t{}\t{:08X}\t{}\t{a}\t{b}\t{c}\t{d}\t{e}\n",
            number.byte(),
            self.wpid,
            self.serial_text(),
            self.reports,
            self.version_text(),
        )
    }
}

// ---------------------------------------------------------------------------
// Reading

impl Station {
    /// Reads a store: refusals 15 and 16. The station is then that of the
    /// text alone; a refusal leaves it as it stood.
    pub fn restore(&mut self, text: &[u8]) -> Result<(), Unread> {
        *self = read_store(text)?;
        Ok(())
    }
}

/// The station that a text stands for.
pub fn read_store(text: &[u8]) -> Result<Station, Unread> {
    // Each line has its newline, but for a torn last one. An empty text has
    // no line at all, and lacks the first.
    let mut lines = text.split_inclusive(|&byte| byte == b'\n');
    let first = lines.next().unwrap_or_default();
    if names_other_edition(first) {
        return Err(Unread::OtherEdition);
    }
    if first != HEADER.as_bytes() {
        return Err(Unread::BrokenLine(1));
    }
    let mut station = Station::default();
    let mut last = 0;
    for (number, line) in (2..).zip(lines) {
        let (device, port) = read_line(line)
            .filter(|(device, _)| device.byte() > last)
            .ok_or(Unread::BrokenLine(number))?;
        last = device.byte();
        *station.port_mut(device) = port;
    }
    Ok(station)
}

/// "pads", a tab, a decimal number other than 1, and the newline.
fn names_other_edition(line: &[u8]) -> bool {
    let number = line
        .strip_prefix(b"pads\t")
        .and_then(|rest| rest.strip_suffix(b"\n"));
    number.is_some_and(|number| is_decimal(number) && number != b"1")
}

/// Some digits, the first of which is 0 only where it stands alone.
fn is_decimal(word: &[u8]) -> bool {
    let leading_zero = word.len() > 1 && word[0] == b'0';
    !word.is_empty() && !leading_zero && word.iter().all(u8::is_ascii_digit)
}

/// One device's line.
fn read_line(line: &[u8]) -> Option<(PortNumber, Port)> {
    let line = line.strip_suffix(b"\n")?;
    let fields: Vec<&[u8]> = line.split(|&byte| byte == b'\t').collect();
    let &[device, wpid, serial, reports, version, ref indexes @ ..] = fields.as_slice() else {
        return None;
    };
    let &[a, b, c, d, e] = indexes else {
        return None;
    };
    let device = PortNumber::device(decimal(device, 6)?).ok()?;
    let mut features = [FeatureIndex::NOT_FOUND; 5];
    for (word, index) in [a, b, c, d, e].into_iter().zip(&mut features) {
        *index = FeatureIndex(decimal(word, FeatureIndex::HIGHEST)?);
    }
    let port = Port {
        paired: true,
        wpid: hexadecimal(wpid, 4)? as u16,
        serial: known(serial, |word| hexadecimal(word, 8))?,
        reports: hexadecimal(reports, 8)?,
        version: known(version, read_version)?,
        features,
        ..Port::default()
    };
    Some((device, port))
}

/// "-" for what is not known, or else what `read` makes of the word.
fn known<T>(word: &[u8], read: impl Fn(&[u8]) -> Option<T>) -> Option<Option<T>> {
    if word == b"-" {
        return Some(None);
    }
    read(word).map(Some)
}

fn read_version(word: &[u8]) -> Option<Version> {
    let dot = word.iter().position(|&byte| byte == b'.')?;
    Some(Version {
        major: decimal(&word[..dot], u8::MAX)?,
        minor: decimal(&word[dot + 1..], u8::MAX)?,
    })
}

/// A decimal number up to `most`, without a leading zero.
fn decimal(word: &[u8], most: u8) -> Option<u8> {
    if !is_decimal(word) {
        return None;
    }
    let number: u8 = std::str::from_utf8(word).ok()?.parse().ok()?;
    (number <= most).then_some(number)
}

/// So many hexadecimal digits, the letters in capitals.
fn hexadecimal(word: &[u8], digits: usize) -> Option<u32> {
    let is_digit = |byte: &u8| matches!(byte, b'0'..=b'9' | b'A'..=b'F');
    if word.len() != digits || !word.iter().all(is_digit) {
        return None;
    }
    u32::from_str_radix(std::str::from_utf8(word).ok()?, 16).ok()
}
