//! Counts how often each refusal number and each kind of answer occurs in the
//! answers of a replay.

use std::io::{self, BufRead, Write};

/// Every kind of answer that is counted, after the refusal numbers 1 to 17.
pub const KINDS: [&str; 66] = [
    "refused without a buffer",
    "refused with a buffer",
    "refused with a buffer of no byte",
    "refused with a line",
    "wrote a short request frame",
    "wrote a long request frame",
    "wrote switch",
    "wrote get-paired",
    "wrote led",
    "wrote the listing's header alone",
    "wrote the listing of 1 device",
    "wrote the listing of several devices",
    "wrote the store's first line alone",
    "wrote the store of 1 device",
    "wrote the store of several devices",
    "restored",
    "cancelled",
    "ended none",
    "ended some on a device",
    "ended some on the receiver",
    "reply short",
    "reply long",
    "reply long, some dropped",
    "stray short",
    "stray long",
    "plain short",
    "plain long",
    "event short",
    "event long",
    "error 8F short",
    "error 8F long",
    "error FF short",
    "error FF long",
    "radio of 1 byte",
    "radio of 4 bytes",
    "radio of 7 bytes",
    "radio of 12 bytes",
    "radio of 29 bytes",
    "unpaired, none dropped",
    "unpaired, some dropped",
    "paired, first WPID, none dropped",
    "paired, first WPID, some dropped",
    "paired, same WPID",
    "paired, other WPID, none dropped",
    "paired, other WPID, some dropped",
    "paired, not told before, none dropped",
    "paired, not told before, some dropped",
    "paired, more to come",
    "paired, no more to come",
    "empty list",
    "link up",
    "link down",
    "other of a device",
    "other of the receiver",
    "read HID++ short",
    "read HID++ long",
    "read DJ short",
    "read DJ long",
    "moved",
    "dump of a port, nothing waiting",
    "dump of a port, some waiting",
    "dump of a port, four waiting",
    "dump of a known version",
    "dump of a known battery",
    "dump of a known serial",
    "no call",
];

pub const REFUSALS: usize = 17;

/// The counts, and what they need to know of the answers before.
pub struct Tally {
    refusals: [u64; REFUSALS],
    kinds: [u64; KINDS.len()],
    unknown: u64,
    /// What the answers say of each device.
    paired: [Told; 6],
}

/// Whether a device is paired, and with which WPID.
#[derive(Clone, Copy, Debug, PartialEq, Eq)]
enum Told {
    Unpaired,
    Paired(u16),
    /// A store was read, and its answer does not say what was in it.
    Nothing,
}

impl Default for Tally {
    fn default() -> Tally {
        Tally {
            refusals: [0; REFUSALS],
            kinds: [0; KINDS.len()],
            unknown: 0,
            paired: [Told::Unpaired; 6],
        }
    }
}

impl Tally {
    /// Counts the answers of a whole replay, a line at a time.
    pub fn read(mut input: impl BufRead) -> io::Result<Tally> {
        let mut tally = Tally::default();
        let mut line = Vec::new();
        while input.read_until(b'\n', &mut line)? > 0 {
            tally.add(String::from_utf8_lossy(&line).trim_end_matches('\n'));
            line.clear();
        }
        Ok(tally)
    }

    /// Counts one line of answers.
    pub fn add(&mut self, line: &str) {
        if self.classify(line).is_none() {
            self.unknown += 1;
        }
    }

    /// Whether everything occurred, and nothing but answers.
    pub fn is_complete(&self) -> bool {
        let mut counts = self.refusals.iter().chain(&self.kinds);
        counts.all(|&count| count > 0) && self.unknown == 0
    }

    pub fn print(&self, mut output: impl Write) -> io::Result<()> {
        for (number, count) in (1..).zip(self.refusals) {
            writeln!(output, "{count:>9}  refused {number}")?;
        }
        for (kind, count) in KINDS.iter().zip(self.kinds) {
            writeln!(output, "{count:>9}  {kind}")?;
        }
        writeln!(output, "{:>9}  lines that are no answer", self.unknown)
    }

    /// `None` where the line is no answer.
    fn classify(&mut self, line: &str) -> Option<()> {
        let (name, rest) = line.split_once(' ').unwrap_or((line, ""));
        match name {
            "refused" => self.refused(rest),
            "wrote" => self.wrote(rest),
            "cancelled" => self.kind("cancelled"),
            "ended" => self.ended(rest),
            "reply" => self.reply(rest),
            "stray" | "plain" | "event" => self.sized(name, rest),
            "error" => self.sized(&format!("error {}", field(rest, "kind")?), rest),
            "radio" => self.radio(rest),
            "unpaired" => self.unpaired(rest),
            "paired" => self.paired(rest),
            "empty-list" => self.kind("empty list"),
            "link" => self.kind(&format!("link {}", rest.split_once(' ')?.1)),
            "other" if field(rest, "port")? == "255" => self.kind("other of the receiver"),
            "other" => self.kind("other of a device"),
            "report" => self.report(rest),
            "moved" => self.kind("moved"),
            "restored" => self.restored(rest),
            "line" if rest.ends_with(" is no call") => self.kind("no call"),
            _ if name.starts_with("port=") => self.dump(line),
            _ => None,
        }
    }

    fn kind(&mut self, name: &str) -> Option<()> {
        let kind = KINDS.iter().position(|&kind| kind == name)?;
        self.kinds[kind] += 1;
        Some(())
    }

    fn refused(&mut self, rest: &str) -> Option<()> {
        let (number, kind) = match rest.split_once(':') {
            None if rest.contains(' ') => return self.refused_line(rest),
            None => (rest, "refused without a buffer"),
            Some((number, "")) => (number, "refused with a buffer of no byte"),
            Some((number, _)) => (number, "refused with a buffer"),
        };
        let number: usize = number.parse().ok()?;
        let is_line_due = number == 16;
        let lends_nothing = matches!(number, 15 | 17);
        if is_line_due || (lends_nothing && rest.contains(':')) {
            return None;
        }
        *self.refusals.get_mut(number.checked_sub(1)?)? += 1;
        self.kind(kind)
    }

    /// Only 16 has the number of a line.
    fn refused_line(&mut self, rest: &str) -> Option<()> {
        let line = rest.strip_prefix("16 line=")?;
        if !matches!(line, "1" | "2" | "3" | "4" | "5" | "6" | "7" | "8") {
            return None;
        }
        self.refusals[15] += 1;
        self.kind("refused with a line")
    }

    fn restored(&mut self, rest: &str) -> Option<()> {
        self.paired = [Told::Nothing; 6];
        rest.is_empty().then(|| self.kind("restored"))?
    }

    fn wrote(&mut self, rest: &str) -> Option<()> {
        let (length, buffer) = rest.split_once(':')?;
        if written(buffer).take(4).eq(["70", "61", "64", "73"]) {
            return self.kind(match newlines(buffer) {
                0 => return None,
                1 => "wrote the store's first line alone",
                2 => "wrote the store of 1 device",
                _ => "wrote the store of several devices",
            });
        }
        match length {
            "7" => self.kind("wrote a short request frame"),
            "20" => self.kind("wrote a long request frame"),
            "15" => self.kind(dj_writer(buffer)?),
            _ => self.kind(match newlines(buffer) {
                0 => return None,
                1 => "wrote the listing's header alone",
                2 => "wrote the listing of 1 device",
                _ => "wrote the listing of several devices",
            }),
        }
    }

    fn ended(&mut self, rest: &str) -> Option<()> {
        let counts = rest.split(' ').map(|count| count.parse::<u8>().ok());
        let counts: Vec<u8> = counts.collect::<Option<_>>()?;
        let (receiver, devices) = counts.split_last()?;
        if devices.iter().any(|&count| count > 0) {
            self.kind("ended some on a device")?;
        } else if *receiver == 0 {
            self.kind("ended none")?;
        }
        if *receiver > 0 {
            self.kind("ended some on the receiver")?;
        }
        Some(())
    }

    fn sized(&mut self, name: &str, rest: &str) -> Option<()> {
        let size = match field(rest, "length")? {
            "3" => "short",
            "16" => "long",
            _ => return None,
        };
        self.kind(&format!("{name} {size}"))
    }

    /// Only a long reply of the receiver tells a serial, and so drops requests.
    fn reply(&mut self, rest: &str) -> Option<()> {
        if drops(rest)? == "none" {
            return self.sized("reply", rest);
        }
        let told = field(rest, "port")? == "255" && field(rest, "length")? == "16";
        told.then(|| self.kind("reply long, some dropped"))?
    }

    fn radio(&mut self, rest: &str) -> Option<()> {
        self.kind(match field(rest, "length")? {
            "1" => "radio of 1 byte",
            "4" => "radio of 4 bytes",
            "7" => "radio of 7 bytes",
            "12" => "radio of 12 bytes",
            "29" => "radio of 29 bytes",
            _ => return None,
        })
    }

    fn unpaired(&mut self, rest: &str) -> Option<()> {
        *self.device(rest)? = Told::Unpaired;
        let drops = drops(rest)?;
        self.kind(&format!("unpaired, {drops} dropped"))
    }

    fn paired(&mut self, rest: &str) -> Option<()> {
        let wpid = u16::from_str_radix(field(rest, "wpid")?, 16).ok()?;
        let drops = drops(rest)?;
        let before = std::mem::replace(self.device(rest)?, Told::Paired(wpid));
        match before {
            Told::Unpaired => self.kind(&format!("paired, first WPID, {drops} dropped"))?,
            Told::Paired(same) if same == wpid => self.kind("paired, same WPID")?,
            Told::Paired(_) => self.kind(&format!("paired, other WPID, {drops} dropped"))?,
            Told::Nothing => self.kind(&format!("paired, not told before, {drops} dropped"))?,
        }
        self.kind(match field(rest, "more")? {
            "1" => "paired, more to come",
            "0" => "paired, no more to come",
            _ => return None,
        })
    }

    fn device(&mut self, rest: &str) -> Option<&mut Told> {
        let port: usize = field(rest, "port")?.parse().ok()?;
        self.paired.get_mut(port.checked_sub(1)?)
    }

    fn report(&mut self, rest: &str) -> Option<()> {
        self.kind(match field(rest, "id")? {
            "10" => "read HID++ short",
            "11" => "read HID++ long",
            "20" => "read DJ short",
            "21" => "read DJ long",
            _ => return None,
        })
    }

    fn dump(&mut self, line: &str) -> Option<()> {
        let places = field(line, "places")?.split(',');
        self.kind(match places.filter(|&place| place != "-").count() {
            0 => "dump of a port, nothing waiting",
            4 => "dump of a port, four waiting",
            _ => "dump of a port, some waiting",
        })?;
        if let Some(told) = self.device(line) {
            let wpid = u16::from_str_radix(field(line, "wpid")?, 16).ok()?;
            *told = match field(line, "paired")? {
                "1" => Told::Paired(wpid),
                _ => Told::Unpaired,
            };
        }
        if field(line, "version")? != "-" {
            self.kind("dump of a known version")?;
        }
        if field(line, "battery")? != "-" {
            self.kind("dump of a known battery")?;
        }
        if field(line, "serial")? != "-" {
            self.kind("dump of a known serial")?;
        }
        Some(())
    }
}

/// The value of `name=value` among the words of an answer.
fn field<'a>(answer: &'a str, name: &str) -> Option<&'a str> {
    answer
        .split(' ')
        .filter_map(|word| word.split_once('='))
        .find(|(field, _)| *field == name)
        .map(|(_, value)| value)
}

fn drops(rest: &str) -> Option<&'static str> {
    match field(rest, "dropped")? {
        "0" => Some("none"),
        "1" | "2" | "3" | "4" => Some("some"),
        _ => None,
    }
}

/// The buffer from the first byte on that isn't as lent.
fn written(buffer: &str) -> impl Iterator<Item = &str> {
    buffer
        .split(' ')
        .skip_while(|&byte| byte.is_empty() || byte == "EE")
}

/// Which writer wrote the DJ frame.
fn dj_writer(buffer: &str) -> Option<&'static str> {
    match written(buffer).nth(2)? {
        "80" => Some("wrote switch"),
        "81" => Some("wrote get-paired"),
        "0E" => Some("wrote led"),
        _ => None,
    }
}

fn newlines(buffer: &str) -> usize {
    buffer.split(' ').filter(|&byte| byte == "0A").count()
}
