//! The host side of one receiver: the ports and their records, the calls on
//! them, and the rules that need no station. Comments name the section of
//! document 01 that a rule comes from.

/// 01, "Refusal numbers", and those of 02. Each number is named here and
/// nowhere else.
#[derive(Clone, Copy, Debug, PartialEq, Eq, Hash, PartialOrd, Ord)]
#[repr(u8)]
pub enum Refusal {
    /// The report is empty.
    EmptyReport = 1,
    /// Byte 0 is none of the four ids.
    UnknownId = 2,
    /// The length isn't that id's; a mouse payload isn't 7 bytes.
    WrongLength = 3,
    /// DJ type 0x80 or above, or 0x0E (both go down only).
    DownOnly = 4,
    /// No such port.
    NoSuchPort = 5,
    /// HID++ byte 2 is 0x84–0x8E or 0x90–0xFE.
    ReservedSubId = 6,
    /// Radio report or 0x42 for an unpaired device.
    Unpaired = 7,
    /// Radio report of type t, and t > 31 or bit t of the bitfield is 0.
    UndeclaredType = 8,
    /// A forbidden request.
    ForbiddenRequest = 9,
    /// The whole frame, listing or store doesn't fit between the given offset
    /// and the buffer's end, or the offset lies past the end.
    DoesNotFit = 10,
    /// The port has a waiting request with the same bytes 2 and 3.
    AlreadyWaiting = 11,
    /// Four requests wait on the port.
    PlacesFull = 12,
    /// None with those bytes 2 and 3 waits on the port.
    NothingWaits = 13,
    /// Bit 6 or 7 of the device bits is set.
    ReservedDeviceBits = 14,
    /// The first line of a store names another edition.
    OtherEdition = 15,
    /// A line of a store breaks the rules.
    BrokenLine = 16,
    /// Bytes after the payload of a radio report aren't all zero.
    DirtyPadding = 17,
}

impl Refusal {
    pub fn number(self) -> u8 {
        self as u8
    }
}

fn ensure(holds: bool, otherwise: Refusal) -> Result<(), Refusal> {
    if holds {
        Ok(())
    } else {
        Err(otherwise)
    }
}

// ---------------------------------------------------------------------------
// Ports and their records

/// A device number, 1 to 6, or 255 for the receiver. No other value is built.
#[derive(Clone, Copy, Debug, PartialEq, Eq)]
pub struct PortNumber(u8);

impl PortNumber {
    pub const RECEIVER: PortNumber = PortNumber(255);

    /// The order in which a station keeps its ports.
    pub const ALL: [PortNumber; 7] = [
        PortNumber(1),
        PortNumber(2),
        PortNumber(3),
        PortNumber(4),
        PortNumber(5),
        PortNumber(6),
        PortNumber::RECEIVER,
    ];

    pub fn device(byte: u8) -> Result<PortNumber, Refusal> {
        ensure((1..=6).contains(&byte), Refusal::NoSuchPort)?;
        Ok(PortNumber(byte))
    }

    pub fn device_or_receiver(byte: u8) -> Result<PortNumber, Refusal> {
        if byte == Self::RECEIVER.0 {
            return Ok(Self::RECEIVER);
        }
        Self::device(byte)
    }

    pub fn byte(self) -> u8 {
        self.0
    }

    /// Where `ALL` has it.
    pub fn position(self) -> usize {
        if self == Self::RECEIVER {
            6
        } else {
            usize::from(self.0) - 1
        }
    }
}

/// The index under which a device offers a feature; 0 where not found.
#[derive(Clone, Copy, Debug, Default, PartialEq, Eq)]
pub struct FeatureIndex(pub u8);

impl FeatureIndex {
    pub const NOT_FOUND: FeatureIndex = FeatureIndex(0);
    pub const HIGHEST: u8 = 63;

    /// Whether the feature was found and `byte2` names it.
    fn is(self, byte2: u8) -> bool {
        self != Self::NOT_FOUND && self.0 == byte2
    }
}

// Names from source document 003.
pub const IFEATURE_SET: u16 = 0x0001;
pub const DEVICE_INFORMATION: u16 = 0x0003;
pub const DEVICE_NAME_AND_TYPE: u16 = 0x0005;
pub const BATTERY_LEVEL_STATUS: u16 = 0x1000;
pub const WIRELESS_DEVICE_STATUS: u16 = 0x1D4B;

/// The known features, in 01's order.
pub const KNOWN_FEATURES: [u16; 5] = [
    IFEATURE_SET,
    DEVICE_INFORMATION,
    DEVICE_NAME_AND_TYPE,
    BATTERY_LEVEL_STATUS,
    WIRELESS_DEVICE_STATUS,
];

/// Bytes 2 and 3 of a HID++ report: what a reply has in common with its
/// request. The reply to a ping has the third parameter in common too.
#[derive(Clone, Copy, Debug, PartialEq, Eq)]
pub struct Key {
    pub byte2: u8,
    pub byte3: u8,
}

impl Key {
    /// Reads the receiver's long register B5. Names from source document 004.
    pub const PAIRING_INFORMATION: Key = Key {
        byte2: 0x83,
        byte3: 0xB5,
    };

    pub fn function(self) -> u8 {
        self.byte3 >> 4
    }

    pub fn software_id(self) -> u8 {
        self.byte3 & 0x0F
    }

    pub fn is_ping(self) -> bool {
        self.byte2 == 0 && self.function() == 1
    }

    fn is_get_feature(self) -> bool {
        self.byte2 == 0 && self.function() == 0
    }
}

/// One pending request. Document 01: a place that isn't empty.
#[derive(Clone, Copy, Debug, PartialEq, Eq)]
pub struct Waiting {
    pub key: Key,
    pub parameters: [u8; 3],
    pub ticks: u8,
}

impl Waiting {
    /// Whether a report with this key and these parameters is its reply.
    /// 02, Ask 2: a ping is told from others with its key by the third
    /// parameter, which the device sends back.
    fn is_answered_by(&self, key: Key, parameters: &[u8]) -> bool {
        self.key == key && (!key.is_ping() || self.parameters[2] == parameters[2])
    }
}

#[derive(Clone, Copy, Debug, PartialEq, Eq)]
pub struct Version {
    pub major: u8,
    pub minor: u8,
}

#[derive(Clone, Copy, Debug, PartialEq, Eq)]
pub struct Battery {
    pub level: u8,
    pub next: u8,
    pub status: u8,
}

#[derive(Clone, Copy, Debug, Default, PartialEq, Eq)]
pub enum Link {
    #[default]
    Down,
    Up,
}

/// What one port holds. The default is 01's "fresh".
#[derive(Clone, Debug, Default, PartialEq, Eq)]
pub struct Port {
    pub paired: bool,
    pub wpid: u16,
    /// Bit t is set where the device sends radio reports of type t.
    pub reports: u32,
    pub link: Link,
    pub version: Option<Version>,
    /// One index for each of `KNOWN_FEATURES`.
    pub features: [FeatureIndex; 5],
    pub battery: Option<Battery>,
    pub places: [Option<Waiting>; 4],
    /// Which of several devices with one WPID it is.
    pub serial: Option<u32>,
}

impl Port {
    pub fn waiting(&self) -> impl Iterator<Item = &Waiting> {
        self.places.iter().flatten()
    }

    pub fn waiting_count(&self) -> u8 {
        self.waiting().count() as u8
    }

    pub fn index_of(&self, feature: u16) -> FeatureIndex {
        KNOWN_FEATURES
            .iter()
            .position(|&known| known == feature)
            .map_or(FeatureIndex::NOT_FOUND, |slot| self.features[slot])
    }

    fn waits_for(&self, key: Key) -> bool {
        self.waiting().any(|waiting| waiting.key == key)
    }

    /// Empties the place of the request with this key and returns the request.
    fn end(&mut self, key: Key) -> Option<Waiting> {
        self.end_where(|waiting| waiting.key == key)
    }

    fn end_where(&mut self, is_meant: impl Fn(&Waiting) -> bool) -> Option<Waiting> {
        self.places
            .iter_mut()
            .find(|place| place.as_ref().is_some_and(&is_meant))
            .and_then(Option::take)
    }

    /// Makes the port fresh and returns the number of dropped requests.
    fn reset(&mut self) -> u8 {
        std::mem::take(self).waiting_count()
    }

    /// Makes the port fresh but for pairing, WPID and bitfield and returns the
    /// number of dropped requests.
    fn reset_but_pairing(&mut self) -> u8 {
        let kept = Port {
            paired: self.paired,
            wpid: self.wpid,
            reports: self.reports,
            ..Port::default()
        };
        std::mem::replace(self, kept).waiting_count()
    }
}

/// Seven ports. The default is a fresh station.
#[derive(Clone, Debug, Default, PartialEq, Eq)]
pub struct Station {
    ports: [Port; 7],
}

impl Station {
    pub fn port(&self, number: PortNumber) -> &Port {
        &self.ports[number.position()]
    }

    pub(crate) fn port_mut(&mut self, number: PortNumber) -> &mut Port {
        &mut self.ports[number.position()]
    }

    /// Every port with its number, 1 to 6 and then 255.
    pub fn ports(&self) -> impl Iterator<Item = (PortNumber, &Port)> {
        PortNumber::ALL.into_iter().zip(&self.ports)
    }
}

// ---------------------------------------------------------------------------
// Reading one report without a station

#[derive(Clone, Copy, Debug, PartialEq, Eq)]
pub enum Family {
    Hidpp,
    Dj,
}

/// 01, "Report sizes and bytes".
#[derive(Clone, Copy, Debug, PartialEq, Eq)]
#[repr(u8)]
pub enum ReportId {
    HidppShort = 0x10,
    HidppLong = 0x11,
    DjShort = 0x20,
    DjLong = 0x21,
}

impl ReportId {
    pub fn from_byte(byte: u8) -> Option<ReportId> {
        match byte {
            0x10 => Some(Self::HidppShort),
            0x11 => Some(Self::HidppLong),
            0x20 => Some(Self::DjShort),
            0x21 => Some(Self::DjLong),
            _ => None,
        }
    }

    pub fn byte(self) -> u8 {
        self as u8
    }

    /// The length of the whole report.
    pub fn length(self) -> usize {
        match self {
            Self::HidppShort => 7,
            Self::HidppLong => 20,
            Self::DjShort => 15,
            Self::DjLong => 32,
        }
    }

    pub fn family(self) -> Family {
        match self {
            Self::HidppShort | Self::HidppLong => Family::Hidpp,
            Self::DjShort | Self::DjLong => Family::Dj,
        }
    }

    /// The offset of the first parameter.
    pub fn start(self) -> usize {
        match self.family() {
            Family::Hidpp => 4,
            Family::Dj => 3,
        }
    }

    /// The number of parameters.
    pub fn parameters(self) -> usize {
        self.length() - self.start()
    }
}

/// What a report says without a station.
#[derive(Clone, Copy, Debug, PartialEq, Eq)]
pub struct Reading {
    pub id: ReportId,
    pub device: u8,
    pub byte2: u8,
    pub byte3: u8,
}

/// The DJ types that 01 names, and the greatest radio type.
pub mod dj {
    pub const LAST_RADIO: u8 = 0x3F;
    pub const LED: u8 = 0x0E;
    pub const UNPAIRED: u8 = 0x40;
    pub const PAIRED: u8 = 0x41;
    pub const LINK: u8 = 0x42;
    pub const FIRST_COMMAND: u8 = 0x80;
    pub const SWITCH: u8 = 0x80;
    pub const GET_PAIRED: u8 = 0x81;
    /// Bit 1 of the first parameter of `PAIRED`.
    pub const EMPTY_LIST: u8 = 0b10;
}

/// Reads one report on its own: refusals 1 to 6 in the table's order.
pub fn read(report: &[u8]) -> Result<Reading, Refusal> {
    let &first = report.first().ok_or(Refusal::EmptyReport)?;
    let id = ReportId::from_byte(first).ok_or(Refusal::UnknownId)?;
    ensure(report.len() == id.length(), Refusal::WrongLength)?;
    let reading = Reading {
        id,
        device: report[1],
        byte2: report[2],
        byte3: report[3],
    };
    match id.family() {
        Family::Hidpp => reading.check_hidpp()?,
        Family::Dj => reading.check_dj()?,
    }
    Ok(reading)
}

impl Reading {
    fn key(&self) -> Key {
        Key {
            byte2: self.byte2,
            byte3: self.byte3,
        }
    }

    fn check_hidpp(&self) -> Result<(), Refusal> {
        PortNumber::device_or_receiver(self.device)?;
        let reserved = matches!(self.byte2, 0x84..=0x8E | 0x90..=0xFE);
        ensure(!reserved, Refusal::ReservedSubId)
    }

    fn check_dj(&self) -> Result<(), Refusal> {
        let down_only = self.byte2 >= dj::FIRST_COMMAND || self.byte2 == dj::LED;
        ensure(!down_only, Refusal::DownOnly)?;
        if self.is_empty_list() {
            return Ok(());
        }
        self.dj_port().map(|_| ())
    }

    /// The first DJ parameter is byte 3.
    fn is_empty_list(&self) -> bool {
        self.byte2 == dj::PAIRED && self.byte3 & dj::EMPTY_LIST != 0
    }

    /// 01, "Number 5": only the notifications 0x43–0x7F may name the receiver.
    fn dj_port(&self) -> Result<PortNumber, Refusal> {
        if self.byte2 > dj::LINK {
            PortNumber::device_or_receiver(self.device)
        } else {
            PortNumber::device(self.device)
        }
    }
}

// ---------------------------------------------------------------------------
// Taking a report

/// The answer to a report that was taken.
#[derive(Clone, Copy, Debug, PartialEq, Eq)]
pub enum Taken {
    /// The key is the report's own, but the request's where an error ended it.
    Hidpp {
        outcome: Outcome,
        port: PortNumber,
        key: Key,
        length: usize,
    },
    Radio {
        report_type: u8,
        length: usize,
    },
    Notice(Notice),
}

#[derive(Clone, Copy, Debug, PartialEq, Eq)]
pub enum Outcome {
    /// The dropped requests are those of a device whose serial changed.
    Reply {
        dropped: u8,
    },
    Stray,
    Plain,
    Event,
    Error {
        code: u8,
        kind: ErrorKind,
    },
}

/// Which of the two error reports ended a request.
#[derive(Clone, Copy, Debug, PartialEq, Eq)]
#[repr(u8)]
pub enum ErrorKind {
    Hidpp10 = 0x8F,
    Hidpp20 = 0xFF,
}

impl ErrorKind {
    fn from_byte2(byte2: u8) -> Option<ErrorKind> {
        match byte2 {
            0x8F => Some(Self::Hidpp10),
            0xFF => Some(Self::Hidpp20),
            _ => None,
        }
    }

    pub fn byte(self) -> u8 {
        self as u8
    }

    fn fits(self, request: Key) -> bool {
        self == Self::Hidpp10 || request.byte2 < FIRST_SUB_ID
    }
}

#[derive(Clone, Copy, Debug, PartialEq, Eq)]
pub enum Notice {
    Unpaired {
        port: PortNumber,
        dropped: u8,
    },
    Paired {
        port: PortNumber,
        more: bool,
        wpid: u16,
        reports: u32,
        dropped: u8,
    },
    EmptyList,
    Link {
        port: PortNumber,
        link: Link,
    },
    Other {
        port: PortNumber,
        report_type: u8,
    },
}

/// Byte 2 below this is a feature index, from here on a sub id.
const FIRST_SUB_ID: u8 = 0x40;

impl Station {
    /// Takes one report. A refusal leaves the station as it stood.
    pub fn take(&mut self, report: &[u8]) -> Result<Taken, Refusal> {
        let reading = read(report)?;
        let parameters = &report[reading.id.start()..];
        match reading.id.family() {
            Family::Hidpp => self.take_hidpp(&reading, parameters),
            Family::Dj => self.take_dj(&reading, parameters),
        }
    }

    fn take_hidpp(&mut self, reading: &Reading, parameters: &[u8]) -> Result<Taken, Refusal> {
        let port = PortNumber::device_or_receiver(reading.device)?;
        let told = self.told_serial(port, reading, parameters);
        let (mut outcome, key) = self.port_mut(port).take_hidpp(reading.key(), parameters);
        if let Some((device, serial)) = told {
            outcome = Outcome::Reply {
                dropped: self.port_mut(device).record_serial(serial),
            };
        }
        Ok(Taken::Hidpp {
            outcome,
            port,
            key,
            length: parameters.len(),
        })
    }

    /// The device and the serial that a long reply of the receiver tells,
    /// where the request that it ends asked for that device.
    fn told_serial(
        &self,
        port: PortNumber,
        reading: &Reading,
        parameters: &[u8],
    ) -> Option<(PortNumber, u32)> {
        let from_receiver = port == PortNumber::RECEIVER && reading.id == ReportId::HidppLong;
        if !from_receiver || reading.key() != Key::PAIRING_INFORMATION {
            return None;
        }
        let mut waiting = self.port(port).waiting();
        let request = waiting.find(|waiting| waiting.key == reading.key())?;
        let device = asked_serial(request.parameters[0])?;
        let &[first, a, b, c, d, ..] = parameters else {
            return None;
        };
        (first == request.parameters[0]).then_some((device, u32::from_be_bytes([a, b, c, d])))
    }

    fn take_dj(&mut self, reading: &Reading, parameters: &[u8]) -> Result<Taken, Refusal> {
        if reading.is_empty_list() {
            return Ok(Taken::Notice(Notice::EmptyList));
        }
        let number = reading.dj_port()?;
        let port = self.port_mut(number);
        let notice = match reading.byte2 {
            0..=dj::LAST_RADIO => return port.take_radio(reading.byte2, parameters),
            dj::UNPAIRED => Notice::Unpaired {
                port: number,
                dropped: port.reset(),
            },
            dj::PAIRED => port.take_paired(number, parameters),
            dj::LINK => port.take_link(number, parameters[0])?,
            other => Notice::Other {
                port: number,
                report_type: other,
            },
        };
        Ok(Taken::Notice(notice))
    }
}

/// The first parameter that asks for the serial of device 1.
pub const FIRST_SERIAL: u8 = 0x30;

/// The device whose serial a request with this first parameter asks for.
pub fn asked_serial(parameter: u8) -> Option<PortNumber> {
    let before = parameter.checked_sub(FIRST_SERIAL)?;
    PortNumber::device(before.checked_add(1)?).ok()
}

/// 01, "Taking a HID++ report".
impl Port {
    /// The four steps in their order, with the key that the answer carries.
    fn take_hidpp(&mut self, key: Key, parameters: &[u8]) -> (Outcome, Key) {
        if let Some(kind) = ErrorKind::from_byte2(key.byte2) {
            return self.take_error(kind, key, parameters);
        }
        if let Some(request) = self.end_where(|waiting| waiting.is_answered_by(key, parameters)) {
            self.record_reply(&request, parameters);
            return (Outcome::Reply { dropped: 0 }, key);
        }
        // 02, Ask 2: the ping that waits asked with another third parameter.
        if self.waits_for(key) {
            return (Outcome::Stray, key);
        }
        let outcome = match key.byte2 {
            0x00..=0x3F => self.take_unrequested(key, parameters),
            0x40..=0x7F => Outcome::Plain,
            _ => Outcome::Stray,
        };
        (outcome, key)
    }

    /// Offsets 3, 4 and 5 of the report: the request's bytes 2 and 3, the code.
    fn take_error(&mut self, kind: ErrorKind, key: Key, parameters: &[u8]) -> (Outcome, Key) {
        let named = Key {
            byte2: key.byte3,
            byte3: parameters[0],
        };
        let code = parameters[1];
        if !kind.fits(named) || self.end(named).is_none() {
            return (Outcome::Stray, key);
        }
        if named.is_ping() && kind == ErrorKind::Hidpp10 && code == 1 {
            self.version = Some(Version { major: 1, minor: 0 });
        }
        (Outcome::Error { code, kind }, named)
    }

    /// Step 4: byte 2 is a feature index, and no request waits for it.
    fn take_unrequested(&mut self, key: Key, parameters: &[u8]) -> Outcome {
        if self.version.is_some_and(|version| version.major == 1) {
            return Outcome::Plain;
        }
        if key.software_id() != 0 {
            return Outcome::Stray;
        }
        self.record_event(key, parameters);
        Outcome::Event
    }

    fn record_reply(&mut self, request: &Waiting, parameters: &[u8]) {
        let key = request.key;
        if key.is_ping() {
            self.version = Some(Version {
                major: parameters[0],
                minor: parameters[1],
            });
        }
        if key.is_get_feature() {
            self.record_feature(request, parameters[0]);
        }
        if key.function() == 0 && self.index_of(BATTERY_LEVEL_STATUS).is(key.byte2) {
            self.record_battery(parameters);
        }
    }

    /// Two features may hold one index, so both rules are looked at.
    fn record_event(&mut self, key: Key, parameters: &[u8]) {
        if key.byte3 != 0 {
            return;
        }
        if self.index_of(BATTERY_LEVEL_STATUS).is(key.byte2) {
            self.record_battery(parameters);
        }
        if self.index_of(WIRELESS_DEVICE_STATUS).is(key.byte2) {
            self.link = Link::Up;
        }
    }

    fn record_feature(&mut self, request: &Waiting, returned: u8) {
        let [high, low, _] = request.parameters;
        let asked = u16::from_be_bytes([high, low]);
        let index = if returned > FeatureIndex::HIGHEST {
            FeatureIndex::NOT_FOUND
        } else {
            FeatureIndex(returned)
        };
        for (known, held) in KNOWN_FEATURES.into_iter().zip(&mut self.features) {
            if known == asked {
                *held = index;
            }
        }
    }

    /// 02, Ask 1: a paired device's serial, which makes it fresh where another
    /// one was known. Returns the number of dropped requests.
    fn record_serial(&mut self, serial: u32) -> u8 {
        if !self.paired {
            return 0;
        }
        let is_another = self.serial.is_some_and(|known| known != serial);
        let dropped = if is_another {
            self.reset_but_pairing()
        } else {
            0
        };
        self.serial = Some(serial);
        dropped
    }

    fn record_battery(&mut self, parameters: &[u8]) {
        let (level, next, status) = (parameters[0], parameters[1], parameters[2]);
        if level <= 100 && next <= 100 {
            self.battery = Some(Battery {
                level,
                next,
                status,
            });
        }
    }
}

/// Payload lengths by radio type; 0 stands for all that follows.
const PAYLOAD_LENGTHS: [usize; 32] = [
    0, 7, 7, 4, 1, 0, 0, 0, 1, 0, 0, 0, 0, 0, 1, 0, //
    0, 0, 0, 0, 0, 0, 0, 0, 0, 0, 0, 0, 0, 0, 0, 0,
];

/// The payload of a radio report, and its padding: the bytes after it, to the
/// end of the report. Where the payload is all that follows there are none.
pub fn split_payload(report_type: u8, parameters: &[u8]) -> (&[u8], &[u8]) {
    match PAYLOAD_LENGTHS.get(usize::from(report_type)) {
        Some(0) | None => (parameters, &[]),
        Some(&length) => parameters.split_at(length),
    }
}

pub fn is_clean(padding: &[u8]) -> bool {
    padding.iter().all(|&byte| byte == 0)
}

/// 01, "Taking a DJ report".
impl Port {
    /// 02, Ask 5: the padding is looked at last, before the link.
    fn take_radio(&mut self, report_type: u8, parameters: &[u8]) -> Result<Taken, Refusal> {
        ensure(self.paired, Refusal::Unpaired)?;
        ensure(self.declares(report_type), Refusal::UndeclaredType)?;
        let (payload, padding) = split_payload(report_type, parameters);
        ensure(is_clean(padding), Refusal::DirtyPadding)?;
        self.link = Link::Up;
        Ok(Taken::Radio {
            report_type,
            length: payload.len(),
        })
    }

    pub fn declares(&self, report_type: u8) -> bool {
        report_type < 32 && self.reports >> report_type & 1 == 1
    }

    fn take_paired(&mut self, number: PortNumber, parameters: &[u8]) -> Notice {
        let wpid = u16::from_le_bytes([parameters[1], parameters[2]]);
        let reports =
            u32::from_le_bytes([parameters[3], parameters[4], parameters[5], parameters[6]]);
        let mut dropped = 0;
        if !(self.paired && self.wpid == wpid) {
            dropped = self.reset();
            self.paired = true;
            self.wpid = wpid;
        }
        self.reports = reports;
        Notice::Paired {
            port: number,
            more: parameters[0] & 1 != 0,
            wpid,
            reports,
            dropped,
        }
    }

    fn take_link(&mut self, number: PortNumber, flags: u8) -> Result<Notice, Refusal> {
        ensure(self.paired, Refusal::Unpaired)?;
        self.link = if flags & 1 != 0 { Link::Down } else { Link::Up };
        Ok(Notice::Link {
            port: number,
            link: self.link,
        })
    }
}

// ---------------------------------------------------------------------------
// Writing

/// The part of a lent buffer that a writer of `length` bytes may fill.
fn room(buffer: &mut [u8], offset: usize, length: usize) -> Result<&mut [u8], Refusal> {
    let end = offset.checked_add(length).ok_or(Refusal::DoesNotFit)?;
    buffer.get_mut(offset..end).ok_or(Refusal::DoesNotFit)
}

/// Writes `bytes` at an offset of a lent buffer and answers their number.
pub(crate) fn put(bytes: &[u8], offset: usize, buffer: &mut [u8]) -> Result<usize, Refusal> {
    room(buffer, offset, bytes.len())?.copy_from_slice(bytes);
    Ok(bytes.len())
}

/// A request frame as asked for; the port is not yet known to be one.
#[derive(Clone, Copy, Debug)]
pub struct Frame<'a> {
    pub port: u8,
    pub key: Key,
    pub parameters: &'a [u8],
}

impl Frame<'_> {
    /// Refusals 5 and 9, but for the ticks.
    fn check(&self) -> Result<(PortNumber, ReportId), Refusal> {
        let port = PortNumber::device_or_receiver(self.port)?;
        let id = self.id().ok_or(Refusal::ForbiddenRequest)?;
        ensure(self.is_allowed(id), Refusal::ForbiddenRequest)?;
        Ok((port, id))
    }

    fn id(&self) -> Option<ReportId> {
        match self.parameters.len() {
            3 => Some(ReportId::HidppShort),
            16 => Some(ReportId::HidppLong),
            _ => None,
        }
    }

    /// 01, "Number 9": byte 2 and the size it goes with.
    fn is_allowed(&self, id: ReportId) -> bool {
        match self.key.byte2 {
            0x00..=0x3F => self.key.software_id() != 0 && !self.asks_for_feature_0(),
            0x80 | 0x81 | 0x83 => id == ReportId::HidppShort,
            0x82 => id == ReportId::HidppLong,
            _ => false,
        }
    }

    fn asks_for_feature_0(&self) -> bool {
        self.key.is_get_feature() && self.parameters[..2] == [0, 0]
    }

    fn fill(&self, id: ReportId, room: &mut [u8]) {
        let (header, parameters) = room.split_at_mut(id.start());
        header.copy_from_slice(&[id.byte(), self.port, self.key.byte2, self.key.byte3]);
        parameters.copy_from_slice(self.parameters);
    }
}

/// Writes a request frame without a station: refusals 5, 9 and 10.
pub fn write_frame(frame: &Frame, offset: usize, buffer: &mut [u8]) -> Result<usize, Refusal> {
    let (_, id) = frame.check()?;
    frame.fill(id, room(buffer, offset, id.length())?);
    Ok(id.length())
}

/// Writes the switch frame: refusals 14 and 10.
pub fn write_switch(
    bits: u8,
    timeout: u8,
    offset: usize,
    buffer: &mut [u8],
) -> Result<usize, Refusal> {
    ensure(bits & 0b1100_0000 == 0, Refusal::ReservedDeviceBits)?;
    let receiver = PortNumber::RECEIVER.byte();
    put_dj([receiver, dj::SWITCH, bits, timeout], offset, buffer)
}

/// Writes the get-paired frame: refusal 10.
pub fn write_get_paired(offset: usize, buffer: &mut [u8]) -> Result<usize, Refusal> {
    let receiver = PortNumber::RECEIVER.byte();
    put_dj([receiver, dj::GET_PAIRED, 0, 0], offset, buffer)
}

/// Writes the LED frame: refusals 5 and 10.
pub fn write_led(port: u8, value: u8, offset: usize, buffer: &mut [u8]) -> Result<usize, Refusal> {
    let port = PortNumber::device(port)?;
    put_dj([port.byte(), dj::LED, value, 0], offset, buffer)
}

/// A short DJ frame: the id, these four bytes, ten zeros.
fn put_dj(start: [u8; 4], offset: usize, buffer: &mut [u8]) -> Result<usize, Refusal> {
    let mut frame = [0; 15];
    frame[0] = ReportId::DjShort.byte();
    frame[1..5].copy_from_slice(&start);
    put(&frame, offset, buffer)
}

impl Station {
    /// Writes a request frame and lets it wait: refusals 5, 9, 10, 11 and 12.
    /// A refusal leaves the station and the buffer as they stood.
    pub fn request(
        &mut self,
        frame: &Frame,
        ticks: u16,
        offset: usize,
        buffer: &mut [u8],
    ) -> Result<usize, Refusal> {
        let (number, id) = frame.check()?;
        let ticks = u8::try_from(ticks).map_err(|_| Refusal::ForbiddenRequest)?;
        ensure(ticks != 0, Refusal::ForbiddenRequest)?;
        let room = room(buffer, offset, id.length())?;
        let port = self.port_mut(number);
        ensure(!port.waits_for(frame.key), Refusal::AlreadyWaiting)?;
        let empty = port.places.iter_mut().find(|place| place.is_none());
        *empty.ok_or(Refusal::PlacesFull)? = Some(Waiting {
            key: frame.key,
            parameters: [
                frame.parameters[0],
                frame.parameters[1],
                frame.parameters[2],
            ],
            ticks,
        });
        frame.fill(id, room);
        Ok(id.length())
    }

    /// Ends a waiting request: refusals 5 and 13.
    pub fn cancel(&mut self, port: u8, key: Key) -> Result<(), Refusal> {
        let number = PortNumber::device_or_receiver(port)?;
        let ended = self.port_mut(number).end(key);
        ended.map(|_| ()).ok_or(Refusal::NothingWaits)
    }

    /// Lowers every count and answers how many requests ended on each port.
    pub fn tick(&mut self) -> [u8; 7] {
        self.ports.each_mut().map(Port::tick)
    }

    pub fn switch(
        &self,
        bits: u8,
        timeout: u8,
        offset: usize,
        buffer: &mut [u8],
    ) -> Result<usize, Refusal> {
        write_switch(bits, timeout, offset, buffer)
    }

    pub fn get_paired(&self, offset: usize, buffer: &mut [u8]) -> Result<usize, Refusal> {
        write_get_paired(offset, buffer)
    }

    pub fn led(
        &self,
        port: u8,
        value: u8,
        offset: usize,
        buffer: &mut [u8],
    ) -> Result<usize, Refusal> {
        write_led(port, value, offset, buffer)
    }
}

impl Port {
    fn tick(&mut self) -> u8 {
        let before = self.waiting_count();
        for place in &mut self.places {
            if let Some(waiting) = place {
                waiting.ticks -= 1;
                if waiting.ticks == 0 {
                    *place = None;
                }
            }
        }
        before - self.waiting_count()
    }
}

// ---------------------------------------------------------------------------
// Mouse movement

#[derive(Clone, Copy, Debug, PartialEq, Eq)]
pub struct Movement {
    pub buttons: u16,
    pub x: i16,
    pub y: i16,
    pub wheel: i8,
    pub pan: i8,
}

/// Reads the payload of a radio report of type 2: refusal 3.
pub fn read_mouse(payload: &[u8]) -> Result<Movement, Refusal> {
    let &[low, high, x, nibbles, y, wheel, pan] = payload else {
        return Err(Refusal::WrongLength);
    };
    Ok(Movement {
        buttons: u16::from_le_bytes([low, high]),
        x: signed_12(u16::from(x) | u16::from(nibbles & 0x0F) << 8),
        y: signed_12(u16::from(nibbles >> 4) | u16::from(y) << 4),
        wheel: wheel as i8,
        pan: pan as i8,
    })
}

/// A twelve-bit two's complement number.
fn signed_12(bits: u16) -> i16 {
    let value = bits as i16;
    if value < 0x800 {
        value
    } else {
        value - 0x1000
    }
}

// ---------------------------------------------------------------------------
// Port listing

pub const LISTING_HEADER: &str = "port\twpid\treports\tlink\tversion\tbattery\twaiting\n";

impl Station {
    /// Writes the port listing: refusal 10.
    pub fn list(&self, offset: usize, buffer: &mut [u8]) -> Result<usize, Refusal> {
        put(self.listing().as_bytes(), offset, buffer)
    }

    pub fn listing(&self) -> String {
        let devices = self.ports().filter(|(_, port)| port.paired);
        let lines = devices.map(|(number, port)| port.listing_line(number));
        LISTING_HEADER.to_owned() + &lines.collect::<String>()
    }
}

impl Port {
    fn listing_line(&self, number: PortNumber) -> String {
        format!(
            "{}\t{:04X}\t{:08X}\t{}\t{}\t{}\t{}\n",
            number.byte(),
            self.wpid,
            self.reports,
            self.link.text(),
            self.version_text(),
            self.battery_text(),
            self.waiting_count(),
        )
    }

    pub fn version_text(&self) -> String {
        match self.version {
            Some(Version { major, minor }) => format!("{major}.{minor}"),
            None => "-".to_owned(),
        }
    }

    pub fn serial_text(&self) -> String {
        match self.serial {
            Some(serial) => format!("{serial:08X}"),
            None => "-".to_owned(),
        }
    }

    pub fn battery_text(&self) -> String {
        match self.battery {
            Some(Battery {
                level,
                next,
                status,
            }) => format!("{level},{next},{status}"),
            None => "-".to_owned(),
        }
    }
}

impl Link {
    pub fn text(self) -> &'static str {
        match self {
            Link::Up => "up",
            Link::Down => "down",
        }
    }
}
