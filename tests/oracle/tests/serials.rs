//! 02, Ask 1: the serial of a device, as scripts.

mod common;

use common::{answers, held, last};

/// A device is paired with WPID 2010.
fn pair(device: u8) -> String {
    format!("take 20 {device:02X} 41 00 10 20 0E 00 00 00 00 00 00 00 00\n")
}

/// The receiver is asked for register B5 with this first parameter.
fn ask(parameter: u8) -> String {
    format!("request 255 83 B5 9 0 7 {parameter:02X} 00 00\n")
}

/// A long report of the receiver with these bytes 2 and 3, a first parameter
/// and a serial.
fn long(key: &str, parameter: u8, serial: &str) -> String {
    format!(
        "take 11 FF {key} {parameter:02X} {serial} {}\n",
        ["00"; 11].join(" ")
    )
}

/// A device is asked for its serial, which is told.
fn learn(device: u8, serial: &str) -> String {
    let parameter = 0x2F + device;
    ask(parameter) + &long("83 B5", parameter, serial)
}

/// A device that is up, has a version, a feature, a battery and two waiting
/// requests.
fn busy(device: u8) -> String {
    format!(
        "take 20 {device:02X} 42 00 00 00 00 00 00 00 00 00 00 00 00\n\
         request {device} 00 11 9 0 7 00 00 5A\ntake 10 {device:02X} 00 11 02 00 5A\n\
         request {device} 00 01 9 0 7 10 00 00\ntake 10 {device:02X} 00 01 07 00 00\n\
         take 10 {device:02X} 07 00 32 28 00\n\
         request {device} 05 01 9 0 7 00 00 00\nrequest {device} 06 01 9 0 7 00 00 00\n"
    )
}

fn serial(script: &str, device: u8) -> String {
    let line = held(script, device);
    line.rsplit_once(" serial=").expect("a serial").1.to_owned()
}

const FRESH_BUT_PAIRED: &str = "paired=1 wpid=2010 reports=0000000E link=down version=- \
                                features=0,0,0,0,0 battery=- places=-,-,-,-";

#[test]
fn every_device_has_its_own_serial() {
    let script: String = (1..=6)
        .map(|device| pair(device) + &learn(device, &format!("0A 1B 2C 3{device}")))
        .collect();
    for device in 1..=6 {
        assert_eq!(serial(&script, device), format!("0A1B2C3{device}"));
    }
    assert_eq!(serial(&script, 255), "-");
}

#[test]
fn first_serial_drops_nothing() {
    let setup = pair(2) + &busy(2);
    let script = setup.clone() + &learn(2, "00 00 00 00");
    let reply = "reply port=255 byte2=83 byte3=B5 start=4 length=16 dropped=0";
    assert_eq!(last(&script), reply);
    let before = held(&setup, 2);
    let known = before.strip_suffix("serial=-").expect("no serial");
    assert_eq!(held(&script, 2), format!("{known}serial=00000000"));
}

#[test]
fn same_serial_changes_nothing() {
    let setup = pair(2) + &learn(2, "12 34 56 78") + &busy(2);
    let script = setup.clone() + &learn(2, "12 34 56 78");
    assert!(last(&script).ends_with(" dropped=0"));
    assert_eq!(held(&script, 2), held(&setup, 2));
    assert_eq!(held(&script, 255), held("", 255));
}

#[test]
fn another_serial_makes_the_port_fresh_but_for_its_pairing() {
    for another in ["12 34 56 79", "92 34 56 78", "78 56 34 12"] {
        let setup = pair(2) + &learn(2, "12 34 56 78") + &pair(3) + &busy(2) + &busy(3);
        let script = setup.clone() + &learn(2, another);
        assert!(last(&script).ends_with(" length=16 dropped=2"));
        let told = another.replace(' ', "");
        let fresh = format!("port=2 {FRESH_BUT_PAIRED} serial={told}");
        assert_eq!(held(&script, 2), fresh);
        assert_eq!(held(&script, 3), held(&setup, 3));
        assert_eq!(
            last(script + "take 10 02 05 01 00 00 00\n"),
            "stray port=2 byte2=05 byte3=01 start=4 length=3"
        );
    }
}

/// The request that the reply ends, and others on 255, are not among them.
#[test]
fn requests_of_the_receiver_are_not_dropped() {
    let others = "request 255 81 B5 9 0 7 31 00 00\nrequest 255 82 B5 9 0 20 31 00 00 00 00 00 00 00 00 00 00 00 00 00 00 00\n";
    let script = pair(2) + &learn(2, "12 34 56 78") + others + &learn(2, "12 34 56 79");
    assert!(last(&script).ends_with(" dropped=0"));
    let places = " places=81:B5:31:00:00:9,82:B5:31:00:00:9,-,- serial=-";
    assert!(held(&script, 255).ends_with(places));
}

/// What ends the request and sets no serial.
#[test]
fn other_replies_set_no_serial() {
    let known = pair(2) + &pair(1) + &learn(2, "12 34 56 78") + &busy(2);
    let others = [
        // A short reply.
        ask(0x31) + "take 10 FF 83 B5 31 99 99\n",
        // Another first parameter in the reply, though it names a paired device.
        ask(0x31) + &long("83 B5", 0x30, "99 99 99 99"),
        ask(0x30) + &long("83 B5", 0x31, "99 99 99 99"),
        ask(0x41) + &long("83 B5", 0x31, "99 99 99 99"),
        // No device's parameter.
        ask(0x2F) + &long("83 B5", 0x2F, "99 99 99 99"),
        ask(0x36) + &long("83 B5", 0x36, "99 99 99 99"),
        ask(0x02) + &long("83 B5", 0x02, "99 99 99 99"),
        ask(0xFF) + &long("83 B5", 0xFF, "99 99 99 99"),
        // Another register or another sub id.
        "request 255 83 B4 9 0 7 31 00 00\n".to_owned() + &long("83 B4", 0x31, "99 99 99 99"),
        "request 255 81 B5 9 0 7 31 00 00\n".to_owned() + &long("81 B5", 0x31, "99 99 99 99"),
        format!(
            "request 255 82 B5 9 0 20 31 {}\n{}",
            ["00"; 15].join(" "),
            long("82 B5", 0x31, "99 99 99 99")
        ),
        // A device's own port.
        "request 1 83 B5 9 0 7 31 00 00\n".to_owned()
            + &long("83 B5", 0x31, "99 99 99 99").replace("11 FF", "11 01"),
    ];
    for other in others {
        let script = known.clone() + &other;
        let reply = last(&script);
        assert!(reply.starts_with("reply "), "{other}{reply}");
        assert!(reply.ends_with(" dropped=0"), "{other}{reply}");
        assert_eq!(held(&script, 2), held(&known, 2), "{other}");
        assert_eq!(serial(&script, 1), "-", "{other}");
        assert_eq!(held(&script, 255), held("", 255), "{other}");
    }
}

#[test]
fn no_serial_without_a_waiting_request() {
    let known = pair(2) + &learn(2, "12 34 56 78");
    let told = long("83 B5", 0x31, "99 99 99 99");
    let stray = "stray port=255 byte2=83 byte3=B5 start=4 length=16";
    for script in [
        known.clone() + &told,
        known.clone() + &ask(0x31) + "cancel 255 83 B5\n" + &told,
        known.clone() + &ask(0x31) + "take 10 FF 8F 83 B5 03 00\n" + &told,
        known + "request 255 83 B5 1 0 7 31 00 00\ntick\n" + &told,
    ] {
        assert_eq!(last(&script), stray);
        assert_eq!(serial(&script, 2), "12345678");
    }
}

#[test]
fn other_parameters_of_the_request_are_free() {
    let asked = "request 255 83 B5 9 0 7 31 FF 31\n";
    let script = pair(2) + asked + &long("83 B5", 0x31, "12 34 56 78");
    assert_eq!(serial(&script, 2), "12345678");
}

#[test]
fn unpaired_device_has_no_serial() {
    let script = busy(2).replace("take 20", "# take 20") + &learn(2, "12 34 56 78");
    assert!(last(&script).ends_with(" dropped=0"));
    assert_eq!(serial(&script, 2), "-");
    assert_eq!(serial(&learn(2, "12 34 56 78"), 2), "-");
}

#[test]
fn serial_goes_with_the_device() {
    let known = pair(2) + &learn(2, "12 34 56 78");
    let again = known.clone() + "take 20 02 41 00 10 20 1E 00 00 00 00 00 00 00 00\n";
    assert_eq!(serial(&again, 2), "12345678");
    let other = known.clone() + "take 20 02 41 00 11 20 0E 00 00 00 00 00 00 00 00\n";
    assert_eq!(serial(&other, 2), "-");
    let unpaired = known.clone() + "take 20 02 40 00 00 00 00 00 00 00 00 00 00 00 00\n";
    assert_eq!(serial(&unpaired, 2), "-");
    let link = known + "take 20 02 42 01 00 00 00 00 00 00 00 00 00 00 00\n";
    assert_eq!(serial(&link, 2), "12345678");
}

/// The request waits on 255, whichever device is paired when its reply comes.
#[test]
fn request_outlives_its_device() {
    let script = pair(2)
        + &learn(2, "12 34 56 78")
        + &ask(0x31)
        + "take 20 02 40 00 00 00 00 00 00 00 00 00 00 00 00\n\
           take 20 02 41 00 77 20 0E 00 00 00 00 00 00 00 00\n\
           request 2 05 01 9 0 7 00 00 00\n"
        + &long("83 B5", 0x31, "99 99 99 99");
    assert!(last(&script).ends_with(" dropped=0"));
    let line = held(&script, 2);
    assert!(line.ends_with("places=05:01:00:00:00:9,-,-,- serial=99999999"));
}

#[test]
fn other_answers_carry_no_drops() {
    let known = pair(2) + &learn(2, "12 34 56 78") + "request 2 05 01 9 0 7 00 00 00\n";
    let script = known + &ask(0x31) + "take 10 FF 8F 83 B5 03 00\n" + "take 10 FF 83 B5 31 99 99\n";
    let lines = answers(script);
    assert_eq!(
        lines[lines.len() - 2..],
        [
            "error port=255 byte2=83 byte3=B5 start=4 length=3 code=03 kind=8F",
            "stray port=255 byte2=83 byte3=B5 start=4 length=3"
        ]
    );
}

/// Source document 004, a keyboard that is paired as device 1.
#[test]
fn serial_of_the_register_notes() {
    let asked = "request 255 83 B5 50 0 7 30 00 00\n\
                 take 11 FF 83 B5 30 FB 84 1B 86 1A 40 00 00 07 00 00 00 00 00 00\n";
    assert_eq!(serial(&(pair(1) + asked), 1), "FB841B86");
    assert_eq!(serial(asked, 1), "-");
}
