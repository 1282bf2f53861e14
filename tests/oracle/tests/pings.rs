//! 02, Ask 2: a ping is answered by its own third parameter, as scripts.

mod common;

use common::{answers, held, last};

/// A ping of device 2 with software id 1.
const PING: &str = "request 2 00 11 9 0 7 00 00 5A\n";
const STRAY: &str = "stray port=2 byte2=00 byte3=11 start=4 length=3";
const REPLY: &str = "reply port=2 byte2=00 byte3=11 start=4 length=3 dropped=0";

/// A short report of device 2 with these bytes from byte 2 on.
fn take(rest: &str) -> String {
    format!("take 10 02 {rest}\n")
}

/// A long one, filled with a byte.
fn take_long(rest: &str, filling: &str) -> String {
    let missing = 18 - rest.split(' ').count();
    format!("take 11 02 {rest} {}\n", vec![filling; missing].join(" "))
}

/// Device 2 says that its major version is 1.
fn major_1() -> String {
    "request 2 00 1F 9 0 7 00 00 00\n".to_owned() + &take("00 1F 01 00 00")
}

#[test]
fn late_answer_of_a_slow_console() {
    let script = "request 2 00 11 1 0 7 00 00 5A\ntick\nrequest 2 00 11 9 0 7 00 00 5B\n"
        .to_owned()
        + &take("00 11 02 00 5A");
    assert_eq!(last(&script), STRAY);
    let line = held(&script, 2);
    assert!(line.contains("version=- "));
    assert!(line.ends_with("places=00:11:00:00:5B:9,-,-,- serial=-"));
    let answered = script + &take("00 11 04 02 5B");
    assert_eq!(last(&answered), REPLY);
    let line = held(&answered, 2);
    assert!(line.contains("version=4.2 "));
    assert!(line.ends_with("places=-,-,-,- serial=-"));
}

#[test]
fn every_other_byte_is_stray_and_changes_nothing() {
    let waiting = held(PING, 2);
    for byte in 0..=255 {
        let script = PING.to_owned() + &take(&format!("00 11 02 00 {byte:02X}"));
        if byte == 0x5A {
            assert_eq!(last(&script), REPLY);
        } else {
            assert_eq!(last(&script), STRAY, "{byte}");
            assert_eq!(held(&script, 2), waiting, "{byte}");
        }
    }
}

/// The first two parameters are the version's, and are not compared.
#[test]
fn only_the_third_parameter_is_compared() {
    let ping = "request 2 00 11 9 0 7 01 02 03\n".to_owned();
    for missed in ["01 02 01", "01 02 02", "03 02 01", "01 03 02", "03 03 00"] {
        let script = ping.clone() + &take(&format!("00 11 {missed}"));
        assert_eq!(last(&script), STRAY, "{missed}");
    }
    for answer in ["01 02 03", "02 00 03", "FF FF 03"] {
        let script = ping.clone() + &take(&format!("00 11 {answer}"));
        assert_eq!(last(&script), REPLY, "{answer}");
    }
}

#[test]
fn of_sixteen_parameters_the_third_is_compared() {
    let long = "request 2 00 11 9 0 20 01 02 03 04 05 06 07 08 09 0A 0B 0C 0D 0E 0F 10\n";
    let short = "request 2 00 11 9 0 7 01 02 03\n";
    for ping in [long, short] {
        let first_three = "places=00:11:01:02:03:9,-,-,- ";
        assert!(held(ping, 2).contains(first_three));
        for answer in [take("00 11 04 05 03"), take_long("00 11 04 05 03", "10")] {
            let script = ping.to_owned() + &answer;
            assert!(last(&script).starts_with("reply "), "{script}");
            assert!(held(&script, 2).contains("version=4.5 "), "{script}");
        }
        for missed in [
            take("00 11 04 05 10"),
            take_long("00 11 04 05 10", "03"),
            take_long("00 11 03 03 04", "03"),
            take_long("00 11 01 02 04 03", "10"),
        ] {
            let script = ping.to_owned() + &missed;
            assert!(last(&script).starts_with("stray "), "{script}");
            assert_eq!(held(&script, 2), held(ping, 2), "{script}");
        }
    }
}

#[test]
fn major_1_makes_no_notice_of_it() {
    let known = major_1();
    let missed = take("00 11 02 00 5B");
    let plain = STRAY.replace("stray", "plain");
    assert_eq!(last(known.clone() + &missed), plain);
    let script = known + PING + &missed;
    assert_eq!(last(&script), STRAY);
    assert!(held(&script, 2).contains("version=1.0 "));
    assert!(held(&script, 2).ends_with("places=00:11:00:00:5A:9,-,-,- serial=-"));
    // Another software id, for which nothing waits.
    let other = script + &take("00 12 02 00 5B");
    assert!(last(&other).starts_with("plain "));
}

#[test]
fn without_a_waiting_ping_nothing_is_new() {
    assert_eq!(last(take("00 11 02 00 5A")), STRAY);
    let event = "event port=2 byte2=00 byte3=10 start=4 length=3";
    assert_eq!(last(take("00 10 02 00 5A")), event);
    assert_eq!(last(PING.to_owned() + &take("00 10 02 00 5B")), event);
    // A ping of another device waits.
    let other = "request 3 00 11 9 0 7 00 00 5A\n".to_owned();
    assert_eq!(last(other.clone() + &take("00 11 02 00 5A")), STRAY);
    assert_eq!(
        last(major_1() + &other + &take("00 11 02 00 5B"))[..5],
        *"plain"
    );
    // One that was answered, cancelled or dropped waits no longer.
    for end in [
        take("00 11 02 00 5A"),
        "cancel 2 00 11\n".to_owned(),
        "take 20 02 40 00 00 00 00 00 00 00 00 00 00 00 00\n".to_owned(),
    ] {
        assert_eq!(
            last(PING.to_owned() + &end + &take("00 11 02 00 5A")),
            STRAY
        );
    }
}

#[test]
fn several_pings_have_their_own_bytes() {
    let pings = "request 2 00 11 9 0 7 00 00 5A\nrequest 2 00 12 9 0 7 00 00 5B\n\
                 request 3 00 11 9 0 7 00 00 5B\n";
    let missed = pings.to_owned() + &take("00 11 02 00 5B") + &take("00 12 02 00 5A");
    assert_eq!(answers(&missed)[3], STRAY);
    assert_eq!(answers(&missed)[4], STRAY.replace("=11", "=12"));
    assert_eq!(held(&missed, 2), held(pings, 2));
    let second = missed.clone() + &take("00 12 02 00 5B");
    assert_eq!(last(&second), REPLY.replace("=11", "=12"));
    let places = "places=00:11:00:00:5A:9,-,-,- serial=-";
    assert!(held(&second, 2).ends_with(places));
    assert_eq!(held(&second, 3), held(pings, 3));
    let first = second + &take("00 11 02 00 5A");
    assert_eq!(last(&first), REPLY);
}

#[test]
fn every_software_id_and_the_receiver() {
    for software_id in 1..=15 {
        for (port, byte) in [(6, "06"), (255, "FF")] {
            let ping = format!("request {port} 00 1{software_id:X} 9 0 7 00 00 77\n");
            let missed = format!("{ping}take 10 {byte} 00 1{software_id:X} 02 00 76\n");
            assert!(last(&missed).starts_with("stray "));
            assert_eq!(held(&missed, port), held(&ping, port));
            let answered = format!("{missed}take 10 {byte} 00 1{software_id:X} 02 00 77\n");
            assert!(last(&answered).starts_with("reply "));
            assert!(held(&answered, port).contains("version=2.0 "));
        }
    }
}

/// Function 1 of byte 2 = 0, and nothing else.
#[test]
fn other_requests_are_not_compared_so() {
    for (port, key) in [
        (2, "00 01"),
        (2, "00 21"),
        (2, "00 F1"),
        (2, "01 11"),
        (2, "3F 11"),
        (2, "05 01"),
        (255, "80 11"),
        (255, "81 11"),
        (255, "83 11"),
    ] {
        let ask = format!("request {port} {key} 9 0 7 10 00 77\n");
        let script = ask + &format!("take 10 {port:02X} {key} 05 00 76\n");
        assert!(last(&script).starts_with("reply "), "{key}");
        assert!(held(&script, port).contains("places=-,-,-,- "), "{key}");
    }
}

#[test]
fn errors_carry_no_ping_byte() {
    for byte in ["5A", "5B", "00"] {
        let old = PING.to_owned() + &take(&format!("8F 00 11 01 {byte}"));
        assert!(last(&old).starts_with("error "));
        assert!(held(&old, 2).contains("version=1.0 "));
        let new = PING.to_owned() + &take(&format!("FF 00 11 05 {byte}"));
        assert!(last(&new).starts_with("error "));
        assert!(held(&new, 2).contains("version=- "));
        assert!(held(&new, 2).contains("places=-,-,-,- "));
    }
}

/// Bytes 2 and 3 alone name a request that is made or cancelled.
#[test]
fn requests_and_cancels_do_not_look_at_it() {
    let again = PING.to_owned() + "request 2 00 11 9 0 7 00 00 5B\n";
    assert!(last(&again).starts_with("refused 11:"));
    assert_eq!(last(PING.to_owned() + "cancel 2 00 11\n"), "cancelled");
}

/// A ping that a wrong byte did not answer expires like any other.
#[test]
fn ticks_run_on() {
    let script = PING.to_owned() + &(take("00 11 02 00 5B") + "tick\n").repeat(9);
    assert_eq!(last(&script), "ended 0 1 0 0 0 0 0");
    assert!(held(&script, 2).contains("version=- "));
}
