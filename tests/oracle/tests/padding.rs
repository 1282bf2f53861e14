//! 02, Ask 5: the bytes after the payload of a radio report, as scripts.

mod common;

use common::{answers, held, last};

/// Device 2 with every type of radio report.
const PAIR: &str = "take 20 02 41 00 10 20 FF FF FF FF 00 00 00 00 00\n";

/// The radio types that can come up: 14 goes down only.
fn types() -> impl Iterator<Item = u8> {
    (0..64).filter(|&t| t != 14)
}

/// The offset at which the padding of a type begins; others have none.
fn padding_of(report_type: u8) -> Option<usize> {
    match report_type {
        1 | 2 => Some(10),
        3 => Some(7),
        4 | 8 => Some(4),
        _ => None,
    }
}

/// A report of device 2, zero but for these bytes.
fn report(length: usize, report_type: u8, bytes: &[(usize, u8)]) -> Vec<u8> {
    let mut report = vec![0; length];
    report[0] = if length == 15 { 0x20 } else { 0x21 };
    report[1..3].copy_from_slice(&[2, report_type]);
    bytes.iter().for_each(|&(at, byte)| report[at] = byte);
    report
}

fn line(call: &str, report: &[u8]) -> String {
    let bytes: Vec<String> = report.iter().map(|byte| format!("{byte:02X}")).collect();
    format!("{call} {}\n", bytes.join(" "))
}

fn take(report: &[u8]) -> String {
    line("take", report)
}

fn payload(length: usize, report_type: u8) -> usize {
    padding_of(report_type).unwrap_or(length) - 3
}

/// A byte that isn't zero, at each offset from the payload's first on.
#[test]
fn every_byte_after_the_payload_is_looked_at_and_no_other() {
    for (report_type, length) in types().flat_map(|t| [(t, 15), (t, 32)]) {
        for (at, byte) in (3..length).flat_map(|at| [(at, 0x01), (at, 0x80), (at, 0xFF)]) {
            let script = PAIR.to_owned() + &take(&report(length, report_type, &[(at, byte)]));
            let is_dirty = padding_of(report_type).is_some_and(|padding| at >= padding);
            let (answer, link) = if report_type > 31 {
                ("refused 8".to_owned(), "link=down")
            } else if is_dirty {
                ("refused 17".to_owned(), "link=down")
            } else {
                let size = payload(length, report_type);
                let taken = format!("radio type={report_type:02X} start=3 length={size}");
                (taken, "link=up")
            };
            assert_eq!(last(&script), answer, "{script}");
            assert!(held(&script, 2).contains(link), "{script}");
        }
    }
}

#[test]
fn clean_padding_is_taken() {
    for (report_type, length) in types().flat_map(|t| [(t, 15), (t, 32)]) {
        if report_type > 31 {
            continue;
        }
        let size = payload(length, report_type);
        let full: Vec<(usize, u8)> = (3..3 + size).map(|at| (at, 0xFF)).collect();
        for bytes in [&[][..], &full] {
            let script = PAIR.to_owned() + &take(&report(length, report_type, bytes));
            let answer = format!("radio type={report_type:02X} start=3 length={size}");
            assert_eq!(last(script), answer);
        }
    }
}

/// Two bytes of 0x80, and 0x01 with 0xFF, are 0 in a sum of eight bits; two
/// equal ones in an exclusive or.
#[test]
fn two_bytes_do_not_cancel() {
    for (report_type, length) in [1, 2, 3, 4, 8].into_iter().flat_map(|t| [(t, 15), (t, 32)]) {
        let padding = padding_of(report_type).expect("a padded type");
        for (one, other) in
            (padding..length).flat_map(|one| (one + 1..length).map(move |other| (one, other)))
        {
            for [a, b] in [[0x80, 0x80], [0x01, 0xFF]] {
                let report = report(length, report_type, &[(one, a), (other, b)]);
                assert_eq!(last(PAIR.to_owned() + &take(&report)), "refused 17");
            }
        }
    }
}

#[test]
fn refusals_5_7_and_8_come_first() {
    let dirty = |device: u8, report_type| {
        let mut report = report(15, report_type, &[(14, 1)]);
        report[1] = device;
        take(&report)
    };
    for report_type in [1, 2, 3, 4, 8] {
        let without = !(1u32 << report_type);
        let bits = without.to_le_bytes().map(|byte| format!("{byte:02X}"));
        let undeclared = format!("take 20 02 41 00 10 20 {} 00 00 00 00 00\n", bits.join(" "));
        for device in [0, 7, 255] {
            assert_eq!(
                last(PAIR.to_owned() + &dirty(device, report_type)),
                "refused 5"
            );
        }
        assert_eq!(last(dirty(2, report_type)), "refused 7");
        assert_eq!(last(PAIR.to_owned() + &dirty(3, report_type)), "refused 7");
        assert_eq!(last(undeclared + &dirty(2, report_type)), "refused 8");
        assert_eq!(last(PAIR.to_owned() + &dirty(2, report_type)), "refused 17");
    }
    assert_eq!(last(PAIR.to_owned() + &dirty(2, 14)), "refused 4");
}

/// Whatever the port holds, and whether the link is up or down.
#[test]
fn refused_report_changes_nothing() {
    let known = "request 2 00 11 9 0 7 00 00 5A\ntake 10 02 00 11 02 00 5A\n\
                 request 2 05 01 9 0 7 00 00 00\n";
    let down = "take 20 02 42 01 00 00 00 00 00 00 00 00 00 00 00\n";
    let up = "take 20 02 42 00 00 00 00 00 00 00 00 00 00 00 00\n";
    for link in ["", down, up] {
        for dirty in [report(15, 2, &[(14, 1)]), report(32, 4, &[(4, 1)])] {
            let script = format!("{PAIR}{known}{link}dump\n{}dump\n", take(&dirty));
            let lines = answers(script);
            let [before @ .., _, _, _, _, _, _, _, _] = &lines[..] else {
                panic!("a dump, an answer and a dump");
            };
            assert_eq!(lines[before.len()], "refused 17");
            assert_eq!(before[before.len() - 7..], lines[before.len() + 1..]);
        }
    }
}

#[test]
fn link_comes_up_with_the_next_clean_report() {
    let dirty = take(&report(15, 1, &[(10, 1)]));
    let clean = take(&report(15, 1, &[(9, 1)]));
    let script = format!("{PAIR}{dirty}{clean}");
    assert_eq!(
        answers(&script)[1..],
        ["refused 17", "radio type=01 start=3 length=7"]
    );
    assert!(held(&script, 2).contains("link=up"));
}

/// Notifications have parameters that nothing is said of.
#[test]
fn only_radio_reports_have_padding() {
    for (report_type, length) in (0x40..0x80).flat_map(|t| [(t, 15), (t, 32)]) {
        let full: Vec<(usize, u8)> = (4..length).map(|at| (at, 0xFF)).collect();
        let answer = last(PAIR.to_owned() + &take(&report(length, report_type, &full)));
        assert!(
            !answer.starts_with("refused"),
            "type {report_type:02X}: {answer}"
        );
    }
}

#[test]
fn reading_does_not_look() {
    for (report_type, length) in types().flat_map(|t| [(t, 15), (t, 32)]) {
        let full: Vec<(usize, u8)> = (3..length).map(|at| (at, 0xFF)).collect();
        let report = report(length, report_type, &full);
        let answer = format!(
            "report id={:02X} device=02 byte2={report_type:02X} byte3=FF start=3 length={}",
            report[0],
            length - 3
        );
        assert_eq!(last(line("read", &report)), answer);
    }
}
