//! Rules of document 01 that are easy to get wrong, as scripts.

mod common;

use common::{answers, held, last};

/// GetFeature on port 2 for a feature, answered with an index.
fn feature(id: &str, index: &str) -> String {
    format!("request 2 00 01 9 0 7 {id} 00\ntake 10 02 00 01 {index} 00 00\n")
}

fn battery_at(index: &str) -> String {
    feature("10 00", index)
}

fn version(major: &str) -> String {
    format!("request 2 00 11 9 0 7 00 00 5A\ntake 10 02 00 11 {major} 05 5A\n")
}

const PAIR: &str = "take 20 02 41 00 10 20 0E 00 00 00 00 00 00 00 00\n";

#[test]
fn request_is_refused_in_the_order_5_9_10_11_12() {
    let four = "request 2 05 01 9 0 7 00 00 00\nrequest 2 05 02 9 0 7 00 00 00\n\
                request 2 05 03 9 0 7 00 00 00\nrequest 2 05 04 9 0 7 00 00 00\n";
    let refused = |line: &str| last(format!("{four}{line}\n"));
    assert_eq!(
        refused("request 7 05 00 0 0 3 00 00 00"),
        "refused 5: EE EE EE"
    );
    assert_eq!(
        refused("request 2 05 00 9 0 3 00 00 00"),
        "refused 9: EE EE EE"
    );
    assert_eq!(
        refused("request 2 05 01 0 0 3 00 00 00"),
        "refused 9: EE EE EE"
    );
    assert_eq!(
        refused("request 2 05 01 9 0 3 00 00 00"),
        "refused 10: EE EE EE"
    );
    assert_eq!(
        refused("request 2 05 05 9 8 3 00 00 00"),
        "refused 10: EE EE EE"
    );
    let full = "EE EE EE EE EE EE EE";
    assert_eq!(
        refused("request 2 05 01 9 0 7 00 00 00"),
        format!("refused 11: {full}")
    );
    assert_eq!(
        refused("request 2 05 05 9 0 7 00 00 00"),
        format!("refused 12: {full}")
    );
}

#[test]
fn forbidden_requests() {
    let refused = |line: &str| last(line).starts_with("refused 9:");
    assert!(refused("frame 2 40 01 0 20 01 00 00"));
    assert!(refused("frame 2 7F 01 0 20 01 00 00"));
    assert!(refused("frame 2 84 01 0 20 01 00 00"));
    assert!(refused("frame 2 82 01 0 20 01 00 00"));
    assert!(refused("frame 2 05 F0 0 20 01 00 00"));
    assert!(refused("frame 2 00 0F 0 20 00 00 01"));
    assert!(refused("frame 2 00 01 0 20"));
    assert!(refused("frame 2 00 01 0 20 01 00 00 00"));
    for byte2 in ["80", "81", "83"] {
        let zeros = ["00"; 16].join(" ");
        assert!(refused(&format!("frame 2 {byte2} 01 0 20 {zeros}")));
    }
}

#[test]
fn allowed_requests() {
    let wrote = |line: &str| last(line).starts_with("wrote ");
    assert!(wrote("frame 2 3F 01 0 20 00 00 00"));
    assert!(wrote("frame 2 80 00 0 20 00 00 00"));
    assert!(wrote("frame 2 00 01 0 20 00 01 00"));
    assert!(wrote("frame 2 00 01 0 20 01 00 00"));
    assert!(wrote("frame 2 00 11 0 20 00 00 00"));
    assert!(wrote(&format!(
        "frame 255 82 00 0 20 {}",
        ["00"; 16].join(" ")
    )));
}

#[test]
fn error_ff_fits_only_feature_requests() {
    let register = "request 255 81 F1 9 0 7 00 00 00\n";
    let error = format!("{register}take 10 FF FF 81 F1 03 00\n");
    assert_eq!(
        last(&error),
        "stray port=255 byte2=FF byte3=81 start=4 length=3"
    );
    assert!(held(&error, 255).ends_with("places=81:F1:00:00:00:9,-,-,- serial=-"));
    let feature = "request 2 05 11 9 0 7 00 00 00\ntake 10 02 FF 05 11 09 00\n";
    let answer = "error port=2 byte2=05 byte3=11 start=4 length=3 code=09 kind=FF";
    assert_eq!(last(feature), answer);
}

#[test]
fn only_error_8f_with_code_1_to_a_ping_tells_version_1() {
    let ping = "request 2 00 11 9 0 7 00 00 5A\n";
    let other = "request 2 00 21 9 0 7 00 00 5A\n";
    let version_is = |script: String, version: &str| held(&script, 2).contains(version);
    assert!(version_is(
        format!("{ping}take 10 02 8F 00 11 01 00"),
        "version=1.0 "
    ));
    assert!(version_is(
        format!("{ping}take 10 02 8F 00 11 02 00"),
        "version=- "
    ));
    assert!(version_is(
        format!("{ping}take 10 02 FF 00 11 01 00"),
        "version=- "
    ));
    assert!(version_is(
        format!("{other}take 10 02 8F 00 21 01 00"),
        "version=- "
    ));
    assert!(version_is(
        "take 10 02 8F 00 11 01 00".to_owned(),
        "version=- "
    ));
}

#[test]
fn long_reports_serve_short_requests() {
    let zeros = ["00"; 13].join(" ");
    let script = format!("request 2 00 11 9 0 7 00 00 5A\ntake 11 02 00 11 04 02 5A {zeros}");
    assert_eq!(
        last(&script),
        "reply port=2 byte2=00 byte3=11 start=4 length=16 dropped=0"
    );
    assert!(held(&script, 2).contains("version=4.2 "));
}

#[test]
fn index_above_63_is_not_found() {
    assert!(held(&battery_at("3F"), 2).contains("features=0,0,0,63,0 "));
    let lost = battery_at("05") + &battery_at("40");
    assert!(held(&lost, 2).contains("features=0,0,0,0,0 "));
}

#[test]
fn feature_ids_are_most_significant_byte_first() {
    let each = ["00 01", "00 03", "00 05", "10 00", "1D 4B"];
    let script: String = (1..)
        .zip(each)
        .map(|(index, id)| feature(id, &format!("{index:02X}")))
        .collect();
    assert!(held(&script, 2).contains("features=1,2,3,4,5 "));
    let swapped = feature("00 10", "05") + &feature("4B 1D", "05") + &feature("00 02", "05");
    assert!(held(&swapped, 2).contains("features=0,0,0,0,0 "));
}

#[test]
fn battery_values_above_100_are_not_taken() {
    let event = |values: &str| held(&format!("{}take 10 02 05 00 {values}", battery_at("05")), 2);
    assert!(event("64 64 FF").contains("battery=100,100,255 "));
    assert!(event("65 64 00").contains("battery=- "));
    assert!(event("64 65 00").contains("battery=- "));
}

#[test]
fn battery_comes_from_function_0_and_event_0_alone() {
    let battery = battery_at("05");
    let reply = |byte3: &str| {
        format!("{battery}request 2 05 {byte3} 9 0 7 00 00 00\ntake 10 02 05 {byte3} 32 1E 01")
    };
    assert!(held(&reply("0F"), 2).contains("battery=50,30,1 "));
    assert!(held(&reply("1F"), 2).contains("battery=- "));
    let event = format!("{battery}take 10 02 05 10 32 1E 01");
    assert_eq!(
        last(&event),
        "event port=2 byte2=05 byte3=10 start=4 length=3"
    );
    assert!(held(&event, 2).contains("battery=- "));
}

#[test]
fn index_0_is_no_feature() {
    let event = "take 10 02 00 00 32 1E 01";
    assert_eq!(
        last(event),
        "event port=2 byte2=00 byte3=00 start=4 length=3"
    );
    assert!(held(event, 2).contains("link=down version=- features=0,0,0,0,0 battery=- "));
}

#[test]
fn major_1_has_no_events_but_has_replies() {
    let setup = battery_at("05") + &version("01");
    let event = format!("{setup}take 10 02 05 00 32 1E 01");
    assert_eq!(
        last(&event),
        "plain port=2 byte2=05 byte3=00 start=4 length=3"
    );
    assert!(held(&event, 2).contains("version=1.5 features=0,0,0,5,0 battery=- "));
    let unasked = format!("{setup}take 10 02 05 01 32 1E 01");
    assert_eq!(
        last(unasked),
        "plain port=2 byte2=05 byte3=01 start=4 length=3"
    );
    let reply = format!("{setup}request 2 05 01 9 0 7 00 00 00\ntake 10 02 05 01 32 1E 01");
    assert!(held(&reply, 2).contains("battery=50,30,1 "));
}

#[test]
fn two_features_on_one_index_both_act() {
    let setup = battery_at("05") + &feature("1D 4B", "05");
    let event = format!("{setup}take 10 02 05 00 32 1E 01");
    assert!(held(&event, 2).contains("link=up version=- features=0,0,0,5,5 battery=50,30,1 "));
    let spoilt = format!("{setup}take 10 02 05 00 65 1E 01");
    assert!(held(&spoilt, 2).contains("link=up version=- features=0,0,0,5,5 battery=- "));
    let reply = format!("{setup}request 2 05 01 9 0 7 00 00 00\ntake 10 02 05 01 32 1E 01");
    assert!(held(&reply, 2).contains("link=down version=- features=0,0,0,5,5 battery=50,30,1 "));
}

#[test]
fn same_wpid_replaces_the_bitfield_alone() {
    let setup = format!("{PAIR}{}request 2 05 01 9 0 7 00 00 00\n", version("02"));
    let again = format!(
        "{setup}take 20 02 42 00 00 00 00 00 00 00 00 00 00 00 00\n\
                         take 20 02 41 01 10 20 02 00 00 80 00 00 00 00 00"
    );
    assert_eq!(
        last(&again),
        "paired port=2 more=1 wpid=2010 reports=80000002 dropped=0"
    );
    let kept = "port=2 paired=1 wpid=2010 reports=80000002 link=up version=2.5 \
                features=0,0,0,0,0 battery=- places=05:01:00:00:00:9,-,-,- serial=-";
    assert_eq!(held(&again, 2), kept);
}

#[test]
fn other_wpid_makes_the_port_fresh() {
    let setup = format!("{PAIR}{}request 2 05 01 9 0 7 00 00 00\n", version("02"));
    let other = format!("{setup}take 20 02 41 00 20 10 02 00 00 00 00 00 00 00 00");
    assert_eq!(
        last(&other),
        "paired port=2 more=0 wpid=1020 reports=00000002 dropped=1"
    );
    let fresh = "port=2 paired=1 wpid=1020 reports=00000002 link=down version=- \
                 features=0,0,0,0,0 battery=- places=-,-,-,- serial=-";
    assert_eq!(held(&other, 2), fresh);
}

#[test]
fn unpaired_port_is_not_paired_with_wpid_0() {
    let script = format!(
        "{}request 2 05 01 9 0 7 00 00 00\n\
                          take 20 02 41 00 00 00 02 00 00 00 00 00 00 00 00",
        version("02")
    );
    assert_eq!(
        last(&script),
        "paired port=2 more=0 wpid=0000 reports=00000002 dropped=1"
    );
    assert!(held(&script, 2).contains("version=- "));
}

#[test]
fn late_reply_after_unpairing_is_stray() {
    let script = "request 2 00 11 9 0 7 00 00 5A\n\
                  take 20 02 40 00 00 00 00 00 00 00 00 00 00 00 00\n\
                  take 10 02 00 11 02 00 5A";
    let expected = [
        "wrote 7: 10 02 00 11 00 00 5A",
        "unpaired port=2 dropped=1",
        "stray port=2 byte2=00 byte3=11 start=4 length=3",
    ];
    assert_eq!(answers(script), expected);
}

#[test]
fn empty_list_of_any_index() {
    for index in ["00", "02", "09", "FE", "FF"] {
        let line = format!("take 20 {index} 41 FE 10 20 0E 00 00 00 00 00 00 00 00");
        assert_eq!(last(&line), "empty-list");
        assert!(held(&line, 2).contains("paired=0 "));
    }
    assert_eq!(
        last("take 20 FF 41 FD 10 20 0E 00 00 00 00 00 00 00 00"),
        "refused 5"
    );
}

#[test]
fn receiver_is_no_device() {
    let dj = |report_type: &str| {
        last(format!(
            "read 20 FF {report_type} 00 {}",
            ["00"; 11].join(" ")
        ))
    };
    for report_type in ["02", "3F", "40", "41", "42"] {
        assert_eq!(dj(report_type), "refused 5");
    }
    assert_eq!(
        dj("43"),
        "report id=20 device=FF byte2=43 byte3=00 start=3 length=12"
    );
    assert_eq!(
        last("led 255 01 0 15"),
        format!("refused 5:{}", " EE".repeat(15))
    );
}

#[test]
fn earlier_refusals_of_a_report_come_first() {
    let zeros = ["00"; 12].join(" ");
    assert_eq!(last("read 12"), "refused 2");
    assert_eq!(last("read 10"), "refused 3");
    assert_eq!(last(format!("read 20 00 80 {zeros}")), "refused 4");
    assert_eq!(last(format!("read 20 00 0E {zeros}")), "refused 4");
    assert_eq!(last("read 10 07 84 00 00 00 00"), "refused 5");
    assert_eq!(last("read 10 06 84 00 00 00 00"), "refused 6");
    assert_eq!(last("read 10 06 8E 00 00 00 00"), "refused 6");
    assert_eq!(last("read 10 06 90 00 00 00 00"), "refused 6");
    assert_eq!(last("read 10 06 FE 00 00 00 00"), "refused 6");
    assert!(last("read 10 06 8F 00 00 00 00").starts_with("report "));
    assert!(last("read 10 06 FF 00 00 00 00").starts_with("report "));
    assert!(last("read 10 06 83 00 00 00 00").starts_with("report "));
}

#[test]
fn radio_types_and_their_payloads() {
    let pair = "take 20 02 41 00 10 20 FF FF FF FF 00 00 00 00 00\n";
    let short = |t: u8| last(format!("{pair}take 20 02 {t:02X} {}", ["00"; 12].join(" ")));
    let long = |t: u8| last(format!("{pair}take 21 02 {t:02X} {}", ["00"; 29].join(" ")));
    for t in (0..32).filter(|&t| t != 14) {
        let (in_short, in_long) = match t {
            1 | 2 => (7, 7),
            3 => (4, 4),
            4 | 8 => (1, 1),
            _ => (12, 29),
        };
        assert_eq!(
            short(t),
            format!("radio type={t:02X} start=3 length={in_short}")
        );
        assert_eq!(
            long(t),
            format!("radio type={t:02X} start=3 length={in_long}")
        );
    }
    assert_eq!(short(14), "refused 4");
    assert_eq!(short(32), "refused 8");
    assert_eq!(short(63), "refused 8");
}

#[test]
fn link_needs_pairing_and_reads_bit_0() {
    let link = |flags: &str| format!("take 20 02 42 {flags} {}", ["00"; 11].join(" "));
    assert_eq!(last(link("00")), "refused 7");
    assert_eq!(last(format!("{PAIR}{}", link("FE"))), "link port=2 up");
    assert_eq!(last(format!("{PAIR}{}", link("01"))), "link port=2 down");
}

#[test]
fn reserved_device_bits_come_before_the_offset() {
    assert_eq!(last("switch 40 00 0 3"), "refused 14: EE EE EE");
    assert_eq!(last("switch 80 00 0 3"), "refused 14: EE EE EE");
    assert_eq!(last("switch 3F 00 0 3"), "refused 10: EE EE EE");
}

#[test]
fn places_are_filled_from_the_lowest() {
    let three = "request 2 05 01 9 0 7 00 00 00\nrequest 2 05 02 9 0 7 00 00 00\n\
                 request 2 05 03 9 0 7 00 00 00\n";
    let script = format!("{three}cancel 2 05 02\nrequest 2 05 04 8 0 7 01 02 03\n");
    let places = "places=05:01:00:00:00:9,05:04:01:02:03:8,05:03:00:00:00:9,- serial=-";
    assert!(held(&script, 2).ends_with(places));
}

#[test]
fn ticks_end_at_0() {
    let script = "request 2 05 01 255 0 7 00 00 00\nrequest 2 05 02 2 0 7 00 00 00\n\
                  request 255 05 01 1 0 7 00 00 00\ntick\ntick";
    assert_eq!(
        answers(script)[3..],
        ["ended 0 0 0 0 0 0 1", "ended 0 1 0 0 0 0 0"]
    );
    assert!(held(script, 2).ends_with("places=05:01:00:00:00:253,-,-,- serial=-"));
}

#[test]
fn movement_of_twelve_bits() {
    let moved = |payload: &str| last(format!("mouse {payload}"));
    assert_eq!(
        moved("34 12 FF 07 00 7F 80"),
        "moved buttons=1234 x=2047 y=0 wheel=127 pan=-128"
    );
    assert_eq!(
        moved("00 00 00 F8 7F 00 00"),
        "moved buttons=0000 x=-2048 y=2047 wheel=0 pan=0"
    );
    assert_eq!(
        moved("00 00 01 00 80 00 00"),
        "moved buttons=0000 x=1 y=-2048 wheel=0 pan=0"
    );
    assert_eq!(moved("00 00 00 00 00 00"), "refused 3");
}
