//! The edges of the script language.

mod common;

use common::{answers, last};
use oracle::script::{parse, Call, Line, LineParser};

const NONE_ENDED: &str = "ended 0 0 0 0 0 0 0";

fn is_no_call(line: impl AsRef<[u8]>) -> bool {
    parse(line.as_ref()) == Line::NoCall
}

fn is_call(line: impl AsRef<[u8]>) -> bool {
    matches!(parse(line.as_ref()), Line::Call(_))
}

#[test]
fn silent_lines_count_as_lines() {
    let script = "\n# tick\n\r\n#\n\nx\n\ny";
    assert_eq!(answers(script), ["line 6 is no call", "line 8 is no call"]);
}

#[test]
fn empty_scripts_have_no_answer() {
    for script in ["", "\n", "\r", "\r\n", "\n\n\r", "#", "# tick\r"] {
        assert!(answers(script).is_empty(), "{script:?}");
    }
}

#[test]
fn last_line_may_lack_its_newline() {
    assert_eq!(answers("tick"), [NONE_ENDED]);
    assert_eq!(answers("tick\r"), [NONE_ENDED]);
    assert_eq!(answers("tick\n"), [NONE_ENDED]);
    assert_eq!(answers("x\r"), ["line 1 is no call"]);
}

#[test]
fn one_carriage_return_at_the_end_is_ignored() {
    assert!(is_call("tick\r"));
    assert!(is_call("tick \r"));
    assert!(is_no_call("tick\r\r"));
    assert!(is_no_call("tick\r "));
    assert!(is_no_call("\rtick"));
    assert!(is_no_call("ti\rck"));
    assert!(is_no_call("\r\r"));
}

#[test]
fn spaces_part_words_and_tabs_do_not() {
    assert!(is_call("  cancel   2  00    11 "));
    assert!(is_no_call("cancel\t2 00 11"));
    assert!(is_no_call("cancel 2 00 11\t"));
    assert!(is_no_call("\ttick"));
    assert!(is_no_call("tick\x0B"));
    assert!(is_no_call("tick\u{A0}"));
}

#[test]
fn lines_of_spaces_are_no_call() {
    assert!(is_no_call(" "));
    assert!(is_no_call("   \r"));
    assert!(is_no_call("\t"));
}

#[test]
fn comments_begin_with_the_first_character() {
    assert_eq!(parse(b"#"), Line::Silent);
    assert_eq!(parse(b"#\xFF\0\t"), Line::Silent);
    assert!(is_no_call(" # tick"));
    assert!(is_no_call("tick # tick"));
}

#[test]
fn any_bytes_may_stand_in_a_line() {
    assert!(is_no_call(b"\xFF\xFE\0"));
    assert!(is_no_call(b"tick\0"));
    assert!(is_no_call(b"take \xC3\xA4"));
    assert!(is_no_call(b"\xEF\xBB\xBFtick"));
    assert_eq!(
        answers(b"\0\n\xFF\ntick\n"),
        ["line 1 is no call", "line 2 is no call", NONE_ENDED]
    );
}

#[test]
fn names_are_exact() {
    for name in [
        "Tick",
        "TICK",
        "tic",
        "tickk",
        "get_paired 0 15",
        "get-pairedx 0 15",
    ] {
        assert!(is_no_call(name), "{name}");
    }
}

#[test]
fn bytes_are_two_digits_of_either_case() {
    assert_eq!(
        parse(b"take aF Fa 00"),
        Line::Call(Call::Take(vec![0xAF, 0xFA, 0]))
    );
    for word in ["1", "1G", "g1", "100", "0x", "+1", "-1", " 1"] {
        assert!(is_no_call(format!("take {word}")), "{word}");
    }
}

#[test]
fn numbers_have_no_sign_and_no_leading_zero() {
    for number in ["0", "1", "10", "65535"] {
        assert!(is_call(format!("get-paired {number} 0")), "{number}");
    }
    let beyond = [
        "00",
        "01",
        "010",
        "+1",
        "-1",
        "65536",
        "99999",
        "4294967296",
        "1.",
        "0x1",
        "A",
        "",
    ];
    for number in beyond {
        assert!(is_no_call(format!("get-paired {number} 0")), "{number}");
    }
}

#[test]
fn ports_are_at_most_255() {
    for call in [
        "cancel P 00 11",
        "led P 00 0 15",
        "frame P 00 11 0 7 00 00 5A",
        "request P 00 11 1 0 7 00 00 5A",
    ] {
        assert!(is_call(call.replace('P', "255")), "{call}");
        assert!(is_call(call.replace('P', "0")), "{call}");
        assert!(is_no_call(call.replace('P', "256")), "{call}");
        assert!(is_no_call(call.replace('P', "01")), "{call}");
    }
}

#[test]
fn lent_buffers_are_at_most_4096() {
    let calls = [
        "request 2 00 11 1 0 L 00 00 5A",
        "frame 2 00 11 0 L 00 00 5A",
        "switch 00 00 0 L",
        "get-paired 0 L",
        "led 1 00 0 L",
        "list 0 L",
        "store 0 L",
    ];
    for call in calls {
        assert!(is_call(call.replace('L', "4096")), "{call}");
        assert!(is_call(call.replace('L', "0")), "{call}");
        assert!(is_no_call(call.replace('L', "4097")), "{call}");
    }
    assert!(is_call("list 65535 4096"));
}

#[test]
fn lists_have_at_most_256_bytes() {
    for start in [
        "take",
        "read",
        "mouse",
        "request 2 00 11 1 0 7",
        "frame 2 00 11 0 7",
    ] {
        assert!(is_call(start));
        assert!(is_call(format!("{start}{}", " 00".repeat(256))), "{start}");
        assert!(
            is_no_call(format!("{start}{}", " 00".repeat(257))),
            "{start}"
        );
    }
}

#[test]
fn arguments_are_complete_and_no_more() {
    for line in [
        "request 2 00 11 1 0",
        "cancel 2 00",
        "switch 00 00 0",
        "get-paired 0",
        "led 1 00 0",
        "list 0",
        "frame 2 00 11 0",
        "request",
    ] {
        assert!(is_no_call(line), "{line}");
    }
    for line in [
        "tick 0",
        "dump 0",
        "cancel 2 00 11 00",
        "switch 00 00 0 15 00",
        "get-paired 0 15 0",
        "led 1 00 0 15 0",
        "list 0 15 0",
    ] {
        assert!(is_no_call(line), "{line}");
    }
}

#[test]
fn lists_may_be_empty() {
    assert_eq!(last("take"), "refused 1");
    assert_eq!(last("read "), "refused 1");
    assert_eq!(last("mouse"), "refused 3");
    assert_eq!(last("frame 2 00 11 0 1"), "refused 9: EE");
}

#[test]
fn no_call_leaves_the_station() {
    let script = "request 2 00 11 1 0 0 00 00 5A\nrequest 2 00 11 1 0 7 00 00 5A\ntick now\ntick";
    let expected = [
        "refused 10:",
        "wrote 7: 10 02 00 11 00 00 5A",
        "line 3 is no call",
        "ended 0 1 0 0 0 0 0",
    ];
    assert_eq!(answers(script), expected);
}

#[test]
fn long_lines_need_no_more_memory() {
    let mut parser = LineParser::default();
    "tick".bytes().for_each(|byte| parser.push(byte));
    (0..1_000_000).for_each(|_| parser.push(b' '));
    assert_eq!(parser.end(), Line::Call(Call::Tick));
    (0..1_000_000).for_each(|_| parser.push(b'0'));
    assert_eq!(parser.end(), Line::NoCall);
    assert!(size_of::<LineParser>() < 256);
}

#[test]
fn example_of_the_replay_page() {
    let script = "request 2 00 11 10 1 9 00 00 5A\ntake 10 02 00 11 02 00 5A\nlist 0 64\n";
    let answers = answers(script);
    assert_eq!(answers[0], "wrote 7: EE 10 02 00 11 00 00 5A EE");
    assert_eq!(
        answers[1],
        "reply port=2 byte2=00 byte3=11 start=4 length=3 dropped=0"
    );
    assert!(answers[2].starts_with("wrote 47: 70 6F 72 74 "));
    assert!(answers[2].ends_with(&(" 0A".to_owned() + &" EE".repeat(17))));
}
