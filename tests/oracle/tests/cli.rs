//! The program itself.

use std::fs;
use std::io::Write;
use std::path::PathBuf;
use std::process::{Command, Output, Stdio};

/// Runs the program; its input is short enough to fit into the pipe.
fn oracle(arguments: &[&str], input: &[u8]) -> Output {
    let mut child = Command::new(env!("CARGO_BIN_EXE_oracle"))
        .args(arguments)
        .stdin(Stdio::piped())
        .stdout(Stdio::piped())
        .stderr(Stdio::piped())
        .spawn()
        .expect("the program starts");
    // A program that doesn't read its input may end before it is written.
    let _ = child.stdin.take().expect("a pipe").write_all(input);
    child.wait_with_output().expect("the program ends")
}

fn file(name: &str, content: &[u8]) -> PathBuf {
    let path = PathBuf::from(env!("CARGO_TARGET_TMPDIR")).join(name);
    fs::write(&path, content).expect("a file for the test");
    path
}

#[test]
fn replay_reads_standard_input_or_a_file() {
    let script = b"tick\nx";
    let path = file("two-lines.script", script);
    let from_file = oracle(&["replay", path.to_str().unwrap()], b"");
    let from_input = oracle(&["replay"], script);
    for output in [from_file, from_input] {
        assert!(output.status.success());
        assert_eq!(output.stdout, b"ended 0 0 0 0 0 0 0\nline 2 is no call\n");
        assert!(output.stderr.is_empty());
    }
}

#[test]
fn replay_names_a_file_that_cannot_be_read() {
    let folder = env!("CARGO_TARGET_TMPDIR");
    for name in ["no/such/file", folder] {
        let output = oracle(&["replay", name], b"");
        assert!(!output.status.success());
        assert!(output.stdout.is_empty());
        let message = String::from_utf8_lossy(&output.stderr).into_owned();
        assert!(message.starts_with(&format!("{name}: ")), "{message}");
    }
}

#[test]
fn count_fails_where_something_never_occurs() {
    let script = oracle(&["random", "5", "10000"], b"").stdout;
    let path = file("many.script", &script);
    let answers = oracle(&["replay", path.to_str().unwrap()], b"").stdout;
    let path = file("many.expected", &answers);
    assert!(oracle(&["count", path.to_str().unwrap()], b"")
        .status
        .success());
    let path = file("few.expected", b"refused 1\n");
    let output = oracle(&["count", path.to_str().unwrap()], b"");
    assert!(!output.status.success());
    assert!(output
        .stdout
        .starts_with(b"        1  refused 1\n        0  refused 2\n"));
}

#[test]
fn counts_of_calls_fail_where_something_never_occurs() {
    let script = oracle(&["random", "5", "50000"], b"").stdout;
    let many = file("many-calls.script", &script);
    let few = file("few-calls.script", b"tick\n");
    let first_lines = [
        ("serials", "serial became known; by device: 0 0 0 0 0 0"),
        ("pings", "ping answered; by port: 0 0 0 0 0 0 0"),
        ("stores", "store written; by devices, 0 to 6: 0 0 0 0 0 0 0"),
        ("padding", "taken, short; by type, 1 to 4 and 8: 0 0 0 0 0"),
    ];
    for (name, first) in first_lines {
        let output = oracle(&[name, many.to_str().unwrap()], b"");
        assert!(output.status.success(), "{name}");
        let output = oracle(&[name, few.to_str().unwrap()], b"");
        assert!(!output.status.success(), "{name}");
        let first = format!("        0  {first}\n");
        assert!(output.stdout.starts_with(first.as_bytes()), "{name}");
    }
}

#[test]
fn strange_arguments_are_refused() {
    let lines: [&[&str]; 10] = [
        &[],
        &["play"],
        &["replay", "a", "b"],
        &["random", "1"],
        &["random", "x", "1"],
        &["count"],
        &["serials"],
        &["pings"],
        &["stores"],
        &["padding"],
    ];
    for arguments in lines {
        let output = oracle(arguments, b"");
        assert!(!output.status.success(), "{arguments:?}");
        assert!(!output.stderr.is_empty());
    }
}
