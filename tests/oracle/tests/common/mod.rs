//! What several tests need.

use oracle::script::replay;

/// The whole output that a script gives.
pub fn output(script: impl AsRef<[u8]>) -> String {
    let mut output = Vec::new();
    replay(script.as_ref(), &mut output).expect("memory can be read and written");
    String::from_utf8(output).expect("answers are text")
}

/// The lines that a script is answered with.
#[allow(dead_code)]
pub fn answers(script: impl AsRef<[u8]>) -> Vec<String> {
    let text = output(script);
    assert!(text.is_empty() || text.ends_with('\n'));
    text.lines().map(str::to_owned).collect()
}

/// The line that the last call of a script is answered with.
#[allow(dead_code)]
pub fn last(script: impl AsRef<[u8]>) -> String {
    answers(script).pop().expect("some call is answered")
}

/// What `dump` shows of a port after the script.
#[allow(dead_code)]
pub fn held(script: &str, port: u8) -> String {
    let start = format!("port={port} ");
    let lines = answers(format!("{script}\ndump\n"));
    let mut dump = lines.iter().rev().take(7);
    let line = dump.find(|line| line.starts_with(&start));
    line.expect("dump shows every port").clone()
}
