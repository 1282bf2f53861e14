//! Replays scripts, makes random ones and counts the answers' kinds, the
//! serials told, the pings answered, the stores written and read and the
//! radio reports with padding; makes runs of encoded calls, random ones too.

use std::ffi::{OsStr, OsString};
use std::fs::File;
use std::io::{self, BufRead, BufReader, BufWriter, Write};
use std::process::ExitCode;

use oracle::count::Tally;
use oracle::encoded::run_all;
use oracle::random::{write_runs, write_script};
use oracle::script::{replay, Failure};
use oracle::{padding, pings, serials, stores, tally};

const USAGE: &str = "\
usage: oracle replay [FILE]
       oracle random SEED COUNT
       oracle count FILE
       oracle serials FILE
       oracle pings FILE
       oracle stores FILE
       oracle padding FILE
       oracle encoded-random SEED COUNT
       oracle encoded FILE";

fn main() -> ExitCode {
    let arguments: Vec<OsString> = std::env::args_os().skip(1).collect();
    let arguments: Vec<&OsStr> = arguments.iter().map(OsString::as_os_str).collect();
    let result = match arguments.as_slice() {
        [name] if *name == "replay" => replay_input(io::stdin().lock(), "standard input"),
        [name, file] if *name == "replay" => replay_file(file),
        [name, seed, count] if *name == "random" => random(seed, count),
        [name, file] if *name == "count" => count(file),
        [name, file] if *name == "serials" => count_calls::<serials::Tally>(file),
        [name, file] if *name == "pings" => count_calls::<pings::Tally>(file),
        [name, file] if *name == "stores" => count_calls::<stores::Tally>(file),
        [name, file] if *name == "padding" => count_calls::<padding::Tally>(file),
        [name, seed, count] if *name == "encoded-random" => random_runs(seed, count),
        [name, file] if *name == "encoded" => run_file(file),
        _ => Err(USAGE.to_owned()),
    };
    match result {
        Ok(code) => code,
        Err(message) => {
            eprintln!("{message}");
            ExitCode::FAILURE
        }
    }
}

fn replay_file(file: &OsStr) -> Result<ExitCode, String> {
    replay_input(open(file)?, &file.to_string_lossy())
}

fn open(file: &OsStr) -> Result<BufReader<File>, String> {
    let opened = File::open(file).map_err(|error| failed(&file.to_string_lossy(), &error))?;
    Ok(BufReader::new(opened))
}

fn replay_input(input: impl BufRead, name: &str) -> Result<ExitCode, String> {
    replay(input, output()).map_err(|failure| match failure {
        Failure::Input(error) => failed(name, &error),
        Failure::Output(error) => failed("standard output", &error),
    })?;
    Ok(ExitCode::SUCCESS)
}

fn random(seed: &OsStr, count: &OsStr) -> Result<ExitCode, String> {
    write_script(number(seed)?, number(count)?, output())
        .map_err(|error| failed("standard output", &error))?;
    Ok(ExitCode::SUCCESS)
}

fn random_runs(seed: &OsStr, count: &OsStr) -> Result<ExitCode, String> {
    write_runs(number(seed)?, number(count)?, output())
        .map_err(|error| failed("standard output", &error))?;
    Ok(ExitCode::SUCCESS)
}

fn run_file(file: &OsStr) -> Result<ExitCode, String> {
    let tally =
        run_all(open(file)?, output()).map_err(|error| failed(&file.to_string_lossy(), &error))?;
    eprintln!(
        "malformed {}, no room {}, rows by kind {:?}, dropped by replies {}, dirty padding {}",
        tally.malformed, tally.no_room, tally.kinds, tally.dropped, tally.dirty
    );
    Ok(status(tally.is_complete()))
}

fn count(file: &OsStr) -> Result<ExitCode, String> {
    let tally =
        Tally::read(open(file)?).map_err(|error| failed(&file.to_string_lossy(), &error))?;
    show(|output| tally.print(output), tally.is_complete())
}

fn count_calls<T: tally::Tally>(file: &OsStr) -> Result<ExitCode, String> {
    let tally = T::read(open(file)?).map_err(|failure| {
        let (Failure::Input(error) | Failure::Output(error)) = failure;
        failed(&file.to_string_lossy(), &error)
    })?;
    show(|output| tally.print(output), tally.is_complete())
}

/// Prints what was counted.
fn show(
    print: impl FnOnce(&mut BufWriter<io::StdoutLock<'static>>) -> io::Result<()>,
    is_complete: bool,
) -> Result<ExitCode, String> {
    let mut output = output();
    print(&mut output)
        .and_then(|()| output.flush())
        .map_err(|error| failed("standard output", &error))?;
    Ok(status(is_complete))
}

/// A count in which something never occurs is a failure.
fn status(is_complete: bool) -> ExitCode {
    if is_complete {
        ExitCode::SUCCESS
    } else {
        ExitCode::FAILURE
    }
}

fn output() -> BufWriter<io::StdoutLock<'static>> {
    BufWriter::new(io::stdout().lock())
}

fn number(word: &OsStr) -> Result<u64, String> {
    let number = word.to_str().and_then(|text| text.parse().ok());
    number.ok_or_else(|| format!("{} is no number\n{USAGE}", word.to_string_lossy()))
}

fn failed(name: &str, error: &io::Error) -> String {
    format!("{name}: {error}")
}
