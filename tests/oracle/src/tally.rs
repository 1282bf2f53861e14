//! What the counts of a script's calls have in common. Answers alone don't
//! show what is counted, so the calls are made.

use std::io::{self, BufRead, Write};

use crate::script::{for_each_call, Answer, Call, Failure};
use crate::station::Station;

/// What is counted under one name: one count, or one for each of several
/// numbers.
pub struct Row {
    name: String,
    counts: Vec<u64>,
}

impl Row {
    pub fn one(name: &str, count: u64) -> Row {
        Row::by(name, &[count])
    }

    /// The name says which numbers they are.
    pub fn by(name: impl Into<String>, counts: &[u64]) -> Row {
        Row {
            name: name.into(),
            counts: counts.to_vec(),
        }
    }
}

pub trait Tally: Default {
    /// Counts a call with its answer and the station before and after it.
    fn add(&mut self, stations: [&Station; 2], call: &Call, answer: &Answer);

    fn rows(&self) -> Vec<Row>;

    /// Makes the calls of a script on one station that starts fresh.
    fn read(input: impl BufRead) -> Result<Self, Failure> {
        let mut tally = Self::default();
        for_each_call(input, |stations, call, answer| {
            tally.add(stations, call, answer)
        })?;
        Ok(tally)
    }

    /// Whether everything occurred, and with every number what is counted so.
    fn is_complete(&self) -> bool {
        let rows = self.rows();
        let mut counts = rows.iter().flat_map(|row| &row.counts);
        counts.all(|&count| count > 0)
    }

    fn print(&self, mut output: impl Write) -> io::Result<()> {
        for Row { name, counts } in self.rows() {
            let count: u64 = counts.iter().sum();
            write!(output, "{count:>9}  {name}")?;
            if let [_, _, ..] = counts[..] {
                let each: Vec<String> = counts.iter().map(u64::to_string).collect();
                write!(output, ": {}", each.join(" "))?;
            }
            writeln!(output)?;
        }
        Ok(())
    }
}
