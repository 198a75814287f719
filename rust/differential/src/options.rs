//! The command line.

use std::time::Duration;

const USAGE: &str = "usage: differential [--calls N] [--seconds T] [--seed S] [--case K]";

/// Enough calls for about five seconds.
const SHORT_RUN: u64 = 1_000_000;

/// What to run.
#[derive(Clone, Debug, PartialEq, Eq)]
pub struct Options {
    /// No case begins after this many calls.
    pub calls: u64,
    /// No case begins after this time.
    pub time: Duration,
    /// The cases are made from it.
    pub seed: u64,
    /// One case alone.
    pub case: Option<u64>,
}

impl Options {
    /// Reads the arguments; each is a name and a number. With a time alone the calls have no limit.
    pub fn read(words: &[String]) -> Result<Options, String> {
        let (mut calls, mut seconds, mut seed, mut case) = (None, None, 1, None);
        for pair in words.chunks(2) {
            let number = pair.get(1).and_then(|word| word.parse::<u64>().ok());
            let number = number.ok_or(USAGE)?;
            match pair[0].as_str() {
                "--calls" => calls = Some(number),
                "--seconds" => seconds = Some(number),
                "--seed" => seed = number,
                "--case" => case = Some(number),
                _ => return Err(USAGE.into()),
            }
        }
        let most = if seconds.is_some() {
            u64::MAX
        } else {
            SHORT_RUN
        };
        Ok(Options {
            calls: calls.unwrap_or(most),
            time: Duration::from_secs(seconds.unwrap_or(u64::MAX)),
            seed,
            case,
        })
    }
}
