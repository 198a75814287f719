//! The program: from input bytes to what it prints.

use crate::counters::counters_text;
use crate::job::{Job, Rules};
use crate::log::run_log;
use crate::plan::{big_endian, split};
use crate::refusal::{ask, Refusal};

/// The program's input has at most this many bytes.
pub const MOST_INPUT: usize = 65_536;

/// Splits an input into plan and log: plan length in 16 bits, plan, log to
/// the end. Refuses with 21, then 22.
pub fn split_input(input: &[u8]) -> Result<(&[u8], &[u8]), Refusal> {
    ask(input.len() <= MOST_INPUT, Refusal::InputTooLong)?;
    let (length, rest) = split(input, 2).ok_or(Refusal::InputTooShort)?;
    let announced = big_endian(length) as usize;
    split(rest, announced).ok_or(Refusal::InputTooShort)
}

/// What the program prints for an input: the counters line, or the refusal;
/// after 18 the counters line first.
pub fn program_output(input: &[u8]) -> String {
    program_output_with(input, Rules::default())
}

/// The same where the job follows these rules.
pub fn program_output_with(input: &[u8], rules: Rules) -> String {
    run(input, rules).unwrap_or_else(refusal_line)
}

fn run(input: &[u8], rules: Rules) -> Result<String, Refusal> {
    let (plan, log) = split_input(input)?;
    let mut job = Job::accept_with(plan, rules)?;
    let outcome = run_log(&mut job, log);
    let mut output = counters_text(&job, outcome.refused);
    output.extend(outcome.broken.map(refusal_line));
    Ok(output)
}

/// `refused `, the number and byte 10.
fn refusal_line(refusal: Refusal) -> String {
    format!("refused {}\n", refusal.number())
}
