//! The tests, in one program.

mod binary;
mod examples;
mod generated;
mod gentle;
mod lasting;
mod lines;
mod mechanics;
mod offers;
mod properties;
mod refusals;
mod seeds;
mod stored;

use reference::{Job, Refusal};

/// Document 01's Plan A.
const PLAN_A: &str = "15 40 00 08 03  80 08 02  40 18 00  40 18 00  00 00 00";

/// The same in form 2: its pieces last 1, 2, 3 and 255 ticks.
const LASTING_PLAN_A: &str = "25 40 00 08 03  80 08 02 01  40 18 00 02  40 18 00 03  00 00 00 ff";

/// Bytes from hexadecimal; blanks are passed over.
fn hex(text: &str) -> Vec<u8> {
    let digits: Vec<u32> = text.chars().filter_map(|c| c.to_digit(16)).collect();
    let pairs = digits.chunks_exact(2);
    pairs.map(|pair| (pair[0] * 16 + pair[1]) as u8).collect()
}

/// The program's input for a plan and a log.
fn input(plan: &[u8], log: &[u8]) -> Vec<u8> {
    let length = (plan.len() as u16).to_be_bytes();
    [&length, plan, log].concat()
}

/// A fresh job of an accepted plan.
fn job(plan: &[u8]) -> Job {
    Job::accept(plan).expect("an accepted plan")
}

/// The number with which a plan is refused; 0 if it is accepted.
fn plan_refusal(plan: &[u8]) -> u8 {
    Job::accept(plan).map_or_else(Refusal::number, |_| 0)
}
