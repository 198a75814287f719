//! The tests of the crate's public part, in one program.

mod calls;
mod deques;
mod examples;
mod gentle;
mod header;
mod inspected;
mod lasting;
mod offers;
mod plans;
mod seeded;
mod shows;

use jirvaldo::inspect::State;
use jirvaldo::{Job, Refusal};

/// Document 01's Plan A.
const PLAN_A: &str = "15 40 00 08 03  80 08 02  40 18 00  40 18 00  00 00 00";

/// A plan of one task.
const ONE_TASK: &str = "15 40 00 08 00  00 00 00";

/// Bytes from hexadecimal; blanks are passed over.
fn hex(text: &str) -> Vec<u8> {
    let digits: Vec<u32> = text.chars().filter_map(|c| c.to_digit(16)).collect();
    let pairs = digits.chunks_exact(2);
    pairs.map(|pair| (pair[0] * 16 + pair[1]) as u8).collect()
}

/// A plan's bytes from its fields and the successors of each task.
fn plan(responsiveness: u64, utilization: u64, length: u64, tasks: &[&[u32]]) -> Vec<u8> {
    let count = tasks.len() as u64 - 1;
    let header = 1 << 36 | responsiveness << 33 | utilization << 26 | length << 10 | count & 1023;
    let mut bytes = header.to_be_bytes()[3..].to_vec();
    for successors in tasks {
        let field = |place: usize| successors.get(place).copied().unwrap_or(0);
        let word = (successors.len() as u32) << 22 | field(0) << 11 | field(1);
        bytes.extend_from_slice(&word.to_be_bytes()[1..]);
    }
    bytes
}

/// A plan's bytes in form 2, from those in form 1 and the ticks of each task.
fn lasting(plan: &[u8], ticks: &[u8]) -> Vec<u8> {
    let mut bytes = plan[..5].to_vec();
    bytes[0] += 0x10;
    for (task, &ticks) in plan[5..].chunks_exact(3).zip(ticks) {
        bytes.extend_from_slice(task);
        bytes.push(ticks);
    }
    bytes
}

/// A plan's bytes in form 3, from those in form 1 and the tenths of R.
fn gentle(plan: &[u8], tenths: u64) -> Vec<u8> {
    let header = plan[..5]
        .iter()
        .fold(0, |bits, &byte| bits << 8 | u64::from(byte));
    let (utilization, length_and_count) = (header >> 26 & 127, header & 0xff_ffff);
    let header: u64 = 3 << 36 | tenths << 31 | utilization << 24 | length_and_count;
    [&header.to_be_bytes()[3..], &plan[5..]].concat()
}

/// A chain of that many tasks, with L = 1.
fn chain(count: u32) -> Vec<u8> {
    chain_of(80, count)
}

/// A chain of that many tasks, with this D and L = 1.
fn chain_of(utilization: u64, count: u32) -> Vec<u8> {
    let after: Vec<Vec<u32>> = (1..=count)
        .map(|t| if t < count { vec![t] } else { vec![] })
        .collect();
    let tasks: Vec<&[u32]> = after.iter().map(Vec::as_slice).collect();
    plan(2, utilization, 1, &tasks)
}

/// A tree of forks, 511 tasks, then a chain of joins, with this D and L = 1: wide enough that the desire reaches 64.
fn wide(utilization: u64) -> Vec<u8> {
    let mut tasks: Vec<Vec<u32>> = (0..255).map(|t| vec![2 * t + 1, 2 * t + 2]).collect();
    tasks.push(vec![511]);
    tasks.extend((1..256).map(|leaf| vec![510 + leaf]));
    tasks.extend((0..254).map(|joined| vec![512 + joined]));
    tasks.push(vec![]);
    let lists: Vec<&[u32]> = tasks.iter().map(Vec::as_slice).collect();
    plan(2, utilization, 1, &lists)
}

/// The plan of `examples/half-a-line.in`, behind its length in two bytes: thirteen tasks, of which worker 0 alone has 5, 6, 4, 2 in its
/// deque after three, and 7, 8, 6, 4, 2 after four.
fn nested() -> &'static [u8] {
    let input = include_bytes!("../../../../examples/half-a-line.in");
    &input[2..2 + usize::from(input[1])]
}

/// A task followed by two, and these by one.
const DIAMOND: [&[u32]; 4] = [&[1, 2], &[3], &[3], &[]];

/// The fresh job of an accepted plan.
fn job(plan: &[u8]) -> Job {
    Job::accept(plan).expect("an accepted plan")
}

/// A fresh job of Plan A.
fn plan_a() -> Job {
    job(&hex(PLAN_A))
}

/// The number of a plan's refusal, or 0.
fn number(plan: &[u8]) -> u8 {
    Job::accept(plan).map_or_else(Refusal::number, |_| 0)
}

/// The call is refused with this number and leaves the state as it was.
fn refused(job: &mut Job, number: u8, call: impl FnOnce(&mut Job) -> Result<(), Refusal>) {
    let before = State::of(job);
    assert_eq!(call(job).map_err(Refusal::number), Err(number));
    assert_eq!(State::of(job), before);
}
