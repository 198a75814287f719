//! Compares the proved library, through the crate `jirvaldo`, with the second implementation, the crate `reference`, call by call.
//!
//! `differential [--calls N] [--seconds T] [--seed S] [--case K]` makes plans and logs from a seed and gives them to both:
//! - a plan: both accept it, and their plans and fresh states are the same, or both refuse it with the same number;
//! - a grant, a tick, plain or seeded, an offer, an opening or a withdrawal: both give the same answer, and then the whole states are the
//!   same: worked tasks, the ticks left of each task, every deque and every muggable deque task by task, desire and its power, allotment,
//!   quantum and its usage, the noted offer, counts, status and the ten counters. After a refused call the reference is also compared with
//!   the proved job's copy from before. This is so of every call that the last lines count, whatever the plan's size;
//! - after each of these calls as many deques are in use on both sides, and at most the largest count granted so far, which both the run
//!   and the reference keep; in a tick the reference has no more after any worker's cycle, either;
//! - a grant of a log is at times made by way of an offer: it is opened for as many or fewer than offered, or withdrawn and then granted,
//!   with calls in between that are refused while it is noted;
//! - a tick of a log is at times a seeded one that does the same: where the seed draws its choices, and where every tick is refused. After
//!   it both seeds are the same, as before where it is refused; where it is accepted, a copy of the proved job from before takes the plain
//!   tick with the choices that the reference drew, and is then as the job is;
//! - of stretches of calls, the refused ones left out, both write a log in lent buffers of many sizes, the same bytes; at its end, or where
//!   the buffer is full, it is run on the proved job from the stretch's start: nothing is refused, and it ends as the calls did;
//! - a whole log, run by `run_log` on copies, at times while an offer is noted: the same answer, the same count of refused calls and the
//!   same whole states at its end;
//! - copies that then take other calls: the originals go on as if there were no copies;
//! - at random places and at the end of each log: the wording from a random sheet, and the counters line and an entry of a log in buffers
//!   of many sizes, with the bytes around it.
//!
//! Case 0 and every hundredth after it begin all quanta that a job may have, and go on; four of a hundred have a tree of forks, which
//! brings up to 64 deques into use; the other cases after case 0 have the plans at the edge of each question. Of five cases one has the log
//! of a seeded day. The run stops at the end of the case in which it has made N calls or T seconds have passed; the same seed gives the
//! same cases. At the first difference it prints the seed, the case, the call and both states, and exits with 1; `--case K` runs that case
//! alone.

#![forbid(unsafe_code)]

mod accept;
mod compare;
mod difference;
mod in_use;
mod inputs;
mod options;
mod pair;
mod run;
mod seeds;
#[cfg(test)]
mod tests;
mod totals;
mod walk;
mod written;

use std::env;
use std::process::ExitCode;
use std::time::Instant;

use options::Options;
use totals::Totals;

fn main() -> ExitCode {
    let words = env::args_os().skip(1);
    let words: Vec<String> = words.map(|w| w.to_string_lossy().into_owned()).collect();
    let options = match Options::read(&words) {
        Ok(options) => options,
        Err(text) => {
            eprintln!("{text}");
            return ExitCode::from(2);
        }
    };
    let (start, mut totals) = (Instant::now(), Totals::default());
    let ran = run::run(&options, &mut totals);
    let seconds = start.elapsed().as_secs_f64();
    println!("{totals}");
    println!(
        "{:>12.1}  seconds, {:.0} calls a second",
        seconds,
        totals.calls as f64 / seconds
    );
    match ran {
        Ok(()) => {
            println!("seed {}: no difference", options.seed);
            ExitCode::SUCCESS
        }
        Err(found) => {
            println!("seed {}: {found}", options.seed);
            ExitCode::FAILURE
        }
    }
}
