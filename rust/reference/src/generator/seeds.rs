//! Seeded days, and their logs.

use super::logs::{style_for, Writer};
use super::random::Random;
use crate::job::{Job, Rules};
use crate::seed::{run_day, Step};

/// The log of a day ends after at most about so many bytes.
const MOST_BUDGET: usize = 4_000;

/// Out of 256 calls of a day, how many are made without looking at the job.
const STRAY: [usize; 4] = [0, 0, 16, 80];

/// A seeded day for a job: grants of some style and seeded ticks, at times a
/// call that is refused, and some more after the job takes none. It follows the
/// request's rules, also where the job does not.
pub fn day(random: &mut Random, job: Job, mut seed: u32) -> Vec<Step> {
    let mut writer = Writer::new(job.with_rules(Rules::default()));
    let style = style_for(random, &writer.job);
    let budget = style.budget.min(MOST_BUDGET);
    let stray = *random.pick(&STRAY).unwrap_or(&0);
    let mut day = Vec::new();
    while writer.bytes.len() < budget && !writer.at_the_end() {
        let step = if random.chance(stray) {
            any_step(random, &writer.job)
        } else if writer.job.open_quantum().is_some() {
            Step::Tick
        } else {
            Step::Grant(writer.count(random, style.grants))
        };
        let _ = step.run(&mut writer.job, &mut seed, &mut writer.bytes);
        day.push(step);
    }
    day.extend((0..random.below(4)).map(|_| any_step(random, &writer.job)));
    day
}

/// A tick, or a grant that may be above the desire, at any time.
fn any_step(random: &mut Random, job: &Job) -> Step {
    let desire = job.desire();
    match random.below(8) {
        0 => Step::Grant(0),
        1 => Step::Grant(desire),
        2 => Step::Grant(desire + 1),
        3 => Step::Grant(random.below(128)),
        _ => Step::Tick,
    }
}

/// The log of such a day, in which the refused calls are left out.
pub fn seeded_log(random: &mut Random, job: Job, mut seed: u32) -> Vec<u8> {
    let mut job = job.with_rules(Rules::default());
    let day = day(random, job.clone(), seed);
    run_day(&mut job, &mut seed, &day)
}
