//! Calls about offers, in the place of a log's grants.

use super::random::Random;
use crate::call::Call;
use crate::job::{Job, MOST_QUANTA};
use crate::log::Entry;
use crate::quantum::MOST_WORKERS;

/// Choices for ticks that find no quantum open.
const CHOICES: [u8; MOST_WORKERS] = [0; MOST_WORKERS];

/// Where few quanta are left, at least so many of 256 grants.
const LAST_OFFERS: usize = 128;

/// The calls in the place of a log's entry: itself, or in so many of 256 grants
/// a row by way of an offer. Either leaves a job without a note as the entry
/// does. 0 is none at any time.
pub fn calls<'a>(random: &mut Random, job: &Job, entry: Entry<'a>, offers: usize) -> Vec<Call<'a>> {
    let last = offers > 0 && job.quanta_begun() + 2 >= MOST_QUANTA;
    let offers = if last {
        offers.max(LAST_OFFERS)
    } else {
        offers
    };
    match entry {
        Entry::Grant(count) if random.chance(offers) => row(random, job, count),
        _ => vec![Call::from(entry)],
    }
}

fn row(random: &mut Random, job: &Job, count: usize) -> Vec<Call<'static>> {
    let mut calls = Vec::new();
    if random.chance(24) {
        calls.push(without(random, count));
    }
    if !takes(job) {
        calls.extend([Call::Offer(count), without(random, count)]);
        calls.push(Call::Grant(count));
    } else if count > job.desire() {
        calls.push(Call::Offer(count));
        noted(random, job, 0, &mut calls);
        calls.extend([Call::Open(count), Call::Withdraw, Call::Grant(count)]);
    } else {
        noted(random, job, count, &mut calls);
        accepted(random, job, count, &mut calls);
    }
    if random.chance(24) {
        calls.push(without(random, count));
    }
    calls
}

/// Whether a grant that is not above the desire is accepted.
fn takes(job: &Job) -> bool {
    let more = job.quanta_begun() < MOST_QUANTA;
    more && !job.is_finished() && job.open_quantum().is_none()
}

/// An opening or a withdrawal, where no offer is noted.
fn without(random: &mut Random, count: usize) -> Call<'static> {
    let counts = [0, 1, count, count + 1];
    let count = *random.pick(&counts).unwrap_or(&0);
    *random
        .pick(&[Call::Open(count), Call::Withdraw])
        .unwrap_or(&Call::Withdraw)
}

/// An offer from that count up to the desire, and none to three calls that are
/// refused while it is noted.
fn noted(random: &mut Random, job: &Job, least: usize, calls: &mut Vec<Call<'static>>) {
    let desire = job.desire();
    let any = random.between(least, desire);
    let offered = *random.pick(&[least, desire, any]).unwrap_or(&least);
    calls.push(Call::Offer(offered));
    for _ in 0..random.below(4) {
        let call = refused(random, job, offered);
        calls.push(call);
    }
}

/// The noted offer is opened with that count, at times after another one, or is
/// withdrawn before a grant.
fn accepted(random: &mut Random, job: &Job, count: usize, calls: &mut Vec<Call<'static>>) {
    match random.below(8) {
        0 => calls.extend([Call::Withdraw, Call::Grant(count)]),
        1 => {
            calls.push(Call::Withdraw);
            noted(random, job, count, calls);
            calls.push(Call::Open(count));
        }
        _ => calls.push(Call::Open(count)),
    }
}

/// A call that is refused while this offer is noted.
fn refused(random: &mut Random, job: &Job, offered: usize) -> Call<'static> {
    let desire = job.desire();
    let counts = [0, offered, offered + 1, desire, desire + 1, 127];
    let count = *random.pick(&counts).unwrap_or(&0);
    match random.below(5) {
        0 => Call::Grant(count),
        1 => Call::Offer(count),
        2 => Call::Tick(&CHOICES[..job.allotment()]),
        3 => Call::Tick(&CHOICES[..random.below(CHOICES.len() + 1)]),
        _ => Call::Open(random.between(offered + 1, desire + 2)),
    }
}
