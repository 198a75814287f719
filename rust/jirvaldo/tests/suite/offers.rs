//! Offers, opens and withdrawals: refusals 24 and 25, and those of a grant.

use jirvaldo::inspect::{State, View};
use jirvaldo::{Job, Refusal, Status, MOST_QUANTA};

use super::{chain, gentle, hex, job, lasting, plan_a, refused, wide, ONE_TASK, PLAN_A};

/// Numbers of workers that are above 64, and those that are not where they are cut to fewer bits.
const LARGE: [u64; 14] = [
    65,
    127,
    128,
    255,
    256,
    257,
    65_535,
    65_536,
    u32::MAX as u64,
    1 << 32,
    (1 << 32) + 1,
    1 << 63,
    (1 << 63) + 1,
    u64::MAX,
];

/// The offer is accepted, and shows in the note alone.
fn noted(job: &mut Job, workers: u64) {
    let before = State::of(job);
    assert_eq!(job.offer(workers), Ok(()));
    let noted = State {
        offer: Some(workers as u8),
        ..before
    };
    assert_eq!(State::of(job), noted);
}

/// The withdrawal is accepted, and shows in the note alone.
fn withdrawn(job: &mut Job) {
    let before = State::of(job);
    assert_eq!(job.withdraw(), Ok(()));
    let withdrawn = State {
        offer: None,
        ..before
    };
    assert_eq!(State::of(job), withdrawn);
}

/// A job of `wide`, with no quantum open, that desires 64 workers and has as many.
fn at_64() -> Job {
    let mut job = job(&wide(1));
    while job.allotment() < 64 {
        let workers = job.desire();
        assert_eq!(job.grant(workers), Ok(()));
        assert_eq!(job.tick(&vec![0; workers as usize]), Ok(()));
    }
    assert_eq!(job.desire(), 64);
    job
}

#[test]
fn every_refusal_of_an_offer() {
    let mut job = plan_a();
    refused(&mut job, 24, |j| j.open(0));
    refused(&mut job, 24, |j| j.open(u64::MAX));
    refused(&mut job, 24, |j| j.withdraw());
    refused(&mut job, 14, |j| j.offer(2));
    noted(&mut job, 1);
    for workers in [0, 1, 2, u64::MAX] {
        refused(&mut job, 25, |j| j.offer(workers));
        refused(&mut job, 25, |j| j.grant(workers));
    }
    refused(&mut job, 15, |j| j.tick(&[]));
    refused(&mut job, 15, |j| j.tick(&[0]));
    refused(&mut job, 14, |j| j.open(2));
    assert_eq!(job.open(1), Ok(()));
    refused(&mut job, 12, |j| j.offer(0));
    refused(&mut job, 12, |j| j.offer(u64::MAX));
    refused(&mut job, 24, |j| j.open(1));
    refused(&mut job, 24, |j| j.withdraw());
    let run = job.run_log(&hex("81 00 81 00 01 81 00 81 00"));
    assert_eq!((run.refused_calls, run.end), (0, Ok(())));
    assert!(job.is_finished());
    refused(&mut job, 11, |j| j.offer(0));
    refused(&mut job, 11, |j| j.offer(u64::MAX));
    refused(&mut job, 24, |j| j.open(0));
    refused(&mut job, 24, |j| j.withdraw());
}

/// The last quantum that may begin can be offered, withdrawn, offered again and opened; after it 13 comes before 14.
#[test]
fn an_offer_of_the_last_quantum() {
    let mut job = job(&chain(2));
    let run = job.run_log(&[0x00, 0x80].repeat(MOST_QUANTA - 1));
    assert_eq!((run.refused_calls, run.end), (0, Ok(())));
    noted(&mut job, 1);
    refused(&mut job, 25, |j| j.grant(0));
    withdrawn(&mut job);
    noted(&mut job, 0);
    assert_eq!(job.open(0), Ok(()));
    assert_eq!(usize::from(View::of(&job).quanta_begun()), MOST_QUANTA);
    refused(&mut job, 12, |j| j.offer(0));
    assert_eq!(job.tick(&[]), Ok(()));
    for workers in [0, 1, 2, u64::MAX] {
        refused(&mut job, 13, |j| j.offer(workers));
        refused(&mut job, 24, |j| j.open(workers));
    }
    refused(&mut job, 24, |j| j.withdraw());
}

#[test]
fn offers_of_any_number() {
    let mut job = plan_a();
    for workers in (2..65).chain(LARGE) {
        refused(&mut job, 14, |j| j.offer(workers));
    }
    let mut job = at_64();
    for workers in LARGE {
        refused(&mut job, 14, |j| j.offer(workers));
    }
    for workers in 0..=64 {
        noted(&mut job, workers);
        for other in (0..=64).chain(LARGE) {
            refused(&mut job, 25, |j| j.offer(other));
        }
        withdrawn(&mut job);
    }
}

/// The state after a grant of so many workers, on a copy.
fn granted(job: &Job, workers: u64) -> State {
    let mut granted = job.clone();
    assert_eq!(granted.grant(workers), Ok(()));
    State::of(&granted)
}

#[test]
fn opens_of_any_number() {
    let mut job = at_64();
    for offered in [0, 1, 2, 31, 63, 64] {
        let before = job.clone();
        noted(&mut job, offered);
        for workers in (offered + 1..65).chain(LARGE) {
            refused(&mut job, 14, |j| j.open(workers));
        }
        for workers in 0..=offered {
            let mut opened = job.clone();
            assert_eq!(opened.open(workers), Ok(()));
            assert_eq!(State::of(&opened), granted(&before, workers));
        }
        withdrawn(&mut job);
    }
}

/// Driven by offers and opens as by grants: the same job, call by call.
#[test]
fn an_open_is_a_grant() {
    let lasting_a = lasting(&hex(PLAN_A), &[2, 3, 1, 2]);
    for plan in [hex(PLAN_A), lasting_a, wide(40), gentle(&wide(40), 12)] {
        let (mut one, mut other) = (job(&plan), job(&plan));
        for turn in 0.. {
            let (desire, less) = (one.desire(), turn % 4 % 3);
            let workers = desire - less.min(desire);
            assert_eq!(one.grant(workers), Ok(()));
            noted(&mut other, workers + (desire - workers) * (turn / 3 % 2));
            assert_eq!(other.open(workers), Ok(()));
            assert_eq!(State::of(&one), State::of(&other));
            let choices: Vec<u8> = (0..workers).map(|w| (w / 2) as u8).collect();
            for _ in 0..View::of(&one).quantum_length() {
                assert_eq!(one.tick(&choices), other.tick(&choices));
            }
            assert_eq!(State::of(&one), State::of(&other));
            if one.is_finished() {
                break;
            }
        }
    }
}

/// The same efficient quantum raises the desire where as many were opened as the job desires, and not where fewer were.
#[test]
fn satisfied_by_what_is_opened() {
    let mut job = job(&wide(1));
    assert_eq!((job.grant(1), job.tick(&[0])), (Ok(()), Ok(())));
    assert_eq!(job.desire(), 2);
    noted(&mut job, 2);
    let mut deprived = job.clone();
    assert_eq!((deprived.open(1), deprived.tick(&[0])), (Ok(()), Ok(())));
    assert_eq!(deprived.desire(), 2);
    assert_eq!((job.open(2), job.tick(&[0, 0])), (Ok(()), Ok(())));
    assert_eq!(job.desire(), 4);
}

#[test]
fn offers_and_statuses() {
    let mut job = plan_a();
    noted(&mut job, 1);
    assert_eq!(job.status(), Status::Fresh);
    assert_eq!(&*job.line(0), "0 0 4 1 0 0 0 0 0 0");
    assert_eq!(job.wording(b"waiting\n"), Ok(&b"waiting"[..]));
    assert_eq!(job.open(0), Ok(()));
    assert_eq!(job.status(), Status::Fresh);
    assert_eq!(job.run_log(&hex("80 80")).refused_calls, 0);
    noted(&mut job, 1);
    assert_eq!(job.open(1), Ok(()));
    assert_eq!(job.status(), Status::Running);
    assert_eq!(job.run_log(&hex("81 00 81 00")).refused_calls, 0);
    noted(&mut job, 2);
    assert_eq!((job.status(), job.allotment()), (Status::Running, 1));
    assert_eq!(job.open(0), Ok(()));
    assert_eq!(job.status(), Status::Held);
    assert_eq!(&*job.line(0), "2 2 4 2 0 2 0 0 0 0");
}

#[test]
fn a_withdrawal_and_then_a_grant() {
    let (mut job, mut plain) = (plan_a(), plan_a());
    noted(&mut job, 1);
    withdrawn(&mut job);
    refused(&mut job, 24, |j| j.withdraw());
    refused(&mut job, 24, |j| j.open(0));
    refused(&mut job, 14, |j| j.grant(2));
    assert_eq!((job.grant(1), plain.grant(1)), (Ok(()), Ok(())));
    assert_eq!(State::of(&job), State::of(&plain));
}

/// All calls of a log are refused while an offer is noted, and counted up to where the log breaks.
#[test]
fn a_log_on_a_noted_offer() {
    let mut job = at_64();
    noted(&mut job, 3);
    let before = State::of(&job);
    let whole = hex("00 01 03 40 7f 80 81 00 83 00 01 02");
    for (log, refused, end) in [
        (&whole[..], 8, Ok(())),
        (&whole[..11], 7, Err(Refusal::BrokenEntry)),
        (&[][..], 0, Ok(())),
    ] {
        let run = job.run_log(log);
        assert_eq!((run.refused_calls, run.end), (refused, end));
        assert_eq!(State::of(&job), before);
    }
    let run = job.run_log(&[0x40; 1 << 16]);
    assert_eq!((run.refused_calls, run.end), (1 << 16, Ok(())));
    assert_eq!(State::of(&job), before);
    assert_eq!(job.open(3), Ok(()));
    assert_eq!(job.run_log(&hex("83 00 01 02 40")).refused_calls, 0);
}

#[test]
fn clones_and_replacements_of_a_noted_offer() {
    let mut job = plan_a();
    noted(&mut job, 1);
    let mut copy = job.clone();
    assert_eq!(copy.open(1), Ok(()));
    assert_eq!(State::of(&job).offer, Some(1));
    assert_eq!(job.replace(&[]), Err(Refusal::Short));
    assert_eq!(State::of(&job).offer, Some(1));
    assert_eq!(job.replace(&hex(ONE_TASK)), Ok(()));
    assert_eq!(State::of(&job).offer, None);
    refused(&mut job, 24, |j| j.withdraw());
    assert_eq!(job.grant(1), Ok(()));
}
