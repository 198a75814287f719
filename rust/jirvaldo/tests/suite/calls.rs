//! Grants, ticks and logs: refusals 11 to 18, and the edges of their arguments.

use jirvaldo::inspect::State;
use jirvaldo::{Job, Refusal, MOST_QUANTA};

use super::{chain, hex, job, plan_a, refused, wide};

#[test]
fn every_call_refusal() {
    let mut job = plan_a();
    refused(&mut job, 15, |j| j.tick(&[0]));
    refused(&mut job, 14, |j| j.grant(2));
    assert_eq!(job.grant(1), Ok(()));
    refused(&mut job, 12, |j| j.grant(u64::MAX));
    refused(&mut job, 16, |j| j.tick(&[]));
    refused(&mut job, 17, |j| j.tick(&[1]));
    let run = job.run_log(&hex("81 00 81 00 01 81 00 81 00"));
    assert_eq!((run.refused_calls, run.end), (0, Ok(())));
    refused(&mut job, 11, |j| j.grant(u64::MAX));
    refused(&mut job, 11, |j| j.tick(&[]));
}

#[test]
fn no_more_quanta_than_the_most() {
    let mut job = job(&chain(2));
    for _ in 1..MOST_QUANTA {
        assert_eq!(job.grant(0), Ok(()));
        assert_eq!(job.tick(&[]), Ok(()));
    }
    refused(&mut job, 14, |j| j.grant(2));
    assert_eq!(job.grant(0), Ok(()));
    refused(&mut job, 12, |j| j.grant(0));
    assert_eq!(job.tick(&[]), Ok(()));
    for workers in [0, 1, 2, u64::MAX] {
        refused(&mut job, 13, |j| j.grant(workers));
    }
    refused(&mut job, 15, |j| j.tick(&[]));
    assert_eq!(usize::from(State::of(&job).quanta_begun), MOST_QUANTA);
}

/// A log counts the grants that meet 13, and the ticks after them.
#[test]
fn a_log_past_the_last_quantum() {
    let mut job = job(&chain(2));
    let run = job.run_log(&[0x00, 0x80].repeat(MOST_QUANTA));
    assert_eq!((run.refused_calls, run.end), (0, Ok(())));
    let run = job.run_log(&hex("00 80 01 81 00 7f"));
    assert_eq!((run.refused_calls, run.end), (5, Ok(())));
    assert_eq!(&*job.line(run.refused_calls), "0 0 2 1 0 0 0 0 0 5");
}

#[test]
fn grants_of_any_number() {
    let mut job = plan_a();
    for workers in [
        2,
        64,
        65,
        127,
        255,
        256,
        257,
        65_536,
        1 << 32,
        (1 << 32) + 1,
        u64::MAX,
    ] {
        refused(&mut job, 14, |j| j.grant(workers));
    }
    assert_eq!(job.grant(0), Ok(()));
    assert_eq!((job.allotment(), job.desire()), (0, 1));
}

#[test]
fn ticks_of_any_size() {
    let mut job = job(&wide(1));
    while job.desire() < 64 {
        let workers = job.desire();
        assert_eq!(job.grant(workers), Ok(()));
        assert_eq!(job.tick(&vec![0; workers as usize]), Ok(()));
    }
    refused(&mut job, 14, |j| j.grant(65));
    assert_eq!(job.grant(64), Ok(()));
    let million = vec![0; 1 << 20];
    for size in [0, 1, 63, 65, 64 + 256, 64 + 65_536, 1 << 20] {
        refused(&mut job, 16, |j| j.tick(&million[..size]));
    }
    let mut choices = [63; 64];
    choices[63] = 64;
    refused(&mut job, 17, |j| j.tick(&choices));
    choices[63] = 63;
    assert_eq!(job.tick(&choices), Ok(()));
    assert_eq!(State::of(&job).allotment, 64);
    assert_eq!(job.grant(0), Ok(()));
    refused(&mut job, 16, |j| j.tick(&million));
    assert_eq!(job.tick(&[]), Ok(()));
}

#[test]
fn logs_empty_and_broken() {
    let mut job = plan_a();
    let run = job.run_log(&[]);
    assert_eq!((run.refused_calls, run.end), (0, Ok(())));
    let run = job.run_log(&hex("02 01 82 00"));
    assert_eq!((run.refused_calls, run.end), (1, Err(Refusal::BrokenEntry)));
    assert_eq!(job.allotment(), 1);
    // A refused tick takes its choices with it.
    let run = job.run_log(&hex("82 00 00 81 00"));
    assert_eq!((run.refused_calls, run.end), (1, Ok(())));
    assert_eq!(job.counters(0).work, 1);
    let run = job.run_log(&[0; 1 << 20]);
    assert_eq!((run.refused_calls, run.end), (1 << 20, Ok(())));
}

#[test]
fn clones_go_on_apart() {
    let mut job = plan_a();
    assert_eq!(job.grant(1), Ok(()));
    let mut copy = job.clone();
    assert_eq!(State::of(&copy), State::of(&job));
    assert_eq!(copy.tick(&[0]), Ok(()));
    assert_eq!((job.counters(0).worked, copy.counters(0).worked), (0, 1));
}

#[test]
fn jobs_cross_threads() {
    fn crosses<T: Send + Sync + 'static>() {}
    crosses::<Job>();
    let log = hex("01 81 00 81 00 02 82 00 00 82 00 00");
    let moved = |mut job: Job, log: Vec<u8>| move || (job.run_log(&log), job);
    let threads: Vec<_> = (0..4)
        .map(|_| std::thread::spawn(moved(plan_a(), log.clone())))
        .collect();
    for thread in threads {
        let (run, job) = thread.join().expect("a thread that ends");
        assert_eq!((run.refused_calls, job.is_finished()), (0, true));
    }
}
