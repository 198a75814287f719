//! Document 01's examples 1 to 4, 7 and 9, and the thieves, orphans and last ticks of the requests.

use jirvaldo::inspect::State;
use jirvaldo::{Job, Refusal, Status};

use super::{hex, job, nested, plan, plan_a, ONE_TASK};

/// A job of Plan A after a log that has no refusal.
fn after(log: &str) -> Job {
    let mut job = plan_a();
    let run = job.run_log(&hex(log));
    assert_eq!((run.refused_calls, run.end), (0, Ok(())));
    job
}

#[test]
fn example_1_two_workers() {
    let job = after("01 81 00 81 00 02 82 00 00 82 00 00");
    assert_eq!(&*job.line(0), "3 4 4 2 2 4 0 2 0 0");
}

#[test]
fn example_2_withdrawn_and_mugged() {
    let job = after("01 81 00 81 00 00 80 80 01 81 00 81 00 01 81 00");
    let counters = job.counters(0);
    assert_eq!((counters.work, counters.mug, counters.steal), (4, 1, 0));
    assert_eq!((counters.status, counters.desire), (Status::Finished, 2));
}

#[test]
fn example_3_empty_log() {
    assert_eq!(&*after("").line(0), "0 0 4 1 0 0 0 0 0 0");
}

#[test]
fn example_4_first_grant() {
    let mut job = plan_a();
    assert_eq!(job.grant(2), Err(Refusal::AboveDesire));
    assert_eq!(job.grant(0), Ok(()));
    assert_eq!(job.status(), Status::Fresh);
}

#[test]
fn example_7_thief_takes_the_back() {
    let tasks: [&[u32]; 7] = [&[1, 2], &[3, 4], &[5], &[5], &[6], &[6], &[]];
    let mut job = job(&plan(2, 80, 1, &tasks));
    assert_eq!(job.run_log(&hex("01 81 00 02")).refused_calls, 0);
    assert_eq!(State::of(&job).deques, [vec![1, 2], vec![]]);
    assert_eq!(job.tick(&[0, 0]), Ok(()));
    assert_eq!(State::of(&job).deques, [vec![3, 4], vec![2]]);
    assert_eq!(job.counters(0).successes, 1);
}

#[test]
fn a_thief_takes_the_back_half_in_its_order() {
    for (log, left, taken) in [
        ("01 81 00 01 81 00 02", vec![5, 6], vec![4, 2]),
        ("01 81 00 01 81 00 01 81 00 02", vec![7, 8, 6], vec![4, 2]),
    ] {
        let mut job = job(nested());
        assert_eq!(job.run_log(&hex(log)).refused_calls, 0);
        assert_eq!(job.tick(&[0, 0]), Ok(()));
        assert_eq!(State::of(&job).deques, [left, taken]);
        assert_eq!((job.counters(0).steal, job.counters(0).successes), (1, 1));
    }
}

#[test]
fn three_thieves_in_one_tick() {
    let mut job = job(nested());
    let run = job.run_log(&hex("01 81 00 01 81 00 02 82 00 01 04 84 00 00 00 01"));
    assert_eq!(run.refused_calls, 0);
    assert_eq!(
        State::of(&job).deques,
        [vec![7, 8], vec![4], vec![6], vec![2]]
    );
    assert_eq!(&*job.line(0), "1 4 13 8 4 4 0 4 3 0");
}

#[test]
fn of_one_grant_the_highest_workers_deque_is_mugged_first() {
    let mut job = job(nested());
    let run = job.run_log(&hex("01 81 00 01 81 00 02 82 00 00 00"));
    assert_eq!(run.refused_calls, 0);
    assert_eq!(State::of(&job).muggable, [vec![4, 2], vec![5, 6]]);
    assert_eq!(job.run_log(&hex("80 01 81 00")).refused_calls, 0);
    let state = State::of(&job);
    assert_eq!(state.deques, [vec![4, 2]]);
    assert_eq!(state.muggable, [vec![5, 6]]);
}

#[test]
fn an_earlier_grants_deques_are_mugged_first() {
    let mut job = job(nested());
    let run = job.run_log(&hex("01 81 00 01 81 00 02 82 00 01 04 84 00 00 00 01 02"));
    assert_eq!(run.refused_calls, 0);
    assert_eq!(State::of(&job).muggable, [vec![2], vec![6]]);
    assert_eq!(job.run_log(&hex("82 00 00 00")).refused_calls, 0);
    assert_eq!(State::of(&job).muggable, [vec![2], vec![6], vec![8]]);
    let run = job.run_log(&hex("80 03 83 00 00 00"));
    assert_eq!(run.refused_calls, 0);
    assert_eq!(State::of(&job).deques, [vec![2], vec![6], vec![8]]);
}

/// The job of `examples/whole-last-tick.in` after one tick of a worker alone, and so many of three workers with these choices. What three
/// counts add up to is one for each granted worker.
fn three_at_work(ticks: u64, choices: [u8; 3]) -> Job {
    let input = include_bytes!("../../../../examples/whole-last-tick.in");
    let mut job = job(&input[2..2 + usize::from(input[1])]);
    assert_eq!(job.run_log(&hex("01 81 00")).refused_calls, 0);
    for _ in 0..ticks {
        assert_eq!(job.grant(3), Ok(()));
        assert_eq!(job.tick(&choices), Ok(()));
    }
    let shown = job.counters(0);
    assert_eq!(shown.work + shown.mug + shown.steal, 1 + 3 * ticks);
    job
}

#[test]
fn the_workers_after_the_finisher_steal_in_vain() {
    assert_eq!(
        &*three_at_work(6, [0, 1, 2]).line(0),
        "3 7 7 9 3 7 0 12 0 0"
    );
    assert_eq!(&*three_at_work(4, [0, 0, 0]).line(0), "3 7 7 9 3 7 0 6 2 0");
    assert_eq!(&*three_at_work(4, [0, 1, 0]).line(0), "3 7 7 9 3 7 0 6 1 0");
}

#[test]
fn example_9_one_task() {
    let mut job = job(&hex(ONE_TASK));
    assert_eq!((job.grant(1), job.tick(&[0])), (Ok(()), Ok(())));
    assert!(job.is_finished());
}
