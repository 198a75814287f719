//! Deques and desires in hand-worked rows of calls.

use reference::generator::plans::Draft;
use reference::{Job, OpenQuantum, Status};

use super::{hex, job, PLAN_A};

/// A job with quanta of one tick, from the successors of its tasks.
fn drawn(successors: &[&[u16]], utilization: u64) -> Job {
    let graph = successors.iter().map(|list| list.to_vec()).collect();
    let mut draft = Draft::of_graph(&graph);
    draft.quantum_length = 1;
    draft.utilization = utilization;
    job(&draft.bytes())
}

/// Ten tasks: two levels of forks, two levels of joins.
fn tree() -> Job {
    let successors: [&[u16]; 10] = [
        &[1, 2],
        &[3, 4],
        &[5, 6],
        &[7],
        &[7],
        &[8],
        &[8],
        &[9],
        &[9],
        &[],
    ];
    drawn(&successors, 80)
}

/// A grant and one tick, both accepted.
fn quantum(job: &mut Job, choices: &[u8]) {
    assert!(job.grant(choices.len()).is_ok());
    assert!(job.tick(choices).is_ok());
}

#[test]
fn of_one_grant_the_highest_workers_deque_is_taken_first() {
    let mut job = tree();
    quantum(&mut job, &[0]);
    quantum(&mut job, &[0, 0]);
    assert_eq!(job.deques(), [vec![3, 4], vec![2]]);
    assert_eq!(job.desire(), 1, "one of two cycles is below 80 percent");
    quantum(&mut job, &[]);
    assert_eq!(job.muggable_deques(), [&vec![2], &vec![3, 4]]);
    quantum(&mut job, &[0]);
    assert_eq!(job.deques(), [vec![2]]);
    // Worker 0's deque of the later grant waits behind worker 0's of the earlier one.
    quantum(&mut job, &[]);
    assert_eq!(job.muggable_deques(), [&vec![3, 4], &vec![2]]);
    quantum(&mut job, &[1, 0]);
    assert_eq!(job.deques(), [vec![3, 4], vec![2]]);
    assert_eq!((job.mug_cycles(), job.desire()), (3, 4));
    quantum(&mut job, &[0, 0, 0, 1]);
    assert_eq!(job.deques(), [vec![4], vec![5], vec![], vec![6]]);
    assert_eq!((job.steal_cycles(), job.successful_steals()), (3, 2));
}

/// Thirteen tasks: after three quanta workers 0 to 3 have a task each, and
/// workers 0 and 1 have one after their next cycle, too.
fn four_lines() -> Job {
    let successors: [&[u16]; 13] = [
        &[1, 2],
        &[3, 4],
        &[5, 6],
        &[7],
        &[10],
        &[9],
        &[11],
        &[8],
        &[10],
        &[11],
        &[12],
        &[12],
        &[],
    ];
    drawn(&successors, 1)
}

#[test]
fn an_earlier_grants_deques_come_first() {
    let mut job = four_lines();
    for choices in [&[0][..], &[0, 0], &[0, 0, 0, 1]] {
        quantum(&mut job, choices);
    }
    assert_eq!(job.deques(), [vec![7], vec![5], vec![4], vec![6]]);
    quantum(&mut job, &[0, 0]);
    assert_eq!(job.deques(), [vec![8], vec![9]]);
    assert_eq!(job.muggable_deques(), [&vec![6], &vec![4]]);
    quantum(&mut job, &[]);
    let waiting = [&vec![6], &vec![4], &vec![9], &vec![8]];
    assert_eq!(job.muggable_deques(), waiting);
    quantum(&mut job, &[0, 0, 0, 0]);
    assert_eq!(job.deques(), [vec![6], vec![4], vec![9], vec![8]]);
}

#[test]
fn a_gap_among_withdrawn_workers() {
    let mut job = four_lines();
    for choices in [&[0][..], &[0, 0], &[0, 0, 2, 1]] {
        quantum(&mut job, choices);
    }
    assert_eq!(job.deques(), [vec![7, 4], vec![5], vec![], vec![6]]);
    let report = job.grant(1).expect("an accepted grant");
    assert_eq!((report.made_muggable, report.vanished), (2, 1));
    assert_eq!(job.muggable_deques(), [&vec![6], &vec![5]]);
}

#[test]
fn a_deque_just_mugged_can_be_robbed() {
    let mut job = tree();
    quantum(&mut job, &[0]);
    quantum(&mut job, &[]);
    assert_eq!(job.muggable_deques(), [&vec![1, 2]]);
    quantum(&mut job, &[0, 0]);
    assert_eq!(job.deques(), [vec![1], vec![2]]);
    assert_eq!((job.mug_cycles(), job.successful_steals()), (1, 1));
}

/// Thirteen tasks: 0, 1, 3 and 5 have two successors each, the second of which
/// waits at the back of the line; the joins are 9 to 12.
fn comb() -> Job {
    let successors: [&[u16]; 13] = [
        &[1, 2],
        &[3, 4],
        &[12],
        &[5, 6],
        &[11],
        &[7, 8],
        &[10],
        &[9],
        &[9],
        &[10],
        &[11],
        &[12],
        &[],
    ];
    drawn(&successors, 1)
}

#[test]
fn a_thief_takes_the_back_half_in_its_order() {
    let robbed: [(usize, [&[u16]; 2]); 3] = [
        (1, [&[3, 4], &[2]]),
        (2, [&[5, 6], &[4, 2]]),
        (3, [&[7, 8, 6], &[4, 2]]),
    ];
    for (alone, lines) in robbed {
        let mut job = comb();
        for _ in 0..alone {
            quantum(&mut job, &[0]);
        }
        quantum(&mut job, &[0, 0]);
        assert_eq!(job.deques(), lines);
        assert_eq!((job.steal_cycles(), job.successful_steals()), (1, 1));
    }
}

#[test]
fn three_thieves_in_one_tick() {
    let mut job = comb();
    for choices in [&[0][..], &[0], &[0, 1], &[0, 0, 0, 1]] {
        quantum(&mut job, choices);
    }
    assert_eq!(job.deques(), [vec![7, 8], vec![4], vec![6], vec![2]]);
    assert_eq!((job.steal_cycles(), job.successful_steals()), (4, 3));
}

/// A job before the tick that finishes it, with three workers granted. Of a
/// fork after a chain the finisher has stolen the second task, or as worker 0
/// has worked both; the join is all that is left.
fn before_the_finish(finisher: usize) -> Job {
    let mut job = drawn(&[&[1], &[2], &[3, 4], &[5], &[5], &[]], 1);
    quantum(&mut job, &[0]);
    quantum(&mut job, &[0, 1]);
    let mut choices = [0, 1, 2];
    choices[finisher] = 0;
    while job.worked_count() < 5 {
        quantum(&mut job, &choices);
    }
    assert!(job.grant(3).is_ok());
    job
}

#[test]
fn workers_after_the_finisher_steal_in_vain() {
    for finisher in [0, 1, 2] {
        let before = before_the_finish(finisher);
        assert_eq!(before.deques()[finisher], [5]);
        let mut job = before.clone();
        let report = job.tick(&[0, 0, 0]).expect("an accepted tick");
        assert_eq!(report.cycles.len(), finisher + 1);
        assert_eq!(report.rested, 2 - finisher);
        // One works and the other two steal in vain, whoever is the finisher.
        assert_eq!((job.work_cycles(), job.mug_cycles()), (6, 0));
        assert_eq!(job.steal_cycles(), before.steal_cycles() + 2);
        assert_eq!(job.successful_steals(), before.successful_steals());
        assert_eq!(job.deques(), [vec![], vec![], vec![]]);
        // The quantum has had its one tick, and does not close.
        let open = OpenQuantum { ticks: 1, usage: 1 };
        assert_eq!(job.open_quantum(), Some(open));
        assert_eq!(job.desire(), before.desire());
        // No choice matters.
        let mut other = before;
        assert!(other.tick(&[2, 1, 0]).is_ok());
        assert_eq!(other, job);
    }
}

#[test]
fn only_workers_from_the_grant_up_are_withdrawn() {
    let mut job = tree();
    quantum(&mut job, &[0]);
    quantum(&mut job, &[0, 0]);
    quantum(&mut job, &[0]);
    assert_eq!(job.deques(), [vec![4]]);
    assert_eq!(job.muggable_deques(), [&vec![2]]);
}

#[test]
fn the_first_field_goes_to_the_front() {
    let graph = vec![vec![2, 1], vec![3], vec![3], vec![]];
    let mut job = job(&Draft::of_graph(&graph).bytes());
    assert!(job.grant(1).is_ok() && job.tick(&[0]).is_ok());
    assert_eq!(job.deques(), [vec![2, 1]]);
}

#[test]
fn task_0_waits_for_the_first_worker() {
    let mut job = tree();
    quantum(&mut job, &[]);
    assert_eq!((job.status(), job.desire()), (Status::Fresh, 1));
    assert!(job.muggable_deques().is_empty());
    assert!(job.grant(1).is_ok());
    assert_eq!(job.deques(), [vec![0]]);
}

#[test]
fn a_quantum_closes_inside_its_last_tick() {
    let mut job = job(&hex(PLAN_A));
    assert!(job.grant(1).is_ok() && job.tick(&[0]).is_ok());
    let open = OpenQuantum { ticks: 1, usage: 1 };
    assert_eq!((job.open_quantum(), job.desire()), (Some(open), 1));
    assert!(job.tick(&[0]).is_ok());
    assert_eq!((job.open_quantum(), job.desire()), (None, 2));
    assert_eq!((job.status(), job.allotment()), (Status::Running, 1));
    assert!(job.grant(0).is_ok());
    assert_eq!((job.status(), job.desire()), (Status::Held, 2));
}
