//! The look into a job's memory.

use jirvaldo::inspect::{Growth, Plan, State, View};

use super::{hex, job, plan, plan_a, ONE_TASK};

#[test]
fn a_fresh_job() {
    let tasks: [&[u32]; 4] = [&[2, 1], &[3], &[3], &[]];
    let state = State::of(&job(&plan(7, 33, 65_535, &tasks)));
    let fresh = State {
        plan: Plan {
            growth: Growth::Factor(7),
            utilization: 33,
            quantum_length: 65_535,
            successors: vec![vec![2, 1], vec![3], vec![3], vec![]],
            durations: vec![1; 4],
        },
        worked: vec![false; 4],
        left: vec![1; 4],
        deques: vec![],
        muggable: vec![],
        desire: 1,
        power: 0,
        allotment: 0,
        started: false,
        open_ticks: None,
        quanta_begun: 0,
        offer: None,
        work: 0,
        mug: 0,
        steal: 0,
        successes: 0,
        usage: 0,
    };
    assert_eq!(state, fresh);
}

#[test]
fn withdrawn_deques_and_the_open_quantum() {
    let mut job = plan_a();
    assert_eq!(job.run_log(&hex("01 81 00")).refused_calls, 0);
    let state = State::of(&job);
    assert_eq!((state.open_ticks, state.usage), (Some(1), 1));
    assert_eq!((state.started, state.quanta_begun), (true, 1));
    assert_eq!(job.run_log(&hex("81 00 00")).refused_calls, 0);
    let state = State::of(&job);
    assert_eq!(state.worked, [true, true, false, false]);
    assert_eq!((state.deques.len(), state.muggable), (0, vec![vec![2]]));
    assert_eq!((state.open_ticks, state.usage), (Some(0), 0));
    assert_eq!((state.allotment, state.desire), (0, 2));
}

#[test]
fn a_finished_job_keeps_its_quantum_open() {
    let mut job = job(&hex(ONE_TASK));
    assert_eq!(job.run_log(&hex("01 81 00")).refused_calls, 0);
    let state = State::of(&job);
    assert_eq!((state.open_ticks, state.work), (Some(1), 1));
    assert_eq!(state.deques, [vec![]]);
}

#[test]
fn nothing_is_shown_past_the_last() {
    let mut job = plan_a();
    assert_eq!(job.run_log(&hex("01 81 00")).refused_calls, 0);
    let view = View::of(&job);
    assert_eq!((view.is_worked(0), view.is_worked(1)), (true, false));
    assert_eq!((view.duration(3), view.ticks_left(3)), (1, 1));
    assert_eq!((view.durations().count(), view.left().count()), (4, 4));
    for past in [4, 1023, 1024, usize::MAX] {
        assert!(!view.is_worked(past));
        assert_eq!((view.duration(past), view.ticks_left(past)), (0, 0));
        assert_eq!(view.successors(past).count(), 0);
        assert_eq!(view.deque(past).count(), 0);
        assert_eq!(view.muggable_deque(past).count(), 0);
    }
    assert_eq!(view.deque(0).collect::<Vec<_>>(), [1, 2]);
    assert_eq!(view.deque(1).count(), 0);
}
