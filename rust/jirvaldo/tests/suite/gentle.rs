//! Plans of form 3: a desire that grows by tenths, and the power that it is looked up by.

use std::cmp::Reverse;

use jirvaldo::inspect::{Growth, Plan, State, View};
use jirvaldo::{Job, MOST_TASKS};

use super::{chain, chain_of, gentle, hex, job, lasting, plan, plan_a, wide, DIAMOND, PLAN_A};

/// The whole parts of 1.2^k up to 64.
const ROW_OF_12: [u64; 23] = [
    1, 1, 1, 1, 2, 2, 2, 3, 4, 5, 6, 7, 8, 10, 12, 15, 18, 22, 26, 31, 38, 46, 55,
];

/// The whole parts of 2.0^k up to 64.
const ROW_OF_20: [u64; 7] = [1, 2, 4, 8, 16, 32, 64];

/// The tenths, the last power whose whole part is at most 64, and that.
const TOPS: [(u64, u8, u64); 9] = [
    (12, 22, 55),
    (13, 15, 51),
    (14, 12, 56),
    (15, 10, 57),
    (16, 8, 42),
    (17, 7, 41),
    (18, 7, 61),
    (19, 6, 47),
    (20, 6, 64),
];

/// The power and the desire.
fn shown(job: &Job) -> (u8, u64) {
    let view = View::of(job);
    assert_eq!(u64::from(view.desire()), job.desire());
    (view.power(), job.desire())
}

/// Choices by which thieves find work: the worker with the fewest tasks chooses the one with the most, and so on.
fn choices(job: &Job) -> Vec<u8> {
    let view = View::of(job);
    let mut order: Vec<usize> = (0..view.allotment()).collect();
    order.sort_by_key(|&worker| Reverse(view.deque(worker).count()));
    let mut choices = vec![0; order.len()];
    for (&thief, &victim) in order.iter().rev().zip(&order) {
        choices[thief] = victim as u8;
    }
    choices
}

/// A quantum of one tick, with so many workers.
fn quantum(job: &mut Job, workers: u64) {
    assert_eq!(job.grant(workers), Ok(()));
    assert_eq!(job.tick(&choices(job)), Ok(()));
}

/// A quantum of one tick with as many workers as the job desires.
fn satisfied(job: &mut Job) {
    quantum(job, job.desire());
}

#[test]
fn the_fields_of_form_3() {
    for tenths in 12..=20 {
        let fresh = job(&gentle(&plan(2, 33, 16_383, &DIAMOND), tenths));
        let expected = Plan {
            growth: Growth::Tenths(tenths as u8),
            utilization: 33,
            quantum_length: 16_383,
            successors: vec![vec![1, 2], vec![3], vec![3], vec![]],
            durations: vec![1; 4],
        };
        assert_eq!(Plan::of(&fresh), expected);
        assert_eq!(shown(&fresh), (0, 1));
    }
    let fresh = job(&hex("36 50 00 08 00  00 00 00"));
    assert_eq!(View::of(&fresh).growth(), Growth::Tenths(12));
    assert_eq!(View::of(&fresh).utilization(), 80);
    assert_eq!(View::of(&fresh).quantum_length(), 2);
    assert_eq!(View::of(&plan_a()).growth(), Growth::Factor(2));
}

/// With D = 1 and L = 1 a quantum is efficient where one worker works, so that the desire climbs the row; at the top it stays.
fn climb(tenths: u64, row: &[u64]) -> Job {
    let mut job = job(&gentle(&chain_of(1, 40), tenths));
    for (power, &desire) in row.iter().enumerate() {
        assert_eq!(shown(&job), (power as u8, desire));
        satisfied(&mut job);
    }
    let top = (row.len() as u8 - 1, row[row.len() - 1]);
    for _ in 0..3 {
        assert_eq!(shown(&job), top);
        satisfied(&mut job);
    }
    assert_eq!(shown(&job), top);
    job
}

#[test]
fn a_climb_of_12_tenths() {
    let job = climb(12, &ROW_OF_12);
    // 26 tasks worked; all other workers stole in vain
    let granted = ROW_OF_12.iter().sum::<u64>() + 3 * 55;
    let line = format!("1 26 40 55 55 26 0 {} 0 0", granted - 26);
    assert_eq!(*job.line(0), *line);
}

#[test]
fn a_climb_of_20_tenths() {
    let job = climb(20, &ROW_OF_20);
    assert_eq!(&*job.line(0), "1 10 40 64 64 10 0 309 0 0");
}

#[test]
fn the_top_of_each_row() {
    for (tenths, power, desire) in TOPS {
        let mut job = job(&gentle(&chain_of(1, 40), tenths));
        for risen in 0..power {
            assert_eq!(shown(&job).0, risen);
            satisfied(&mut job);
        }
        for _ in 0..3 {
            assert_eq!(shown(&job), (power, desire));
            satisfied(&mut job);
        }
    }
}

/// At the top of its row the power does not go on rising, so that one inefficient quantum lowers the desire.
#[test]
fn a_step_down_from_the_top() {
    let mut job = job(&gentle(&chain_of(2, 60), 12));
    for _ in 0..22 {
        satisfied(&mut job);
    }
    for _ in 0..3 {
        assert_eq!(shown(&job), (22, 55));
        quantum(&mut job, 50); // efficient, and deprived
    }
    satisfied(&mut job); // 1 of 55 is not 2 percent
    assert_eq!(shown(&job), (21, 46));
    satisfied(&mut job);
    assert_eq!(shown(&job), (22, 55));
}

/// A climb over a wide graph, and then the fall where one worker finds work: each inefficient quantum lowers the power by one, whether the
/// job was granted what it desires or less.
fn fall(less: u64) {
    let mut job = job(&gentle(&wide(60), 12));
    while shown(&job).0 < 22 {
        satisfied(&mut job);
    }
    while shown(&job).0 == 22 {
        satisfied(&mut job);
    }
    for power in (4..22).rev() {
        assert_eq!(shown(&job), (power, ROW_OF_12[usize::from(power)]));
        let workers = job.desire() - less;
        quantum(&mut job, workers.max(2));
    }
    assert_eq!(shown(&job), (3, 1));
    satisfied(&mut job);
    assert_eq!(shown(&job), (4, 2));
}

#[test]
fn a_fall_from_the_top() {
    fall(0);
    fall(1);
}

#[test]
fn deprived_quanta_leave_the_power() {
    let mut job = job(&gentle(&chain_of(34, 60), 12));
    quantum(&mut job, 0);
    assert_eq!(shown(&job), (0, 1));
    for _ in 0..7 {
        satisfied(&mut job);
    }
    for workers in [2, 1, 0, 2] {
        assert_eq!(shown(&job), (7, 3));
        quantum(&mut job, workers);
    }
    assert_eq!(shown(&job), (7, 3));
    satisfied(&mut job); // 1 of 3 is not 34 percent
    assert_eq!(shown(&job), (6, 2));
}

/// The quantum in which a job finishes moves neither the power nor the desire.
#[test]
fn the_last_quantum_leaves_the_power() {
    let mut job = job(&gentle(&chain_of(1, 3), 20));
    satisfied(&mut job);
    satisfied(&mut job);
    assert_eq!(shown(&job), (2, 4));
    satisfied(&mut job);
    assert!(job.is_finished());
    assert_eq!(shown(&job), (2, 4));
}

/// A state without how its desire grows.
fn but_for_growth(job: &Job) -> State {
    let mut state = State::of(job);
    state.plan.growth = Growth::Factor(0);
    state
}

/// 20 tenths are R = 2.
#[test]
fn twenty_tenths_double() {
    let (double, tenths) = (wide(60), gentle(&wide(60), 20));
    let (mut double, mut tenths) = (job(&double), job(&tenths));
    let mut highest = 0;
    while !double.is_finished() {
        satisfied(&mut double);
        satisfied(&mut tenths);
        assert_eq!(but_for_growth(&double), but_for_growth(&tenths));
        highest = highest.max(View::of(&double).power());
    }
    assert_eq!(highest, 6);
}

/// In forms 1 and 2 the desire is R to the power.
#[test]
fn the_power_of_a_factor() {
    for (factor, top) in [(2, 64), (3, 27), (4, 64), (5, 25), (6, 36), (7, 49)] {
        let mut job = job(&lasting(&plan(factor, 1, 1, &DIAMOND), &[30; 4]));
        assert_eq!(View::of(&job).growth(), Growth::Factor(factor as u8));
        for _ in 0..9 {
            let (power, desire) = shown(&job);
            assert_eq!(desire, factor.pow(power.into()));
            satisfied(&mut job);
        }
        assert_eq!(shown(&job).1, top);
    }
    let mut job = plan_a();
    assert_eq!(job.run_log(&hex("01 81 00 81 00")).refused_calls, 0);
    assert_eq!(shown(&job), (1, 2));
}

/// A plan of another form in the same memory: neither the unit of R nor the power of the job before stays.
#[test]
fn replaced_by_another_form() {
    let mut job = job(&gentle(&chain_of(1, 9), 15));
    for _ in 0..4 {
        satisfied(&mut job);
    }
    assert_eq!(shown(&job), (4, 5));
    for plan in [hex(PLAN_A), gentle(&chain(MOST_TASKS as u32), 13)] {
        assert_eq!(job.replace(&plan), Ok(()));
        let fresh = Job::accept(&plan).expect("an accepted plan");
        assert_eq!(State::of(&job), State::of(&fresh));
        assert_eq!(shown(&job), (0, 1));
    }
}

/// `examples/gentle-growth.in`, quantum by quantum: 15 tenths, and ten tasks of which more and more workers find one.
#[test]
fn the_shipped_example() {
    let input = include_bytes!("../../../../examples/gentle-growth.in");
    let (mut job, mut log) = (job(&input[2..37]), Vec::new());
    let mut quantum = |calls: &str, level: (u8, u64), line: &str| {
        assert_eq!(job.run_log(&hex(calls)).refused_calls, 0);
        log.extend(hex(calls));
        assert_eq!((shown(&job), &*job.line(0)), (level, line));
    };
    quantum("01 81 00", (1, 1), "1 1 10 1 1 1 0 0 0 0");
    quantum("01 81 00", (2, 2), "1 2 10 2 1 2 0 0 0 0");
    quantum("02 82 00 00", (3, 3), "1 3 10 3 2 3 0 1 1 0");
    quantum("03 83 00 01 01", (4, 5), "1 5 10 5 3 5 0 2 2 0");
    assert_eq!(input[37..], log);
}
