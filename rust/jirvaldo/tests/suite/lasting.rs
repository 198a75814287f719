//! Plans of form 2: tasks that last, and the ticks left of them.

use jirvaldo::inspect::State;
use jirvaldo::{Job, Status};

use super::{chain, hex, job, lasting, plan, plan_a, DIAMOND, PLAN_A};

/// The job moves by a log that has no refusal.
fn run(job: &mut Job, log: &str) {
    let run = job.run_log(&hex(log));
    assert_eq!((run.refused_calls, run.end), (0, Ok(())));
}

/// The deques of the granted workers, and the ticks left of each task.
fn shown(job: &Job) -> (Vec<Vec<u16>>, Vec<u8>) {
    let state = State::of(job);
    (state.deques, state.left)
}

/// A diamond with D = 1 and L = 1, so that every quantum here is efficient.
fn diamond(ticks: [u8; 4]) -> Job {
    job(&lasting(&plan(2, 1, 1, &DIAMOND), &ticks))
}

#[test]
fn one_task_of_three_ticks() {
    let mut job = job(&hex("25 40 00 08 00  00 00 00 03"));
    assert_eq!(&*job.line(0), "0 0 1 1 0 0 0 0 0 0");
    assert_eq!(shown(&job), (vec![], vec![3]));
    run(&mut job, "01 81 00");
    assert_eq!(shown(&job), (vec![vec![0]], vec![2]));
    run(&mut job, "81 00");
    assert_eq!(State::of(&job).worked, [false]);
    assert_eq!(shown(&job), (vec![vec![0]], vec![1]));
    assert_eq!(&*job.line(0), "1 0 1 2 1 2 0 0 0 0");
    run(&mut job, "01 81 00");
    let state = State::of(&job);
    assert_eq!((state.worked, state.left), (vec![true], vec![0]));
    assert_eq!((state.plan.durations, state.usage), (vec![3], 1));
    assert_eq!(&*job.line(0), "3 1 1 2 1 3 0 0 0 0");
}

/// Form 1 is form 2 with one tick each.
#[test]
fn ticks_of_one() {
    let mut short = plan_a();
    let mut long = job(&lasting(&hex(PLAN_A), &[1; 4]));
    for log in ["", "01 81 00", "81 00 00", "80 80 01 81 00", "81 00"] {
        run(&mut short, log);
        run(&mut long, log);
        assert_eq!(State::of(&short), State::of(&long));
    }
}

/// A task that lasts keeps its successors waiting, and a thief away from it.
#[test]
fn successors_come_after_the_last_tick() {
    let mut job = diamond([2, 3, 1, 2]);
    run(&mut job, "01 81 00");
    assert_eq!(shown(&job), (vec![vec![0]], vec![1, 3, 1, 2]));
    run(&mut job, "02 82 00 00");
    assert_eq!(shown(&job), (vec![vec![1], vec![2]], vec![0, 3, 1, 2]));
    run(&mut job, "02 82 00 00");
    assert_eq!(shown(&job), (vec![vec![1], vec![]], vec![0, 2, 0, 2]));
    run(&mut job, "02 82 00 00");
    assert_eq!(shown(&job), (vec![vec![1], vec![]], vec![0, 1, 0, 2]));
    assert_eq!(&*job.line(0), "1 2 4 4 2 5 0 2 1 0");
    run(&mut job, "01 81 00");
    assert_eq!(shown(&job), (vec![vec![3]], vec![0, 0, 0, 2]));
    run(&mut job, "01 81 00");
    assert_eq!(&*job.line(0), "1 3 4 4 1 7 0 2 1 0");
    run(&mut job, "02 82 00 00");
    assert_eq!(&*job.line(0), "3 4 4 4 2 8 0 3 1 0");
    assert_eq!(shown(&job), (vec![vec![], vec![]], vec![0; 4]));
}

#[test]
fn a_withdrawn_task_goes_on_where_it_was() {
    let mut job = job(&lasting(&chain(2), &[3, 2]));
    run(&mut job, "01 81 00 00 80");
    let held = State::of(&job);
    assert_eq!((job.status(), held.worked), (Status::Held, vec![false; 2]));
    assert_eq!((held.muggable, held.left), (vec![vec![0]], vec![2, 2]));
    run(&mut job, "02 82 00 00");
    assert_eq!(shown(&job), (vec![vec![0], vec![]], vec![2, 2]));
    run(&mut job, "01 81 00");
    assert_eq!(shown(&job), (vec![vec![0]], vec![1, 2]));
    run(&mut job, "01 81 00");
    assert_eq!(shown(&job), (vec![vec![1]], vec![0, 2]));
    assert_eq!(&*job.line(0), "1 1 2 2 1 3 1 1 0 0");
    run(&mut job, "01 81 00 01 81 00");
    assert_eq!(&*job.line(0), "3 2 2 2 1 5 1 1 0 0");
}

/// Both workers are withdrawn in the middle of a task, and each task is then picked up by the other one.
#[test]
fn another_worker_goes_on_where_it_was() {
    let mut job = diamond([1, 4, 4, 1]);
    run(&mut job, "01 81 00 02 82 00 00 02 82 00 00");
    assert_eq!(shown(&job), (vec![vec![1], vec![2]], vec![0, 2, 3, 1]));
    run(&mut job, "00 80");
    let held = State::of(&job);
    assert_eq!(held.muggable, [vec![2], vec![1]]);
    assert_eq!(held.left, [0, 2, 3, 1]);
    run(&mut job, "01 81 00");
    assert_eq!(shown(&job), (vec![vec![2]], vec![0, 2, 3, 1]));
    run(&mut job, "01 81 00");
    assert_eq!(shown(&job), (vec![vec![2]], vec![0, 2, 2, 1]));
    run(&mut job, "02 82 00 00");
    assert_eq!(shown(&job), (vec![vec![2], vec![1]], vec![0, 2, 1, 1]));
    run(&mut job, "02 82 00 00");
    assert_eq!(shown(&job), (vec![vec![], vec![1]], vec![0, 1, 0, 1]));
    run(&mut job, "02 82 01 00");
    assert_eq!(shown(&job), (vec![vec![], vec![3]], vec![0, 0, 0, 1]));
    run(&mut job, "02 82 01 00");
    assert_eq!(&*job.line(0), "3 4 4 4 2 10 2 3 1 0");
}

/// `examples/lasting-pieces.in`, quantum by quantum; `examples/begun-pieces.in` ends after the third. Behind the workers' deques stand the
/// muggable ones.
#[test]
fn the_shipped_example() {
    let input = include_bytes!("../../../../examples/lasting-pieces.in");
    let (mut job, mut log) = (job(&input[2..23]), Vec::new());
    let mut quantum = |calls: &str, line: &str, deques: &[&[u16]], left: [u8; 4]| {
        run(&mut job, calls);
        log.extend(hex(calls));
        let state = State::of(&job);
        assert_eq!(&*job.line(0), line);
        assert_eq!([state.deques, state.muggable].concat(), deques);
        assert_eq!(state.left, left);
    };
    let (one, two) = ("01 81 00 81 00", "02 82 00 00 82 00 00");
    quantum(one, "1 1 4 2 1 2 0 0 0 0", &[&[1, 2]], [0, 3, 2, 1]);
    quantum(two, "1 1 4 1 2 5 0 1 1 0", &[&[1], &[2]], [0, 1, 1, 1]);
    quantum(
        "00 80 80",
        "2 1 4 1 0 5 0 1 1 0",
        &[&[2], &[1]],
        [0, 1, 1, 1],
    );
    quantum(one, "1 2 4 2 1 6 1 1 1 0", &[&[], &[1]], [0, 1, 0, 1]);
    quantum(one, "1 3 4 2 1 7 2 1 1 0", &[&[3]], [0, 0, 0, 1]);
    quantum("01 81 00", "3 4 4 2 1 8 2 1 1 0", &[&[]], [0; 4]);
    assert_eq!(input[23..], log);
}

/// The thirteen tasks of `examples/half-a-line.in`, of which 5 lasts three ticks and 4 two: thieves leave a begun task where it is.
#[test]
fn a_thief_takes_no_begun_task() {
    let input = include_bytes!("../../../../examples/half-a-line.in");
    let mut ticks = [1; 13];
    (ticks[5], ticks[4]) = (3, 2);
    let mut job = job(&lasting(&input[2..2 + usize::from(input[1])], &ticks));
    run(&mut job, "01 81 00 01 81 00 02 82 00 00");
    assert_eq!(State::of(&job).deques, [vec![5, 6], vec![4, 2]]);
    run(&mut job, "02 82 00 00");
    let state = State::of(&job);
    assert_eq!(state.deques, [vec![5, 6], vec![4, 2]]);
    assert_eq!(state.left[2..7], [1, 0, 1, 2, 1]);
    run(&mut job, "04 84 00 00 00 01");
    let state = State::of(&job);
    assert_eq!(state.deques, [vec![5], vec![2], vec![6], vec![]]);
    assert_eq!(state.left[2..7], [1, 0, 0, 1, 1]);
    assert_eq!(&*job.line(0), "1 4 13 8 4 7 0 3 2 0");
}

/// 1,024 tasks of 255 ticks, one after the other: the most work that a job can have.
#[test]
fn the_most_work() {
    let mut tasks: Vec<Vec<u32>> = (1..1024).map(|task| vec![task]).collect();
    tasks.push(vec![]);
    let tasks: Vec<&[u32]> = tasks.iter().map(Vec::as_slice).collect();
    let mut job = job(&lasting(&plan(2, 80, 65_535, &tasks), &[255; 1024]));
    let quantum = [vec![0x01], [0x81, 0x00].repeat(65_535)].concat();
    for worked in [257, 514, 771] {
        assert_eq!(job.run_log(&quantum).refused_calls, 0);
        let shown = job.counters(0);
        assert_eq!((shown.worked, shown.work), (worked, 255 * worked));
    }
    assert_eq!(job.run_log(&quantum).refused_calls, 4 * 65_535 - 255 * 1024);
    assert_eq!(&*job.line(0), "3 1024 1024 2 1 261120 0 0 0 0");
}
