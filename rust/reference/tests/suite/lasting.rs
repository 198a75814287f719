//! Request U9: pieces that last.

use reference::generator::graph::{Graph, MOST_TASKS};
use reference::generator::plans::Draft;
use reference::generator::{cases, older_cases, Case};
use reference::job::Deque;
use reference::{lasting, program_output, program_output_with, split_input};
use reference::{Entries, Growth, Job, OpenQuantum, Plan, Refusal, Rules, Status};

use super::{hex, input, job, LASTING_PLAN_A, PLAN_A};

/// A fork and its join with these ticks, in quanta of one tick.
fn fork(ticks: [u32; 4]) -> Job {
    let graph = vec![vec![1, 2], vec![3], vec![3], vec![]];
    let mut draft = Draft::of_graph(&graph).lasting(|task| ticks[task]);
    draft.quantum_length = 1;
    draft.utilization = 1;
    job(&draft.bytes())
}

/// A grant and one tick, both accepted.
fn quantum(job: &mut Job, choices: &[u8]) {
    assert!(job.grant(choices.len()).is_ok());
    assert!(job.tick(choices).is_ok());
}

#[test]
fn a_front_task_stays_until_its_ticks_are_done() {
    let mut job = fork([2, 3, 1, 2]);
    let rows: [(&[u16], [u8; 4]); 8] = [
        (&[0], [1, 3, 1, 2]),
        (&[1, 2], [0, 3, 1, 2]),
        (&[1, 2], [0, 2, 1, 2]),
        (&[1, 2], [0, 1, 1, 2]),
        (&[2], [0, 0, 1, 2]),
        (&[3], [0, 0, 0, 2]),
        (&[3], [0, 0, 0, 1]),
        (&[], [0, 0, 0, 0]),
    ];
    for (ticks, (line, left)) in (1..).zip(rows) {
        quantum(&mut job, &[0]);
        assert_eq!(job.deques(), [line.to_vec()]);
        assert_eq!(job.left(), left);
        assert_eq!(job.work_cycles(), ticks);
        let worked: Vec<bool> = left.iter().map(|&left| left == 0).collect();
        assert_eq!(job.worked().collect::<Vec<_>>(), worked);
        let count = worked.iter().filter(|&&worked| worked).count();
        assert_eq!(job.worked_count(), count as u64);
    }
    assert_eq!(job.status(), Status::Finished);
}

#[test]
fn every_work_tick_is_usage() {
    let mut job = job(&hex(LASTING_PLAN_A));
    assert!(job.grant(1).is_ok() && job.tick(&[0]).is_ok() && job.tick(&[0]).is_ok());
    // Two of two ticks were work, and 80 percent is asked for.
    assert_eq!((job.desire(), job.worked_count()), (2, 1));
    assert!(job.grant(1).is_ok() && job.tick(&[0]).is_ok());
    let open = OpenQuantum { ticks: 1, usage: 1 };
    assert_eq!((job.open_quantum(), job.worked_count()), (Some(open), 2));
}

#[test]
fn ticks_done_are_kept_in_withdrawal_and_mug() {
    let mut job = fork([1, 3, 2, 1]);
    quantum(&mut job, &[0]);
    quantum(&mut job, &[0]);
    for left in [2, 1] {
        let report = job.grant(0).expect("an accepted grant");
        assert_eq!((report.made_muggable, report.begun), (1, 1));
        assert_eq!(
            (job.left()[1], job.muggable_deques()),
            (left, vec![&vec![1, 2].into()])
        );
        assert!(job.tick(&[]).is_ok());
        quantum(&mut job, &[0]);
        assert_eq!(
            (job.left()[1], job.deques()),
            (left, &[vec![1, 2].into()][..])
        );
        quantum(&mut job, &[0]);
    }
    assert_eq!(job.deques(), [vec![2]]);
    assert_eq!(
        (job.mug_cycles(), job.work_cycles(), job.worked_count()),
        (2, 4, 2)
    );
}

#[test]
fn a_thief_leaves_the_begun_task() {
    let mut job = fork([1, 4, 2, 1]);
    quantum(&mut job, &[0]);
    quantum(&mut job, &[0]);
    quantum(&mut job, &[0, 0]);
    assert_eq!(job.deques(), [vec![1], vec![2]]);
    assert_eq!(
        (job.left(), job.successful_steals()),
        (&[0, 2, 2, 1][..], 1)
    );
    // A begun task alone in its line is no prey.
    quantum(&mut job, &[0, 0, 0]);
    assert_eq!(job.deques(), [vec![1], vec![2], vec![]]);
    assert_eq!(
        (job.left(), job.successful_steals()),
        (&[0, 1, 1, 1][..], 1)
    );
    // Both end in one tick: the join comes to the later one.
    quantum(&mut job, &[0, 0]);
    assert_eq!(job.deques(), [vec![], vec![3]]);
}

#[test]
fn followers_wait_for_the_last_tick_of_both() {
    let mut job = fork([1, 2, 3, 255]);
    quantum(&mut job, &[0]);
    quantum(&mut job, &[0, 0]);
    assert_eq!(job.deques(), [vec![1], vec![2]]);
    for left in [2, 1] {
        quantum(&mut job, &[0, 1]);
        assert_eq!(job.deques(), [vec![], vec![2]]);
        assert_eq!(job.left(), [0, 0, left, 255]);
    }
    quantum(&mut job, &[1, 1]);
    assert_eq!(job.deques(), [vec![], vec![3]]);
    for left in (1..=254).rev() {
        quantum(&mut job, &[0, 1]);
        assert_eq!((job.left()[3], job.status()), (left, Status::Running));
    }
    quantum(&mut job, &[0, 1]);
    assert_eq!((job.status(), job.work_cycles()), (Status::Finished, 261));
    assert_eq!(job.grant(0), Err(Refusal::JobFinished));
}

/// Document 01's first example, with and without ticks.
#[test]
fn tasks_of_one_tick_are_those_of_form_1() {
    let log = hex("01 81 00 81 00 02 82 00 00 82 00 00");
    let mut plan = hex(LASTING_PLAN_A);
    for ticks in [8, 12, 16, 20] {
        plan[ticks] = 1;
    }
    let printed = [plan, hex(PLAN_A)].map(|plan| program_output(&input(&plan, &log)));
    assert_eq!(printed, ["3 4 4 2 2 4 0 2 0 0\n"; 2]);
}

/// The same plan in form 1: a task of several ticks is a chain of so many
/// tasks.
fn chained(plan: &Plan) -> Draft {
    let starts = starts(plan);
    let mut graph = Graph::new();
    for (task, &start) in plan.tasks().iter().zip(&starts) {
        graph.extend((1..u16::from(task.ticks())).map(|tick| vec![start + tick]));
        let successors = task.successors().iter();
        graph.push(successors.map(|&s| starts[usize::from(s)]).collect());
    }
    let mut draft = Draft::of_graph(&graph);
    if let Growth::Factor(r) = plan.growth() {
        draft.responsiveness = r.into();
    }
    draft.utilization = plan.utilization();
    draft.quantum_length = u64::from(plan.quantum_length());
    draft
}

/// The first task of each chain.
fn starts(plan: &Plan) -> Vec<u16> {
    let (mut next, mut starts) = (0, Vec::new());
    for task in plan.tasks() {
        starts.push(next);
        next += u16::from(task.ticks());
    }
    starts
}

/// Whether two jobs show the same, where each task of the first is a chain of
/// the second. All but the tasks worked.
fn same(job: &Job, chains: &Job) -> bool {
    let plan = job.plan();
    let starts = starts(plan);
    let link = |&task: &u16| {
        let place = usize::from(task);
        let done = plan.tasks()[place].ticks() - job.left()[place];
        starts[place] + u16::from(done)
    };
    let numbers = |job: &Job| {
        let counts = (job.work_cycles(), job.mug_cycles(), job.steal_cycles());
        let quanta = (job.quanta_begun(), job.open_quantum());
        let workers = (job.desire(), job.power(), job.allotment(), job.status());
        (counts, quanta, workers, job.successful_steals())
    };
    let lines = job.deques().iter().chain(job.muggable_deques());
    let lines: Vec<Deque> = lines.map(|line| line.iter().map(link).collect()).collect();
    let others = chains.deques().iter().chain(chains.muggable_deques());
    let others: Vec<Deque> = others.cloned().collect();
    numbers(job) == numbers(chains) && lines == others
}

/// A case's log, with its job and the same in chains; nothing where no task
/// lasts, or a plan can't have so many tasks.
fn with_chains(case: Case) -> Option<(Vec<u8>, Job, Job)> {
    let job = Job::accept(&case.plan).ok()?;
    let tasks = job.plan().tasks().iter();
    let sum: usize = tasks.map(|task| usize::from(task.ticks())).sum();
    let fits = job.plan().task_count() < sum && sum <= MOST_TASKS;
    let chains = fits.then(|| super::job(&chained(job.plan()).bytes()));
    Some((case.log, job, chains?))
}

/// A front piece that stays for its ticks is as good as a chain of pieces of
/// form 1, in every line and for every call.
#[test]
fn a_task_is_a_chain_of_its_ticks() {
    let mut compared = 0;
    for (log, mut job, mut chains) in older_cases(9).take(1_500).filter_map(with_chains) {
        compared += 1;
        for entry in Entries::new(&log).filter_map(Result::ok) {
            let answer = entry.apply(&mut job).err();
            assert_eq!(answer, entry.apply(&mut chains).err());
            assert!(same(&job, &chains), "{job:?}\n{chains:?}");
        }
    }
    assert!(compared > 200, "only {compared} jobs");
}

/// How many inputs of a form print something else by that rule.
pub fn told_apart(rules: Rules, form: u8, inputs: &[Case]) -> usize {
    let of_form = inputs.iter().filter(|case| {
        let plan = split_input(&case.input).map(|(plan, _)| plan);
        plan.map_or(false, |plan| {
            plan.first().map(|byte| byte >> 4) == Some(form)
        })
    });
    let other =
        |case: &&Case| program_output_with(&case.input, rules) != program_output(&case.input);
    of_form.filter(other).count()
}

#[test]
fn bent_rules_show_in_form_2_alone() {
    let inputs: Vec<Case> = cases(6).take(600).collect();
    for lasting in lasting::BENT {
        let rules = Rules {
            lasting,
            ..Rules::default()
        };
        let found = [1, 2, 3].map(|form| told_apart(rules, form, &inputs));
        let elsewhere = found[0] + found[2];
        assert!(elsewhere == 0 && found[1] > 5, "{found:?} with {lasting:?}");
    }
}
