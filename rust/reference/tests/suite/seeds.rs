//! Request U13: choices from a seed.

use reference::generator::graph::Graph;
use reference::generator::plans::Draft;
use reference::generator::seeds::{day, seeded_log};
use reference::generator::trees::{tree, tree_draft};
use reference::generator::{cases, Random};
use reference::seed::{self, after, next, Drawing};
use reference::{program_output, program_output_with, run_day, run_log};
use reference::{Call, Cycle, Entries, Entry, Job, LogOutcome, Refusal, Rules, Status, Step};

use super::{hex, job, PLAN_A};

/// A job with quanta of one tick, each efficient if there is any work in it.
fn drawn(graph: &Graph) -> Job {
    let mut draft = Draft::of_graph(graph);
    (draft.utilization, draft.quantum_length) = (1, 1);
    job(&draft.bytes())
}

/// A chain of so many tasks: all but one worker steal in vain.
fn chain(count: u16) -> Job {
    let graph: Graph = (1..count).map(|next| vec![next]).collect();
    drawn(&[graph, vec![vec![]]].concat())
}

/// A chain's job that has just been granted so many workers.
fn granted(workers: usize) -> Job {
    let mut job = chain(1_000);
    while job.desire() < workers {
        assert!(job.grant(job.desire()).is_ok());
        assert!(job.tick(&vec![0; job.allotment()]).is_ok());
    }
    assert!(job.grant(workers).is_ok());
    job
}

/// The numbers were computed apart from this, with numbers of any size.
#[test]
fn known_states() {
    assert_eq!(next(0), 1_013_904_223);
    assert_eq!(next(1), 1_015_568_748);
    assert_eq!(next(u32::MAX), 1_012_239_698);
    let first = [
        1_013_904_223,
        1_196_435_762,
        3_519_870_697,
        2_868_466_484,
        1_649_599_747,
    ];
    assert_eq!([1, 2, 3, 4, 5].map(|draws| after(0, draws)), first);
    assert_eq!(after(7, 0), 7);
    assert_eq!(after(0, 1_000), 3_926_946_568);
    assert_eq!(after(0, 1_000_000), 4_074_525_504);
}

/// The first draws from 0, by the granted count.
const CHOICES: [(usize, &[u8]); 6] = [
    (0, &[]),
    (1, &[0]),
    (2, &[0, 0]),
    (3, &[2, 1, 2]),
    (7, &[0, 0, 4, 5, 5, 3, 0]),
    (
        64,
        &[
            46, 16, 12, 57, 18, 46, 62, 25, 61, 48, 54, 17, 35, 22, 58, 6, 45, 9, 15, 9, 28, 45,
            58, 6, 45, 51, 10, 59, 62, 51, 21, 43, 47, 57, 0, 19, 11, 30, 2, 28, 40, 26, 42, 18,
            13, 24, 31, 20, 19, 10, 40, 12, 15, 63, 46, 32, 47, 50, 62, 41, 34, 36, 18, 36,
        ],
    ),
];

#[test]
fn known_choices() {
    for (workers, choices) in CHOICES {
        let drawn = granted(workers).drawn(0);
        assert_eq!(drawn.choices, choices);
        assert_eq!(drawn.state, after(0, workers));
    }
    // From another seed, with 3 granted; and the next three.
    let job = granted(3);
    let [one, other] = [2_026, after(2_026, 3)].map(|seed| job.drawn(seed).choices);
    assert_eq!((one, other), (vec![0, 2, 2], vec![2, 0, 2]));
}

/// A seeded tick and a plain one with what the seed draws. The draws are those
/// of the granted workers, whatever these do.
fn ticked(job: &mut Job, seed: &mut u32) -> Vec<Cycle> {
    let (before, found, drawn) = (job.clone(), *seed, job.drawn(*seed));
    let report = job.tick_seeded(seed).expect("an accepted tick");
    let mut other = before.clone();
    assert_eq!(other.tick(&drawn.choices).as_ref(), Ok(&report));
    assert_eq!(*job, other);
    assert_eq!(
        (*seed, drawn.state),
        (after(found, before.allotment()), *seed)
    );
    let (mut other, mut state) = (before, found);
    let counted = other.tick_seeded_counted(&mut state);
    let counted = counted.map(|counted| (counted.cycles, counted.in_use.len()));
    assert_eq!(counted, Ok((report.cycles.clone(), job.allotment())));
    assert_eq!((other, state), (job.clone(), *seed));
    report.cycles
}

#[test]
fn a_draw_for_each_worker_whatever_it_does() {
    let mut job = drawn(&tree(3));
    let mut seed = 5;
    // Work; work and a theft in vain; then a mug after a withdrawal.
    for (workers, states) in [(1, 1), (2, 3), (4, 7), (0, 7), (1, 8)] {
        assert!(job.grant(workers).is_ok());
        assert_eq!(ticked(&mut job, &mut seed).len(), workers);
        assert_eq!(seed, after(5, states));
    }
    assert!(job.mug_cycles() > 0 && job.steal_cycles() > 0 && job.work_cycles() > 0);
}

#[test]
fn no_worker_draws_nothing() {
    let mut job = job(&hex(PLAN_A));
    assert!(job.grant(0).is_ok());
    for _ in 0..2 {
        let mut seed = 99;
        assert_eq!(ticked(&mut job, &mut seed), []);
        assert_eq!(seed, 99);
    }
    assert_eq!((job.open_quantum(), job.status()), (None, Status::Fresh));
}

/// A chain's last task but `before` others, with so many workers granted.
fn at_the_end(workers: usize, before: usize) -> Job {
    let mut job = granted(workers);
    while job.worked_count() + 1 + (before as u64) < 1_000 {
        assert!(job.tick(&vec![0; workers]).is_ok());
        assert!(job.grant(workers).is_ok());
    }
    job
}

#[test]
fn the_finishing_tick_draws_for_all() {
    for workers in [1, 2, 3, 64] {
        let mut job = at_the_end(workers, 1);
        let mut seed = 1;
        assert_eq!(ticked(&mut job, &mut seed).len(), workers);
        assert!(job.grant(workers).is_ok());
        // Worker 0 finishes, and takes the last cycle.
        assert_eq!(ticked(&mut job, &mut seed).len(), 1);
        assert!(job.is_finished());
        assert_eq!(seed, after(1, 2 * workers));
    }
}

/// A seeded tick is refused with this number, and the job and the seed stay.
fn refused(job: &mut Job, number: u8) {
    for found in [0, 1, 77, u32::MAX] {
        let (before, mut seed) = (job.clone(), found);
        let answer = job.tick_seeded(&mut seed).err().map(Refusal::number);
        assert_eq!((answer, seed), (Some(number), found));
        assert_eq!(*job, before);
    }
}

#[test]
fn a_refused_seeded_tick_leaves_job_and_seed() {
    let mut job = granted(64);
    let mut fresh = chain(3);
    refused(&mut fresh, 15);
    assert!(job.tick_seeded(&mut 0).is_ok());
    assert_eq!((job.allotment(), job.open_quantum()), (64, None));
    refused(&mut job, 15);
    // While an offer is noted, too.
    for count in [0, 64] {
        assert!(job.offer(count).is_ok());
        refused(&mut job, 15);
        assert!(job.withdraw().is_ok());
    }
    assert!(job.offer(64).is_ok() && job.open(2).is_ok());
    assert!(job.tick_seeded(&mut 0).is_ok());
    let mut job = at_the_end(64, 0);
    assert!(job.tick_seeded(&mut 0).is_ok());
    assert_eq!((job.status(), job.allotment()), (Status::Finished, 64));
    refused(&mut job, 11);
}

/// So many generated jobs, and a tenth as many trees. Of each the first calls of
/// its log are made, in every second case, so that not all days begin fresh.
fn jobs(count: usize) -> impl Iterator<Item = (Job, Random)> {
    let plans = cases(13).take(count).map(|case| (case.plan, case.log));
    let trees = (0..count as u64 / 10).map(|seed| {
        let plan = tree_draft(&mut Random::new(seed)).bytes();
        (plan, Vec::new())
    });
    plans
        .chain(trees)
        .enumerate()
        .filter_map(|(place, (plan, log))| {
            let mut job = Job::accept(&plan).ok()?;
            let calls = Entries::new(&log).filter_map(Result::ok);
            for entry in calls.take(place % 2 * 20) {
                let _ = entry.apply(&mut job);
            }
            Some((job, Random::new(place as u64)))
        })
}

/// What a log does that refuses nothing and is whole.
const ALL_ACCEPTED: LogOutcome = LogOutcome {
    refused: 0,
    broken: None,
};

/// How often days reach something: seeded ticks of 64 workers, steals that
/// succeed, finishes with workers after the finisher; refused ticks and grants.
#[derive(Debug, Default)]
struct Reached([usize; 5]);

impl Reached {
    /// Makes a call of a day and checks it, then counts it.
    fn step(&mut self, step: Step, job: &mut Job, seed: &mut u32, log: &mut Vec<u8>) {
        let (before, found, size) = (job.clone(), *seed, log.len());
        let answer = step.run(job, seed, log);
        let counts = [
            job.allotment() == 64,
            job.successful_steals() > before.successful_steals(),
            job.is_finished() && job.steal_cycles() > before.steal_cycles(),
        ];
        let tick = step == Step::Tick;
        if let Err(refusal) = answer {
            self.0[3 + usize::from(!tick)] += 1;
            assert!(!tick || [11, 15].contains(&refusal.number()));
            assert_eq!((&*job, *seed, log.len()), (&before, found, size));
        } else if tick {
            for (reached, is_so) in self.0.iter_mut().zip(counts) {
                *reached += usize::from(is_so);
            }
            let mut plain = before;
            assert!(plain.tick(&log[size + 1..]).is_ok());
            assert_eq!((&plain, *seed), (&*job, after(found, job.allotment())));
            assert_eq!(log[size], 128 + job.allotment() as u8);
        } else {
            assert_eq!(
                (log[size..].to_vec(), *seed),
                (vec![job.allotment() as u8], found)
            );
        }
    }
}

/// A seeded day ends as its log does, which has no refused calls.
#[test]
fn a_days_log_ends_in_the_same_job() {
    let mut reached = Reached::default();
    for (job, mut random) in jobs(1_500) {
        let seed = random.next_u64() as u32;
        let day = day(&mut random, job.clone(), seed);
        let (mut ended, mut state, mut log) = (job.clone(), seed, Vec::new());
        for &step in &day {
            reached.step(step, &mut ended, &mut state, &mut log);
        }
        let (mut other, mut left) = (job.clone(), seed);
        assert_eq!(run_day(&mut other, &mut left, &day), log);
        assert_eq!((&other, left), (&ended, state));
        let mut again = job;
        assert_eq!(run_log(&mut again, &log), ALL_ACCEPTED);
        assert_eq!(again, ended);
    }
    assert!(reached.0.iter().all(|&count| count > 300), "{reached:?}");
}

/// The same of a tree at 64 workers, up to the finish.
#[test]
fn a_day_of_64_workers() {
    for seed in 0..40 {
        let fresh = drawn(&tree(8));
        let (mut job, mut state, mut day) = (fresh.clone(), seed, Vec::new());
        while !job.is_finished() {
            let steps = [Step::Tick, Step::Grant(job.desire()), Step::Tick];
            run_day(&mut job, &mut state, &steps);
            day.extend(steps);
        }
        assert!(job.allotment() == 64 && job.successful_steals() > 100);
        let mut again = fresh.clone();
        let log = run_day(&mut again, &mut seed.clone(), &day);
        assert_eq!(again, job);
        let mut again = fresh;
        assert_eq!(run_log(&mut again, &log), ALL_ACCEPTED);
        assert_eq!(again, job);
        assert!(log.contains(&(128 + 64)));
    }
}

#[test]
fn the_same_seed_gives_the_same_log() {
    let log = |seed| seeded_log(&mut Random::new(3), drawn(&tree(7)), seed);
    assert_eq!(log(1), log(1));
    assert_ne!(log(1), log(2));
}

/// Writes an entry behind so many used bytes of a buffer of this length: the
/// number and the size, and the bytes that changed.
fn written(entry: Entry, length: usize, used: usize) -> (u8, usize, Vec<u8>) {
    let (mut buffer, mut size) = (vec![0xa5; length], used);
    let answer = entry.append(&mut buffer, &mut size);
    let number = answer.err().map_or(0, Refusal::number);
    let kept = |bytes: &[u8]| bytes.iter().all(|&byte| byte == 0xa5);
    assert!(kept(&buffer[..used.min(length)]) && kept(&buffer[size.min(length)..]));
    (
        number,
        size,
        buffer[used.min(length)..size.min(length)].to_vec(),
    )
}

#[test]
fn entries_are_written_where_there_is_room() {
    let entries = [
        (Entry::Grant(0), vec![0]),
        (Entry::Grant(64), vec![64]),
        (Entry::Grant(127), vec![127]),
        (Entry::Tick(&[]), vec![128]),
        (Entry::Tick(&[0]), vec![129, 0]),
        (Entry::Tick(&[2, 255, 1]), vec![131, 2, 255, 1]),
        (Entry::Tick(&[7; 127]), [vec![255], vec![7; 127]].concat()),
    ];
    for (entry, bytes) in entries {
        let size = bytes.len();
        assert_eq!(entry.bytes().as_ref(), Ok(&bytes));
        for used in [0, 1, 5, 300] {
            let right = (0, used + size, bytes.clone());
            assert_eq!(written(entry, used + size, used), right);
            assert_eq!(written(entry, used + size + 1, used), right);
            // One byte too few, none left, and more used than there are.
            let full = (20, used, vec![]);
            assert_eq!(written(entry, used + size - 1, used), full);
            assert_eq!(written(entry, used, used), full);
            assert_eq!(written(entry, used.saturating_sub(1), used), full);
            assert_eq!(written(entry, 0, used), full);
        }
        for used in [301, usize::MAX - 1, usize::MAX] {
            assert_eq!(written(entry, 300, used), (20, used, vec![]));
        }
    }
}

/// 14 and 16 are asked before the room.
#[test]
fn counts_that_no_entry_says() {
    for length in [0, 1, 2_000] {
        for count in [128, 129, 255, 256, usize::MAX] {
            assert_eq!(written(Entry::Grant(count), length, 0), (14, 0, vec![]));
        }
        for count in [128, 129, 255, 256, 1_000] {
            let choices = vec![0; count];
            let entry = Entry::Tick(&choices);
            assert_eq!(written(entry, length, 0), (16, 0, vec![]));
            assert_eq!(written(entry, length, 9_999), (16, 9_999, vec![]));
        }
    }
}

/// The entry of a seeded tick is what the seed draws before it, and asks nothing
/// of the job.
#[test]
fn the_entry_of_a_seeded_tick() {
    let choices = |job: &Job| job.drawn(0).choices;
    let (fresh, mut job) = (chain(3), granted(7));
    assert_eq!(Entry::Tick(&choices(&fresh)).bytes(), Ok(vec![128]));
    let entry = Ok(vec![135, 0, 0, 4, 5, 5, 3, 0]);
    assert_eq!(Entry::Tick(&choices(&job)).bytes(), entry);
    assert!(job.tick_seeded(&mut 0).is_ok() && job.open_quantum().is_none());
    assert_eq!(Entry::Tick(&choices(&job)).bytes(), entry);
}

fn with_drawing(drawing: Drawing) -> Rules {
    Rules {
        drawing,
        ..Rules::default()
    }
}

/// What a seeded tick of a job draws by a rule, and where it leaves the seed; it
/// finds 0. Nothing of the first where the choices are refused with 17.
fn bent(job: &Job, drawing: Drawing) -> (Option<Vec<u8>>, u32) {
    let mut job = job.clone().with_rules(with_drawing(drawing));
    let (choices, mut seed) = (job.drawn(0).choices, 0);
    let taken = job.tick_seeded(&mut seed).is_ok();
    (Some(choices).filter(|_| taken), seed)
}

/// The states are computed apart from this, and so are their halves modulo 7.
#[test]
fn bent_draws_by_hand() {
    // Worker 0 works, and the other six steal.
    let (job, all) = (granted(7), after(0, 7));
    let drawn = |drawing| bent(&job, drawing);
    let right = Some(vec![0, 0, 4, 5, 5, 3, 0]);
    assert_eq!(drawn(Drawing::OneEach), (right.clone(), all));
    let one_later = Some(vec![0, 0, 0, 4, 5, 5, 3]);
    assert_eq!(drawn(Drawing::OldState), (one_later.clone(), all));
    assert_eq!(
        drawn(Drawing::LowHalf),
        (Some(vec![3, 4, 6, 6, 2, 2, 1]), all)
    );
    assert_eq!(drawn(Drawing::ModuloMost), (None, 0));
    let turned = Some(vec![0, 3, 5, 5, 4, 0, 0]);
    assert_eq!(drawn(Drawing::LastFirst), (turned, all));
    assert_eq!(drawn(Drawing::ThievesAlone), (one_later, after(0, 6)));
    assert_eq!(drawn(Drawing::StateStays), (right.clone(), 0));
    let elsewhere = [
        Drawing::NoneAfterFinisher,
        Drawing::OneForNone,
        Drawing::RefusedToo,
    ];
    for drawing in elsewhere {
        assert_eq!(drawn(drawing), (right.clone(), all));
    }
}

/// At the finish, with none granted, and where a tick is refused.
#[test]
fn bent_draws_by_hand_elsewhere() {
    let job = at_the_end(3, 0);
    let (right, all) = (Some(vec![2, 1, 2]), after(0, 3));
    assert_eq!(bent(&job, Drawing::OneEach), (right.clone(), all));
    let finish = bent(&job, Drawing::NoneAfterFinisher);
    assert_eq!(finish, (right, after(0, 1)));
    let job = granted(0);
    assert_eq!(bent(&job, Drawing::OneEach), (Some(vec![]), 0));
    assert_eq!(bent(&job, Drawing::OneForNone), (Some(vec![]), next(0)));
    let mut job = granted(3);
    assert!(job.tick(&[0; 3]).is_ok());
    assert_eq!(bent(&job, Drawing::OneEach), (None, 0));
    assert_eq!(bent(&job, Drawing::RefusedToo), (None, all));
}

/// How the days of jobs tell a rule from the request's: by an answer, the seed
/// after a call, the log or the job.
fn told_apart(drawing: Drawing, count: usize) -> [usize; 4] {
    let mut found = [0; 4];
    for (job, mut random) in jobs(count) {
        let seed = random.next_u64() as u32;
        let day = day(&mut random, job.clone(), seed);
        if let Some(kind) = first_apart(&job, drawing, seed, &day) {
            found[kind] += 1;
        }
    }
    found
}

/// By which of them a day tells it first.
fn first_apart(job: &Job, drawing: Drawing, seed: u32, day: &[Step]) -> Option<usize> {
    let (mut right, mut other) = (job.clone(), job.clone().with_rules(with_drawing(drawing)));
    let (mut seeds, mut logs) = ([seed; 2], [Vec::new(), Vec::new()]);
    let mut calls = day.iter().map(|step| {
        let answer = step.run(&mut right, &mut seeds[0], &mut logs[0]);
        let others = step.run(&mut other, &mut seeds[1], &mut logs[1]);
        let same_job = right.clone().with_rules(other.rules()) == other;
        let same = [
            answer == others,
            seeds[0] == seeds[1],
            logs[0] == logs[1],
            same_job,
        ];
        same.iter().position(|same| !same)
    });
    calls.find_map(|apart| apart)
}

#[test]
fn bent_rules_are_told_apart() {
    assert_eq!(told_apart(Drawing::OneEach, 200), [0; 4]);
    for drawing in seed::BENT {
        let found = told_apart(drawing, 300);
        let [answers, seeds, logs, jobs] = found;
        let expected = match drawing {
            Drawing::OldState | Drawing::LowHalf | Drawing::LastFirst => logs,
            Drawing::ModuloMost => answers,
            _ => seeds,
        };
        assert!(expected > 25 && jobs == 0, "{drawing:?}: {found:?}");
    }
}

/// Without the log the job shows other choices, if later.
#[test]
fn other_choices_show_in_the_job() {
    for drawing in [Drawing::OldState, Drawing::LowHalf, Drawing::LastFirst] {
        let other = jobs(300).filter(|(job, random)| {
            let (mut random, rules) = (random.clone(), with_drawing(drawing));
            let day = day(&mut random, job.clone(), 9);
            let (mut right, mut bent) = (job.clone(), job.clone().with_rules(rules));
            run_day(&mut right, &mut 9, &day);
            run_day(&mut bent, &mut 9, &day);
            right.with_rules(rules) != bent
        });
        let other = other.count();
        assert!(other > 25, "{other} with {drawing:?}");
    }
}

/// A log has its choices, so that no program shows a rule of the draws.
#[test]
fn bent_rules_show_in_seeded_ticks_alone() {
    for drawing in seed::BENT {
        for case in cases(6).take(40) {
            let printed = program_output_with(&case.input, with_drawing(drawing));
            assert_eq!(printed, program_output(&case.input), "{drawing:?}");
        }
    }
}

/// A seeded tick in an opened quantum is one in a granted quantum.
#[test]
fn an_opened_quantum_is_ticked_by_a_seed() {
    let (mut one, mut other) = (chain(9), chain(9));
    for call in [Call::Offer(1), Call::Open(1)] {
        assert!(call.apply(&mut one).is_ok());
    }
    assert!(other.grant(1).is_ok());
    let mut seeds = [4, 4];
    assert_eq!(
        one.tick_seeded(&mut seeds[0]),
        other.tick_seeded(&mut seeds[1])
    );
    assert_eq!((&one, seeds[0]), (&other, seeds[1]));
}
