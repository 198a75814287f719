//! Request U12: how many lines there can be.

use reference::generator::graph::Graph;
use reference::generator::offers::calls;
use reference::generator::plans::Draft;
use reference::generator::trees::{spread, spreading_log, tree, tree_draft};
use reference::generator::{cases, Random};
use reference::lines::{self, excess, TOO_LARGE, TOO_SMALL};
use reference::quantum::MOST_WORKERS;
use reference::{theft, Answer, Call, Cycle, Entries, Excess, Job, Largest};
use reference::{Report, Rules, Share, Source, Theft, TickReport};

use super::job;

/// A plan with quanta of one tick, each efficient if there is any work in it.
fn draft(graph: &Graph) -> Draft {
    let mut draft = Draft::of_graph(graph);
    (draft.utilization, draft.quantum_length) = (1, 1);
    draft
}

/// A job of such a plan.
fn drawn(graph: &Graph) -> Job {
    job(&draft(graph).bytes())
}

/// So many forks, each followed by the next one and by a task that waits at the
/// back of the line; then their joins, the last fork's first.
fn comb(forks: u16) -> Graph {
    let spine = (0..forks).map(|fork| vec![fork + 1, forks + 1 + fork]);
    let teeth = (0..forks).map(|fork| vec![3 * forks - fork]);
    let joins = (2 * forks + 2..=3 * forks).map(|next| vec![next]);
    let last_fork = spine.chain([vec![2 * forks + 1]]);
    last_fork
        .chain(teeth)
        .chain(joins)
        .chain([vec![]])
        .collect()
}

/// An accepted tick: the deques in use after each worker's cycle.
fn tick(job: &mut Job, choices: &[u8]) -> Vec<usize> {
    let report = job.tick_counted(choices);
    report.expect("an accepted tick").in_use
}

/// A grant of a worker for each choice, and a tick, both accepted.
fn quantum(job: &mut Job, choices: &[u8]) -> Vec<usize> {
    assert!(job.grant(choices.len()).is_ok());
    tick(job, choices)
}

/// The deques in use, and the largest count granted so far.
fn counts(job: &Job) -> (usize, usize) {
    (job.in_use(), job.largest_granted())
}

#[test]
fn deques_in_use_after_each_cycle() {
    let mut job = drawn(&tree(2));
    assert_eq!(counts(&job), (0, 0));
    assert_eq!(quantum(&mut job, &[0]), [1]);
    assert_eq!(quantum(&mut job, &[0, 0]), [1, 2]);
    assert_eq!(job.deques(), [vec![3, 4], vec![2]]);
    // An orphan is one of them, whoever moves.
    assert!(job.grant(1).is_ok());
    assert_eq!((counts(&job), job.allotment()), ((2, 2), 1));
    assert_eq!(tick(&mut job, &[0]), [2]);
    // Worker 1 picks it up, and the others steal in vain.
    assert_eq!(quantum(&mut job, &[0, 0, 1, 1]), [2; 4]);
    assert_eq!(job.deques(), [vec![8], vec![2], vec![], vec![]]);
    // Worker 0 is left with nothing, and worker 2 steals.
    assert_eq!(quantum(&mut job, &[0, 0, 1, 1]), [1, 1, 2, 2]);
    assert_eq!(job.deques(), [vec![], vec![5], vec![6], vec![]]);
    assert_eq!(counts(&job), (2, 4));
}

/// The bound can be met where no call shows it.
#[test]
fn as_many_as_granted_inside_a_tick_alone() {
    let graph: [&[u16]; 8] = [&[1, 2], &[3], &[4, 5], &[7], &[6], &[6], &[7], &[]];
    let mut job = drawn(&graph.map(|list| list.to_vec()).to_vec());
    for choices in [&[0][..], &[0, 0], &[0, 1]] {
        quantum(&mut job, choices);
    }
    assert_eq!(job.deques(), [vec![], vec![4, 5]]);
    assert_eq!(counts(&job), (1, 2));
    // Worker 1 is robbed of the one task and works the other.
    assert_eq!(quantum(&mut job, &[1, 1]), [2, 1]);
    assert_eq!(job.deques(), [vec![5], vec![]]);
}

#[test]
fn workers_after_the_finisher_move_no_line() {
    let mut job = drawn(&vec![vec![1], vec![2], vec![]]);
    quantum(&mut job, &[0]);
    assert_eq!(quantum(&mut job, &[0, 0]), [1, 1]);
    assert!(job.grant(4).is_ok());
    let report = job.tick_counted(&[0; 4]).expect("an accepted tick");
    assert_eq!((report.in_use, report.rested), (vec![0; 4], 3));
    assert_eq!(counts(&job), (0, 4));
}

/// A row of calls, each with whether it is accepted and the counts after it.
const ROW: [(Call, bool, (usize, usize)); 17] = [
    (Call::Grant(2), false, (0, 0)),
    (Call::Offer(1), true, (0, 0)),
    (Call::Grant(1), false, (0, 0)),
    (Call::Open(2), false, (0, 0)),
    (Call::Withdraw, true, (0, 0)),
    (Call::Grant(0), true, (0, 0)),
    (Call::Tick(&[]), true, (0, 0)),
    (Call::Offer(1), true, (0, 0)),
    (Call::Open(1), true, (1, 1)),
    (Call::Tick(&[0]), true, (1, 1)),
    (Call::Offer(2), true, (1, 1)),
    (Call::Open(0), true, (1, 1)),
    (Call::Tick(&[]), true, (1, 1)),
    (Call::Grant(3), false, (1, 1)),
    (Call::Grant(2), true, (1, 2)),
    (Call::Tick(&[0, 0]), true, (2, 2)),
    // A lower grant does not lower it.
    (Call::Grant(0), true, (2, 2)),
];

#[test]
fn accepted_grants_and_openings_are_granted_and_no_others() {
    let mut job = drawn(&tree(2));
    for (place, (call, accepted, expected)) in ROW.into_iter().enumerate() {
        let answer = call.apply_counted(&mut job);
        assert_eq!(answer.is_ok(), accepted, "{place}: {call:?}");
        assert_eq!(counts(&job), expected, "{place}: {call:?}");
        assert_eq!(excess(&job, did(&answer)), None);
    }
}

/// With one level of forks a quantum there are as many lines as workers, up to
/// 64; also where each piece lasts two ticks.
#[test]
fn a_tree_brings_64_lines_into_use() {
    for ticks in [1, 2] {
        let mut draft = draft(&tree(7)).lasting(|_| ticks);
        draft.quantum_length = ticks.into();
        let mut job = job(&draft.bytes());
        for workers in [1, 2, 4, 8, 16, 32, 64] {
            assert!(job.grant(workers).is_ok());
            for _ in 0..ticks {
                let choices = spread(&job);
                tick(&mut job, &choices);
            }
            assert_eq!(counts(&job), (workers, workers), "{ticks} ticks");
        }
        let fronts = job.deques().iter().flat_map(|deque| deque.front());
        let begun = fronts.filter(|&&task| job.is_begun(task)).count();
        assert_eq!(begun > 0, ticks > 1);
        // Some of them orphans, and all.
        for workers in [63, 32, 1, 0] {
            let mut job = job.clone();
            assert!(job.grant(workers).is_ok());
            assert_eq!((counts(&job), job.allotment()), ((64, 64), workers));
            assert_eq!(job.muggable_deques().len(), 64 - workers);
        }
    }
}

/// Half-line steals: the line of worker 0 comes to 64 workers in one tick.
#[test]
fn each_thief_of_a_tick_brings_a_line_into_use() {
    let mut job = drawn(&comb(200));
    while job.desire() < 64 {
        let own: Vec<u8> = (0..job.desire() as u8).collect();
        quantum(&mut job, &own);
    }
    while job.deques()[0].len() < 127 {
        quantum(&mut job, &[0]);
    }
    assert_eq!(counts(&job), (1, 32));
    let robbed = |worker: u8| worker ^ (0x80 >> worker.leading_zeros());
    let choices: Vec<u8> = [0].into_iter().chain((1..64).map(robbed)).collect();
    let rising: Vec<usize> = (1..=64).collect();
    assert_eq!(quantum(&mut job, &choices), rising);
    assert!(job.deques().iter().all(|deque| deque.len() == 2));
}

/// What an accepted call did, where it did more than to move the note.
fn did(answer: &Answer) -> Option<&Report> {
    answer.as_ref().ok()?.as_ref()
}

/// So many generated jobs and their logs, and a tenth as many trees.
fn jobs(count: usize) -> impl Iterator<Item = (Job, Vec<u8>)> {
    let cases = cases(14).take(count);
    let accepted = cases.filter_map(|case| Some((Job::accept(&case.plan).ok()?, case.log)));
    let trees = (0..count as u64 / 10).map(|seed| {
        let random = &mut Random::new(seed);
        let job = job(&tree_draft(random).bytes());
        let log = spreading_log(random, job.clone());
        (job, log)
    });
    accepted.chain(trees)
}

/// Whether something holds after each call of a log, a quarter of whose grants
/// go by way of offers. It is shown the call, its answer and the job.
fn always<F>(mut job: Job, log: &[u8], mut holds: F) -> bool
where
    F: FnMut(Call, &Answer, &Job) -> bool,
{
    let random = &mut Random::new(log.len() as u64);
    Entries::new(log).filter_map(Result::ok).all(|entry| {
        let calls = calls(random, &job, entry, 64);
        calls.into_iter().all(|call| {
            let answer = call.apply_counted(&mut job);
            holds(call, &answer, &job)
        })
    })
}

/// Whether the check finds nothing after any call and any worker's cycle.
fn is_bounded(job: Job, log: &[u8]) -> bool {
    always(job, log, |_, answer, job| {
        excess(job, did(answer)).is_none()
    })
}

/// The same with an account of the test's own.
#[test]
fn generated_jobs_keep_the_bound() {
    let mut met = [0; 65];
    for (job, log) in jobs(1_500) {
        let mut largest = 0;
        let bounded = always(job, &log, |call, answer, job| {
            if let (Call::Grant(count) | Call::Open(count), Ok(_)) = (call, answer) {
                largest = largest.max(count);
            }
            let empty = job.deques().iter().filter(|deque| deque.is_empty());
            let lines = job.allotment() - empty.count() + job.muggable_deques().len();
            met[largest] += usize::from(lines == largest);
            assert_eq!(counts(job), (lines, largest));
            assert!(largest <= MOST_WORKERS);
            lines <= largest && excess(job, did(answer)).is_none()
        });
        assert!(bounded);
    }
    assert!(met[2] > 1_000 && met[8] > 100 && met[64] > 100, "{met:?}");
}

/// How many of the jobs break something by those rules.
fn found(rules: Rules, count: usize, holds: fn(Job, &[u8]) -> bool) -> usize {
    let jobs = jobs(count).map(|(job, log)| (job.with_rules(rules), log));
    jobs.filter(|(job, log)| !holds(job.clone(), log)).count()
}

fn with_source(source: Source) -> Rules {
    Rules {
        source,
        ..Rules::default()
    }
}

fn with_largest(largest: Largest) -> Rules {
    Rules {
        largest,
        ..Rules::default()
    }
}

fn with_share(share: Share) -> Rules {
    let theft = Theft {
        share,
        ..Theft::default()
    };
    Rules {
        theft,
        ..Rules::default()
    }
}

/// The first thing that the check finds in a comb's calls, all accepted.
fn first_excess(rules: Rules, calls: &[Call]) -> Option<Excess> {
    let mut job = drawn(&comb(6)).with_rules(rules);
    calls.iter().find_map(|call| {
        let answer = call.apply_counted(&mut job);
        assert!(answer.is_ok(), "{call:?}");
        excess(&job, did(&answer))
    })
}

/// What it finds.
fn too_many(in_use: usize, largest: usize, worker: Option<usize>) -> Option<Excess> {
    Some(Excess {
        in_use,
        largest,
        worker,
    })
}

/// A line that becomes an orphan and is picked up.
const PICKED_UP: [Call; 6] = [
    Call::Grant(1),
    Call::Tick(&[0]),
    Call::Grant(0),
    Call::Tick(&[]),
    Call::Grant(1),
    Call::Tick(&[0]),
];

/// A line that becomes an orphan, and two workers after that.
const PASSED_OVER: [Call; 8] = [
    Call::Grant(1),
    Call::Tick(&[0]),
    Call::Grant(2),
    Call::Tick(&[0, 0]),
    Call::Grant(1),
    Call::Tick(&[0]),
    Call::Grant(2),
    Call::Tick(&[0, 0]),
];

#[test]
fn bent_sources_by_hand() {
    let found = |source, calls| first_excess(with_source(source), calls);
    for calls in [&PICKED_UP[..], &PASSED_OVER] {
        assert_eq!(found(Source::default(), calls), None);
    }
    let again = found(Source::EveryGrant, &PICKED_UP);
    assert_eq!(again, too_many(2, 1, None));
    let left = found(Source::MugCopies, &PICKED_UP);
    assert_eq!(left, too_many(2, 1, Some(0)));
    let stolen = found(Source::StealsFirst, &PASSED_OVER);
    assert_eq!(stolen, too_many(3, 2, Some(1)));
    let texts = [again, stolen].map(|found| found.map(|excess| excess.to_string()));
    let expected = [
        "2 deques in use after the call, and the largest count granted so far is 1",
        "3 deques in use after the cycle of worker 1, and the largest count granted so far is 2",
    ];
    assert_eq!(texts, expected.map(|text| Some(text.into())));
}

#[test]
fn bent_sources_break_the_bound() {
    for source in lines::BENT {
        let found = found(with_source(source), 600, is_bounded);
        assert!(found > 25, "{found} with {source:?}");
    }
}

/// Whether each cycle of a tick moves the number of deques in use by its kind:
/// work leaves as many, or one fewer where its own deque is left empty; a mug
/// and a steal in vain leave as many; a successful steal makes one more. The
/// sizes are followed from the job before the tick, by the report.
fn moves_by_kind(before: &Job, report: &TickReport, after: &Job) -> bool {
    let mut sizes: Vec<usize> = before.deques().iter().map(|deque| deque.len()).collect();
    let mut expected = before.in_use();
    let cycles = report.cycles.iter().zip(&report.in_use);
    for (worker, (cycle, &in_use)) in cycles.enumerate() {
        match *cycle {
            Cycle::Work { tick, enabled, .. } => {
                sizes[worker] = sizes[worker] + enabled - usize::from(tick.is_last);
                expected -= usize::from(sizes[worker] == 0);
            }
            Cycle::Mug { length, .. } => sizes[worker] = length,
            Cycle::Steal { stolen: 0, .. } => (),
            Cycle::Steal {
                victim,
                stolen,
                left,
                ..
            } => {
                (sizes[victim], sizes[worker]) = (left.into(), stolen.into());
                expected += 1;
            }
        }
        if in_use != expected {
            return false;
        }
    }
    let rest = &report.in_use[report.cycles.len()..];
    rest.iter().all(|&in_use| in_use == expected)
        && report.in_use.len() == before.allotment()
        && after.in_use() == expected
}

/// Whether it is so in each tick.
fn cycles_move_by_kind(job: Job, log: &[u8]) -> bool {
    let mut before = job.clone();
    always(job, log, |_, answer, after| {
        let moved = match did(answer) {
            Some(Report::Tick(report)) => moves_by_kind(&before, report, after),
            _ => true,
        };
        before.clone_from(after);
        moved
    })
}

#[test]
fn each_cycle_moves_the_count_by_its_kind() {
    assert_eq!(found(Rules::default(), 500, cycles_move_by_kind), 0);
    let copied = found(with_source(Source::MugCopies), 300, cycles_move_by_kind);
    assert!(copied > 25, "{copied}");
}

/// A steal that leaves the victim with nothing makes no line more. So it never
/// breaks the bound, and the kind of its cycle finds it.
#[test]
fn a_whole_line_stolen_is_found_by_its_cycle() {
    let rules = with_share(Share::Whole);
    assert!(theft::BENT.contains(&rules.theft));
    let in_use = |rules| {
        let mut job = drawn(&comb(6)).with_rules(rules);
        quantum(&mut job, &[0]);
        quantum(&mut job, &[0, 0])
    };
    assert_eq!(in_use(Rules::default()), [1, 2]);
    assert_eq!(in_use(rules), [1, 1]);
    assert_eq!(found(rules, 300, is_bounded), 0);
    let found = found(rules, 300, cycles_move_by_kind);
    assert!(found > 25, "{found}");
}

/// The other thefts bring one deque into use each, too.
#[test]
fn other_thefts_keep_the_bound() {
    let whole = with_share(Share::Whole).theft;
    for theft in theft::BENT.into_iter().filter(|&theft| theft != whole) {
        let rules = Rules {
            theft,
            ..Rules::default()
        };
        assert_eq!(found(rules, 100, is_bounded), 0, "{theft:?}");
        assert_eq!(found(rules, 100, cycles_move_by_kind), 0, "{theft:?}");
    }
}

/// With another idea of the largest count the bound does not hold: where the
/// last grant is left out, or is all that counts.
#[test]
fn a_smaller_count_is_no_bound() {
    for largest in TOO_SMALL {
        let found = found(with_largest(largest), 300, is_bounded);
        assert!(found > 25, "{found} with {largest:?}");
    }
    let found = |largest, calls| first_excess(with_largest(largest), calls);
    let one = too_many(1, 0, None);
    assert_eq!(found(Largest::PresentLeftOut, &PICKED_UP[..1]), one);
    assert_eq!(found(Largest::PresentAlone, &PICKED_UP[..2]), None);
    assert_eq!(found(Largest::PresentAlone, &PICKED_UP[..3]), one);
}

/// Offers and refused calls would only make it larger than need be: the check
/// does not tell, but the number does.
#[test]
fn a_larger_count_is_a_weaker_bound() {
    for largest in TOO_LARGE {
        let rules = with_largest(largest);
        assert_eq!(found(rules, 300, is_bounded), 0);
        let larger = jobs(300).filter(|(job, log)| is_larger(job.clone(), log, largest));
        let larger = larger.count();
        assert!(larger > 25, "{larger} with {largest:?}");
    }
    let number = |largest| {
        let mut job = drawn(&tree(2)).with_rules(with_largest(largest));
        let calls = [Call::Offer(1), Call::Withdraw, Call::Grant(64)];
        calls.map(|call| {
            let _ = call.apply(&mut job);
            job.largest_granted()
        })
    };
    assert_eq!(number(Largest::SoFar), [0, 0, 0]);
    assert_eq!(number(Largest::OffersToo), [1, 1, 1]);
    assert_eq!(number(Largest::RefusedToo), [0, 0, 64]);
}

/// Whether some call of a log leaves a larger number by that idea.
fn is_larger(job: Job, log: &[u8], largest: Largest) -> bool {
    let mut other = job.clone().with_rules(with_largest(largest));
    !always(job, log, |call, _, job| {
        let _ = call.apply(&mut other);
        assert!(other.largest_granted() >= job.largest_granted());
        other.largest_granted() == job.largest_granted()
    })
}

/// Jobs that differ in it alone are the same: no call looks at it.
#[test]
fn the_largest_count_is_not_compared() {
    let fresh = drawn(&tree(2)).with_rules(with_largest(Largest::RefusedToo));
    let mut other = fresh.clone();
    assert!(other.grant(9).is_err());
    assert_eq!((counts(&fresh), counts(&other)), ((0, 0), (0, 9)));
    assert_eq!(fresh, other);
}
