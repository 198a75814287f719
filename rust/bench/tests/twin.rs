//! The twin against the second implementation, on its generated cases.

use bench::twin::{Job, View};
use reference::generator::seeds::day;
use reference::generator::trees::tree_draft;
use reference::generator::{cases, gentle_cases, Case, Random};
use reference::log::{run_log, run_log_with, Entry};
use reference::{counters_line, wording, Growth, Job as Reference, Refusal, Step};

/// The reference's job as the twin shows its own.
fn view(job: &Reference) -> View {
    let tasks = |deque: &reference::job::Deque| deque.iter().copied().collect();
    View {
        left: job.left().to_vec(),
        deques: job.deques().iter().map(tasks).collect(),
        muggable: job.muggable_deques().into_iter().map(tasks).collect(),
        desire: job.desire(),
        power: job.power(),
        open_quantum: job
            .open_quantum()
            .map(|quantum| (quantum.ticks, quantum.usage)),
        quanta_begun: job.quanta_begun(),
        offer: job.noted_offer(),
    }
}

/// The line and the label, beside the state; the buffer's other bytes too.
fn same_texts(twin: &Job, job: &Reference, refused: u64, sheet: &[u8], buffer: usize) {
    let (mut here, mut there) = (vec![0xa5; buffer], vec![0xa5; buffer]);
    let mut size = 7;
    let number = twin.line(refused, &mut here, &mut size);
    let line = counters_line(job, refused, &mut there);
    assert_eq!(
        (number, size),
        line.map_or_else(|r| (r.number(), 0), |size| (0, size))
    );
    assert_eq!(here, there);
    let (mut start, mut size) = (7, 7);
    let number = twin.wording(sheet, &mut start, &mut size);
    match wording(sheet, job.status()) {
        Ok(part) => {
            assert_eq!((number, &sheet[start..start + size]), (0, part));
            assert_eq!(sheet[start..].as_ptr(), part.as_ptr());
        }
        Err(refusal) => assert_eq!((number, start, size), (refusal.number(), 0, 0)),
    }
    assert_eq!(twin.status(), job.status().number());
}

/// The twin and the reference, entry by entry and log by log; `seen` looks at the reference's job after each entry.
fn compared(cases: impl Iterator<Item = Case>, mut seen: impl FnMut(&Reference)) {
    let mut twin = Job::blank();
    for case in cases {
        let before = twin.view();
        let number = twin.accept(&case.plan);
        let mut job = match Reference::accept(&case.plan) {
            Ok(job) => job,
            Err(refusal) => {
                assert_eq!((number, twin.view()), (refusal.number(), before));
                continue;
            }
        };
        assert_eq!((number, twin.view()), (0, view(&job)));
        let mut stepped = twin.clone();
        let mut entries = 0;
        let outcome = run_log_with(&mut job, &case.log, |after, entry, answer| {
            let number = match *entry {
                Entry::Grant(workers) => stepped.grant(workers as u64),
                Entry::Tick(choices) => stepped.tick(choices),
            };
            let expected = answer.as_ref().err().map_or(0, |refusal| refusal.number());
            assert_eq!(number, expected);
            seen(after);
            entries += 1;
            if entries < 3_000 || entries % 1_000 == 0 {
                assert_eq!(stepped.view(), view(after));
            }
        });
        let mut refused = 7;
        let number = twin.run_log(&case.log, &mut refused);
        assert_eq!(
            (number, refused),
            (outcome.broken.map_or(0, |r| r.number()), outcome.refused)
        );
        assert_eq!((twin.view(), stepped.view()), (view(&job), view(&job)));
        same_texts(&twin, &job, refused, &case.sheet, case.buffer);
        same_texts(&twin, &job, u64::MAX, &case.sheet.repeat(9), 128);
    }
}

#[test]
fn generated_cases() {
    compared(cases(7).take(4_000), |_| ());
}

/// Every power of every ratio is reached.
#[test]
fn generated_cases_of_form_3() {
    let mut reached = [[false; 23]; 9];
    compared(gentle_cases(7).take(3_000), |job| {
        if let Growth::Tenths(tenths) = job.plan().growth() {
            reached[usize::from(tenths) - 12][job.power() as usize] = true;
        }
    });
    let powers = reached.map(|row| row.iter().filter(|&&reached| reached).count());
    assert_eq!(powers, [23, 16, 13, 11, 9, 8, 8, 7, 7]);
}

fn number<T>(answer: Result<T, Refusal>) -> u8 {
    answer.err().map_or(0, Refusal::number)
}

/// A number of workers for a grant, an offer or an open: mostly one that may be accepted.
fn workers(random: &mut Random, job: &Reference) -> u64 {
    let desire = job.desire();
    let most = job.noted_offer().unwrap_or(desire);
    match random.below(8) {
        0 => random.next_u64() >> random.below(64),
        1 => most as u64 + 1,
        2 | 3 => desire as u64,
        4 => most as u64,
        _ => random.below(most + 1) as u64,
    }
}

/// One call of the six at random: the twin's answer, and the reference's.
fn random_call(random: &mut Random, twin: &mut Job, job: &mut Reference) -> (u8, u8) {
    let workers = workers(random, job);
    let count = workers as usize;
    match random.below(8) {
        0 => (twin.grant(workers), number(job.grant(count))),
        1 => (twin.offer(workers), number(job.offer(count))),
        2 => (twin.open(workers), number(job.open(count))),
        3 => (twin.withdraw(), number(job.withdraw())),
        4 => {
            let mut seeds = [random.next_u64() as u32; 2];
            let answers = (
                twin.tick_seeded(&mut seeds[0]),
                number(job.tick_seeded(&mut seeds[1])),
            );
            assert_eq!(seeds[0], seeds[1]);
            answers
        }
        _ => {
            let size = job.allotment() + usize::from(random.chance(8));
            let most = job.allotment() + usize::from(random.chance(8));
            let choices: Vec<u8> = (0..size).map(|_| random.below(most) as u8).collect();
            (twin.tick(&choices), number(job.tick(&choices)))
        }
    }
}

/// Calls of all six kinds, and a log on what they leave, a noted offer or none.
#[test]
fn offers_opens_and_withdrawals() {
    let mut random = Random::new(9);
    let (mut twin, mut answers, mut noted) = (Job::blank(), [0u32; 29], 0);
    for case in cases(13).take(2_000).chain(gentle_cases(13).take(1_000)) {
        let mut job = match Reference::accept(&case.plan) {
            Ok(job) => job,
            Err(_) => continue,
        };
        assert_eq!(twin.accept(&case.plan), 0);
        for _ in 0..random.between(1, 100) {
            let (here, there) = random_call(&mut random, &mut twin, &mut job);
            assert_eq!(here, there);
            assert_eq!(twin.view(), view(&job));
            answers[usize::from(here)] += 1;
        }
        noted += u32::from(job.noted_offer().is_some());
        let mut refused = 7;
        let outcome = run_log(&mut job, &case.log);
        let broken = twin.run_log(&case.log, &mut refused);
        let expected = outcome.broken.map_or(0, |r| r.number());
        assert_eq!((broken, refused), (expected, outcome.refused));
        assert_eq!(twin.view(), view(&job));
        same_texts(&twin, &job, refused, &case.sheet, case.buffer);
    }
    let met = [0, 11, 12, 14, 15, 16, 17, 24, 25].map(|number| answers[number]);
    assert!(
        noted > 100 && met.iter().all(|&n| n > 100),
        "{} {:?}",
        noted,
        met
    );
}

/// What seeded days reached: answers by number, accepted ticks of 64 workers, and plans of form 2.
#[derive(Debug, Default)]
struct Days {
    answers: [u32; 29],
    wide: u32,
    lasting: u32,
}

/// Makes the calls of a day: the same answers, states and seeds. Returns the log.
fn follow_day(
    day: &[Step],
    seed: u32,
    twin: &mut Job,
    job: &mut Reference,
    days: &mut Days,
) -> Vec<u8> {
    let (mut here, mut there, mut log) = (seed, seed, Vec::new());
    for &step in day {
        let expected = number(step.run(job, &mut there, &mut log));
        let answer = match step {
            Step::Grant(workers) => twin.grant(workers as u64),
            Step::Tick => twin.tick_seeded(&mut here),
        };
        assert_eq!((answer, here), (expected, there));
        assert_eq!(twin.view(), view(job));
        days.answers[usize::from(answer)] += 1;
        let accepted = step == Step::Tick && answer == 0;
        days.wide += u32::from(accepted && job.allotment() == 64);
    }
    log
}

/// Seeded days, and their logs, which end in the same job.
#[test]
fn seeded_days() {
    let (mut random, mut days) = (Random::new(3), Days::default());
    let plans = cases(19).take(2_000).map(|case| case.plan);
    let trees = (0..200).map(|seed| tree_draft(&mut Random::new(seed)).bytes());
    for plan in plans.chain(trees) {
        let mut job = match Reference::accept(&plan) {
            Ok(job) => job,
            Err(_) => continue,
        };
        let (mut twin, mut again, mut refused) = (Job::blank(), Job::blank(), 7);
        assert_eq!((twin.accept(&plan), again.accept(&plan)), (0, 0));
        let seed = random.next_u64() as u32;
        let day = day(&mut random, job.clone(), seed);
        let log = follow_day(&day, seed, &mut twin, &mut job, &mut days);
        assert_eq!((again.run_log(&log, &mut refused), refused), (0, 0));
        assert_eq!(again.view(), twin.view());
        days.lasting += u32::from(plan[0] >> 4 == 2);
    }
    let met = [0, 11, 12, 14, 15].map(|number| days.answers[number]);
    let enough = met.iter().all(|&n| n > 100) && days.wide > 1_000 && days.lasting > 100;
    assert!(enough, "{:?}", days);
}

/// The last quantum that may begin can be offered; after it 13 comes, also where 14 would.
#[test]
fn an_offer_of_the_last_quantum() {
    let plan = [0x15, 0x40, 0x00, 0x04, 0x00, 0, 0, 0];
    let (mut twin, mut refused) = (Job::blank(), 7);
    assert_eq!(twin.accept(&plan), 0);
    assert_eq!(twin.run_log(&[0x00, 0x80].repeat(4_095), &mut refused), 0);
    assert_eq!((refused, twin.offer(1), twin.offer(2)), (0, 0, 25));
    assert_eq!((twin.open(2), twin.open(0), twin.tick(&[])), (14, 0, 0));
    assert_eq!((twin.offer(0), twin.offer(u64::MAX)), (13, 13));
    assert_eq!((twin.open(0), twin.withdraw()), (24, 24));
}

#[test]
fn decimal_numbers() {
    let plan = [0x15, 0x40, 0x00, 0x08, 0x00, 0, 0, 0];
    let (mut twin, job) = (Job::blank(), Reference::accept(&plan).unwrap());
    assert_eq!(twin.accept(&plan), 0);
    let mut number = 1u64;
    for _ in 0..20 {
        for n in [number - 1, number, number + 1, number.saturating_mul(9)] {
            same_texts(&twin, &job, n, b"", 128);
        }
        number = number.saturating_mul(10);
    }
    same_texts(&twin, &job, u64::MAX, b"", 128);
}

#[test]
fn refused_plans_of_every_number() {
    let mut numbers = [0u32; 29];
    let mut twin = Job::blank();
    for case in cases(11).take(20_000) {
        let number = twin.accept(&case.plan);
        let expected = Reference::accept(&case.plan)
            .err()
            .map_or(0, |refusal| refusal.number());
        assert_eq!(number, expected);
        numbers[usize::from(number)] += 1;
    }
    let asked = numbers[..=10].iter().chain(&numbers[28..]);
    assert!(asked.copied().all(|n| n > 0), "{:?}", numbers);
}

/// The plan in form 2, of one in form 1, with ticks in turn; a period of 1 has those of form 1.
fn lasting(plan: &[u8], period: usize) -> Vec<u8> {
    let mut bytes = plan[..5].to_vec();
    bytes[0] = 0x20 | bytes[0] & 15;
    for (number, task) in plan[5..].chunks_exact(3).enumerate() {
        bytes.extend_from_slice(task);
        bytes.push([1, 3, 2, 255, 1, 17][number % period]);
    }
    bytes
}

/// The log of a case, on the plan of the same graph in form 2; again as long as it goes on, so that tasks that last are worked.
#[test]
fn the_same_graphs_in_form_2() {
    let (mut twin, mut finished) = (Job::blank(), 0);
    for case in cases(5).take(3_000) {
        if case.plan.first().map_or(true, |&first| first >> 4 != 1) || twin.accept(&case.plan) != 0
        {
            continue;
        }
        for period in [1, 2, 3, 6] {
            let plan = lasting(&case.plan, period);
            let mut job = Reference::accept(&plan).expect("a sound plan");
            assert_eq!(twin.accept(&plan), 0);
            for _ in 0..5 {
                let mut refused = 7;
                let outcome = run_log_with(&mut job, &case.log, |_, _, _| ());
                let number = twin.run_log(&case.log, &mut refused);
                assert_eq!(
                    (number, refused),
                    (outcome.broken.map_or(0, |r| r.number()), outcome.refused)
                );
                assert_eq!(twin.view(), view(&job));
                same_texts(&twin, &job, refused, &case.sheet, case.buffer);
            }
            finished += u32::from(job.is_finished() && period > 1);
        }
    }
    assert!(finished > 100, "{}", finished);
}
