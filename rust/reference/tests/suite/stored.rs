//! The stored set that is kept in the repository.

use reference::coverage::{Coverage, BRANCHES};
use reference::stored::{stored_cases, stored_set, KEPT_SEED};
use reference::MOST_QUANTA;
use reference::{form, growth, lasting, lines, rest, theft, withdrawal};
use reference::{program_output, program_output_with, read_plan, run_log_with, split_input};
use reference::{Cycle, Entries, Growth, Job, Plan, Refusal, Report, Rules, Status};

/// The kept set, which the crate `vectors` runs, and what it must write.
const KEPT: &[u8] = include_bytes!("../../../../crates/vectors/stdin");
const WRITTEN: &str = include_str!("../../../../crates/vectors/stdout");

/// 19 and 20 are not asked by the program, and a log has no offers.
const NOT_THE_PROGRAMS: [Refusal; 4] = [
    Refusal::WordingMissing,
    Refusal::BufferTooSmall,
    Refusal::NoOffer,
    Refusal::OfferNoted,
];

/// The kept set's cases.
fn kept() -> Vec<(&'static [u8], &'static [u8])> {
    stored_cases(KEPT).expect("a set that is not cut off")
}

#[test]
fn kept_set_is_what_the_seed_gives() {
    assert!(stored_set(KEPT_SEED) == KEPT);
    let count = kept().len();
    let line = format!("{count} cases ran, {count} as the second implementation says\n");
    assert_eq!(WRITTEN, line);
}

#[test]
fn kept_outputs_are_the_programs() {
    for (index, (input, output)) in kept().into_iter().enumerate() {
        assert!(program_output(input).as_bytes() == output, "case {index}");
    }
}

#[test]
fn kept_set_reaches_everything() {
    let mut coverage = Coverage::default();
    for (input, _) in kept() {
        coverage.cover_input(input);
    }
    for refusal in Refusal::ALL {
        let possible = !NOT_THE_PROGRAMS.contains(&refusal);
        assert_eq!(coverage.refusal(refusal) > 0, possible, "{refusal}");
    }
    for (branch, name) in BRANCHES {
        assert!(coverage.branch(branch) > 0, "never reached {name}");
    }
    assert!(coverage.responsiveness()[2..].iter().all(|&n| n > 0));
    assert_eq!(coverage.ratios().missing(), [""; 0]);
    assert!(coverage.allotments().iter().all(|&n| n > 0));
}

#[test]
fn kept_set_has_the_smallest_and_the_largest() {
    let sizes: Vec<usize> = kept().iter().map(|(input, _)| input.len()).collect();
    for size in [0, 1, 2, 65_536, 65_537] {
        assert!(sizes.contains(&size), "no input of {size} bytes");
    }
    let plans = kept().into_iter().filter_map(|(input, _)| plan(input));
    let counts: Vec<usize> = plans.map(|plan| plan.task_count()).collect();
    for count in [1, 2, 1_024] {
        assert!(counts.contains(&count), "no plan of {count} tasks");
    }
}

#[test]
fn kept_set_has_at_most_524288_bytes() {
    assert!(KEPT.len() <= 524_288, "{} bytes", KEPT.len());
}

#[test]
fn kept_set_has_plans_in_tenths_at_the_limits_of_their_fields() {
    let plans = kept().into_iter().filter_map(|(input, _)| plan(input));
    let gentle = |plan: &Plan| matches!(plan.growth(), Growth::Tenths(_));
    let plans: Vec<Plan> = plans.filter(gentle).collect();
    for length in [1, 8_192, 16_383] {
        assert!(plans.iter().any(|plan| plan.quantum_length() == length));
    }
    for percent in [1, 100] {
        assert!(plans.iter().any(|plan| plan.utilization() == percent));
    }
    for count in [1, 2, 1_024] {
        assert!(plans.iter().any(|plan| plan.task_count() == count));
    }
}

/// A case's accepted plan.
fn plan(input: &[u8]) -> Option<Plan> {
    read_plan(split_input(input).ok()?.0).ok()
}

#[test]
fn kept_set_has_tasks_of_few_and_of_many_ticks() {
    let plans = kept().into_iter().filter_map(|(input, _)| plan(input));
    let ticks = |plan: Plan| plan.tasks().iter().map(|task| task.ticks()).collect();
    let plans: Vec<Vec<u8>> = plans.map(ticks).collect();
    for ticks in [1, 2, 3, 100, 127, 128, 254, 255] {
        assert!(plans.iter().any(|plan| plan.contains(&ticks)), "{ticks}");
    }
    // The longest plan there can be, and one task of 255 ticks.
    assert!(plans
        .iter()
        .any(|plan| plan.len() == 1_024 && plan.contains(&3)));
    assert!(plans.contains(&vec![255]));
    // Each of 4,096 quanta works, and the job is not finished.
    let outputs: Vec<&[u8]> = kept().into_iter().map(|(_, output)| output).collect();
    assert!(outputs.contains(&&b"1 16 17 2 1 4096 0 0 0 2\n"[..]));
}

/// What a case's job has begun and shows at the end, and how many of its grants
/// met 13; nothing where the plan is refused.
fn at_the_limit(input: &[u8]) -> Option<(u32, Status, usize)> {
    let (plan, log) = split_input(input).ok()?;
    let (mut job, mut met) = (Job::accept(plan).ok()?, 0);
    run_log_with(&mut job, log, |_, _, answer| {
        met += usize::from(matches!(answer, Err(Refusal::QuantaExhausted)));
    });
    Some((job.quanta_begun(), job.status(), met))
}

#[test]
fn kept_set_has_jobs_on_both_sides_of_the_last_quantum() {
    let jobs: Vec<_> = kept()
        .into_iter()
        .filter_map(|(input, _)| at_the_limit(input))
        .filter(|&(begun, _, _)| begun == MOST_QUANTA)
        .collect();
    for status in [Status::Fresh, Status::Running, Status::Held] {
        let met = jobs.iter().any(|&(_, s, met)| s == status && met > 0);
        assert!(met, "no job of status {status:?} meets 13");
    }
    assert!(jobs.contains(&(MOST_QUANTA, Status::Finished, 0)));
}

/// How many whole entries a log has before a broken one; nothing where none
/// is broken.
fn before_the_broken(input: &[u8]) -> Option<usize> {
    let (plan, log) = split_input(input).ok()?;
    read_plan(plan).ok()?;
    Entries::new(log).position(|entry| entry.is_err())
}

#[test]
fn kept_set_has_logs_broken_early_and_late() {
    let places = kept()
        .into_iter()
        .filter_map(|(input, _)| before_the_broken(input));
    let places: Vec<usize> = places.collect();
    assert!(places.contains(&0) && places.iter().any(|&place| place > 10));
}

#[test]
fn a_cut_set_has_no_cases() {
    let set = &KEPT[..4_000];
    let whole = (0..set.len()).filter(|&size| stored_cases(&set[..size]).is_some());
    let mut ends = vec![0];
    for (input, output) in kept() {
        ends.push(ends[ends.len() - 1] + 4 + input.len() + output.len());
    }
    ends.retain(|&end| end < set.len());
    assert_eq!(whole.collect::<Vec<_>>(), ends);
}

#[test]
fn kept_set_has_numbers_on_both_sides_of_a_power_of_ten() {
    let last_number = |output: &[u8]| {
        let line = std::str::from_utf8(output).ok()?.lines().next()?;
        line.rsplit(' ').next()?.parse::<u64>().ok()
    };
    let lasts: Vec<u64> = kept()
        .iter()
        .filter(|(_, output)| !output.starts_with(b"refused"))
        .filter_map(|(_, output)| last_number(output))
        .collect();
    for power in [10, 100, 1_000, 10_000] {
        assert!(lasts.contains(&(power - 1)) && lasts.contains(&power));
    }
}

/// What the accepted calls of a case did, each with the granted count then;
/// nothing where the plan is refused.
fn reports(input: &[u8]) -> Vec<(usize, Report)> {
    let mut reports = Vec::new();
    let job = split_input(input).and_then(|(plan, log)| Ok((Job::accept(plan)?, log)));
    if let Ok((mut job, log)) = job {
        run_log_with(&mut job, log, |job, _, answer| {
            reports.extend(answer.iter().map(|did| (job.allotment(), did.clone())));
        });
    }
    reports
}

/// The sizes of the lines that a case's thieves rob with success, each with the
/// number of granted workers and whether its front task is begun.
fn robbed(input: &[u8]) -> Vec<(u16, usize, bool)> {
    let mut lines = Vec::new();
    for (workers, report) in reports(input) {
        let Report::Tick(report) = report else {
            continue;
        };
        for cycle in report.cycles {
            match cycle {
                Cycle::Steal {
                    stolen,
                    left,
                    begun,
                    ..
                } if stolen > 0 => {
                    lines.push((stolen + left, workers, begun));
                }
                _ => (),
            }
        }
    }
    lines
}

#[test]
fn kept_set_has_thefts_from_short_lines_and_the_longest() {
    let lines: Vec<_> = kept().iter().flat_map(|(input, _)| robbed(input)).collect();
    for size in 3..=10 {
        assert!(
            lines.contains(&(size, 2, false)),
            "no line of {size} is robbed"
        );
    }
    for size in 3..=6 {
        assert!(
            lines.contains(&(size, 2, true)),
            "no line of {size} is robbed behind a begun task"
        );
    }
    assert!(lines.contains(&(342, 64, false)) && lines.contains(&(342, 64, true)));
    assert!(lines.iter().all(|&(size, ..)| size <= 342));
}

/// Of each grant of a case, how many deques it withdraws and how many waited.
fn withdrawn(input: &[u8]) -> Vec<(usize, usize)> {
    let granted = |(_, report)| match report {
        Report::Grant(report) => Some((report.made_muggable, report.waited)),
        Report::Tick(_) => None,
    };
    reports(input).into_iter().filter_map(granted).collect()
}

#[test]
fn kept_set_has_grants_of_two_lines_behind_two_and_of_64() {
    let cases = kept().into_iter();
    let grants: Vec<_> = cases.flat_map(|(input, _)| withdrawn(input)).collect();
    for grant in [(2, 0), (2, 2), (3, 0), (64, 0)] {
        assert!(grants.contains(&grant), "no grant of {grant:?}");
    }
}

/// Which worker finishes a case's job, and of how many; nothing where none does.
fn finisher(input: &[u8], output: &[u8]) -> Option<(usize, usize)> {
    // A finished job accepts no call, so that the last accepted one finished it.
    let last = reports(input).pop().filter(|_| output.starts_with(b"3 "));
    match last? {
        (workers, Report::Tick(report)) => Some((report.cycles.len() - 1, workers)),
        _ => None,
    }
}

#[test]
fn kept_set_has_jobs_that_any_of_few_finishes_and_the_first_of_64() {
    let cases = kept().into_iter();
    let finishers: Vec<_> = cases.filter_map(|(i, o)| finisher(i, o)).collect();
    let few = (1..=3).flat_map(|workers| (0..workers).map(move |worker| (worker, workers)));
    for one in few.chain([(0, 64), (63, 64)]) {
        assert!(finishers.contains(&one), "no finisher {one:?}");
    }
}

/// How many of the cases have another output where a job follows those rules.
fn told_apart(rules: Rules) -> usize {
    let cases = kept().into_iter();
    let other =
        |&(input, output): &(&[u8], &[u8])| program_output_with(input, rules).as_bytes() != output;
    cases.filter(other).count()
}

#[test]
fn kept_set_tells_the_requests_rules_apart() {
    let right = Rules::default();
    assert_eq!(told_apart(right), 0);
    let bent = [
        theft::BENT.map(|theft| Rules { theft, ..right }).to_vec(),
        withdrawal::BENT
            .map(|turn| Rules { turn, ..right })
            .to_vec(),
        rest::BENT.map(|rest| Rules { rest, ..right }).to_vec(),
        lasting::BENT
            .map(|lasting| Rules { lasting, ..right })
            .to_vec(),
        form::BENT
            .map(|(reading, _)| Rules { reading, ..right })
            .to_vec(),
        growth::BENT.map(|pace| Rules { pace, ..right }).to_vec(),
        lines::BENT.map(|source| Rules { source, ..right }).to_vec(),
    ];
    for rules in bent.concat() {
        let found = told_apart(rules);
        assert!(found >= 10, "{found} with {rules:?}");
    }
}
