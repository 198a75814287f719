//! Request U14: gentler growth.

use std::collections::HashMap;

use reference::generator::plans::Draft;
use reference::generator::{cases, gentle_cases, older_cases, Case};
use reference::growth::{self, RATIOS};
use reference::{read_plan, run_log_with, Growth, Job, Level, Pace, QuantumEnd, Report, Rules};

use super::lasting::told_apart;
use super::properties::mug_limit;
use super::{hex, job, plan_refusal};

/// Plan A in form 3: R = 1.5, D = 80, L = 2, N = 4.
const GENTLE_PLAN_A: &str = "37 d0 00 08 03  80 08 02  40 18 00  40 18 00  00 00 00";

/// A draft of it.
fn plan_a() -> Draft {
    Draft::of_graph(&vec![vec![1, 2], vec![3], vec![3], vec![]]).gentle(15)
}

/// The number with which it is refused after one change.
fn changed(change: impl Fn(&mut Draft)) -> u8 {
    let mut draft = plan_a();
    change(&mut draft);
    plan_refusal(&draft.bytes())
}

#[test]
fn the_fields_of_the_header() {
    assert_eq!(plan_a().bytes(), hex(GENTLE_PLAN_A));
    // All bits of one field and none of its neighbours.
    let plans = [
        ("3a 01 00 04 00", 20, 1, 1),
        ("36 64 00 04 00", 12, 100, 1),
        ("36 01 ff fc 00", 12, 1, 16_383),
        ("37 81 80 00 00", 15, 1, 8_192),
    ];
    for (header, tenths, utilization, length) in plans {
        let plan = read_plan(&hex(&format!("{header} 00 00 00"))).expect("an accepted plan");
        assert_eq!(plan.growth(), Growth::Tenths(tenths));
        assert_eq!(
            (plan.utilization(), plan.quantum_length()),
            (utilization, length)
        );
        assert_eq!(plan.task_count(), 1);
    }
    let plan = read_plan(&hex(GENTLE_PLAN_A)).expect("an accepted plan");
    assert_eq!((plan.utilization(), plan.quantum_length()), (80, 2));
    let successors: Vec<&[u16]> = plan.tasks().iter().map(|task| task.successors()).collect();
    assert_eq!(successors, [&[1, 2][..], &[3], &[3], &[]]);
    assert!(plan.tasks().iter().all(|task| task.ticks() == 1));
}

#[test]
fn three_asks_for_12_to_20_tenths() {
    for tenths in 0..32 {
        let number = if (12..=20).contains(&tenths) { 0 } else { 3 };
        assert_eq!(changed(|d| d.responsiveness = tenths), number, "{tenths}");
    }
}

#[test]
fn plan_questions_of_form_3() {
    let plan = hex(GENTLE_PLAN_A);
    assert_eq!((plan_refusal(&plan), plan_refusal(&plan[..4])), (0, 1));
    assert_eq!(changed(|d| d.form = 4), 2);
    for (utilization, number) in [(0, 4), (1, 0), (100, 0), (101, 4), (127, 4)] {
        assert_eq!(changed(|d| d.utilization = utilization), number);
    }
    for (length, number) in [(0, 5), (1, 0), (16_383, 0)] {
        assert_eq!(changed(|d| d.quantum_length = length), number);
    }
    for count in [0, 2, 4, 1_023] {
        assert_eq!(changed(|d| d.count_less_one = count), 6);
    }
    // Form 2's tasks, and one byte more or less.
    assert_eq!(changed(|d| d.has_ticks = true), 6);
    assert_eq!(plan_refusal(&plan[..16]), 6);
    assert_eq!(plan_refusal(&[&plan[..], &[0]].concat()), 6);
    assert_eq!(changed(|d| d.tasks[1].count = 3), 7);
    assert_eq!(changed(|d| d.tasks[1].first = 1), 8);
    assert_eq!(
        changed(|d| (d.tasks[0].count, d.tasks[0].second) = (1, 0)),
        9
    );
    assert_eq!(
        changed(|d| (d.tasks[2].count, d.tasks[2].first) = (0, 0)),
        10
    );
}

#[test]
fn the_questions_of_form_3_in_order() {
    type Edit = fn(&mut Draft);
    // From draft to draft an earlier question is answered with no, too.
    let edits: [(u8, Edit); 6] = [
        (7, |d| d.tasks[1].count = 3),
        (6, |d| d.count_less_one = 4),
        (5, |d| d.quantum_length = 0),
        (4, |d| d.utilization = 101),
        (3, |d| d.responsiveness = 21),
        (2, |d| d.form = 15),
    ];
    let mut draft = plan_a();
    for (number, edit) in edits {
        edit(&mut draft);
        assert_eq!(plan_refusal(&draft.bytes()), number);
    }
    draft = plan_a();
    (draft.responsiveness, draft.utilization) = (11, 0);
    assert_eq!(plan_refusal(&draft.bytes()), 3);
}

/// A header of one form under the number of the other.
#[test]
fn forms_1_and_3_have_their_own_headers() {
    // R = 3 and D = 96 are 15 tenths and D = 0.
    let mut draft = plan_a();
    (draft.has_tenths, draft.responsiveness) = (false, 3);
    draft.utilization = 96;
    assert_eq!(plan_refusal(&draft.bytes()), 4);
    // 15 tenths are R = 3, and their last bits are D's first: 116, or 96.
    assert_eq!(changed(|d| d.form = 1), 4);
    let mut draft = plan_a();
    (draft.form, draft.utilization) = (1, 1);
    let plan = read_plan(&draft.bytes()).expect("an accepted plan");
    assert_eq!((plan.growth(), plan.utilization()), (Growth::Factor(3), 96));
    assert_eq!(plan.quantum_length(), 16_386);
    // Form 1 asks for 2 and above, as before.
    let mut draft = Draft::of_graph(&vec![vec![]]);
    let mut with = |r| {
        draft.responsiveness = r;
        plan_refusal(&draft.bytes())
    };
    assert_eq!([1, 2, 7].map(&mut with), [3, 0, 0]);
}

/// The row of a ratio: its desires by power, up to 64.
fn row(tenths: u8) -> Vec<usize> {
    let growth = Growth::Tenths(tenths);
    let powers = growth.powers();
    powers.filter_map(|power| growth.desire(power)).collect()
}

#[test]
fn the_nine_rows() {
    let twelve = [
        1, 1, 1, 1, 2, 2, 2, 3, 4, 5, 6, 7, 8, 10, 12, 15, 18, 22, 26, 31, 38, 46, 55,
    ];
    assert_eq!(row(12), twelve);
    assert_eq!(row(20), [1, 2, 4, 8, 16, 32, 64]);
    let sizes: Vec<usize> = RATIOS.map(|tenths| row(tenths).len()).collect();
    assert_eq!(sizes, [23, 16, 13, 11, 9, 8, 8, 7, 7]);
    let tops: Vec<usize> = RATIOS.filter_map(|tenths| row(tenths).pop()).collect();
    assert_eq!(tops, [55, 51, 56, 57, 42, 41, 61, 47, 64]);
    // Each is at most R to its power, and one more is above it.
    for tenths in RATIOS {
        for (power, desire) in (0..).zip(row(tenths)) {
            let (over, under) = (u128::from(tenths).pow(power), 10_u128.pow(power));
            let desire = desire as u128;
            assert!(desire * under <= over && over < (desire + 1) * under);
        }
    }
}

/// A chain with quanta of one tick, in which one worker of all works.
fn chain(tenths: u64, utilization: u64) -> Job {
    let graph = (1..200).map(|next| vec![next]).chain([vec![]]).collect();
    let mut draft = Draft::of_graph(&graph).gentle(tenths);
    draft.quantum_length = 1;
    draft.utilization = utilization;
    job(&draft.bytes())
}

/// A quantum of so many workers, and the power and the desire after it.
fn quantum(job: &mut Job, workers: usize) -> (u32, usize) {
    assert!(job.grant(workers).is_ok());
    assert!(job.tick(&vec![0; workers]).is_ok());
    (job.power(), job.desire())
}

/// A quantum of as many workers as are desired.
fn satisfied(job: &mut Job) -> (u32, usize) {
    let desire = job.desire();
    quantum(job, desire)
}

#[test]
fn the_desire_climbs_to_its_top_and_stays() {
    for tenths in RATIOS {
        let mut job = chain(tenths.into(), 1);
        assert_eq!((job.power(), job.desire()), (0, 1));
        for (power, desire) in (0..).zip(row(tenths)).skip(1) {
            // One worker fewer is no rise.
            let before = (job.power(), job.desire());
            let fewer = job.desire() - 1;
            assert_eq!(quantum(&mut job, fewer), before);
            assert_eq!(satisfied(&mut job), (power, desire));
        }
        let top = (job.power(), job.desire());
        for _ in 0..3 {
            assert_eq!(satisfied(&mut job), top);
        }
    }
}

/// With 1.5 and D = 60 one worker is enough for one alone.
#[test]
fn the_desire_falls_by_one_power() {
    let mut job = chain(15, 60);
    assert_eq!(satisfied(&mut job), (1, 1));
    assert_eq!(satisfied(&mut job), (2, 2));
    assert_eq!(satisfied(&mut job), (1, 1), "one of two is not 60 percent");
    assert_eq!(satisfied(&mut job), (2, 2));
    assert_eq!(quantum(&mut job, 1), (2, 2), "efficient and deprived");
    assert_eq!(quantum(&mut job, 0), (2, 2), "none of none is enough");
    assert_eq!(satisfied(&mut job), (1, 1));
}

/// A fall is to the entry below, and not to the last desire divided.
#[test]
fn a_fall_is_looked_up() {
    // One of 8 is 12 percent, and one of 9 is not.
    let mut job = chain(13, 12);
    let climb: Vec<usize> = (0..9).map(|_| satisfied(&mut job).1).collect();
    assert_eq!(climb, [1, 1, 2, 2, 3, 4, 6, 8, 10]);
    assert_eq!(satisfied(&mut job), (8, 8), "10 / 1.3 is below 8");
    assert_eq!(satisfied(&mut job), (9, 10));
    assert_eq!(quantum(&mut job, 9), (8, 8), "inefficient and deprived");
}

/// A power can fall, and the desire with its whole part does not.
#[test]
fn two_powers_with_the_same_desire() {
    let pace = Pace::default();
    let level = |power, desire| Level { power, desire };
    let growth = Growth::Tenths(12);
    let fall = |from| pace.close(growth, from, false, true).1;
    assert_eq!(fall(level(6, 2)), level(5, 2));
    assert_eq!(fall(level(5, 2)), level(4, 2));
    assert_eq!(fall(level(4, 2)), level(3, 1));
    let rise = |from| pace.close(growth, from, true, true);
    assert_eq!(rise(level(0, 1)), (QuantumEnd::Grown, level(1, 1)));
    assert_eq!(rise(level(22, 55)), (QuantumEnd::AtCap, level(22, 55)));
}

/// The power in forms 1 and 2, where the desire is R to it.
#[test]
fn forms_1_and_2_have_a_power() {
    let graph = (1..40).map(|next| vec![next]).chain([vec![]]).collect();
    let mut draft = Draft::of_graph(&graph);
    (
        draft.responsiveness,
        draft.utilization,
        draft.quantum_length,
    ) = (3, 4, 1);
    for draft in [draft.clone(), draft.lasting(|_| 2)] {
        let mut job = job(&draft.bytes());
        let levels: Vec<(u32, usize)> = (0..6).map(|_| satisfied(&mut job)).collect();
        // One of 27 is not 4 percent.
        assert_eq!(levels, [(1, 3), (2, 9), (3, 27), (2, 9), (3, 27), (2, 9)]);
    }
}

/// A round of the history: its power and desire, and how it closed.
struct Round {
    power: u32,
    desire: usize,
    end: QuantumEnd,
}

/// The closed rounds of a case's job by these rules, in the order in which they
/// began, and the job at the end.
fn closed_rounds(case: &Case, rules: Rules) -> Option<(Vec<Round>, Job)> {
    let mut job = Job::accept(&case.plan).ok()?.with_rules(rules);
    let (mut rounds, mut begun) = (Vec::new(), (0, 1));
    run_log_with(&mut job, &case.log, |job, _, answer| match answer {
        Ok(Report::Grant(_)) => begun = (job.power(), job.desire()),
        Ok(Report::Tick(report)) => rounds.extend(report.quantum_end.map(|end| Round {
            power: begun.0,
            desire: begun.1,
            end,
        })),
        Err(_) => (),
    });
    Some((rounds, job))
}

/// Whether each inefficient round has an earlier one that was efficient and
/// satisfied, one power lower, and no two share one. Those of a power are as
/// good as each other, so it is enough to count them for the power above.
fn is_paired(rounds: &[Round]) -> bool {
    let mut free = HashMap::new();
    rounds.iter().all(|round| match round.end {
        QuantumEnd::Grown | QuantumEnd::AtCap => {
            *free.entry(round.power + 1).or_insert(0) += 1;
            true
        }
        QuantumEnd::Deprived => true,
        QuantumEnd::Inefficient { .. } => {
            let partners = free.entry(round.power).or_insert(0);
            *partners -= 1;
            *partners >= 0
        }
    })
}

/// How many inefficient rounds the cases have, and in how many of the cases they
/// are not paired.
fn pairing(cases: impl Iterator<Item = Case>, rules: Rules) -> (usize, usize) {
    let (mut inefficient, mut unpaired) = (0, 0);
    for (rounds, _) in cases.filter_map(|case| closed_rounds(&case, rules)) {
        let fell = |round: &&Round| matches!(round.end, QuantumEnd::Inefficient { .. });
        inefficient += rounds.iter().filter(fell).count();
        unpaired += usize::from(!is_paired(&rounds));
    }
    (inefficient, unpaired)
}

#[test]
fn inefficient_rounds_have_partners_one_power_lower() {
    let right = Rules::default();
    for (inefficient, unpaired) in [
        pairing(gentle_cases(8).take(800), right),
        pairing(older_cases(8).take(800), right),
    ] {
        assert!(
            inefficient > 1_000 && unpaired == 0,
            "{inefficient}, {unpaired}"
        );
    }
    // By these rules a round is inefficient twice at a power that was reached
    // once, or at one that no satisfied round reached.
    for pace in [Pace::InefficientStays, Pace::DeprivedRises] {
        let (_, unpaired) = pairing(gentle_cases(8).take(800), Rules { pace, ..right });
        assert!(unpaired > 10, "{unpaired} with {pace:?}");
    }
}

#[test]
fn desire_1_is_never_met_by_an_inefficient_round() {
    let mut ones = [0, 0];
    for case in cases(12).take(1_200) {
        let closed = closed_rounds(&case, Rules::default());
        for round in closed.into_iter().flat_map(|(rounds, _)| rounds) {
            let fell = matches!(round.end, QuantumEnd::Inefficient { .. });
            assert!(!fell || round.desire > 1 && round.power > 0);
            ones[usize::from(round.power > 0)] += usize::from(round.desire == 1);
        }
    }
    // Also where the power is above 0.
    assert!(ones[0] > 1_000 && ones[1] > 300, "{ones:?}");
}

/// At the end of each case. That it holds after every call is with the other
/// properties.
#[test]
fn the_mug_limit_of_form_3() {
    let closed = |case: Case| closed_rounds(&case, Rules::default());
    let mut most = (0, 1);
    for (_, job) in gentle_cases(3).take(1_500).filter_map(closed) {
        let (mugs, limit) = mug_limit(&job);
        assert!(mugs <= limit, "{mugs} above {limit}");
        if mugs * most.1 > most.0 * limit {
            most = (mugs, limit);
        }
    }
    // A limit of a sixth would be broken.
    assert!(most.0 * 6 > most.1, "{most:?}");
}

#[test]
fn bent_rules_show_in_form_3_alone() {
    let inputs = older_cases(6).take(300).chain(gentle_cases(6).take(1_000));
    let short = |case: &Case| case.input.len() < 12_000;
    let inputs: Vec<Case> = inputs.filter(short).collect();
    for pace in growth::BENT {
        let rules = Rules {
            pace,
            ..Rules::default()
        };
        let found = [1, 2, 3].map(|form| told_apart(rules, form, &inputs));
        let elsewhere = found[0] + found[1];
        assert!(elsewhere == 0 && found[2] > 5, "{found:?} with {pace:?}");
    }
}
