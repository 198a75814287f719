//! The comparison finds what differs: here the two sides are given different plans or calls on purpose.

use std::time::Duration;

use reference::generator::logs::marathon_log;
use reference::generator::plans::{gentle_draft, gentle_marathon_draft, marathon_draft};
use reference::generator::plans::{sound_draft, Draft};
use reference::generator::seeds::seeded_log;
use reference::generator::Random;
use reference::lines::{self, TOO_LARGE, TOO_SMALL};
use reference::offer::{self, Kind, Noting};
use reference::seed::{self, after, Drawing};
use reference::{form, growth, lasting, rest, theft, withdrawal};
use reference::{DigitCount, Entries, Entry, Largest, Lasting, Pace, Refusal, Rest, Rules, Source};
use reference::{Share, MOST_QUANTA};

use crate::accept::{answered, fresh};
use crate::compare::{self, Part};
use crate::difference::Difference;
use crate::in_use::{deques_in_use, LIBRARY_BROKEN, REFERENCE_BROKEN};
use crate::inputs;
use crate::options::Options;
use crate::pair::{Call, Pair, Proved, Reference, NOT_PLAIN};
use crate::run::run;
use crate::seeds::{Seeds, MOVED_SEED, OTHER_SEED};
use crate::totals::Totals;
use crate::walk::{Walk, ALL};
use crate::written::{Log, Stretch, Written, OTHER_END, OTHER_ENTRY, REFUSED_IN_LOG};

/// Jobs of two plans.
fn pair(plan: &Draft, other: &Draft) -> Pair {
    let proved = Proved::accept(&plan.bytes()).expect("an accepted plan");
    let reference = Reference::accept(&other.bytes()).expect("an accepted plan");
    Pair::new(proved, reference)
}

/// Document 01's example 7, with L = 1.
fn fork() -> Draft {
    let tasks: [&[u16]; 7] = [&[1, 2], &[3, 4], &[5], &[5], &[6], &[6], &[]];
    let mut draft = Draft::of_graph(&tasks.iter().map(|list| list.to_vec()).collect());
    draft.quantum_length = 1;
    draft
}

/// The same with the fields of a task turned around.
fn turned(mut draft: Draft, task: usize) -> Draft {
    let fields = &mut draft.tasks[task];
    std::mem::swap(&mut fields.first, &mut fields.second);
    draft
}

/// The same with another L.
fn with_length(mut draft: Draft, length: u64) -> Draft {
    draft.quantum_length = length;
    draft
}

/// In what the two jobs differ after a log each.
fn part_after(mut pair: Pair, log: &[u8], reference_log: &[u8]) -> Option<Part> {
    let _ = pair.proved.run_log(log);
    let _ = reference::run_log(&mut pair.reference, reference_log);
    compare::states(&pair.proved, &pair.reference)
}

#[test]
fn other_calls_are_found() {
    let part = |log, other| part_after(pair(&fork(), &fork()), log, other);
    let steal = [1, 0x81, 0, 2, 0x82, 0, 0];
    let vain = [1, 0x81, 0, 2, 0x82, 0, 1];
    assert_eq!(part(&steal, &steal), None);
    assert_eq!(part(&[0], &[]), Some("ticks of the open quantum"));
    assert_eq!(part(&[1], &[0]), Some("allotment"));
    assert_eq!(part(&[0, 0x80], &[]), Some("quanta begun"));
    assert_eq!(part(&[1, 0x81, 0], &[0, 0x80]), Some("desire"));
    assert_eq!(part(&steal, &vain), Some("successful steals"));
}

#[test]
fn other_notes_are_found() {
    let part = |offer: Option<u64>, other: Option<usize>| {
        let mut pair = pair(&fork(), &fork());
        assert!(offer.map_or(true, |workers| pair.proved.offer(workers).is_ok()));
        assert!(other.map_or(true, |workers| pair.reference.offer(workers).is_ok()));
        compare::states(&pair.proved, &pair.reference)
    };
    for note in [None, Some(0), Some(1)] {
        assert_eq!(part(note.map(|workers| workers as u64), note), None);
    }
    for (offer, other) in [
        (None, Some(0)),
        (Some(0), None),
        (Some(0), Some(1)),
        (Some(1), Some(0)),
    ] {
        assert_eq!(part(offer, other), Some("offer"));
    }
    // A job that another plan took the place of has no offer left.
    let mut used = pair(&fork(), &fork());
    assert!(used.proved.offer(0).is_ok());
    let found = fresh(used, &mut Totals::default());
    assert_eq!(found.err().map(|difference| difference.part), Some("offer"));
}

#[test]
fn other_deques_are_found() {
    for length in [1, 9] {
        let plan = with_length(fork(), length);
        let other = turned(plan.clone(), 0);
        let part = |log: &[u8]| part_after(pair(&plan, &other), log, log);
        assert_eq!(part(&[1]), None);
        assert_eq!(part(&[1, 0x81, 0]), Some("deques"));
    }
    let other = turned(fork(), 0);
    let part = |log: &[u8]| part_after(pair(&fork(), &other), log, log);
    assert_eq!(part(&[1, 0x81, 0, 0]), Some("muggable deques"));
    assert_eq!(part(&[1, 0x81, 0, 1, 0x81, 0]), Some("worked tasks"));
}

#[test]
fn other_plans_are_found() {
    type Change = fn(&mut Draft);
    let changes: [(Part, Change); 7] = [
        ("R", |draft| draft.responsiveness = 3),
        // The same growth, and another unit.
        ("R", |draft| *draft = fork().gentle(20)),
        ("D", |draft| draft.utilization = 81),
        ("L", |draft| draft.quantum_length = 65_535),
        ("N", |draft| {
            *draft = with_length(Draft::of_graph(&vec![vec![1], vec![]]), 1)
        }),
        ("successors", |draft| *draft = turned(fork(), 1)),
        ("ticks", |draft| *draft = lasting_fork(6, 255)),
    ];
    for (part, change) in changes {
        let mut other = fork();
        change(&mut other);
        let found = fresh(pair(&fork(), &other), &mut Totals::default());
        assert_eq!(found.err().map(|difference| difference.part), Some(part));
    }
    assert!(fresh(pair(&fork(), &fork()), &mut Totals::default()).is_ok());
    // Tasks of one tick in form 2 are those of form 1.
    let one = lasting_fork(6, 1);
    assert!(fresh(pair(&fork(), &one), &mut Totals::default()).is_ok());
}

/// The same in form 2, where one task lasts so many ticks and the others one.
fn lasting_fork(lasts: usize, ticks: u32) -> Draft {
    fork().lasting(|task| if task == lasts { ticks } else { 1 })
}

#[test]
fn other_ticks_are_found() {
    let part = |ticks, log: &[u8]| {
        let plans = [3, ticks].map(|ticks| lasting_fork(0, ticks));
        part_after(pair(&plans[0], &plans[1]), log, log)
    };
    let one = [1, 0x81, 0];
    assert_eq!(part(3, &one), None);
    assert_eq!(part(3, &one.repeat(3)), None);
    assert_eq!(part(4, &one), Some("ticks left"));
    assert_eq!(part(2, &one.repeat(2)), Some("counters: worked"));
}

/// Walks a generated log with a reference whose plan has one task's fields turned around, or none.
fn walked(seed: u64, turn: bool) -> Option<Result<(), Difference>> {
    let random = &mut Random::new(seed);
    let draft = sound_draft(random);
    let forks: Vec<usize> = (0..draft.tasks.len())
        .filter(|&t| draft.tasks[t].count == 2)
        .collect();
    let &task = random.pick(&forks)?;
    let other = if turn {
        turned(draft.clone(), task)
    } else {
        draft.clone()
    };
    let pair = pair(&draft, &other);
    let log = inputs::log(random, &pair.reference);
    let totals = &mut Totals::default();
    Some(Walk::new(pair, random, totals, 64, 0).follow(&log))
}

#[test]
fn one_turned_task_is_found_on_the_way() {
    let found = |turn| {
        (0..200)
            .filter_map(move |seed| walked(seed, turn))
            .filter(Result::is_err)
            .count()
    };
    assert_eq!(found(false), 0);
    // Not in all: some logs never work the task, or meet no time at which the order matters.
    assert!(found(true) > 60, "{} found", found(true));
}

/// What differs where the reference lets that many quanta begin: call by call, and with the log run whole.
fn with_limit(most_quanta: u32, seed: u64) -> [Option<Part>; 2] {
    let random = &mut Random::new(seed);
    let plan = match seed % 2 {
        0 => marathon_draft(random),
        _ => gentle_marathon_draft(random),
    };
    let mut pair = pair(&plan, &plan);
    let log = marathon_log(random, pair.reference.clone());
    pair.reference = pair.reference.with_rules(Rules {
        most_quanta,
        ..Rules::default()
    });
    let totals = &mut Totals::default();
    let mut calls = pair.clone();
    let mut entries = Entries::new(&log).filter_map(Result::ok);
    let called = entries.try_for_each(|entry| calls.call(Call::from(entry), totals));
    let whole = pair.run_log(&log, totals);
    [called, whole].map(|found| found.err().map(|difference| difference.part))
}

#[test]
fn another_limit_of_quanta_is_found() {
    for seed in 0..4 {
        assert_eq!(with_limit(MOST_QUANTA, seed), [None, None]);
        for limit in [MOST_QUANTA - 1, MOST_QUANTA + 1, 65_535] {
            assert_eq!(with_limit(limit, seed), [Some("answer"), Some("log")]);
        }
    }
}

/// How plans are drawn: of forms 1 and 2, or of form 3.
type Drawn = fn(&mut Random) -> Draft;

/// In what the jobs of a generated case first differ where the reference follows those rules.
fn with_rules(rules: Rules, drawn: Drawn, seed: u64) -> Option<Part> {
    let random = &mut Random::new(seed);
    let plan = drawn(random);
    let mut pair = pair(&plan, &plan);
    let log = inputs::log(random, &pair.reference);
    pair.reference = pair.reference.with_rules(rules);
    let totals = &mut Totals::default();
    let mut entries = Entries::new(&log).filter_map(Result::ok);
    let called = entries.try_for_each(|entry| pair.call(Call::from(entry), totals));
    called.err().map(|difference| difference.part)
}

/// The same of so many cases, without those that do not differ.
fn parts_with(rules: Rules, drawn: Drawn, cases: u64) -> Vec<Part> {
    let parts = (0..cases).map(|seed| with_rules(rules, drawn, seed));
    parts.flatten().collect()
}

/// The same of bent rules, by which more than 25 of the cases differ.
fn parts_with_bent(rules: Rules, drawn: Drawn, cases: u64) -> Vec<Part> {
    let parts = parts_with(rules, drawn, cases);
    assert!(parts.len() > 25, "{} with {rules:?}", parts.len());
    parts
}

#[test]
fn the_right_rules_do_not_differ() {
    for drawn in [sound_draft, gentle_draft] {
        assert!(parts_with(Rules::default(), drawn, 1_000).is_empty());
    }
}

#[test]
fn another_theft_is_found() {
    let right = Rules::default();
    for theft in theft::BENT {
        // Not in all: most logs have few steals that succeed, and most of these take one task.
        let parts = parts_with_bent(Rules { theft, ..right }, sound_draft, 400);
        let part = if theft.each_succeeds {
            "successful steals"
        } else {
            "deques"
        };
        assert!(parts.contains(&part));
        // Each brings one deque into use, or none where it leaves nothing to the victim; so the bound holds.
        assert!(!parts.contains(&REFERENCE_BROKEN));
    }
    let shares = theft::BENT.map(|theft| theft.share);
    assert!(shares.contains(&Share::Whole));
}

#[test]
fn another_turn_is_found() {
    let right = Rules::default();
    for turn in withdrawal::BENT {
        // Not in all: it takes a grant that withdraws two deques, or one while others wait.
        let parts = parts_with_bent(Rules { turn, ..right }, sound_draft, 1_500);
        // The grant itself shows it, before anything is taken.
        assert!(parts.iter().all(|&part| part == "muggable deques"));
    }
}

#[test]
fn another_rest_is_found() {
    let right = Rules::default();
    for rest in rest::BENT {
        // Not in all: it takes a log that finishes its job, mostly with workers after the finisher.
        let parts = parts_with_bent(Rules { rest, ..right }, sound_draft, 1_000);
        let part = match rest {
            Rest::EachSucceeds => "successful steals",
            Rest::EachMugs => "usage",
            _ => "steal cycles",
        };
        assert!(parts.iter().all(|&found| found == part));
    }
}

#[test]
fn another_lasting_is_found() {
    let right = Rules::default();
    for lasting in lasting::BENT {
        // Not in all: it takes a plan of form 2, and a log that goes so far.
        let parts = parts_with_bent(Rules { lasting, ..right }, sound_draft, 1_000);
        let part = match lasting {
            Lasting::AnewWithdrawn | Lasting::AnewMugged | Lasting::AnewRobbed => "ticks left",
            Lasting::BegunIsWorked | Lasting::TicksAsWorked => "counters: worked",
            Lasting::WorkedAsTicks => "work cycles",
            Lasting::WorkedAsUsage => "usage",
            _ => "deques",
        };
        assert!(parts.contains(&part), "{lasting:?}: {parts:?}");
    }
}

/// How plans are drawn by which a rule differs from the request's: some differ at the top of one ratio alone.
fn drawn_for(pace: Pace) -> Drawn {
    match pace {
        Pace::IntoTheNextRow => |random| gentle_draft(random).gentle(12),
        Pace::AtMostSixtyThree | Pace::BelowSixtyFour => |random| gentle_draft(random).gentle(20),
        _ => gentle_draft,
    }
}

#[test]
fn another_pace_is_found() {
    let right = Rules::default();
    for pace in growth::BENT {
        let rules = Rules { pace, ..right };
        // Not in all: most logs do not climb to the top, and some never fall.
        let parts = parts_with_bent(rules, drawn_for(pace), 1_000);
        let part = match pace {
            Pace::PaddedWithTops => "power",
            _ => "desire",
        };
        assert!(parts.contains(&part), "{pace:?}: {parts:?}");
        // Forms 1 and 2 keep their own.
        assert!(parts_with(rules, sound_draft, 100).is_empty());
    }
}

#[test]
fn a_power_that_is_not_kept_is_found() {
    let pace = Pace::TenthsAlone;
    let rules = Rules {
        pace,
        ..Rules::default()
    };
    let parts = parts_with_bent(rules, sound_draft, 200);
    assert!(parts.iter().all(|&part| part == "power"));
    assert!(parts_with(rules, gentle_draft, 200).is_empty());
}

#[test]
fn another_ratio_is_found() {
    // 1.5 and 1.6 to the third power are above 3 and 4.
    let chain: Vec<Vec<u16>> = (1..9).map(|next| vec![next]).chain([vec![]]).collect();
    let mut plan = Draft::of_graph(&chain);
    (plan.utilization, plan.quantum_length) = (1, 1);
    let log = [&[1, 0x81, 0, 1, 0x81, 0][..], &[2, 0x82, 0, 0]].concat();
    let part = |tenths: u64, log: &[u8]| {
        let plans = [15, tenths].map(|tenths| plan.clone().gentle(tenths));
        part_after(pair(&plans[0], &plans[1]), log, log)
    };
    assert_eq!(part(15, &log), None);
    assert_eq!(part(16, &log[..6]), None);
    assert_eq!(part(16, &log), Some("desire"));
}

/// In what the jobs of a generated case first differ where the reference follows those rules, and half of the log's grants go by way of
/// offers. At the limit the case is one that spends every quantum.
fn with_offers(rules: Rules, at_the_limit: bool, seed: u64) -> Option<Part> {
    let random = &mut Random::new(seed);
    let plan = if at_the_limit {
        marathon_draft(random)
    } else {
        sound_draft(random)
    };
    let mut pair = pair(&plan, &plan);
    let log = if at_the_limit {
        marathon_log(random, pair.reference.clone())
    } else {
        inputs::log(random, &pair.reference)
    };
    pair.reference = pair.reference.with_rules(rules);
    let totals = &mut Totals::default();
    let mut walk = Walk::new(pair, random, totals, 128, 0);
    let found = walk.follow(&log).err();
    found.map(|difference| difference.part)
}

/// The same where it follows that rule of the note.
fn with_noting(noting: Noting, at_the_limit: bool, seed: u64) -> Option<Part> {
    let rules = Rules {
        noting,
        ..Rules::default()
    };
    with_offers(rules, at_the_limit, seed)
}

/// Whether a rule of the note is that some call asks this question, or does not.
fn is_about(noting: Noting, question: Refusal) -> bool {
    matches!(noting, Noting::Skips(_, asked) | Noting::AsksToo(_, asked) if asked == question)
}

#[test]
fn another_noting_is_found() {
    for noting in offer::BENT {
        let at_the_limit = is_about(noting, Refusal::QuantaExhausted);
        // Not in all: some logs are short, and some never finish their job.
        let (cases, least) = if at_the_limit { (4, 2) } else { (200, 26) };
        let parts: Vec<Part> = (0..cases)
            .filter_map(|seed| with_noting(noting, at_the_limit, seed))
            .collect();
        assert!(parts.len() >= least, "{} with {noting:?}", parts.len());
        let part = part_of(noting);
        assert!(parts.contains(&part), "{noting:?}: {parts:?}");
    }
}

/// In what a rule of the note differs from the request's.
fn part_of(noting: Noting) -> Part {
    match noting {
        Noting::Begins(_) | Noting::OpenNotBegun => "quanta begun",
        Noting::Opens(_) | Noting::OfferMoves | Noting::OpenedWhole => "allotment",
        Noting::OfferStarts => "started",
        Noting::ZeroIsNone | Noting::OpenKeeps | Noting::RestStays | Noting::WithdrawKeeps => {
            "offer"
        }
        Noting::LostBy(_) | Noting::DroppedBy(Kind::Tick) => "job after a refused call",
        Noting::DroppedBy(Kind::Log) | Noting::OpenedBy(Kind::Log) => "log",
        Noting::ZeroOpensNothing => "ticks of the open quantum",
        Noting::SatisfiedByOffer | Noting::EfficientByOffer => "desire",
        _ => "answer",
    }
}

#[test]
fn the_right_noting_does_not_differ() {
    // Whether 25 is asked after 13 or before 11 shows in no call: where an offer is noted, 11 to 13 are answered with yes.
    for noting in [Noting::default(), Noting::AskedFirst] {
        assert!((0..300).all(|seed| with_noting(noting, false, seed).is_none()));
        assert_eq!(with_noting(noting, true, 0), None);
    }
}

#[test]
fn another_source_of_deques_is_found() {
    let right = Rules::default();
    for source in lines::BENT {
        // Not in all: most logs withdraw few deques or none.
        let parts = parts_with_bent(Rules { source, ..right }, sound_draft, 2_000);
        // Most often the states differ before there are too many.
        let broken = parts.iter().filter(|&&part| part == REFERENCE_BROKEN);
        let broken = broken.count();
        assert!(broken > 10, "{broken} with {source:?}");
    }
}

/// By an idea of the largest count that is too small, the bound does not hold. One that is too large is told by the number alone.
#[test]
fn another_largest_count_is_found() {
    let parts_by = |largest: Largest| {
        let rules = Rules {
            largest,
            ..Rules::default()
        };
        let parts = (0..200).filter_map(|seed| with_offers(rules, false, seed));
        let parts: Vec<Part> = parts.collect();
        assert!(parts.len() > 25, "{} with {largest:?}", parts.len());
        parts
    };
    for largest in TOO_SMALL {
        assert!(parts_by(largest).contains(&REFERENCE_BROKEN), "{largest:?}");
    }
    for largest in TOO_LARGE {
        let parts = parts_by(largest);
        let number = |&part: &Part| part == "largest count granted so far";
        assert!(parts.iter().all(number), "{largest:?}");
    }
}

#[test]
fn other_counts_of_deques_are_found() {
    let mut jobs = pair(&fork(), &fork());
    let part = |pair: &Pair, largest| compare::bounds(&pair.proved, &pair.reference, largest);
    assert_eq!((deques_in_use(&jobs.proved), part(&jobs, 0)), (0, None));
    assert!(jobs.proved.grant(1).is_ok());
    assert_eq!(deques_in_use(&jobs.proved), 1);
    assert_eq!(part(&jobs, 0), Some("number of deques in use"));
    assert!(jobs.reference.grant(1).is_ok());
    assert_eq!(part(&jobs, 1), None);
    assert_eq!(part(&jobs, 0), Some("largest count granted so far"));
    assert_eq!(part(&jobs, 2), Some("largest count granted so far"));
    // A muggable deque is one of them.
    for log in [&[0x81, 0][..], &[0]] {
        assert_eq!(jobs.proved.run_log(log).refused_calls, 0);
    }
    assert_eq!(deques_in_use(&jobs.proved), 1);
}

/// The two states are the same, and by the calls that the pair made nothing was granted.
#[test]
fn too_many_deques_of_the_library_are_found() {
    let mut pair = pair(&fork(), &fork());
    assert!(pair.proved.grant(1).is_ok() && pair.reference.grant(1).is_ok());
    assert_eq!(compare::states(&pair.proved, &pair.reference), None);
    let totals = &mut Totals::default();
    let found = pair.compare(totals).map_err(|difference| difference.part);
    assert_eq!(found, Err(LIBRARY_BROKEN));
    let found = pair.call(Call::Tick(&[0]), totals).err();
    let text = found.map_or(String::new(), |difference| difference.to_string());
    let expected = [
        LIBRARY_BROKEN,
        "after Tick([0]): 1 deques in use, and that count is 0",
    ];
    assert!(text.lines().take(2).eq(expected), "{text}");
}

/// A deque that is withdrawn and mugged, and stays among the muggable ones: it is found after a worker's cycle, and in a log after the call.
#[test]
fn too_many_deques_of_the_reference_are_found() {
    let log = [1, 0x81, 0, 0, 0x80, 1, 0x81, 0];
    let source = Source::MugCopies;
    let mut pair = pair(&fork(), &fork());
    pair.reference = pair.reference.with_rules(Rules {
        source,
        ..Rules::default()
    });
    let totals = &mut Totals::default();
    let whole = pair.clone().run_log(&log, totals);
    let mut entries = Entries::new(&log).filter_map(Result::ok);
    let called = entries.try_for_each(|entry| pair.call(Call::from(entry), totals));
    let details = [
        "2 deques in use after the call, and the largest count granted so far is 1",
        "after Tick([0]): 2 deques in use after the cycle of worker 0, and the largest count granted so far is 1",
    ];
    for (found, detail) in [whole, called].into_iter().zip(details) {
        let text = found.err().map_or(String::new(), |found| found.to_string());
        let expected = [REFERENCE_BROKEN, detail];
        assert!(text.lines().take(2).eq(expected), "{text}");
    }
}

/// Two jobs of a generated plan with a seed, and the log of a seeded day; the reference draws by that rule.
fn with_drawing(drawing: Drawing, random: &mut Random) -> (Pair, Vec<u8>) {
    let plan = sound_draft(random);
    let mut pair = pair(&plan, &plan);
    pair.seeds = Seeds::new(random.next_u64() as u32);
    let log = seeded_log(random, pair.reference.clone(), pair.seeds.proved);
    pair.reference = pair.reference.with_rules(Rules {
        drawing,
        ..Rules::default()
    });
    (pair, log)
}

/// In what they first differ where all ticks are seeded, half of the grants go by way of offers and logs are kept.
fn walked_by_seed(drawing: Drawing, seed: u64) -> Option<Part> {
    let random = &mut Random::new(seed);
    let (pair, log) = with_drawing(drawing, random);
    let totals = &mut Totals::default();
    let found = Walk::new(pair, random, totals, 128, ALL).follow(&log);
    found.err().map(|difference| difference.part)
}

/// The same where no log is kept: the grants and seeded ticks of the day alone, and a seeded tick after each that closes a quantum.
fn called_by_seed(drawing: Drawing, seed: u64) -> Option<Part> {
    let (mut pair, log) = with_drawing(drawing, &mut Random::new(seed));
    let totals = &mut Totals::default();
    let mut entries = Entries::new(&log).filter_map(Result::ok);
    let called = entries.try_for_each(|entry| match entry {
        Entry::Grant(_) => pair.call(Call::from(entry), totals),
        Entry::Tick(_) => {
            pair.call(Call::Seeded, totals)?;
            match pair.reference.open_quantum() {
                None => pair.call(Call::Seeded, totals),
                Some(_) => Ok(()),
            }
        }
    });
    called.err().map(|difference| difference.part)
}

/// In what a rule of the draws differs from the request's, where a log is kept and where none is; the first in some case.
fn parts_of_drawing(drawing: Drawing) -> [&'static [Part]; 2] {
    let choices: [&[Part]; 2] = [
        &[OTHER_ENTRY, "deques", "successful steals"],
        &["deques", "successful steals"],
    ];
    match drawing {
        Drawing::OldState | Drawing::LowHalf | Drawing::LastFirst => choices,
        Drawing::ModuloMost => [&["answer", OTHER_ENTRY], &["answer"]],
        _ => [&[OTHER_SEED]; 2],
    }
}

#[test]
fn another_drawing_is_found() {
    type Finds = fn(Drawing, u64) -> Option<Part>;
    let ways: [Finds; 2] = [walked_by_seed, called_by_seed];
    for drawing in seed::BENT {
        for (found, expected) in ways.into_iter().zip(parts_of_drawing(drawing)) {
            // Not in all: it takes steals that succeed, a finish, a tick of none, or workers while no quantum is open.
            let parts: Vec<Part> = (0..200).filter_map(|seed| found(drawing, seed)).collect();
            assert!(parts.len() > 40, "{} with {drawing:?}", parts.len());
            assert!(parts.contains(&expected[0]), "{drawing:?}: {parts:?}");
            assert!(parts.iter().all(|part| expected.contains(part)));
        }
    }
    let right = Drawing::default();
    let found = |way: &Finds| (0..300).filter_map(|seed| way(right, seed)).count();
    assert_eq!(ways.map(|way| found(&way)), [0, 0]);
}

#[test]
fn another_seed_is_found() {
    let mut pair = pair(&fork(), &fork());
    let totals = &mut Totals::default();
    assert!(pair.call(Call::Grant(1), totals).is_ok());
    pair.seeds = Seeds::new(7);
    assert!(pair.clone().call(Call::Seeded, totals).is_ok());
    pair.seeds.reference = 8;
    let found = pair.call(Call::Seeded, totals).err();
    assert_eq!(found.map(|difference| difference.part), Some(OTHER_SEED));
    assert_eq!((pair.seeds.proved, pair.seeds.before), (after(7, 1), 7));
    // A refused call leaves it.
    let moved = Seeds {
        before: 6,
        ..Seeds::new(7)
    };
    assert_eq!(
        [true, false].map(|refused| moved.other(refused)),
        [Some(MOVED_SEED), None]
    );
    assert_eq!(
        [true, false].map(|refused| Seeds::new(7).other(refused)),
        [None; 2]
    );
}

/// Two jobs of the fork that have worked task 0 and then have two workers; worker 1 steals from the one that it chooses.
fn two_workers() -> Pair {
    let mut pair = pair(&fork(), &fork());
    let totals = &mut Totals::default();
    let calls = [Call::Grant(1), Call::Tick(&[0]), Call::Grant(2)];
    assert!(calls.iter().all(|&call| pair.call(call, totals).is_ok()));
    pair
}

#[test]
fn other_choices_than_the_drawn_are_found() {
    let mut pair = two_workers();
    let totals = &mut Totals::default();
    assert!(pair.call(Call::Seeded, totals).is_ok());
    // From 0 the choices are 15,470 and 18,256, both even.
    assert_eq!(
        (&pair.drawn[..], pair.seeds),
        (
            &[0, 0][..],
            Seeds {
                before: 0,
                ..Seeds::new(after(0, 2))
            }
        )
    );
    let found = |drawn: &[u8]| {
        let mut pair = pair.clone();
        pair.drawn = drawn.to_vec();
        pair.check_plain(Call::Seeded)
            .err()
            .map(|difference| difference.part)
    };
    assert_eq!([found(&[0, 0]), found(&[1, 0])], [None; 2]);
    // In vain, refused with 16 and refused with 17.
    for other in [&[0, 1][..], &[0], &[0, 2]] {
        assert_eq!(found(other), Some(NOT_PLAIN));
    }
}

#[test]
fn other_entries_are_found() {
    let pair = two_workers();
    let write = |entry: Written| Log::new(vec![0; 3], 0).write(entry);
    let by = |drawing| {
        let job = pair.reference.clone().with_rules(Rules {
            drawing,
            ..Rules::default()
        });
        write(Written::Seeded(&pair.proved, &job, 9))
    };
    assert_eq!(by(Drawing::OneEach), Ok(0));
    assert!(by(Drawing::ModuloMost).is_err());
    // Another allotment, in a buffer with room for both and in one that has it for the reference's alone.
    let mut job = pair.reference.clone();
    assert!(job.tick(&[0, 0]).is_ok() && job.grant(1).is_ok());
    for length in [3, 2] {
        let entry = Written::Seeded(&pair.proved, &job, 9);
        assert!(Log::new(vec![0; length], 0).write(entry).is_err());
    }
    let entries = [Written::Grant(1), Written::Tick(&[1, 0])];
    assert_eq!(entries.map(write), [Ok(0), Ok(0)]);
    assert_eq!(write(Written::Tick(&[0; 3])), Ok(20));
}

#[test]
fn another_end_of_a_stretch_is_found() {
    let part = |entries: &[Written], calls: &[u8]| {
        let pair = two_workers();
        let mut stretch = Stretch::new(&pair.proved, vec![0; 99]);
        assert!(entries
            .iter()
            .all(|&entry| stretch.log.write(entry) == Ok(0)));
        let mut ended = pair.proved;
        assert_eq!(ended.run_log(calls).refused_calls, 0);
        stretch.check(&ended).err().map(|(part, _)| part)
    };
    let (steal, vain) = (Written::Tick(&[0, 0]), Written::Tick(&[0, 1]));
    assert_eq!(part(&[], &[]), None);
    assert_eq!(part(&[steal], &[0x82, 0, 0]), None);
    assert_eq!(part(&[steal], &[0x82, 0, 1]), Some(OTHER_END));
    assert_eq!(part(&[vain], &[0x82, 0, 0]), Some(OTHER_END));
    assert_eq!(part(&[], &[0x82, 0, 0]), Some(OTHER_END));
    assert_eq!(part(&[steal, steal], &[0x82, 0, 0]), Some(REFUSED_IN_LOG));
}

/// Where what is written is not what was drawn, the log of a stretch ends elsewhere. Here the entries are of another seed.
#[test]
fn a_log_of_another_seed_is_found() {
    let (mut found, mut same) = (0, 0);
    for seed in 0..60 {
        let (mut pair, log) = with_drawing(Drawing::default(), &mut Random::new(seed));
        let mut stretches = [0, 1].map(|more| (Stretch::new(&pair.proved, vec![0; 9_999]), more));
        let totals = &mut Totals::default();
        for entry in Entries::new(&log).filter_map(Result::ok) {
            let call = match entry {
                Entry::Grant(_) => Call::from(entry),
                Entry::Tick(_) => Call::Seeded,
            };
            assert!(pair.call(call, totals).is_ok());
            for (stretch, more) in &mut stretches {
                let seed = pair.seeds.before.wrapping_add(*more << 20);
                let written = match entry {
                    Entry::Grant(workers) => Written::Grant(workers as u64),
                    Entry::Tick(_) => Written::Seeded(&pair.proved, &pair.reference, seed),
                };
                assert_eq!(stretch.log.write(written), Ok(0));
            }
        }
        let [right, other] = stretches.map(|(stretch, _)| stretch.check(&pair.proved).is_err());
        same += usize::from(!right);
        found += usize::from(other);
    }
    assert!(same == 60 && found > 20, "{same} and {found}");
}

/// How many of so many generated plans are answered otherwise by each bent reading.
fn read_otherwise(plans: u64) -> Vec<usize> {
    let mut found = vec![0; form::BENT.len()];
    for seed in 0..plans {
        let plan = inputs::plan(&mut Random::new(seed));
        for (place, (reading, _)) in form::BENT.into_iter().enumerate() {
            let rules = Rules {
                reading,
                ..Rules::default()
            };
            let reference = Reference::accept_with(&plan, rules);
            let totals = &mut Totals::default();
            let same = answered(&plan, Proved::accept(&plan), reference, totals);
            found[place] += usize::from(same.is_err());
        }
    }
    found
}

#[test]
fn another_reading_is_found() {
    let found = read_otherwise(6_500);
    for ((_, name), found) in form::BENT.iter().zip(found) {
        assert!(found > 25, "{found} with {name}");
    }
}

/// How many of 2,000 counters lines differ where the reference counts digits so.
fn lines_with(digits: DigitCount) -> usize {
    let random = &mut Random::new(7);
    let mut pair = pair(&fork(), &fork());
    pair.reference = pair.reference.with_rules(Rules {
        digits,
        ..Rules::default()
    });
    let totals = &mut Totals::default();
    let mut walk = Walk::new(pair, random, totals, 0, 0);
    let found = (0..2_000).filter_map(|_| walk.show_line().err());
    found
        .inspect(|difference| assert_eq!(difference.part, "counters line"))
        .count()
}

#[test]
fn another_digit_count_is_found() {
    let right = DigitCount::default();
    let wrong = [
        // 0 has no digits.
        DigitCount {
            of_zero: 0,
            ..right
        },
        // A power of ten has one digit fewer; one less than it has one more.
        DigitCount {
            above_by: 0,
            ..right
        },
        DigitCount {
            above_by: 2,
            ..right
        },
        // The largest number has 19.
        DigitCount { most: 19, ..right },
    ];
    assert_eq!(lines_with(right), 0);
    for digits in wrong {
        let found = lines_with(digits);
        assert!(found > 100, "{found} with {digits:?}");
    }
}

#[test]
fn a_moved_job_is_found_after_a_refused_call() {
    let mut pair = pair(&fork(), &fork());
    let totals = &mut Totals::default();
    assert!(pair.call(Call::Grant(1), totals).is_ok());
    assert!(pair.reference.tick(&[0]).is_ok() && pair.reference.grant(1).is_ok());
    let found = pair
        .call(Call::Grant(1), totals)
        .map_err(|difference| difference.part);
    assert_eq!(found, Err("job after a refused call"));
    let found = pair
        .call(Call::Tick(&[0, 0]), totals)
        .map_err(|difference| difference.part);
    assert_eq!(found, Err("job after a refused call"));
    assert!(pair.proved.tick(&[0]).is_ok());
    let found = pair
        .call(Call::Tick(&[0]), totals)
        .map_err(|difference| difference.part);
    assert_eq!(found, Err("answer"));
}

#[test]
fn a_moved_note_is_found_after_a_refused_call() {
    let refused = [
        Call::Grant(0),
        Call::Grant(2),
        Call::Offer(0),
        Call::Offer(2),
        Call::Tick(&[]),
        Call::Open(2),
    ];
    for call in refused {
        let mut pair = pair(&fork(), &fork());
        let totals = &mut Totals::default();
        assert!(pair.call(Call::Offer(1), totals).is_ok());
        assert!(pair.clone().call(call, totals).is_ok());
        assert!(pair.reference.withdraw().is_ok() && pair.reference.offer(0).is_ok());
        let found = pair.call(call, totals).err();
        let part = found.map(|difference| difference.part);
        assert_eq!(part, Some("job after a refused call"), "{call:?}");
    }
}

#[test]
fn a_log_that_finds_another_note_is_found() {
    let mut pair = pair(&fork(), &fork());
    let totals = &mut Totals::default();
    assert!(pair.call(Call::Offer(1), totals).is_ok());
    assert!(pair.clone().run_log(&[1, 0x81, 0], totals).is_ok());
    assert_eq!(totals.log_refusals[25], 1);
    assert!(pair.reference.withdraw().is_ok());
    let found = pair.run_log(&[1, 0x81, 0], totals).err();
    assert_eq!(found.map(|difference| difference.part), Some("log"));
}

#[test]
fn other_logs_lines_and_wordings_are_found() {
    let mut pair = pair(&fork(), &fork());
    assert!(pair.reference.grant(0).is_ok());
    let totals = &mut Totals::default();
    let found = pair
        .clone()
        .run_log(&[0], totals)
        .map_err(|difference| difference.part);
    assert_eq!(found, Err("log"));
    assert!(pair.reference.tick(&[]).is_ok() && pair.reference.grant(1).is_ok());
    let random = &mut Random::new(1);
    let mut walk = Walk::new(pair, random, totals, 0, 0);
    let parts: Vec<Part> = (0..50)
        .filter_map(|_| walk.show().err())
        .map(|d| d.part)
        .collect();
    assert!(parts.contains(&"wording") && parts.contains(&"status"));
    assert_eq!(parts.len(), 50);
}

fn options(calls: u64, seed: u64, case: Option<u64>) -> Options {
    Options {
        calls,
        time: Duration::from_secs(600),
        seed,
        case,
    }
}

#[test]
fn a_run_reaches_every_refusal() {
    let mut totals = Totals::default();
    let ran = run(&options(1_000_000, 3, None), &mut totals);
    assert!(
        ran.is_ok(),
        "{}",
        ran.err().map_or(String::new(), |found| found.to_string())
    );
    assert!(totals.calls >= 1_000_000 && totals.states > totals.calls);
    let numbers = jirvaldo::Refusal::ALL.map(|refusal| usize::from(refusal.number()));
    assert!(numbers.iter().all(|&number| totals.refusals[number] > 0));
    assert!(totals.log_refusals[11..=17].iter().all(|&count| count > 0));
    assert!(totals.log_refusals[25] > 0 && totals.noted_logs > 0);
    assert_eq!(totals.offers.missing(), [""; 0]);
    assert_eq!(totals.in_use.missing(), 0, "{}", totals.in_use);
    assert_eq!(totals.seeded.missing(), 0, "{}", totals.seeded);
    assert!(totals.noted_replacements.iter().all(|&count| count > 0));
    assert!(totals.responsiveness[2..].iter().all(|&count| count > 0));
    assert!(totals.ratios.iter().all(|(_, powers)| powers.plans > 0));
    assert_eq!(totals.ratios.missing(), [""; 0]);
    assert!(totals.ticks[0] > 0 && totals.ticks[64] > 0);
    assert!(totals.digits[1..].iter().all(|&count| count > 0));
    assert!(totals.thefts.iter().all(|&count| count > 0));
    assert!(totals.withdrawals.iter().all(|&count| count > 0) && totals.behind > 0);
    assert!(totals.finishes.iter().all(|&count| count > 0));
    assert!(totals.lasting.iter().all(|&count| count > 0));
    assert!(totals.ticks_of_tasks.iter().all(|&count| count > 0));
    assert!(totals.begun.iter().all(|&count| count > 0));
}

#[test]
fn the_same_seed_gives_the_same_cases() {
    let totals = |seed| {
        let mut totals = Totals::default();
        let ran = (1..60).all(|case| run(&options(0, seed, Some(case)), &mut totals).is_ok());
        (ran, totals)
    };
    assert_eq!(totals(8), totals(8));
    assert!(totals(8).0 && totals(8).1 != totals(9).1);
}

#[test]
fn arguments() {
    let read = |text: &str| {
        Options::read(
            &text
                .split_whitespace()
                .map(String::from)
                .collect::<Vec<_>>(),
        )
    };
    let run = read("--calls 7 --seed 9 --case 3").expect("options");
    assert_eq!((run.calls, run.seed, run.case), (7, 9, Some(3)));
    assert_eq!(
        read("--seconds 2").map(|run| (run.calls, run.time)),
        Ok((u64::MAX, Duration::from_secs(2)))
    );
    assert_eq!(read("").map(|run| run.seed), Ok(1));
    for wrong in [
        "--calls",
        "--calls -1",
        "--calls x",
        "--other 1",
        "7",
        "--seed 1 --calls",
    ] {
        assert!(read(wrong).is_err(), "{wrong}");
    }
}
