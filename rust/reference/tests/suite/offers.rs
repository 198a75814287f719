//! Request U5: offer first, then open.

use reference::generator::offers::calls;
use reference::generator::plans::Draft;
use reference::generator::{cases, Case, Random};
use reference::MOST_QUANTA;
use reference::{offer, program_output, program_output_with, run_log, run_log_with};
use reference::{Call, Entries, Entry, Job, Noting, OpenQuantum, Refusal, Rules, Status};

use super::{hex, job, PLAN_A};

/// A call is refused with this number and leaves the job as it was, the note
/// too.
fn refused(job: &mut Job, number: u8, call: Call) {
    let before = job.clone();
    let answer = call.apply(job).err().map(Refusal::number);
    assert_eq!(answer, Some(number), "{call:?}");
    assert_eq!(*job, before, "{call:?}");
}

/// Calls that are all accepted.
fn accepted(job: &mut Job, calls: &[Call]) {
    for call in calls {
        let answer = call.apply(job).err();
        assert_eq!(answer, None, "{call:?}");
    }
}

/// A chain of so many tasks, of which one worker at a time is of use, in quanta
/// of one tick.
fn chain(count: u16, utilization: u64) -> Job {
    let graph: Vec<Vec<u16>> = (1..count).map(|next| vec![next]).collect();
    let mut draft = Draft::of_graph(&[graph, vec![vec![]]].concat());
    draft.utilization = utilization;
    draft.quantum_length = 1;
    job(&draft.bytes())
}

/// Plan A's job with a desire of 2: two of its four tasks are worked.
fn wants_two() -> Job {
    let mut job = job(&hex(PLAN_A));
    let ticks = [Call::Tick(&[0]), Call::Tick(&[0])];
    accepted(&mut job, &[&[Call::Grant(1)], &ticks[..]].concat());
    assert_eq!((job.desire(), job.open_quantum()), (2, None));
    job
}

#[test]
fn an_offer_only_notes_its_count() {
    for count in [0, 1] {
        let before = job(&hex(PLAN_A));
        let mut job = before.clone();
        assert_eq!(job.noted_offer(), None);
        accepted(&mut job, &[Call::Offer(count)]);
        assert_eq!(job.noted_offer(), Some(count));
        assert_eq!((job.status(), job.quanta_begun()), (Status::Fresh, 0));
        assert_eq!((job.allotment(), job.open_quantum()), (0, None));
        assert!(!job.ever_granted() && job.muggable_deques().is_empty());
        // Without the note nothing is new.
        accepted(&mut job, &[Call::Withdraw]);
        assert_eq!(job, before);
    }
}

#[test]
fn an_offer_moves_no_line() {
    let mut job = wants_two();
    assert_eq!(job.deques(), [vec![2]]);
    accepted(&mut job, &[Call::Offer(0)]);
    assert_eq!(job.deques(), [vec![2]]);
    assert_eq!((job.status(), job.allotment()), (Status::Running, 1));
    accepted(&mut job, &[Call::Open(0)]);
    assert_eq!(job.muggable_deques(), [&vec![2]]);
    assert_eq!((job.status(), job.allotment()), (Status::Held, 0));
}

#[test]
fn an_opening_is_a_grant_of_the_opened_count() {
    for (offered, opened) in [(0, 0), (1, 0), (1, 1), (2, 0), (2, 1), (2, 2)] {
        let (mut one, mut other) = (wants_two(), wants_two());
        accepted(&mut one, &[Call::Offer(offered)]);
        let report = one.open(opened);
        assert_eq!(report, other.grant(opened));
        assert_eq!(one, other);
        assert_eq!(one.open_quantum(), Some(OpenQuantum::default()));
        assert_eq!((one.noted_offer(), one.quanta_begun()), (None, 2));
    }
    // The first one above 0 hands out task 0.
    let mut job = job(&hex(PLAN_A));
    accepted(&mut job, &[Call::Offer(1), Call::Open(1)]);
    assert_eq!(job.deques(), [vec![0]]);
}

#[test]
fn nothing_offered_and_nothing_opened() {
    let mut job = chain(3, 1);
    accepted(&mut job, &[Call::Offer(0)]);
    refused(&mut job, 14, Call::Open(1));
    refused(&mut job, 25, Call::Offer(0));
    accepted(&mut job, &[Call::Open(0), Call::Tick(&[])]);
    assert_eq!((job.quanta_begun(), job.status()), (1, Status::Fresh));
    // 0 of 1: efficient, since none was there, and not satisfied.
    accepted(&mut job, &[Call::Offer(1), Call::Open(0), Call::Tick(&[])]);
    assert_eq!((job.quanta_begun(), job.desire()), (2, 1));
}

#[test]
fn questions_of_an_offer_in_order() {
    let mut job = job(&hex(PLAN_A));
    refused(&mut job, 14, Call::Offer(2));
    refused(&mut job, 14, Call::Offer(usize::MAX));
    accepted(&mut job, &[Call::Offer(1)]);
    // 25 and not 14.
    for count in [0, 1, 2, usize::MAX] {
        refused(&mut job, 25, Call::Offer(count));
        refused(&mut job, 25, Call::Grant(count));
    }
    for choices in [&[][..], &[0], &[9, 9]] {
        refused(&mut job, 15, Call::Tick(choices));
    }
    accepted(&mut job, &[Call::Open(1)]);
    refused(&mut job, 12, Call::Offer(1));
    refused(&mut job, 12, Call::Offer(99));
    let ticks = [Call::Tick(&[0]); 2];
    accepted(&mut job, &[&ticks[..], &[Call::Grant(1)], &ticks].concat());
    assert_eq!(job.status(), Status::Finished);
    for count in [0, 2, 99] {
        refused(&mut job, 11, Call::Offer(count));
    }
}

#[test]
fn questions_of_an_opening_and_a_withdrawal() {
    let mut job = wants_two();
    let without = |job: &mut Job| {
        for call in [Call::Open(0), Call::Open(1), Call::Open(99), Call::Withdraw] {
            refused(job, 24, call);
        }
    };
    without(&mut job);
    accepted(&mut job, &[Call::Offer(1)]);
    // Above the offer, also up to the desire; then the offer still stands.
    for count in [2, 3, 257, usize::MAX] {
        refused(&mut job, 14, Call::Open(count));
    }
    assert_eq!(job.noted_offer(), Some(1));
    accepted(&mut job, &[Call::Open(1)]);
    // They ask neither 11 nor 12.
    without(&mut job);
    accepted(&mut job, &[Call::Tick(&[0]), Call::Tick(&[0])]);
    assert_eq!(job.status(), Status::Finished);
    without(&mut job);
}

#[test]
fn a_withdrawn_offer_leaves_room_for_another_and_for_a_grant() {
    let mut job = wants_two();
    accepted(&mut job, &[Call::Offer(2), Call::Withdraw]);
    refused(&mut job, 24, Call::Withdraw);
    refused(&mut job, 24, Call::Open(2));
    accepted(&mut job, &[Call::Offer(0), Call::Withdraw, Call::Grant(2)]);
    let mut other = wants_two();
    accepted(&mut other, &[Call::Grant(2)]);
    assert_eq!(job, other);
}

/// A quantum of an offer: so many offered, and so many opened, who all choose
/// worker 0. Returns the desire after it.
fn opened(job: &mut Job, offered: usize, opened: usize) -> usize {
    let choices = vec![0; opened];
    let calls = [
        Call::Offer(offered),
        Call::Open(opened),
        Call::Tick(&choices),
    ];
    accepted(job, &calls);
    job.desire()
}

/// A chain's job with a desire of 4.
fn wants_four(utilization: u64) -> Job {
    let mut job = chain(40, utilization);
    assert_eq!((opened(&mut job, 1, 1), opened(&mut job, 2, 2)), (2, 4));
    job
}

/// One of the opened workers is of use; 4 are wanted.
#[test]
fn satisfied_by_the_opened_count() {
    let desire = |offered, count| opened(&mut wants_four(1), offered, count);
    assert_eq!(desire(4, 4), 8);
    // Efficient and not satisfied, whatever was offered.
    for (offered, count) in [(4, 3), (4, 1), (4, 0), (3, 3), (1, 1), (0, 0)] {
        assert_eq!(desire(offered, count), 4, "{count} of {offered}");
    }
}

#[test]
fn efficient_by_the_opened_count() {
    let desire = |offered, count| opened(&mut wants_four(50), offered, count);
    // One of two is 50 percent, of three it is less.
    assert_eq!((desire(4, 2), desire(3, 2), desire(2, 2)), (4, 4, 4));
    assert_eq!((desire(4, 3), desire(3, 3), desire(4, 4)), (2, 2, 2));
}

/// An offer is no round begun: with 4,095 begun it can be offered and withdrawn
/// as often as one likes.
#[test]
fn thirteen_for_offers() {
    let mut job = chain(1, 1);
    assert_eq!(run_log(&mut job, &[0x00, 0x80].repeat(4_095)).refused, 0);
    for _ in 0..9 {
        accepted(&mut job, &[Call::Offer(1), Call::Withdraw]);
    }
    refused(&mut job, 14, Call::Offer(2));
    accepted(&mut job, &[Call::Offer(1)]);
    assert_eq!(job.quanta_begun(), 4_095);
    refused(&mut job, 25, Call::Offer(2));
    accepted(&mut job, &[Call::Open(0)]);
    assert_eq!(job.quanta_begun(), 4_096);
    refused(&mut job, 12, Call::Offer(0));
    accepted(&mut job, &[Call::Tick(&[])]);
    for count in [0, 1, 2, 99] {
        refused(&mut job, 13, Call::Offer(count));
        refused(&mut job, 24, Call::Open(count));
    }
    refused(&mut job, 24, Call::Withdraw);
}

/// A log has grants and ticks alone, and does not move a job with an offer.
#[test]
fn a_log_on_a_noted_job() {
    let log = hex("01 02 81 00 80 00 7f 82 00");
    for count in [0, 1] {
        let mut job = job(&hex(PLAN_A));
        accepted(&mut job, &[Call::Offer(count)]);
        let before = job.clone();
        let mut numbers = Vec::new();
        let outcome = run_log_with(&mut job, &log, |_, _, answer| {
            numbers.extend(answer.as_ref().err().map(|refusal| refusal.number()));
        });
        assert_eq!(numbers, [25, 25, 15, 15, 25, 25]);
        assert_eq!(outcome.refused, 6);
        assert_eq!(outcome.broken, Some(Refusal::EntryBroken));
        assert_eq!(job, before);
        // After the withdrawal the same log is as on a fresh job.
        accepted(&mut job, &[Call::Withdraw]);
        assert_eq!(run_log(&mut job, &log).refused, 4);
        assert_eq!(job.quanta_begun(), 1);
    }
}

/// Two jobs of a log: one whose grants go by way of offers, and one whose grants
/// do not. While an offer is noted, they differ in it alone.
#[test]
fn an_opening_moves_a_history_as_a_grant() {
    let mut rows = 0;
    for (seed, case) in (0..).zip(cases(8).take(400)) {
        let random = &mut Random::new(seed);
        let (mut one, mut other) = match Job::accept(&case.plan) {
            Ok(job) => (job.clone(), job),
            Err(_) => continue,
        };
        for entry in Entries::new(&case.log).filter_map(Result::ok) {
            let calls = calls(random, &one, entry, 128);
            let mut reports = Vec::new();
            for call in &calls {
                reports.extend(call.apply(&mut one).ok().flatten());
                let mut copy = one.clone();
                assert!(copy.withdraw().is_err() || copy == other, "{calls:?}");
            }
            let answer = entry.apply(&mut other);
            assert_eq!(one, other, "{calls:?}");
            assert_eq!(reports, answer.into_iter().collect::<Vec<_>>());
            rows += usize::from(calls.len() > 1);
        }
    }
    assert!(rows > 10_000, "{rows} rows");
}

/// A log has no offers, so that no program shows a rule of the note.
#[test]
fn bent_rules_show_in_offers_alone() {
    for noting in offer::BENT.into_iter().chain([Noting::AskedFirst]) {
        let rules = Rules {
            noting,
            ..Rules::default()
        };
        for case in cases(6).take(40) {
            let printed = program_output_with(&case.input, rules);
            assert_eq!(printed, program_output(&case.input), "{noting:?}");
        }
    }
}

/// So that it does not show whether 25 is asked after 11 to 13 or before.
#[test]
fn an_offer_is_noted_only_where_11_to_13_pass() {
    for case in cases(12).take(300) {
        let random = &mut Random::new(case.log.len() as u64);
        let mut job = match Job::accept(&case.plan) {
            Ok(job) => job,
            Err(_) => continue,
        };
        for entry in Entries::new(&case.log).filter_map(Result::ok) {
            for call in calls(random, &job, entry, 200) {
                let free = job.open_quantum().is_none() && !job.is_finished();
                let more = job.quanta_begun() < MOST_QUANTA;
                assert!(job.noted_offer().is_none() || free && more);
                let _ = call.apply(&mut job);
            }
        }
    }
}

/// Each bent rule is told apart by three cases, whose grants go by way of
/// offers.
#[test]
fn bent_rules_are_told_apart() {
    let mut found = [0; offer::BENT.len()];
    for case in cases(2).take(700) {
        for (noting, found) in offer::BENT.into_iter().zip(&mut found) {
            *found += usize::from(*found < 3 && tells_apart(noting, &case));
        }
    }
    for (noting, found) in offer::BENT.into_iter().zip(found) {
        assert!(found > 2, "{found} with {noting:?}");
    }
}

/// Whether a case's calls tell a rule from the request's.
fn tells_apart(noting: Noting, case: &Case) -> bool {
    let rules = Rules {
        noting,
        ..Rules::default()
    };
    let mut right = match Job::accept(&case.plan) {
        Ok(job) => job,
        Err(_) => return false,
    };
    let (mut bent, random) = (right.clone().with_rules(rules), &mut Random::new(7));
    for entry in Entries::new(&case.log).filter_map(Result::ok) {
        for call in calls(random, &right, entry, 64) {
            let same = call.apply(&mut right) == call.apply(&mut bent);
            let tick = matches!(call, Call::Tick(_));
            if !same || !tick && (differ(&right, &bent) || log_differs(&right, &bent)) {
                return true;
            }
        }
    }
    false
}

/// Whether two jobs differ in more than their rules.
fn differ(right: &Job, bent: &Job) -> bool {
    right.clone().with_rules(bent.rules()) != *bent
}

/// Whether a log differs on copies of two jobs, if an offer is noted.
fn log_differs(right: &Job, bent: &Job) -> bool {
    let (mut right, mut bent) = (right.clone(), bent.clone());
    right.noted_offer().is_some()
        && (run_log(&mut right, &[1, 0x80]) != run_log(&mut bent, &[1, 0x80])
            || differ(&right, &bent))
}

/// A tick of a log keeps its choices.
#[test]
fn entries_as_calls() {
    let log = [0x03, 0x82, 0x07, 0x08];
    let entries: Vec<Entry> = Entries::new(&log).filter_map(Result::ok).collect();
    let calls: Vec<Call> = entries.into_iter().map(Call::from).collect();
    assert_eq!(calls, [Call::Grant(3), Call::Tick(&[7, 8])]);
}
