//! Acceptance: refusals 1 to 10 and 28, and the smallest and largest plans.

use jirvaldo::inspect::State;
use jirvaldo::{Refusal, LONGEST_PLAN};

use super::{chain, gentle, hex, job, lasting, number, plan, plan_a, DIAMOND, PLAN_A};

/// Plan A with other bytes from a place on.
fn changed(place: usize, bytes: &[u8]) -> Vec<u8> {
    let mut plan = hex(PLAN_A);
    plan[place..place + bytes.len()].copy_from_slice(bytes);
    plan
}

#[test]
fn every_plan_refusal() {
    assert_eq!(number(&[]), 1);
    assert_eq!(number(&hex("15 40 00 08")), 1);
    assert_eq!(number(&changed(0, &[0x05])), 2);
    assert_eq!(number(&changed(0, &[0x45])), 2);
    assert_eq!(number(&changed(0, &[0xf5])), 2);
    assert_eq!(number(&plan(1, 80, 2, &DIAMOND)), 3);
    assert_eq!(number(&plan(2, 0, 2, &DIAMOND)), 4);
    assert_eq!(number(&plan(2, 101, 2, &DIAMOND)), 4);
    assert_eq!(number(&plan(2, 80, 0, &DIAMOND)), 5);
    assert_eq!(number(&hex(PLAN_A)[..16]), 6);
    assert_eq!(number(&[&hex(PLAN_A)[..], &[0]].concat()), 6);
    assert_eq!(number(&changed(5, &[0xc0])), 7);
    assert_eq!(number(&changed(16, &[1])), 7);
    assert_eq!(number(&plan(2, 80, 2, &[&[1, 1], &[2], &[3], &[]])), 8);
    assert_eq!(number(&plan(2, 80, 2, &[&[1, 2], &[1], &[3], &[]])), 8);
    assert_eq!(number(&plan(2, 80, 2, &[&[1, 4], &[3], &[3], &[]])), 8);
    assert_eq!(number(&plan(2, 80, 2, &[&[1], &[3], &[3], &[]])), 9);
    assert_eq!(number(&plan(2, 80, 2, &[&[1, 3], &[2, 3], &[3], &[]])), 9);
    assert_eq!(number(&plan(2, 80, 2, &[&[1, 2], &[], &[3], &[]])), 10);
}

/// Plan A in form 2, with these ticks, and another byte at a place.
fn a_task_changed(ticks: [u8; 4], place: usize, byte: u8) -> Vec<u8> {
    let mut plan = lasting(&hex(PLAN_A), &ticks);
    plan[place] = byte;
    plan
}

#[test]
fn every_plan_refusal_of_form_2() {
    let sound = |tasks: &[&[u32]]| lasting(&plan(2, 80, 2, tasks), &vec![2; tasks.len()]);
    assert_eq!(number(&sound(&DIAMOND)), 0);
    assert_eq!(number(&hex("25 40 00 08")), 1);
    assert_eq!(number(&lasting(&plan(1, 80, 2, &DIAMOND), &[1; 4])), 3);
    assert_eq!(number(&lasting(&plan(2, 0, 2, &DIAMOND), &[1; 4])), 4);
    assert_eq!(number(&lasting(&plan(2, 80, 0, &DIAMOND), &[1; 4])), 5);
    assert_eq!(number(&a_task_changed([2; 4], 5, 0xc0)), 7);
    assert_eq!(number(&a_task_changed([2; 4], 19, 1)), 7);
    assert_eq!(number(&sound(&[&[1, 1], &[2], &[3], &[]])), 8);
    assert_eq!(number(&sound(&[&[1], &[3], &[3], &[]])), 9);
    assert_eq!(number(&sound(&[&[1, 2], &[], &[3], &[]])), 10);
    for task in 0..4 {
        assert_eq!(number(&a_task_changed([2; 4], 8 + 4 * task, 0)), 28);
    }
}

/// Plan A in form 3, with 15 tenths.
const GENTLE_A: &str = "37 d0 00 08 03  80 08 02  40 18 00  40 18 00  00 00 00";

#[test]
fn every_plan_refusal_of_form_3() {
    let sound = |tasks: &[&[u32]]| gentle(&plan(2, 80, 2, tasks), 15);
    assert_eq!(sound(&DIAMOND), hex(GENTLE_A));
    assert_eq!(number(&hex(GENTLE_A)), 0);
    assert_eq!(number(&hex("37 d0 00 08")), 1);
    assert_eq!(number(&gentle(&plan(2, 0, 2, &DIAMOND), 15)), 4);
    assert_eq!(number(&gentle(&plan(2, 101, 2, &DIAMOND), 15)), 4);
    assert_eq!(number(&gentle(&plan(2, 127, 2, &DIAMOND), 15)), 4);
    assert_eq!(number(&gentle(&plan(2, 80, 0, &DIAMOND), 15)), 5);
    assert_eq!(number(&hex(GENTLE_A)[..16]), 6);
    assert_eq!(number(&[&hex(GENTLE_A)[..], &[0]].concat()), 6);
    let mut unused = hex(GENTLE_A);
    unused[16] = 1;
    assert_eq!(number(&unused), 7);
    assert_eq!(number(&sound(&[&[1, 1], &[2], &[3], &[]])), 8);
    assert_eq!(number(&sound(&[&[1], &[3], &[3], &[]])), 9);
    assert_eq!(number(&sound(&[&[1, 2], &[], &[3], &[]])), 10);
}

/// 12 to 20 pass; all others of five bits are refused, before a wrong D is.
#[test]
fn the_tenths_of_form_3() {
    for tenths in 0..32 {
        let passes = (12..=20).contains(&tenths);
        let answers = if passes { (0, 4) } else { (3, 3) };
        let (sound, no_utilization) = (hex(PLAN_A), plan(2, 0, 2, &DIAMOND));
        let number = |plan: &[u8]| number(&gentle(plan, tenths));
        assert_eq!((number(&sound), number(&no_utilization)), answers);
    }
}

/// 28 comes after 7 and 8 of its own task, and before those of the next one; after 6, and before 9 and 10.
#[test]
fn the_place_of_28() {
    let bad_fields = 0xc0; // a successor count of 3, at a task's first byte
    let itself = 0x00; // task 0 of Plan A is followed by 0 and 2
    assert_eq!(number(&a_task_changed([0, 1, 1, 1], 5, bad_fields)), 7);
    assert_eq!(number(&a_task_changed([0, 1, 1, 1], 6, itself)), 8);
    assert_eq!(number(&a_task_changed([1, 0, 1, 1], 5, bad_fields)), 7);
    assert_eq!(number(&a_task_changed([1, 0, 1, 1], 6, itself)), 8);
    assert_eq!(number(&a_task_changed([0, 1, 1, 1], 9, bad_fields)), 28);
    assert_eq!(number(&a_task_changed([0, 1, 1, 1], 10, 0x08)), 28); // task 1 is followed by itself
    assert_eq!(number(&a_task_changed([1, 1, 1, 1], 10, 0x08)), 8);
    let last_of_none = |tasks: &[&[u32]]| lasting(&plan(2, 80, 2, tasks), &[1, 1, 1, 0]);
    assert_eq!(number(&last_of_none(&[&[1], &[3], &[3], &[]])), 28);
    assert_eq!(number(&last_of_none(&[&[1, 2], &[], &[3], &[]])), 28);
    assert_eq!(number(&last_of_none(&DIAMOND)[..20]), 6);
}

#[test]
fn the_length_is_the_forms_own() {
    let (short, long) = (hex(PLAN_A), lasting(&hex(PLAN_A), &[1, 2, 3, 255]));
    assert_eq!((short.len(), long.len()), (17, 21));
    assert_eq!(number(&changed(0, &[0x25])), 6);
    assert_eq!(number(&a_task_changed([1; 4], 0, 0x15)), 6);
    assert_eq!(number(&long), 0);
    assert_eq!(number(&long[..20]), 6);
    assert_eq!(number(&long[..17]), 6);
    assert_eq!(number(&[&long[..], &[1]].concat()), 6);
    assert_eq!(number(&gentle(&short, 12)), 0);
    assert_eq!(number(&[&gentle(&short, 12)[..5], &long[5..]].concat()), 6);
}

#[test]
fn edges_of_the_fields() {
    for responsiveness in 2..=7 {
        assert_eq!(number(&plan(responsiveness, 1, 65_535, &DIAMOND)), 0);
        assert_eq!(number(&plan(responsiveness, 100, 1, &DIAMOND)), 0);
    }
    for tenths in 12..=20 {
        assert_eq!(number(&gentle(&plan(2, 1, 16_383, &DIAMOND), tenths)), 0);
        assert_eq!(number(&gentle(&plan(2, 100, 1, &DIAMOND), tenths)), 0);
    }
    assert_eq!(number(&plan(2, 80, 2, &[&[2, 1], &[3], &[3], &[]])), 0);
}

#[test]
fn the_smallest_and_the_largest_plan() {
    assert_eq!(number(&chain(1)), 0);
    assert_eq!(number(&chain(1024)), 0);
    assert_eq!(chain(1024).len(), 3077);
    let state = State::of(&job(&chain(1024)));
    assert_eq!(state.plan.successors.len(), 1024);
    assert_eq!(state.plan.successors[1022], [1023]);
    // One task more wraps the header's count; with the largest count the length does not fit.
    assert_eq!(number(&chain(1025)), 6);
    let mut past = chain(1024);
    past.extend([0, 0, 0]);
    assert_eq!(number(&past), 6);
    assert_eq!(number(&vec![0x15; 1 << 20]), 6);
}

#[test]
fn the_smallest_and_the_largest_plan_of_form_2() {
    assert_eq!(number(&lasting(&chain(1), &[1])), 0);
    let mut longest = lasting(&chain(1024), &[255; 1024]);
    assert_eq!((longest.len(), LONGEST_PLAN), (4101, 4101));
    let state = State::of(&job(&longest));
    assert_eq!(
        (state.plan.successors.len(), state.left.len()),
        (1024, 1024)
    );
    assert_eq!(state.plan.durations, [255; 1024]);
    assert_eq!(number(&longest[..4100]), 6);
    longest.push(1);
    assert_eq!(number(&longest), 6);
    assert_eq!(number(&vec![0x25; 1 << 20]), 6);
}

#[test]
fn the_smallest_and_the_largest_plan_of_form_3() {
    assert_eq!(number(&gentle(&chain(1), 12)), 0);
    let mut longest = gentle(&chain(1024), 20);
    assert_eq!(longest.len(), 3077);
    let state = State::of(&job(&longest));
    assert_eq!(state.plan.successors[1022], [1023]);
    assert_eq!(state.plan.durations, [1; 1024]);
    assert_eq!(number(&longest[..3076]), 6);
    longest.push(0);
    assert_eq!(number(&longest), 6);
    assert_eq!(number(&vec![0x36; 1 << 20]), 6);
}

#[test]
fn a_refused_replacement_leaves_the_old_job() {
    let mut job = plan_a();
    assert_eq!(job.grant(1), Ok(()));
    let before = State::of(&job);
    assert_eq!(job.replace(&chain(1024)[..3076]), Err(Refusal::WrongLength));
    assert_eq!(State::of(&job), before);
    let late = lasting(&chain(1024), &[[255; 1023].as_slice(), &[0]].concat());
    assert_eq!(job.replace(&late), Err(Refusal::ZeroTicks));
    assert_eq!(State::of(&job), before);
    for tenths in [11, 21] {
        let answer = job.replace(&gentle(&chain(1024), tenths));
        assert_eq!(answer, Err(Refusal::BadResponsiveness));
        assert_eq!(State::of(&job), before);
    }
    assert_eq!(job.replace(&chain(1024)), Ok(()));
    assert_eq!(job.counters(0).tasks, 1024);
}
