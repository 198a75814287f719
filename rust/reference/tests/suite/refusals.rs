//! The questions in their order, and what a refusal leaves as it was.

use reference::generator::plans::{Draft, DraftTask};
use reference::{
    counters_line, counters_text, line_size, program_output, run_log, wording, DigitCount,
};
use reference::{Growth, Job, Pace, Refusal, Status};

use super::{hex, input, job, plan_refusal, LASTING_PLAN_A, PLAN_A};

#[test]
fn numbers_and_sentences() {
    let numbers: Vec<u8> = Refusal::ALL.iter().map(|r| r.number()).collect();
    assert_eq!(numbers, (1..=22).chain([24, 25, 28]).collect::<Vec<u8>>());
    let shown = Refusal::OfferNoted.to_string();
    assert_eq!(shown, "25: an offer is noted; open or withdraw it first");
}

/// A draft of Plan A with one change.
fn changed(change: impl Fn(&mut Draft)) -> u8 {
    let mut draft = Draft::of_graph(&vec![vec![1, 2], vec![3], vec![3], vec![]]);
    assert_eq!(draft.bytes(), hex(PLAN_A));
    change(&mut draft);
    plan_refusal(&draft.bytes())
}

/// A draft of its form 2 with one change.
fn lasting(change: impl Fn(&mut Draft)) -> u8 {
    let draft = Draft::of_graph(&vec![vec![1, 2], vec![3], vec![3], vec![]]);
    let mut draft = draft.lasting(|task| [1, 2, 3, 255][task]);
    assert_eq!(draft.bytes(), hex(LASTING_PLAN_A));
    change(&mut draft);
    plan_refusal(&draft.bytes())
}

fn task(count: u32, first: u32, second: u32) -> DraftTask {
    DraftTask {
        count,
        first,
        second,
        ticks: 1,
    }
}

/// The same with 0 ticks.
fn zero(count: u32, first: u32, second: u32) -> DraftTask {
    DraftTask {
        ticks: 0,
        ..task(count, first, second)
    }
}

#[test]
fn plan_questions() {
    assert_eq!(plan_refusal(&hex("15 40 00 08")), 1);
    for form in (0..16).filter(|form| ![1, 2, 3].contains(form)) {
        assert_eq!(changed(|d| d.form = form), 2);
        assert_eq!(lasting(|d| d.form = form), 2);
    }
    assert_eq!(changed(|d| d.responsiveness = 0), 3);
    assert_eq!(changed(|d| d.utilization = 0), 4);
    assert_eq!(changed(|d| d.quantum_length = 0), 5);
    assert_eq!(changed(|d| d.count_less_one = 1023), 6);
    assert_eq!(changed(|d| d.tasks[1] = task(3, 2, 3)), 7);
    assert_eq!(changed(|d| d.tasks[1] = task(1, 3, 2)), 7);
    assert_eq!(changed(|d| d.tasks[3] = task(0, 1, 0)), 7);
    assert_eq!(changed(|d| d.tasks[1] = task(1, 1, 0)), 8);
    assert_eq!(changed(|d| d.tasks[1] = task(1, 4, 0)), 8);
    assert_eq!(changed(|d| d.tasks[0] = task(2, 2, 2)), 8);
    assert_eq!(changed(|d| d.tasks[0] = task(1, 2, 0)), 9);
    assert_eq!(changed(|d| d.tasks[0] = task(2, 1, 3)), 9);
    assert_eq!(changed(|d| d.tasks[1] = task(0, 0, 0)), 10);
}

#[test]
fn plan_questions_in_order() {
    // 8 of task 0 before 7 of task 1, 7 of task 0 before 8 of task 0.
    let late = |d: &mut Draft| d.tasks[1].count = 3;
    assert_eq!(changed(|d| (d.tasks[0].first = 0, late(d)).1), 8);
    assert_eq!(changed(|d| d.tasks[0] = task(1, 0, 1)), 7);
    // 9 of any task before 10; falling fields are fine.
    assert_eq!(changed(|d| d.tasks[0] = task(0, 0, 0)), 9);
    assert_eq!(changed(|d| d.tasks[0] = task(2, 2, 1)), 0);
}

/// Request U9: 6 reads 5 + 4 x N, and 28 comes after 8 of the same task.
#[test]
fn plan_questions_of_form_2() {
    assert_eq!(lasting(|_| ()), 0);
    assert_eq!(lasting(|d| d.responsiveness = 1), 3);
    assert_eq!(lasting(|d| d.utilization = 101), 4);
    assert_eq!(lasting(|d| d.quantum_length = 0), 5);
    // The tasks of one form under the header of the other.
    assert_eq!(lasting(|d| d.form = 1), 6);
    assert_eq!(lasting(|d| d.has_ticks = false), 6);
    assert_eq!(changed(|d| d.form = 2), 6);
    assert_eq!(changed(|d| d.has_ticks = true), 6);
    for count in [0, 2, 4, 1_023] {
        assert_eq!(lasting(|d| d.count_less_one = count), 6);
    }
    for place in 0..4 {
        assert_eq!(lasting(|d| d.tasks[place].ticks = 0), 28);
        assert_eq!(lasting(|d| d.tasks[place].ticks = 1), 0);
        assert_eq!(lasting(|d| d.tasks[place].ticks = 255), 0);
    }
    // In form 1 no ticks are asked for.
    assert_eq!(changed(|d| d.tasks[0].ticks = 0), 0);
}

#[test]
fn twenty_eight_in_its_place() {
    // After 7 and 8 of the same task.
    assert_eq!(lasting(|d| d.tasks[1] = zero(3, 2, 3)), 7);
    assert_eq!(lasting(|d| d.tasks[1] = zero(1, 3, 2)), 7);
    assert_eq!(lasting(|d| d.tasks[1] = zero(1, 1, 0)), 8);
    assert_eq!(lasting(|d| d.tasks[0] = zero(2, 2, 2)), 8);
    // Before 7 and 8 of the next one, and after those of the one before.
    for (wrong, number) in [(task(3, 2, 3), 7), (task(1, 1, 0), 8)] {
        let beside = |place: usize| lasting(|d| (d.tasks[1], d.tasks[place].ticks) = (wrong, 0));
        assert_eq!([beside(0), beside(2), beside(3)], [28, number, number]);
    }
    // Before 9 and 10.
    for place in 0..4 {
        let loose = |at: usize, task| lasting(|d| (d.tasks[at], d.tasks[place].ticks) = (task, 0));
        assert_eq!(loose(0, task(1, 2, 0)), 28);
        assert_eq!(loose(0, task(2, 1, 3)), 28);
        assert_eq!(loose(1, task(0, 0, 0)), 28);
    }
}

/// A call is refused with this number and leaves the job as it was.
fn refused<T>(job: &mut Job, number: u8, call: impl Fn(&mut Job) -> Result<T, Refusal>) {
    let before = job.clone();
    let answer = call(job).err().map(Refusal::number);
    assert_eq!(answer, Some(number));
    assert_eq!(*job, before);
}

#[test]
fn call_questions_in_order() {
    let mut job = job(&hex(PLAN_A));
    refused(&mut job, 15, |j| j.tick(&[9, 9]));
    refused(&mut job, 14, |j| j.grant(2));
    assert!(job.grant(1).is_ok());
    refused(&mut job, 12, |j| j.grant(99));
    refused(&mut job, 16, |j| j.tick(&[9, 9]));
    refused(&mut job, 16, |j| j.tick(&[]));
    refused(&mut job, 17, |j| j.tick(&[1]));
    assert!(job.tick(&[0]).is_ok() && job.tick(&[0]).is_ok());
    assert!(job.grant(1).is_ok());
    assert!(job.tick(&[0]).is_ok() && job.tick(&[0]).is_ok());
    refused(&mut job, 11, |j| j.grant(99));
    refused(&mut job, 11, |j| j.tick(&[9, 9]));
    // The quantum of the finish is not classified and does not close.
    assert_eq!((job.desire(), job.quanta_begun()), (2, 2));
    assert!(job.open_quantum().is_some());
}

/// Request U4, in its own numbers.
#[test]
fn thirteen_with_4096_quanta_begun() {
    let mut job = job(&hex("15 40 00 04 00 00 00 00"));
    let log: Vec<u8> = [0x00, 0x80].repeat(4_095);
    assert_eq!(run_log(&mut job, &log).refused, 0);
    assert_eq!((job.quanta_begun(), job.desire()), (4_095, 1));
    refused(&mut job, 14, |j| j.grant(2));
    assert!(job.grant(0).is_ok());
    refused(&mut job, 12, |j| j.grant(0));
    assert!(job.tick(&[]).is_ok());
    for workers in [0, 1, 2, 99] {
        refused(&mut job, 13, |j| j.grant(workers));
    }
    refused(&mut job, 15, |j| j.tick(&[]));
}

#[test]
fn broken_entry_ends_the_log() {
    let plan = hex(PLAN_A);
    let printed = |log: &str| program_output(&input(&plan, &hex(log)));
    assert_eq!(printed("02 01 82 00"), "1 0 4 1 1 0 0 0 0 1\nrefused 18\n");
    // A refused tick takes its choices with it.
    assert_eq!(printed("82 01 01 01"), "1 0 4 1 1 0 0 0 0 1\n");
    assert_eq!(printed("7f ff"), "0 0 4 1 0 0 0 0 0 1\nrefused 18\n");
}

#[test]
fn wordings() {
    let sheet = b"new\n\nheld\ndone";
    assert_eq!(wording(sheet, Status::Fresh), Ok(&sheet[..3]));
    assert_eq!(wording(sheet, Status::Running), Ok(&sheet[4..4]));
    assert_eq!(wording(sheet, Status::Held), Ok(&sheet[5..9]));
    let missing = Err(Refusal::WordingMissing);
    assert_eq!(wording(sheet, Status::Finished), missing);
    assert_eq!(wording(b"", Status::Fresh), missing);
    let place = wording(sheet, Status::Held).map(|part| part.as_ptr());
    assert_eq!(place, Ok(sheet[5..].as_ptr()));
}

#[test]
fn counters_buffer() {
    let job = job(&hex(PLAN_A));
    let mut small = [7; 127];
    let answer = counters_line(&job, 3, &mut small);
    assert_eq!(answer, Err(Refusal::BufferTooSmall));
    assert_eq!(small, [7; 127]);
    let mut buffer = [7; 128];
    assert_eq!(counters_line(&job, 3, &mut buffer), Ok(20));
    assert_eq!(buffer[..20], *b"0 0 4 1 0 0 0 0 0 3\n");
    assert_eq!(buffer[20..], [7; 108]);
}

#[test]
fn digit_counts() {
    let digits = DigitCount::default();
    assert_eq!(digits.of(0), 1);
    for count in 1..20 {
        let power = 10_u64.pow(count);
        assert_eq!(digits.of(power - 1), count as usize);
        assert_eq!(digits.of(power), count as usize + 1);
    }
    assert_eq!(digits.of(u64::MAX), 20);
    let job = job(&hex(PLAN_A));
    for refused in [0, 9, 10, 99_999, 100_000, u64::MAX] {
        let text = counters_text(&job, refused);
        assert_eq!(line_size(&job, refused), text.len());
    }
}

#[test]
fn program_input() {
    let printed = |length: usize| program_output(&vec![0; length]);
    assert_eq!(printed(0), "refused 22\n");
    assert_eq!(printed(1), "refused 22\n");
    assert_eq!(printed(2), "refused 1\n");
    assert_eq!(printed(65_536), "refused 1\n");
    assert_eq!(printed(65_537), "refused 21\n");
    assert_eq!(program_output(&[0, 1]), "refused 22\n");
    assert_eq!(program_output(&[255; 65_536]), "refused 22\n");
    assert_eq!(program_output(&[255; 65_537]), "refused 21\n");
}

#[test]
fn desire_climbs_to_the_largest_power() {
    let top = |r: u8| {
        let (pace, growth) = (Pace::default(), Growth::Factor(r));
        let climb = |level, _| pace.close(growth, level, true, true).1;
        let level = (0..9).fold(pace.start(growth), climb);
        (level.desire, level.power)
    };
    let tops = [(64, 6), (27, 3), (64, 3), (25, 2), (36, 2), (49, 2)];
    assert_eq!((2..=7).map(top).collect::<Vec<_>>(), tops);
}
