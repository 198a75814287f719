//! Seeded ticks, and logs that are written.

use jirvaldo::inspect::State;
use jirvaldo::{Job, LogWriter, Refusal, LONGEST_ENTRY};

use super::{chain, gentle, hex, job, lasting, nested, plan, refused, wide, PLAN_A};

/// The test's own draws: a choice for each worker, and the state after the last one.
fn drawn(seed: u32, workers: u64) -> (Vec<u8>, u32) {
    let mut state = u64::from(seed);
    let mut choice = |_| {
        state = (1_664_525 * state + 1_013_904_223) % (1 << 32);
        (state / 65_536 % workers) as u8
    };
    let choices = (0..workers).map(&mut choice).collect();
    (choices, state as u32)
}

/// A seeded tick beside a plain one that is given the test's own draws: the same answer and the same state. Accepted, the seed is the state
/// after the draws, and else as it was.
fn ticks_by_seed(job: &mut Job, seed: &mut u32) -> Result<(), Refusal> {
    let (before, mut plain) = (*seed, job.clone());
    let (choices, after) = drawn(before, job.allotment());
    let answer = job.tick_seeded(seed);
    assert_eq!(answer, plain.tick(&choices));
    assert_eq!(State::of(job), State::of(&plain));
    assert_eq!(*seed, answer.map_or(before, |()| after));
    answer
}

/// The seeded tick is refused with this number, and the state and the seed are as they were.
fn refused_by_seed(job: &mut Job, seed: u32, number: u8) {
    let mut kept = seed;
    refused(job, number, |j| j.tick_seeded(&mut kept));
    assert_eq!(kept, seed);
}

/// A job with R = 7 and L = 1 that has so many workers, 1, 7 or 49, and a quantum open.
fn granted(workers: u64) -> Job {
    let mut plan = wide(1);
    plan[0] |= 7 << 1; // R is 2 in `wide`
    let mut job = job(&plan);
    while job.desire() < workers {
        let fewer = job.desire();
        assert_eq!(job.grant(fewer), Ok(()));
        assert_eq!(job.tick(&vec![0; fewer as usize]), Ok(()));
    }
    assert_eq!((job.desire(), job.grant(workers)), (workers, Ok(())));
    job
}

/// One worker, one draw a tick: the first states and the thousandth, reckoned elsewhere.
#[test]
fn known_states() {
    for (seed, first, second, thousandth) in [
        (0, 1_013_904_223, 1_196_435_762, 3_926_946_568),
        (1, 1_015_568_748, 1_586_005_467, 645_503_657),
        (u32::MAX, 1_012_239_698, 806_866_057, 2_913_422_183),
    ] {
        let (mut job, mut state) = (job(&chain(1_024)), seed);
        let mut states = Vec::new();
        for _ in 0..1_000 {
            assert_eq!(job.grant(1), Ok(()));
            assert_eq!(job.tick_seeded(&mut state), Ok(()));
            states.push(state);
        }
        assert_eq!((states[0], states[1]), (first, second));
        assert_eq!(states[999], thousandth);
    }
}

/// Seven workers, seven draws, and the choices that are reckoned elsewhere.
#[test]
fn known_choices() {
    for (seed, choices, seventh) in [
        (0, [0, 0, 4, 5, 5, 3, 0], 1_476_291_629),
        (1, [5, 1, 6, 2, 1, 3, 3], 3_327_581_586),
        (u32::MAX, [3, 5, 1, 1, 3, 3, 5], 3_919_968_968),
    ] {
        let (mut job, mut state) = (granted(7), seed);
        let mut plain = job.clone();
        assert_eq!(job.tick_seeded(&mut state), Ok(()));
        assert_eq!(plain.tick(&choices), Ok(()));
        assert_eq!(State::of(&job), State::of(&plain));
        assert_eq!(state, seventh);
        let mut buffer = [0; 8];
        let mut log = LogWriter::new(&mut buffer);
        assert_eq!(log.tick_seeded(&job, seed), Ok(()));
        assert_eq!(log.log(), [&[0x87][..], &choices].concat());
    }
}

/// None is drawn where 0 are granted, and seven in the tick that finishes the job, of which six workers come after the last task.
#[test]
fn refusals_and_ends() {
    let tasks: [&[u32]; 2] = [&[1], &[]];
    let (mut job, mut seed) = (job(&plan(7, 1, 1, &tasks)), 0);
    refused_by_seed(&mut job, 0, 15);
    refused_by_seed(&mut job, u32::MAX, 15);
    assert_eq!(job.grant(0), Ok(()));
    assert_eq!((ticks_by_seed(&mut job, &mut seed), seed), (Ok(()), 0));
    refused_by_seed(&mut job, 0, 15);
    assert_eq!(job.grant(1), Ok(()));
    assert_eq!(ticks_by_seed(&mut job, &mut seed), Ok(()));
    assert_eq!(seed, 1_013_904_223);
    refused_by_seed(&mut job, seed, 15);
    assert_eq!(job.offer(7), Ok(()));
    refused_by_seed(&mut job, seed, 15);
    assert_eq!(job.open(7), Ok(()));
    assert_eq!(ticks_by_seed(&mut job, &mut seed), Ok(()));
    assert_eq!(seed, 2_748_932_008); // the eighth state after 0
    assert_eq!(&*job.line(0), "3 2 2 7 7 2 0 6 0 0");
    refused_by_seed(&mut job, seed, 11);
    refused_by_seed(&mut job, 0, 11);
}

/// A day until the job is finished or the log might have no room: fewer workers than are desired at times, or none, and refused calls in
/// between. A day that begins with an odd seed has plain ticks and opens, too.
fn day(job: &mut Job, seed: &mut u32, log: &mut LogWriter, room: usize) -> Result<(), Refusal> {
    let mixed = *seed % 2 == 1;
    for turn in 0.. {
        if room - log.size() < LONGEST_ENTRY {
            break;
        }
        let before = *seed;
        if mixed && turn % 5 == 3 && job.tick(&vec![0; job.allotment() as usize]).is_ok() {
            log.tick(&vec![0; job.allotment() as usize])?;
        } else if ticks_by_seed(job, seed).is_ok() {
            log.tick_seeded(job, before)?;
        } else if job.is_finished() {
            break;
        } else {
            let desire = job.desire();
            refused(job, 14, |j| j.grant(desire + 1));
            let workers = desire - (turn % 7 % 3).min(desire);
            if mixed {
                job.offer(desire)?;
                job.open(workers)?;
            } else {
                job.grant(workers)?;
            }
            log.grant(workers)?;
        }
    }
    Ok(())
}

/// The log of a day, on a job as it was before the day: nothing is refused, and the state is the same.
#[test]
fn a_days_log_does_it_again() {
    let lasting_a = lasting(&hex(PLAN_A), &[2, 3, 1, 2]);
    let (wide, gentle) = (wide(40), gentle(&wide(40), 12));
    for plan in [&hex(PLAN_A), &lasting_a, &wide, &gentle, nested()] {
        for seed in [0, 1, 2, 3, u32::MAX - 1, u32::MAX] {
            let (mut job, mut state) = (job(plan), seed);
            for room in [4_000, 65, 66, 70, 300, 1 << 16] {
                let (mut again, mut buffer) = (job.clone(), vec![0; room]);
                let mut log = LogWriter::new(&mut buffer);
                assert_eq!(day(&mut job, &mut state, &mut log, room), Ok(()));
                let run = again.run_log(log.log());
                assert_eq!((run.refused_calls, run.end), (0, Ok(())));
                assert_eq!(State::of(&again), State::of(&job));
            }
            assert!(job.is_finished());
        }
    }
}

/// The same seed and the same grants give the same day; another seed may give another one.
#[test]
fn the_seed_is_the_day() {
    let ends = [5, 5, 7].map(|seed| {
        let (mut job, mut state, mut buffer) = (job(&wide(40)), seed, [0; 4_000]);
        let mut log = LogWriter::new(&mut buffer);
        assert_eq!(day(&mut job, &mut state, &mut log, 4_000), Ok(()));
        (log.log().to_vec(), state, State::of(&job))
    });
    assert_eq!(ends[0], ends[1]);
    assert_ne!(ends[0].0, ends[2].0);
}

/// `examples/seeded-day.in` is the day of the seed 2,026 with the grants that its log has.
#[test]
fn the_shipped_day() -> Result<(), Refusal> {
    let input = include_bytes!("../../../../examples/seeded-day.in");
    let (plan, kept) = input[2..].split_at(input[1].into());
    let (mut job, mut seed, mut buffer) = (job(plan), 2_026, [0; 256]);
    let mut log = LogWriter::new(&mut buffer);
    for workers in [1, 2, 3, 0, 2, 3] {
        job.grant(workers)?;
        log.grant(workers)?;
        let mut before = seed;
        while ticks_by_seed(&mut job, &mut seed).is_ok() {
            log.tick_seeded(&job, before)?;
            before = seed;
        }
    }
    assert_eq!(log.log(), kept);
    assert_eq!(seed, 3_470_793_880);
    assert_eq!(&*job.line(0), "3 22 22 4 3 22 2 6 2 0");
    Ok(())
}

type Write<'a> = &'a dyn Fn(&mut LogWriter) -> Result<(), Refusal>;

/// Writes to a buffer of which so many bytes are used, and so many left: the entry, or the refusal and every byte as it was.
fn writes(write: Write, used: usize, left: usize, expected: Result<&[u8], Refusal>) {
    let before: Vec<u8> = (0..used + left).map(|at| (at * 3) as u8 ^ 0x55).collect();
    let mut buffer = before.clone();
    let mut log = LogWriter::resume(&mut buffer, used);
    assert_eq!(write(&mut log), expected.map(|_| ()));
    let entry = expected.unwrap_or_default();
    let end = used + entry.len();
    assert_eq!((log.size(), log.log().len()), (end, end));
    assert_eq!(
        buffer,
        [&before[..used], entry, &before[end..]].concat(),
        "{used} used, {left} left"
    );
}

/// A size above the buffer's: the refusal, and nothing moves.
fn refuses_above(write: Write, refusal: Refusal) {
    for (length, size) in [
        (0, 1),
        (3, 4),
        (500, 501),
        (500, usize::MAX),
        (3, usize::MAX - 3),
    ] {
        let mut buffer = vec![7; length];
        let mut log = LogWriter::resume(&mut buffer, size);
        assert_eq!(write(&mut log), Err(refusal));
        assert_eq!((log.size(), log.log().len()), (size, length));
        assert_eq!(buffer, vec![7; length]);
    }
}

/// The entry, behind nothing and behind some bytes: where it fits exactly or with bytes to spare, and by no byte less.
fn writes_entry(write: Write, entry: &[u8]) {
    for used in [0, 1, 7, 300] {
        for left in [0, entry.len() / 2, entry.len() - 1] {
            writes(write, used, left, Err(Refusal::SmallBuffer));
        }
        writes(write, used, entry.len(), Ok(entry));
        writes(write, used, entry.len() + 9, Ok(entry));
    }
    refuses_above(write, Refusal::SmallBuffer);
}

/// There is no such entry, whether there is room or none.
fn writes_nothing(write: Write, refusal: Refusal) {
    for (used, left) in [(0, 0), (5, 0), (0, 900), (300, 900)] {
        writes(write, used, left, Err(refusal));
    }
    refuses_above(write, refusal);
}

#[test]
fn written_grants() {
    for workers in 0..128 {
        writes_entry(&|log| log.grant(workers), &[workers as u8]);
    }
    for workers in [128, 129, 255, 256, 257, 1 << 32, (1 << 32) + 1, u64::MAX] {
        writes_nothing(&|log| log.grant(workers), Refusal::AboveDesire);
    }
}

/// Choices of any bytes are written as they are.
#[test]
fn written_ticks() {
    let bytes: Vec<u8> = (0..1 << 16).map(|at| (at * 7) as u8 ^ 0xa5).collect();
    for count in 0..128 {
        let choices = &bytes[..count];
        let entry = [&[128 + count as u8], choices].concat();
        writes_entry(&|log| log.tick(choices), &entry);
    }
    for count in [128, 129, 255, 256, 257, 300, 384, 1 << 16] {
        let choices = &bytes[..count];
        writes_nothing(&|log| log.tick(choices), Refusal::WrongChoiceCount);
    }
}

/// The entry of a seeded tick, before the tick and after it, also where the tick is refused.
#[test]
fn written_seeded_ticks() {
    for workers in [1, 7, 49] {
        let mut job = granted(workers);
        for seed in [0, 1, u32::MAX] {
            let mut state = seed;
            for _ in 0..3 {
                let count = job.allotment();
                let entry = [&[128 + count as u8][..], &drawn(seed, count).0].concat();
                writes_entry(&|log| log.tick_seeded(&job, seed), &entry);
                let _ = ticks_by_seed(&mut job, &mut state);
                writes_entry(&|log| log.tick_seeded(&job, seed), &entry);
            }
            assert_eq!(job.grant(if seed == 0 { workers } else { 0 }), Ok(()));
        }
    }
}

/// The longest entry that a job asks for.
#[test]
fn sixty_four_workers() {
    let mut job = job(&wide(1));
    while job.allotment() < 64 {
        let workers = job.desire();
        assert_eq!(
            (job.grant(workers), job.tick_seeded(&mut 3)),
            (Ok(()), Ok(()))
        );
    }
    let entry = [&[192][..], &drawn(3, 64).0].concat();
    assert_eq!(entry.len(), LONGEST_ENTRY);
    writes_entry(&|log| log.tick_seeded(&job, 3), &entry);
}

#[test]
fn logs_and_their_sizes() {
    let mut buffer = [9; 4];
    let mut log = LogWriter::new(&mut buffer);
    assert_eq!((log.log(), log.size()), (&[][..], 0));
    assert_eq!((log.grant(1), log.tick(&[0])), (Ok(()), Ok(())));
    assert_eq!(log.log(), [1, 0x81, 0]);
    assert_eq!(format!("{log:?}"), "LogWriter([1, 129, 0])");
    assert_eq!(log.tick(&[0]), Err(Refusal::SmallBuffer));
    assert_eq!(log.size(), 3);
    assert_eq!(buffer, [1, 0x81, 0, 9]);
    for size in [4, 5, usize::MAX] {
        let log = LogWriter::resume(&mut buffer, size);
        assert_eq!((log.log(), log.size()), (&[1, 0x81, 0, 9][..], size));
    }
    assert_eq!(LogWriter::resume(&mut [], 1).log(), []);
}
