//! Status, wording, counters and the counters line: refusals 19 and 20; the refusals themselves.

use std::collections::HashSet;

use jirvaldo::{Counters, Refusal, Status, UnknownNumber, LINE_BUFFER};

use super::{hex, plan_a};

#[test]
fn numbers_and_sentences() {
    let numbers: Vec<u8> = Refusal::ALL.iter().map(|r| r.number()).collect();
    assert_eq!(numbers, (1..=20).chain([24, 25, 28]).collect::<Vec<u8>>());
    let sentences: HashSet<String> = Refusal::ALL.iter().map(|r| r.to_string()).collect();
    assert_eq!(sentences.len(), 23);
    for refusal in Refusal::ALL {
        assert_eq!(Refusal::try_from(refusal.number()), Ok(refusal));
    }
    for number in [0, 21, 22, 23, 26, 27, 29, 255] {
        assert_eq!(Refusal::try_from(number), Err(UnknownNumber(number)));
    }
}

#[test]
fn statuses() {
    let mut job = plan_a();
    assert_eq!((job.status(), job.status().number()), (Status::Fresh, 0));
    assert_eq!(job.run_log(&hex("01")).end, Ok(()));
    assert_eq!((job.status(), job.status().number()), (Status::Running, 1));
    assert_eq!(job.run_log(&hex("81 00 81 00 00")).end, Ok(()));
    assert_eq!((job.status(), job.status().number()), (Status::Held, 2));
    assert_eq!(
        job.run_log(&hex("80 80 01 81 00 81 00 01 81 00")).end,
        Ok(())
    );
    assert_eq!((job.status(), job.status().number()), (Status::Finished, 3));
    assert!(job.is_finished());
}

#[test]
fn wordings() {
    let mut job = plan_a();
    assert_eq!(job.wording(b""), Err(Refusal::NoWording));
    assert_eq!(job.wording(b"new"), Err(Refusal::NoWording));
    assert_eq!(job.wording(b"\n"), Ok(&b""[..]));
    assert_eq!(job.wording(b"new\n"), Ok(&b"new"[..]));
    assert_eq!(job.grant(1), Ok(()));
    let sheet = b"new\n\xff at work\nheld\ndone\nmore\nand more";
    let part = job.wording(sheet).expect("a line");
    assert_eq!(part, b"\xff at work");
    assert_eq!(part.as_ptr(), sheet[4..].as_ptr());
    assert_eq!(job.wording(b"new\nat work"), Err(Refusal::NoWording));
    assert_eq!(job.wording(&[10; 1 << 20]), Ok(&b""[..]));
}

#[test]
fn buffers() {
    let job = plan_a();
    let mut buffer = [7; 129];
    assert_eq!(job.write_line(3, &mut []), Err(Refusal::SmallBuffer));
    assert_eq!(
        job.write_line(3, &mut buffer[..127]),
        Err(Refusal::SmallBuffer)
    );
    assert_eq!(buffer, [7; 129]);
    for size in [LINE_BUFFER, 129] {
        buffer = [7; 129];
        assert_eq!(job.write_line(3, &mut buffer[..size]), Ok(20));
        assert_eq!(buffer[..20], *b"0 0 4 1 0 0 0 0 0 3\n");
        assert_eq!(buffer[20..], [7; 109]);
    }
}

#[test]
fn line_sizes() {
    let job = plan_a();
    let mut buffer = [0; LINE_BUFFER];
    let nine_of_one_digit = 9;
    let mut size = |refused| job.write_line(refused, &mut buffer);
    assert_eq!(size(0), Ok(nine_of_one_digit + 1 + 10));
    for digits in 1..20 {
        let power = 10_u64.pow(digits);
        let digits = digits as usize;
        assert_eq!(size(power - 1), Ok(nine_of_one_digit + digits + 10));
        assert_eq!(size(power), Ok(nine_of_one_digit + digits + 1 + 10));
        let text = format!("0 0 4 1 0 0 0 0 0 {power}");
        assert_eq!(*job.line(power), *text);
    }
    assert_eq!(size(u64::MAX), Ok(nine_of_one_digit + 20 + 10));
}

#[test]
fn lines_and_counters() {
    let mut job = plan_a();
    assert_eq!(job.run_log(&hex("01 81 00 81 00 00")).end, Ok(()));
    let line = job.line(u64::MAX);
    assert_eq!(&*line, "2 2 4 2 0 2 0 0 0 18446744073709551615");
    assert_eq!(format!("[{line:>40}]"), format!("[  {}]", &*line));
    let counters = Counters {
        status: Status::Held,
        worked: 2,
        tasks: 4,
        desire: 2,
        allotment: 0,
        work: 2,
        mug: 0,
        steal: 0,
        successes: 0,
        refused_calls: 5,
    };
    assert_eq!(job.counters(5), counters);
    assert_eq!((job.desire(), job.allotment()), (2, 0));
    let shown = format!("{job:?}");
    assert!(shown.starts_with("Job { status: Held, worked: 2, tasks: 4, desire: 2"));
    assert!(shown.len() < 150);
}
