//! Runs a plan of four tasks call by call: cargo run --example plan_a

use jirvaldo::{Job, Refusal};

/// Form 1, R = 2, D = 80, L = 2, N = 4; task 0 is followed by 1 and 2, these by 3.
const PLAN_A: [u8; 17] = [
    0x15, 0x40, 0x00, 0x08, 0x03, // the header
    0x80, 0x08, 0x02, 0x40, 0x18, 0x00, 0x40, 0x18, 0x00, 0x00, 0x00, 0x00, // the tasks
];

/// One line a status: fresh, running, held, finished.
const SHEET: &str = "waiting\nstitching\non hold\nready\n";

fn show(job: &Job) -> Result<(), Refusal> {
    let label = job.wording(SHEET.as_bytes())?;
    println!("{}: {}", String::from_utf8_lossy(label), job.line(0));
    Ok(())
}

fn main() -> Result<(), Refusal> {
    let mut job = Job::accept(&PLAN_A)?;
    show(&job)?;
    if let Err(refusal) = job.grant(2) {
        println!("refused {}: {refusal}", refusal.number());
    }
    job.grant(1)?;
    job.tick(&[0])?;
    job.tick(&[0])?;
    show(&job)?;
    job.grant(2)?;
    job.tick(&[0, 0])?;
    job.tick(&[0, 0])?;
    show(&job)
}
