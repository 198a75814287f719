//! The benchmark. `bench` prints the table; `bench growth DIRECTORY` prints how costs grow, and draws it; `bench quick` only tries that
//! every row runs and the sides agree. `bench samples SET` is one process of a measurement; `bench names` and `bench one ROW SIDE COUNT`
//! serve the counting of instructions.

mod growth;
mod inputs;
mod memory;
mod plot;
mod processes;
mod proved;
mod rows;
mod sides;
mod timing;

use std::env;
use std::process::ExitCode;

use rows::{Row, PROVED, REFERENCE, SIDES, TWIN};
use timing::{agree, bench_timed_part, ratio, spread, Spread};

const USAGE: &str =
    "usage: bench [table | growth DIRECTORY | quick | samples SET | names | one ROW SIDE COUNT]";

fn main() -> ExitCode {
    let arguments: Vec<String> = env::args().skip(1).collect();
    let words: Vec<&str> = arguments.iter().map(String::as_str).collect();
    let done = match words[..] {
        [] | ["table"] => table(),
        ["quick"] => quick(),
        ["growth", directory] => growth::print(directory),
        ["samples", set] => processes::print_samples(set),
        ["names"] => names(),
        ["one", row, side, count] => one(row, side, count),
        _ => Err(USAGE.into()),
    };
    match done {
        Ok(()) => ExitCode::SUCCESS,
        Err(error) => {
            eprintln!("{}", error);
            ExitCode::FAILURE
        }
    }
}

/// A time with three digits that say something.
pub fn time_text(nanoseconds: f64) -> String {
    match nanoseconds {
        n if n < 10.0 => format!("{:.2} ns", n),
        n if n < 100.0 => format!("{:.1} ns", n),
        n if n < 10_000.0 => format!("{:.0} ns", n),
        n if n < 100_000.0 => format!("{:.1} us", n / 1000.0),
        n => format!("{:.0} us", n / 1000.0),
    }
}

fn ratio_text(ratio: Spread) -> String {
    format!(
        "{:.2} ({:.2} to {:.2})",
        ratio.middle, ratio.low, ratio.high
    )
}

fn table() -> Result<(), String> {
    println!("| row | one | proved | twin | reference | proved / twin | proved / reference |");
    println!("|---|---|---|---|---|---|---|");
    for row in processes::measured("table")? {
        let time = |side: usize| time_text(spread(row.rounds[side].clone()).middle);
        println!(
            "| {} | {} | {} | {} | {} | {} | {:.2} |",
            row.name,
            row.operation,
            time(PROVED),
            time(TWIN),
            time(REFERENCE),
            ratio_text(ratio(&row.rounds, PROVED, TWIN)),
            ratio(&row.rounds, PROVED, REFERENCE).middle
        );
    }
    let bytes = memory::per_job();
    let part = |side: usize| bytes[PROVED] as f64 / bytes[side] as f64;
    println!(
        "| memory | job of 1,024 tasks | {} bytes | {} bytes | {} bytes | {:.2} | {:.2} |",
        bytes[PROVED],
        bytes[TWIN],
        bytes[REFERENCE],
        part(TWIN),
        part(REFERENCE)
    );
    Ok(())
}

fn quick() -> Result<(), String> {
    let mut tried = 0;
    for mut row in rows::table().into_iter().chain(rows::growth()) {
        agree(&mut row);
        tried += 1;
    }
    println!("benchmark: {} rows run, the sides agree", tried);
    Ok(())
}

fn names() -> Result<(), String> {
    for row in rows::table() {
        println!("{} {}", row.name, row.operations);
    }
    Ok(())
}

/// Runs one side of a row so many times.
fn one(name: &str, side: &str, count: &str) -> Result<(), String> {
    let count: usize = count
        .parse()
        .map_err(|_| format!("{} is no count", count))?;
    let side = SIDES
        .iter()
        .position(|&s| s == side)
        .ok_or_else(|| format!("{} is no side", side))?;
    let mut rows = rows::table().into_iter();
    let mut row: Row = rows
        .find(|row| row.name == name)
        .ok_or_else(|| format!("{} is no row", name))?;
    for _ in 0..count {
        row.works[side].restore();
        bench_timed_part(&mut *row.works[side]);
    }
    Ok(())
}
