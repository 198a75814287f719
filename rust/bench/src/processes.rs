//! Measuring in several processes and in several placements of the code. Where a program's code and data come to lie differs from one
//! build and one process to the next, and with it the processor's guesses: one alone can be some tenths off, on every side.

use std::env;
use std::hint::black_box;
use std::path::{Path, PathBuf};
use std::process::Command;

use crate::rows::{self, Row, SIDES};
use crate::timing::{agree, measure, Rounds};

/// So many processes for each placement.
const PROCESSES: usize = 3;
const ROUNDS: usize = 15;

/// Code that is never run: so many bytes of it move all code behind it, the twin's and the library's.
#[inline(never)]
fn unrun() {
    #[cfg(target_arch = "x86_64")]
    unsafe {
        std::arch::asm!(concat!(".skip ", env!("BENCH_PAD"), ", 0x90"))
    }
}

/// The same program in several placements: those that BENCH_PLACEMENTS names, or this one alone.
fn placements() -> Result<Vec<PathBuf>, String> {
    black_box(unrun as fn());
    match env::var_os("BENCH_PLACEMENTS") {
        Some(paths) => Ok(env::split_paths(&paths).collect()),
        None => Ok(vec![env::current_exe().map_err(|error| error.to_string())?]),
    }
}

/// The rows of a set, by the set's name.
fn set(name: &str) -> Result<Vec<Row>, String> {
    match name {
        "table" => Ok(rows::table()),
        "growth" => Ok(rows::growth()),
        _ => Err(format!("{} is no set of rows", name)),
    }
}

/// Measures a set's rows in this process: a line for each row and side, with the nanoseconds of each round.
pub fn print_samples(name: &str) -> Result<(), String> {
    for mut row in set(name)? {
        agree(&mut row);
        for times in measure(&mut row, ROUNDS) {
            let words: Vec<String> = times.iter().map(f64::to_string).collect();
            println!("{} {}", row.name, words.join(" "));
        }
    }
    Ok(())
}

/// A row's name, what one operation of it is, and the rounds of all processes.
pub struct Measured {
    pub name: String,
    pub operation: &'static str,
    pub rounds: Rounds,
}

/// Measures a set's rows in several processes of each placement, one after the other.
pub fn measured(name: &str) -> Result<Vec<Measured>, String> {
    let named = |row: Row| Measured {
        name: row.name,
        operation: row.operation,
        rounds: Rounds::default(),
    };
    let mut results: Vec<Measured> = set(name)?.into_iter().map(named).collect();
    let placements = placements()?;
    for program in placements.iter().cycle().take(PROCESSES * placements.len()) {
        let text = run(program, name)?;
        let mut lines = text.lines();
        for result in &mut results {
            for side in 0..SIDES.len() {
                let line = lines.next().ok_or("a process printed too few lines")?;
                let numbers = line
                    .split(' ')
                    .skip(1)
                    .filter_map(|word| word.parse::<f64>().ok());
                result.rounds[side].extend(numbers);
            }
        }
    }
    Ok(results)
}

/// What a process prints that measures a set.
fn run(program: &Path, name: &str) -> Result<String, String> {
    let output = Command::new(program).args(["samples", name]).output();
    let output = output.map_err(|error| error.to_string())?;
    if !output.status.success() {
        return Err(String::from_utf8_lossy(&output.stderr).into_owned());
    }
    String::from_utf8(output.stdout).map_err(|error| error.to_string())
}
