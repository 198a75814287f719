//! The command line: `run`, `cases SEED COUNT DIR`, `coverage SEED COUNT`,
//! `vectors SEED FILE`.

use std::error::Error;
use std::io::{self, Read, Write};
use std::path::Path;
use std::process::ExitCode;
use std::{env, fs};

use reference::coverage::Coverage;
use reference::generator::cases;
use reference::program::{program_output, MOST_INPUT};
use reference::stored::{stored_cases, stored_set};

const USAGE: &str =
    "usage: reference run | cases SEED COUNT DIR | coverage SEED COUNT | vectors SEED FILE";

fn main() -> ExitCode {
    let arguments: Vec<String> = env::args_os()
        .skip(1)
        .map(|argument| argument.to_string_lossy().into_owned())
        .collect();
    let words: Vec<&str> = arguments.iter().map(String::as_str).collect();
    let done = match words[..] {
        ["run"] => run(),
        ["cases", seed, count, directory] => write_cases(seed, count, Path::new(directory)),
        ["coverage", seed, count] => print_coverage(seed, count),
        ["vectors", seed, file] => write_vectors(seed, Path::new(file)),
        _ => Err(USAGE.into()),
    };
    match done {
        Ok(()) => ExitCode::SUCCESS,
        Err(error) => {
            eprintln!("{error}");
            ExitCode::FAILURE
        }
    }
}

/// Document 01's program. One byte more than the most is enough to see that
/// the input is too long.
fn run() -> Result<(), Box<dyn Error>> {
    let mut input = Vec::new();
    let most = MOST_INPUT as u64 + 1;
    io::stdin().lock().take(most).read_to_end(&mut input)?;
    let mut out = io::stdout().lock();
    out.write_all(program_output(&input).as_bytes())?;
    Ok(out.flush()?)
}

/// Writes inputs and expected outputs, numbered from 0, into a directory.
fn write_cases(seed: &str, count: &str, directory: &Path) -> Result<(), Box<dyn Error>> {
    let (seed, count): (u64, usize) = (seed.parse()?, count.parse()?);
    fs::create_dir_all(directory)?;
    for (index, case) in cases(seed).take(count).enumerate() {
        let output = program_output(&case.input);
        fs::write(directory.join(format!("{index:05}.in")), &case.input)?;
        fs::write(directory.join(format!("{index:05}.out")), output)?;
    }
    Ok(())
}

/// Prints what the cases of a seed reach.
fn print_coverage(seed: &str, count: &str) -> Result<(), Box<dyn Error>> {
    let (seed, count): (u64, usize) = (seed.parse()?, count.parse()?);
    let mut coverage = Coverage::default();
    for case in cases(seed).take(count) {
        coverage.cover(&case);
    }
    Ok(writeln!(io::stdout().lock(), "{coverage}")?)
}

/// Writes the stored set of a seed and prints what it reaches.
fn write_vectors(seed: &str, file: &Path) -> Result<(), Box<dyn Error>> {
    let set = stored_set(seed.parse()?);
    let mut coverage = Coverage::default();
    for (input, _) in stored_cases(&set).unwrap_or_default() {
        coverage.cover_input(input);
    }
    fs::write(file, &set)?;
    Ok(writeln!(
        io::stdout().lock(),
        "{:>10}  bytes\n{coverage}",
        set.len()
    )?)
}
