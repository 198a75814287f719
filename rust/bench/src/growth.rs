//! How costs grow with the number of tasks and with the number of workers: a table, and a plot of each.

use std::fs;
use std::path::Path;

use crate::plot::{Plot, Series};
use crate::processes::{measured, Measured};
use crate::rows::{PROVED, REFERENCE, SIDES, TWIN};
use crate::time_text;
use crate::timing::spread;

const COLOURS: [&str; 3] = ["#c0392b", "#2c7fb8", "#7f8c8d"];

/// The points of a side in the rows whose names begin with a word; the rest of the name is the number across.
fn points(rows: &[Measured], word: &str, side: usize) -> Vec<(f64, f64)> {
    let point = |row: &Measured| {
        let (name, number) = row.name.split_once(' ')?;
        let across = number.parse().ok()?;
        let up = spread(row.rounds[side].clone()).middle;
        if name == word {
            Some((across, up))
        } else {
            None
        }
    };
    rows.iter().filter_map(point).collect()
}

/// The lines of the three sides for a word.
fn series(rows: &[Measured], word: &str, what: &str, dashed: bool) -> Vec<Series> {
    let one = |side: usize| Series {
        name: format!("{}{}", SIDES[side], what),
        colour: COLOURS[side],
        dashed,
        points: points(rows, word, side),
    };
    (0..SIDES.len()).map(one).collect()
}

/// A table of the three sides for a word, a line for each number across.
fn print_table(rows: &[Measured], word: &str, title: &str, across: &str) {
    println!("\n{}\n", title);
    println!(
        "| {} | proved | twin | reference | proved, for each |",
        across
    );
    println!("|---|---|---|---|---|");
    let side = |side: usize| points(rows, word, side);
    for ((proved, twin), reference) in side(PROVED).iter().zip(side(TWIN)).zip(side(REFERENCE)) {
        println!(
            "| {} | {} | {} | {} | {} |",
            proved.0,
            time_text(proved.1),
            time_text(twin.1),
            time_text(reference.1),
            time_text(proved.1 / proved.0)
        );
    }
}

/// Measures, prints the tables and writes the plots into a directory.
pub fn print(directory: &str) -> Result<(), String> {
    if !Path::new(directory).is_dir() {
        return Err(format!("{} is no directory", directory));
    }
    let rows = measured("growth")?;
    print_table(&rows, "accept", "Acceptance of a plan", "tasks");
    print_table(&rows, "run", "A whole run with up to 8 workers", "tasks");
    print_table(
        &rows,
        "work",
        "A tick in which every worker works",
        "workers",
    );
    print_table(
        &rows,
        "vain",
        "A tick in which one works and all others steal in vain",
        "workers",
    );
    let both = |one: Vec<Series>, other: Vec<Series>| one.into_iter().chain(other).collect();
    let plots = [
        (
            "performance-tasks.svg",
            Plot {
                title: "Acceptance (whole lines) and a run with up to 8 workers (dashes)",
                across: "tasks of the plan",
                up: "nanoseconds",
                series: both(series(&rows, "accept", ", accept", false), series(&rows, "run", ", run", true)),
            },
        ),
        (
            "performance-workers.svg",
            Plot {
                title: "A tick: all work (whole lines), one works and the others steal in vain (dashes)",
                across: "granted workers",
                up: "nanoseconds",
                series: both(series(&rows, "work", ", work", false), series(&rows, "vain", ", steal", true)),
            },
        ),
    ];
    for (name, plot) in plots {
        let file = Path::new(directory).join(name);
        fs::write(&file, plot.svg()).map_err(|error| format!("{}: {}", file.display(), error))?;
    }
    Ok(())
}
