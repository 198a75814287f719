//! The C header and the documents' tables say the same.

use jirvaldo::{
    Job, Refusal, LINE_BUFFER, LONGEST_ENTRY, LONGEST_PLAN, LONGEST_TASK, MOST_DEQUES, MOST_QUANTA,
    MOST_TASKS, MOST_WORKERS,
};

const HEADER: &str = include_str!("../../../../include/jirvaldo.h");
const INTEGRATING: &str = include_str!("../../../../docs/INTEGRATING.md");
const REFERENCE: &str = include_str!("../../../../docs/REFERENCE.md");

/// The crate's sentence with a capital and a full stop.
fn whole_sentence(refusal: Refusal) -> String {
    let sentence = refusal.to_string();
    let (first, rest) = sentence.split_at(1);
    format!("{}{rest}.", first.to_uppercase())
}

/// The header's name of a refusal's number.
fn name(refusal: Refusal) -> &'static str {
    let numbered = format!(" = {}", refusal.number());
    let line = HEADER
        .lines()
        .find(|line| line.contains("JIRVALDO_") && line.trim_end_matches(',').ends_with(&numbered));
    line.and_then(|line| line.split_whitespace().next())
        .expect("a name for the number")
}

/// `include/jirvaldo.h` has the sentence of each number.
#[test]
fn sentences() {
    for refusal in Refusal::ALL {
        let case = format!("case {}: ", name(refusal));
        let said = HEADER
            .lines()
            .find_map(|line| line.trim_start().strip_prefix(&case));
        let expected = format!("return \"{}\";", whole_sentence(refusal));
        assert_eq!(said, Some(expected.as_str()), "{}", name(refusal));
    }
}

/// The header's limits are the crate's.
#[test]
fn limits() {
    let limits = [
        ("JIRVALDO_TASKS_MAX", MOST_TASKS),
        ("JIRVALDO_PLAN_MAX", LONGEST_PLAN),
        ("JIRVALDO_TICKS_MAX", LONGEST_TASK),
        ("JIRVALDO_WORKERS_MAX", MOST_WORKERS),
        ("JIRVALDO_DEQUES_MAX", MOST_DEQUES),
        ("JIRVALDO_QUANTA_MAX", MOST_QUANTA),
        ("JIRVALDO_LINE_BUFFER", LINE_BUFFER),
        ("JIRVALDO_ENTRY_MAX", LONGEST_ENTRY),
    ];
    for (name, limit) in limits {
        let said = format!("    {name} = {limit},");
        let found = HEADER.lines().filter(|line| line.starts_with(&said));
        assert_eq!(found.count(), 1, "{said}");
    }
    let size = std::mem::size_of::<Job>();
    let said = format!("    JIRVALDO_JOB_SIZE = {size} ");
    assert!(HEADER.lines().any(|line| line.starts_with(&said)));
    assert!(HEADER.contains(&format!("jirvaldo_job_has_{size}_bytes[")));
    let thousands = format!("{},{:03} quanta", MOST_QUANTA / 1000, MOST_QUANTA % 1000);
    assert!(Refusal::QuantaSpent.to_string().starts_with(&thousands));
}

/// `docs/INTEGRATING.md` has a row for each refusal, with the header's name and sentence, and no other.
#[test]
fn makers_table() {
    for refusal in Refusal::ALL {
        let cells = [
            refusal.number().to_string(),
            format!("`{}`", name(refusal)),
            whole_sentence(refusal),
        ];
        let row = format!("| {} |", cells.join(" | "));
        let found = INTEGRATING.lines().filter(|line| line.starts_with(&row));
        assert_eq!(found.count(), 1, "{row}");
    }
}

/// The numbers of a document's table of refusals, from top to bottom.
fn numbers(document: &str) -> Vec<String> {
    let table = document
        .lines()
        .skip_while(|line| !line.starts_with("| number |"))
        .skip(2);
    let rows = table.take_while(|line| line.starts_with("| "));
    rows.filter_map(|line| line.split(' ').nth(1).map(str::to_owned))
        .collect()
}

/// Both documents, each in its own words, have one row for each number that the header names, in order.
#[test]
fn numbers_of_the_tables() {
    let named = HEADER
        .lines()
        .skip_while(|line| *line != "enum jirvaldo_refusal {")
        .skip(2)
        .take_while(|line| *line != "};")
        .filter_map(|line| line.trim_end_matches(',').split(" = ").nth(1));
    let named: Vec<&str> = named.collect();
    assert_eq!(named.len(), 25);
    assert_eq!(numbers(REFERENCE), named);
    assert_eq!(numbers(INTEGRATING), named);
}
