//! The program itself, run as a user would.

use std::io::Write;
use std::process::{Command, Stdio};

use super::{hex, input, PLAN_A};

/// What `reference run` prints for an input.
fn run(input: &[u8]) -> String {
    let mut child = Command::new(env!("CARGO_BIN_EXE_reference"))
        .arg("run")
        .stdin(Stdio::piped())
        .stdout(Stdio::piped())
        .spawn()
        .expect("the program starts");
    let mut stdin = child.stdin.take().expect("a pipe");
    // The program stops reading one byte after the most it takes.
    let _ = stdin.write_all(input);
    drop(stdin);
    let output = child.wait_with_output().expect("the program ends");
    String::from_utf8(output.stdout).expect("text")
}

#[test]
fn prints_the_counters_line() {
    let log = hex("01 81 00 81 00 02 82 00 00 82 00 00");
    assert_eq!(run(&input(&hex(PLAN_A), &log)), "3 4 4 2 2 4 0 2 0 0\n");
}

#[test]
fn prints_refusals() {
    assert_eq!(run(&[]), "refused 22\n");
    assert_eq!(run(&vec![0; 65_537]), "refused 21\n");
    assert_eq!(run(&vec![0; 200_000]), "refused 21\n");
    let broken = input(&hex(PLAN_A), &[0x81]);
    assert_eq!(run(&broken), "0 0 4 1 0 0 0 0 0 0\nrefused 18\n");
}
