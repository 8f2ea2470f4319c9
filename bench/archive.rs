//! The compiled archive, for x86-64, called through a C program that links it.

use crate::plain::Marks;
use std::process::Command;

/// The best seconds of so many turns, and the marks; ARCHIVE has the words that run the program.
pub fn mark(words: &str, rules: &[u8], bundle: &[u8], turns: u32) -> (f64, Marks) {
    let names = ["target/bench/case.rules", "target/bench/case.bundle"];
    std::fs::write(names[0], rules).unwrap();
    std::fs::write(names[1], bundle).unwrap();
    let mut words = words.split_whitespace();
    let output = Command::new(words.next().unwrap()).args(words).args(names).arg(turns.to_string()).output().unwrap();
    assert!(output.status.success(), "the archive's program failed");
    let text = String::from_utf8(output.stdout).unwrap();
    let mut lines = text.lines();
    let seconds = lines.next().unwrap().parse().unwrap();
    let pairs = lines.map(|line| line.split_once(' ').unwrap());
    (seconds, pairs.map(|(mark, partner)| (mark.parse::<u8>().unwrap(), partner.parse::<u16>().unwrap())).unzip())
}
