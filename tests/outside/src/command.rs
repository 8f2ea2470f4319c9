//! The command lines of the programs, and the cleaner that they are told to compare.

use crate::cleaner::Cleaner;
use crate::due::ByJudge;
use crate::relay::Relay;
use crate::steps::Steps;
use std::panic::{catch_unwind, AssertUnwindSafe};
use std::process::exit;

/// What the programs can be told.
pub struct Command {
    pub seed: u64,
    pub cases: u64,
    pub against: String,
    pub left_out: Option<u32>,
    pub relay: String,
}

/// The options of this run; a word that is not known ends the program with status 2.
pub fn read_command(cases: u64) -> Command {
    let against = if cfg!(feature = "library") { "library" } else { "steps" };
    let mut command = Command { seed: 1, cases, against: against.to_string(), left_out: None, relay: String::new() };
    let mut words = std::env::args().skip(1);
    while let Some(word) = words.next() {
        let value = words.next().unwrap_or_else(|| usage(&word));
        match word.as_str() {
            "--seed" => command.seed = number(&value),
            "--cases" => command.cases = number(&value),
            "--against" => command.against = value,
            "--relay" => command.relay = value,
            "--without" => command.left_out = Some(number(&value) as u32),
            _ => usage(&word),
        }
    }
    command
}

fn number(value: &str) -> u64 {
    value.parse().unwrap_or_else(|_| usage(value))
}

fn usage(word: &str) -> ! {
    eprintln!("not understood: {word}");
    eprintln!("options: --seed S, --cases N, --against library|relay|steps, --relay COMMAND, --without STEP");
    exit(2)
}

impl Command {
    pub fn cleaner(&self) -> Box<dyn Cleaner> {
        match self.against.as_str() {
            "steps" => Box::new(ByJudge(Steps { left_out: self.left_out })),
            "relay" => Box::new(Relay::start(&self.relay)),
            #[cfg(feature = "library")]
            "library" => Box::new(crate::library::Library),
            other => usage(other),
        }
    }
}

/// Runs one case; a difference or a panic is told with the case, and ends the program with status 1.
pub fn run_case(shown: &str, case: impl FnOnce() -> Result<(), String>) {
    let told = match catch_unwind(AssertUnwindSafe(case)) {
        Ok(Ok(())) => return,
        Ok(Err(difference)) => difference,
        Err(_) => "a panic".to_string(),
    };
    println!("DIFFERENCE: {told}\n{shown}");
    exit(1)
}
