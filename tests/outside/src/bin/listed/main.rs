//! The listed tests: document 01's own cases, every truncation and single-byte change of valid files, and all limits.

mod items;
mod limits;
mod rows;
mod swept;
mod written;

use outside::command::{read_command, run_case};

fn main() {
    let command = read_command(0);
    println!("listed: against {}", command.against);
    let cleaner = command.cleaner();
    let mut told = [0; 3];
    run_case("document 01's cases", || written::run(cleaner.as_ref(), &mut told[0]));
    run_case("truncations and changed bytes", || swept::run(cleaner.as_ref(), &mut told[1]));
    run_case("limits", || limits::run(cleaner.as_ref(), &mut told[2]));
    println!("listed: {} written answers of document 01, no difference", told[0]);
    println!("listed: {} truncated or changed files on every entry point, no difference", told[1]);
    println!("listed: {} sites at a limit, one over, or refused far from their start, no difference", told[2]);
}
