//! Whether the checks bite: every wrong version must be noticed by the random sites or by the damaged files.

use outside::cleaner::Cleaner;
use outside::command::read_command;
use outside::wrong::every_wrong_version;
use outside::{comparing, damaging};
use std::process::exit;

/// How many cases of each kind a wrong version may pass at most.
const CASES: u64 = 2_000;

/// The first case, of either kind, that notices the wrong version.
fn noticed(cleaner: &dyn Cleaner, seed: u64, cases: u64) -> Option<String> {
    for case in 0..cases {
        if let Err(told) = comparing::Trial::thrown(seed, case).run(cleaner, &mut Default::default()) {
            return Some(format!("compare case {case}: {told}"));
        }
        if let Err(told) = damaging::Trial::thrown(seed, case).run(cleaner, &mut Default::default()) {
            return Some(format!("damage case {case}: {told}"));
        }
    }
    None
}

fn main() {
    let command = read_command(CASES);
    let versions = every_wrong_version();
    for (name, cleaner) in &versions {
        let Some(told) = noticed(cleaner.as_ref(), command.seed, command.cases) else {
            println!("bite: NOT NOTICED: {name}");
            exit(1)
        };
        println!("bite: {name}: {}", told.chars().take(72).collect::<String>());
    }
    println!("bite: {} wrong versions, all noticed", versions.len());
}
