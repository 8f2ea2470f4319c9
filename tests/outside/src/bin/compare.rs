//! Random small sites: every operation compared with brute force over worlds.

use outside::command::{read_command, run_case};
use outside::comparing::{Seen, Trial};

/// How many cases the gate runs.
const CASES: u64 = 20_000;

fn main() {
    let command = read_command(CASES);
    println!("compare: worlds against {}, seed {}", command.against, command.seed);
    let cleaner = command.cleaner();
    let mut seen = Seen::default();
    for case in 0..command.cases {
        let mut trial = Trial::thrown(command.seed, case);
        run_case(&trial.shown(case), || trial.run(cleaner.as_ref(), &mut seen));
    }
    println!("compare: {} cases, no difference", command.cases);
    println!("compare: facts kept {} alone {} disputed {}", seen.kept, seen.alone, seen.disputed);
    println!("compare: answers yes {} no {}", seen.yes, seen.no);
}
