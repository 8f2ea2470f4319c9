//! Damaged files and wild arguments: every entry point compared with the plain reader, and with the steps where a site is accepted.

use outside::codes::REFUSALS;
use outside::command::{read_command, run_case};
use outside::damaging::{Seen, Trial};

/// How many cases the gate runs.
const CASES: u64 = 200_000;

fn main() {
    let command = read_command(CASES);
    println!("damage: plain reader against {}, seed {}", command.against, command.seed);
    let cleaner = command.cleaner();
    let mut seen: Seen = Default::default();
    for case in 0..command.cases {
        let mut trial = Trial::thrown(command.seed, case);
        run_case(&trial.shown(case), || trial.run(cleaner.as_ref(), &mut seen));
    }
    println!("damage: {} cases on every entry point, no difference", command.cases);
    println!("damage: calls not refused {}", seen[0][0]);
    for (side, name) in ["rules", "bundle", "call"].iter().enumerate() {
        let told: Vec<String> = (1..REFUSALS).map(|number| format!("{number}:{}", seen[side][number])).collect();
        println!("damage: refusals of the {name} {}", told.join(" "));
    }
}
