//! Cleans the worked site and prints its listing, in the words of the program cleaner.

use dzyunagor::{mark, Mark, Refusal, MOST_FACTS};

const RULES: &[u8] = b"\x02\x01\x05\x01\x00\x01\x00\x01\x40\x00\x41\x00\x04\x00\x03\x00\x01";
const BUNDLE: &[u8] = b"\x06\x00\x07\x01\x07\x01\x09\x40\x09\x07\x40\x09\xAC\x02\x40\x0C\x0C";

fn main() -> Result<(), Refusal> {
    let (mut marks, mut partners) = ([Mark::Kept; MOST_FACTS], [0; MOST_FACTS]);
    let counts = mark(RULES, BUNDLE, &mut marks, &mut partners)?;
    println!("facts {} kept {} alone {} disputed {}", counts.facts, counts.kept, counts.alone, counts.disputed);
    for fact in 0..counts.facts {
        match marks[fact] {
            Mark::Kept => println!("{fact} kept"),
            Mark::Alone => println!("{fact} alone"),
            Mark::Disputed => println!("{fact} disputed {}", partners[fact]),
        }
    }
    Ok(())
}
