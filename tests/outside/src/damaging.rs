//! One site with damaged files and wild arguments, on which every entry point is compared with the plain reader and the steps.

use crate::arguments::Arguments;
use crate::check::{shown, Check, Checked};
use crate::cleaner::Cleaner;
use crate::codes::{REFUSALS, SIDES};
use crate::damages::damage_site;
use crate::dice::Dice;
use crate::due::Due;
use crate::make_sites::{make_site, Made};
use crate::steps::Steps;

/// The most facts of a site before it is damaged.
const FACTS: usize = 10;

/// How often each refusal was given on each side; number 0 counts the calls that were not refused.
pub type Seen = [[u64; REFUSALS]; SIDES];

/// Two files, the site they were before the damage, and the dice for the arguments.
pub struct Trial {
    dice: Dice,
    made: Made,
    rules: Vec<u8>,
    bundle: Vec<u8>,
}

impl Trial {
    pub fn thrown(seed: u64, case: u64) -> Trial {
        let mut dice = Dice::of(seed, case);
        let made = make_site(&mut dice, FACTS);
        let (rules, bundle) = damage_site(&mut dice, made.clone());
        Trial { dice, made, rules, bundle }
    }

    pub fn shown(&self, case: u64) -> String {
        shown(&case.to_string(), &self.rules, &self.bundle)
    }

    pub fn run(&mut self, cleaner: &dyn Cleaner, seen: &mut Seen) -> Checked<()> {
        let judge = Steps::default();
        let due = Due::of(&judge, &self.rules, &self.bundle);
        let arguments = Arguments::thrown(&mut self.dice, &due, &self.made, &self.bundle);
        let check = Check::new(cleaner, &due, &self.rules, &self.bundle);
        for refused in check.every_operation(&arguments)? {
            seen[refused.side as usize][refused.number as usize] += 1;
        }
        Ok(())
    }
}
