//! One random small site, on which every operation is compared with brute force over worlds.

use crate::brute::Worlds;
use crate::check::{shown, Check, Checked};
use crate::cleaner::{Cleaner, Record};
use crate::codes::{ALONE, DISPUTED, KEPT};
use crate::dice::Dice;
use crate::due::Due;
use crate::make_sites::{make_question, make_site, Made};
use crate::site::bundle_bytes;

/// The most facts of a site, and how many questions are asked of each.
const FACTS: usize = 8;
const QUESTIONS: usize = 8;

/// What the sites have covered.
#[derive(Default)]
pub struct Seen {
    pub kept: u32,
    pub alone: u32,
    pub disputed: u32,
    pub yes: u32,
    pub no: u32,
}

/// One site and its two files.
pub struct Trial {
    dice: Dice,
    made: Made,
    rules: Vec<u8>,
    bundle: Vec<u8>,
}

impl Trial {
    pub fn thrown(seed: u64, case: u64) -> Trial {
        let mut dice = Dice::of(seed, case);
        let made = make_site(&mut dice, FACTS);
        let (rules, bundle) = (made.file.bytes(), bundle_bytes(&made.facts));
        Trial { dice, made, rules, bundle }
    }

    pub fn shown(&self, case: u64) -> String {
        shown(&case.to_string(), &self.rules, &self.bundle)
    }

    pub fn run(&mut self, cleaner: &dyn Cleaner, seen: &mut Seen) -> Checked<()> {
        let due = Due::of(&Worlds, &self.rules, &self.bundle);
        let site = due.site.as_ref().map_err(|refusal| format!("the site is refused: {refusal:?}"))?;
        seen.kept += site.judged.count(KEPT);
        seen.alone += site.judged.count(ALONE);
        seen.disputed += site.judged.count(DISPUTED);
        let check = Check::new(cleaner, &due, &self.rules, &self.bundle);
        every_fact(&check, &due, &mut self.dice)?;
        every_question(&check, &self.made, &mut self.dice, seen)?;
        every_record(&check, &due, &self.bundle, &mut self.dice)
    }
}

fn every_fact(check: &Check, due: &Due, dice: &mut Dice) -> Checked<()> {
    check.check_rules()?;
    check.check_bundle()?;
    check.count()?;
    check.mark(due.facts() + dice.below(3), due.facts() + dice.below(3))?;
    check.write_kept(due.kept_length() + dice.below(3))?;
    (0..due.facts() as u64).try_for_each(|fact| check.ask(fact).map(|_| ()))
}

/// The row out, back in, and with the kept facts alone; and the reader from the first fact to the end and beyond.
fn every_record(check: &Check, due: &Due, bundle: &[u8], dice: &mut Dice) -> Checked<()> {
    let (row, kept) = (due.row(), due.kept_row());
    check.records(due.facts() + dice.below(3))?;
    check.write_records(&row, bundle.len() + dice.below(3))?;
    check.write_records(&kept, due.kept_length())?;
    let mut at = check.reader_start()?.at;
    for fact in row.iter().map(Some).chain([None, None]) {
        let (yields, next) = check.reader_next(at)?;
        if (yields.found, yields.fact) != fact.map_or((0, Record::default()), |fact| (1, *fact)) {
            return Err(format!("reader at {at}: got {yields:?}, the row has {fact:?}"));
        }
        at = next;
    }
    Ok(())
}

fn every_question(check: &Check, made: &Made, dice: &mut Dice, seen: &mut Seen) -> Checked<()> {
    for question in (0..QUESTIONS).filter_map(|_| make_question(dice, made)).collect::<Vec<_>>() {
        if check.question(question)?.yes == 1 {
            seen.yes += 1;
        } else {
            seen.no += 1;
        }
    }
    Ok(())
}
