//! Brute force: marks, partners and answers from worlds and maximal consistent sets alone, with no table of what follows.

mod repairs;
mod world;

use crate::codes::{ALONE, DISPUTED, KEPT, NO_PARTNER};
use crate::judge::{Judge, Judged, Question};
use crate::site::{Fact, RuleFile};
use repairs::Repairs;
use world::World;

/// The judge that builds worlds. It tries every set of facts, so it takes small bundles only.
pub struct Worlds;

impl Judge for Worlds {
    fn judge(&self, file: &RuleFile, facts: &[Fact]) -> Judged {
        let repairs = Repairs::of(&file.rules, facts);
        let numbers = 0..facts.len();
        Judged {
            marks: numbers.clone().map(|fact| mark(&repairs, fact)).collect(),
            partners: numbers.map(|fact| partner(&repairs, fact)).collect(),
        }
    }

    /// Yes is what holds in every world of the rules and the kept facts. That one kept fact by itself gives
    /// every yes is document 01's wording, and is held against all kept facts together here.
    fn answer(&self, file: &RuleFile, facts: &[Fact], judged: &Judged, question: Question) -> Option<u32> {
        let in_every_world = World::of(&file.rules, &judged.kept(facts)).tells(question);
        let by_one = facts
            .iter()
            .enumerate()
            .find(|&(number, &fact)| judged.is_kept(number) && World::of(&file.rules, &[fact]).tells(question));
        assert_eq!(in_every_world, by_one.is_some(), "all kept facts and single ones: {question:?}");
        by_one.map(|(number, _)| number as u32)
    }
}

/// Kept: in every maximal consistent set. Alone: not consistent by itself.
fn mark(repairs: &Repairs, fact: usize) -> u8 {
    if !repairs.consistent_alone(fact) {
        ALONE
    } else if repairs.left_out_by_some(fact) {
        DISPUTED
    } else {
        KEPT
    }
}

/// The lowest fact that is a minimal conflict of two with this one.
fn partner(repairs: &Repairs, fact: usize) -> u16 {
    let lowest = (0..repairs.facts()).find(|&other| repairs.conflict_of_two(fact, other));
    lowest.map_or(NO_PARTNER, |other| other as u16)
}
