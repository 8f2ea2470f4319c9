//! All sets of facts of a small bundle, which of them are consistent, and which of those are maximal.

use super::world::World;
use crate::site::{Fact, Rule};

/// The most facts of which every set is tried.
const FACTS_TRIED: usize = 12;

/// A set of facts is a number whose bit i says that fact i is in it.
type Set = usize;

/// For every set of facts whether it is consistent, and the maximal ones that are.
pub struct Repairs {
    facts: usize,
    consistent: Vec<bool>,
    maximal: Vec<Set>,
}

impl Repairs {
    pub fn of(rules: &[Rule], facts: &[Fact]) -> Repairs {
        assert!(facts.len() <= FACTS_TRIED, "too many facts for brute force");
        let consistent = consistent_sets(rules, facts);
        let maximal = (0..consistent.len()).filter(|&set| is_maximal(&consistent, facts.len(), set)).collect();
        Repairs { facts: facts.len(), consistent, maximal }
    }

    pub fn facts(&self) -> usize {
        self.facts
    }

    pub fn consistent_alone(&self, fact: usize) -> bool {
        self.consistent[1 << fact]
    }

    pub fn left_out_by_some(&self, fact: usize) -> bool {
        self.maximal.iter().any(|&set| !holds(set, fact))
    }

    /// Two different facts, each consistent by itself, that are not consistent together.
    pub fn conflict_of_two(&self, one: usize, other: usize) -> bool {
        let each = self.consistent_alone(one) && self.consistent_alone(other);
        one != other && each && !self.consistent[1 << one | 1 << other]
    }
}

fn holds(set: Set, fact: usize) -> bool {
    set >> fact & 1 == 1
}

/// Every set, from the smaller to the larger. A world of some facts is a world of any part of them, so a
/// set with an inconsistent part needs no world built; every other one gets its own.
fn consistent_sets(rules: &[Rule], facts: &[Fact]) -> Vec<bool> {
    let mut consistent = vec![false; 1 << facts.len()];
    for set in 0..consistent.len() {
        let parts_are = (0..facts.len()).all(|fact| !holds(set, fact) || consistent[set & !(1 << fact)]);
        consistent[set] = parts_are && !World::of(rules, &chosen(facts, set)).contradicts(rules);
    }
    consistent
}

fn chosen(facts: &[Fact], set: Set) -> Vec<Fact> {
    let numbered = facts.iter().enumerate();
    numbered.filter(|&(number, _)| holds(set, number)).map(|(_, &fact)| fact).collect()
}

/// Consistent, and not so with any one fact more.
fn is_maximal(consistent: &[bool], facts: usize, set: Set) -> bool {
    let grows = (0..facts).any(|fact| !holds(set, fact) && consistent[set | 1 << fact]);
    consistent[set] && !grows
}
