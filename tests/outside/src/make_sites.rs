//! Random small sites whose rules and facts get in each other's way: few names, chains, inverses, empty roles, loops.

use crate::codes::*;
use crate::dice::Dice;
use crate::judge::Question;
use crate::site::{Fact, Rule, RuleFile};

/// A site, and the codes and things that it was made from, for questions about it.
#[derive(Clone)]
pub struct Made {
    pub file: RuleFile,
    pub facts: Vec<Fact>,
    pub basics: Vec<u32>,
    pub roles: Vec<u32>,
    pub things: Vec<u32>,
}

/// The few concepts, roles and things that one site uses, out of all that its file declares.
struct Palette {
    concepts: Vec<u32>,
    roles: Vec<u32>,
    things: Vec<u32>,
    /// Roles that are functional, one way or both; role inclusions do not lead to them.
    functional: Vec<u32>,
}

/// Things of one, two and three bytes, the least and the largest.
const THINGS: [u32; 10] = [0, 1, 7, 9, 127, 128, 300, 16_383, 16_384, 65_535];

/// A site of at most this many facts.
pub fn make_site(dice: &mut Dice, facts_most: usize) -> Made {
    let mut file = RuleFile { concepts: count(dice, CONCEPTS_MOST), roles: count(dice, ROLES_MOST), rules: vec![] };
    let palette = Palette::thrown(dice, &file);
    file.rules = make_rules(dice, &palette);
    let facts = make_facts(dice, &palette, facts_most);
    Made { facts, basics: palette.basics(), roles: palette.basic_roles(), things: palette.things, file }
}

/// How many are declared: mostly few, sometimes none or as many as there can be.
fn count(dice: &mut Dice, most: u32) -> u32 {
    match dice.below(16) {
        0 => 0,
        1 => most,
        2 => dice.between(1, most as usize) as u32,
        _ => dice.between(1, 4) as u32,
    }
}

/// Up to `most` different numbers below `bound`, the highest favoured.
fn some_of(dice: &mut Dice, bound: u32, most: usize) -> Vec<u32> {
    let mut some = Vec::new();
    for _ in 0..most.min(bound as usize) {
        let code = if dice.one_in(3) { bound - 1 } else { dice.below(bound as usize) as u32 };
        if !some.contains(&code) {
            some.push(code);
        }
    }
    some
}

impl Palette {
    fn thrown(dice: &mut Dice, file: &RuleFile) -> Palette {
        let roles = some_of(dice, file.roles, 6);
        let functional = roles.iter().copied().filter(|_| dice.one_in(3)).collect();
        let mut things: Vec<u32> = (0..dice.between(1, 3)).map(|_| dice.pick(&THINGS)).collect();
        things.dedup();
        Palette { concepts: some_of(dice, file.concepts, 4), roles, things, functional }
    }

    fn basic_roles(&self) -> Vec<u32> {
        self.roles.iter().flat_map(|&role| [2 * role, 2 * role + 1]).collect()
    }

    fn basics(&self) -> Vec<u32> {
        let mut basics = self.concepts.clone();
        basics.extend(self.basic_roles().iter().map(|q| SOME + q));
        basics
    }

    /// A basic role that may stand on the right of an inclusion.
    fn free_role(&self, dice: &mut Dice) -> Option<u32> {
        let free: Vec<u32> =
            self.basic_roles().into_iter().filter(|&q| !self.functional.contains(&role_of(q))).collect();
        (!free.is_empty()).then(|| dice.pick(&free))
    }
}

fn make_rules(dice: &mut Dice, palette: &Palette) -> Vec<Rule> {
    let mut rules: Vec<Rule> = palette.functional.iter().map(|&role| functional(dice, role)).collect();
    for _ in 0..dice.below(6) {
        rules.extend(make_rule(dice, palette));
    }
    if dice.one_in(2) {
        rules.extend(chain(dice, palette));
    }
    if dice.one_in(12) && !rules.is_empty() {
        rules.push(dice.pick(&rules));
    }
    shuffle(dice, &mut rules);
    rules
}

fn functional(dice: &mut Dice, role: u32) -> Rule {
    Rule::Functional(2 * role + dice.below(2) as u32)
}

fn shuffle<T>(dice: &mut Dice, row: &mut [T]) {
    for last in (1..row.len()).rev() {
        row.swap(last, dice.below(last + 1));
    }
}

/// One rule of a random kind, if the palette has the codes for it.
fn make_rule(dice: &mut Dice, palette: &Palette) -> Option<Rule> {
    let (basics, roles) = (palette.basics(), palette.basic_roles());
    let kind = dice.below(10);
    if basics.is_empty() || (kind > 6 && roles.is_empty()) {
        return None;
    }
    match kind {
        0..=3 => Some(Rule::ConceptIncluded(dice.pick(&basics), dice.pick(&basics))),
        4..=6 => {
            let left = dice.pick(&basics);
            Some(Rule::ConceptsDisjoint(left, rarely_same(dice, &basics, left)))
        }
        7 => {
            let left = dice.pick(&roles);
            Some(Rule::RolesDisjoint(left, rarely_same(dice, &roles, left)))
        }
        8 => palette.free_role(dice).map(|right| Rule::RoleIncluded(dice.pick(&roles), right)),
        _ => Some(dice.pick(&roles)).map(|q| Rule::RolesDisjoint(q, inverse(q))),
    }
}

/// A second code for a disjointness; a code is seldom disjoint from itself, since that empties much.
fn rarely_same(dice: &mut Dice, codes: &[u32], left: u32) -> u32 {
    let code = dice.pick(codes);
    if code == left {
        dice.pick(codes)
    } else {
        code
    }
}

/// A concept that demands a partner, whose other end demands the next one, and so on; often what stands at the end cannot be.
fn chain(dice: &mut Dice, palette: &Palette) -> Vec<Rule> {
    let basics = palette.basics();
    if palette.roles.is_empty() {
        return Vec::new();
    }
    let mut rules = Vec::new();
    let mut at = dice.pick(&basics);
    for q in chain_roles(dice, palette) {
        rules.push(Rule::ConceptIncluded(at, SOME + q));
        at = SOME + inverse(q);
    }
    let other = dice.pick(&basics);
    match dice.below(5) {
        0 => rules.push(Rule::ConceptIncluded(at, other)),
        1 => rules.push(Rule::ConceptsDisjoint(at, other)),
        2 => rules.push(Rule::ConceptsDisjoint(at, at)),
        3 => rules.extend([Rule::ConceptIncluded(at, other), Rule::ConceptsDisjoint(other, at)]),
        _ => {}
    }
    rules
}

/// The roles along a chain: any, or each of the palette's roles once, so that only the whole chain leads to its end.
fn chain_roles(dice: &mut Dice, palette: &Palette) -> Vec<u32> {
    if dice.one_in(2) {
        return (0..dice.between(1, 4)).map(|_| dice.pick(&palette.basic_roles())).collect();
    }
    let mut roles: Vec<u32> = palette.roles.iter().map(|role| 2 * role + dice.below(2) as u32).collect();
    shuffle(dice, &mut roles);
    roles
}

/// Facts over the palette, ascending, none twice.
fn make_facts(dice: &mut Dice, palette: &Palette, most: usize) -> Vec<Fact> {
    let count = if dice.one_in(2) { most } else { dice.below(most + 1) };
    let mut facts: Vec<Fact> = (0..count).filter_map(|_| make_fact(dice, palette)).collect();
    facts.sort();
    facts.dedup();
    facts
}

fn make_fact(dice: &mut Dice, palette: &Palette) -> Option<Fact> {
    let subject = dice.pick(&palette.things);
    if dice.one_in(2) && !palette.concepts.is_empty() {
        return Some(Fact { predicate: dice.pick(&palette.concepts), subject, object: 0 });
    }
    if palette.roles.is_empty() {
        return None;
    }
    let predicate = ROLE_PREDICATE + dice.pick(&palette.roles);
    let object = if dice.one_in(6) { subject } else { dice.pick(&palette.things) };
    Some(Fact { predicate, subject, object })
}

/// A question in range about the site's own names; now and then about a thing that no fact mentions.
pub fn make_question(dice: &mut Dice, made: &Made) -> Option<Question> {
    let mut thing = || u64::from(if dice.one_in(16) { 5 } else { dice.pick(&made.things) });
    let (from, to) = (thing(), thing());
    if !made.roles.is_empty() && dice.one_in(3) {
        return Some(Question::Joins { code: dice.pick(&made.roles).into(), from, to });
    }
    (!made.basics.is_empty()).then(|| Question::Has { code: dice.pick(&made.basics).into(), thing: from })
}
