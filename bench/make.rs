//! Made sites and bundles, each from a seed: the same ones on every machine.

use crate::plain::{clash, follow, is_alone, Fact, Follows, Rule, Site};
use std::collections::BTreeSet;

pub struct Dice(u64);

impl Dice {
    pub fn new(seed: u64) -> Dice {
        Dice(seed)
    }

    /// A number below n (splitmix64).
    pub fn below(&mut self, n: u32) -> u32 {
        self.0 = self.0.wrapping_add(0x9E37_79B9_7F4A_7C15);
        let mut z = self.0;
        z = (z ^ (z >> 30)).wrapping_mul(0xBF58_476D_1CE4_E5B9);
        z = (z ^ (z >> 27)).wrapping_mul(0x94D0_49BB_1331_11EB);
        ((z ^ (z >> 31)) % u64::from(n)) as u32
    }
}

fn concept(dice: &mut Dice, site: &Site) -> u32 {
    if dice.below(3) > 0 {
        dice.below(site.concepts)
    } else {
        64 + dice.below(2 * site.roles)
    }
}

/// Half inclusions, most of the others exclusions. The last fifth of the roles may be functional and includes no role.
fn draw_rule(dice: &mut Dice, site: &Site) -> Rule {
    let open = site.roles - site.roles / 5;
    match dice.below(20) {
        0..=8 => (0, concept(dice, site), concept(dice, site)),
        9..=15 => (1, concept(dice, site), concept(dice, site)),
        16..=17 => (2, dice.below(2 * site.roles), dice.below(2 * open)),
        18 => (3, dice.below(2 * site.roles), dice.below(2 * site.roles)),
        _ => (4, 2 * open + dice.below(2 * (site.roles - open)), 0),
    }
}

fn empties(follows: &Follows) -> usize {
    (0..crate::plain::NODES).filter(|&x| follows.excluded[x][x]).count()
}

/// Rules under which nothing is empty, as those of a real site; without `sound`, whatever comes.
pub fn make_site(seed: u64, concepts: u32, roles: u32, rules: usize, sound: bool) -> Site {
    let mut dice = Dice::new(seed);
    let mut site = Site { concepts, roles, rules: Vec::new() };
    while site.rules.len() < rules {
        let rule = draw_rule(&mut dice, &site);
        site.rules.push(rule);
        if sound && empties(&follow(&site)) > 0 {
            site.rules.pop();
        }
    }
    site
}

fn put(bytes: &mut Vec<u8>, mut value: u32) {
    while value >= 128 {
        bytes.push((value % 128 + 128) as u8);
        value /= 128;
    }
    bytes.push(value as u8);
}

pub fn rule_bytes(site: &Site) -> Vec<u8> {
    let mut bytes = Vec::new();
    [site.concepts, site.roles, site.rules.len() as u32].into_iter().for_each(|n| put(&mut bytes, n));
    for &(kind, x, y) in &site.rules {
        let codes = [kind, x, y];
        codes[..if kind == 4 { 2 } else { 3 }].iter().for_each(|&n| put(&mut bytes, n));
    }
    bytes
}

pub fn bundle_bytes(facts: &[Fact]) -> Vec<u8> {
    let mut bytes = Vec::new();
    put(&mut bytes, facts.len() as u32);
    for &(predicate, subject, object) in facts {
        let numbers = [predicate, subject, object];
        numbers[..if predicate < 64 { 2 } else { 3 }].iter().for_each(|&n| put(&mut bytes, n));
    }
    bytes
}

/// The things of a bundle: some 60,000 apart, so that their numbers have all sizes. A hub is thing 7.
pub struct Things {
    pub count: u32,
    pub hub: bool,
}

impl Things {
    fn draw(&self, dice: &mut Dice) -> u32 {
        dice.below(self.count) * 60_000 / self.count
    }
}

/// Half concepts', half roles' facts, some of which join a thing to itself.
/// With a hub, nine of ten are roles' facts, and nine of ten of those have it at one end.
fn draw_fact(dice: &mut Dice, site: &Site, things: &Things) -> Fact {
    let a = things.draw(dice);
    let b = if dice.below(16) == 0 { a } else { things.draw(dice) };
    let roles = if things.hub { 10 } else { 2 };
    if dice.below(roles) == 0 {
        return (dice.below(site.concepts), a, 0);
    }
    let role = 64 + dice.below(site.roles);
    match dice.below(10) {
        0..=4 if things.hub => (role, 7, b),
        5..=8 if things.hub => (role, a, 7),
        _ => (role, a, b),
    }
}

/// A bundle of so many facts, of which about `troubled` are in conflicts: first facts without any, then facts that are alone or clash with one or two.
pub fn make_facts(seed: u64, site: &Site, count: usize, troubled: usize, things: &Things) -> Vec<Fact> {
    let follows = follow(site);
    let mut dice = Dice::new(seed);
    let (mut facts, mut conflicts) = (BTreeSet::new(), BTreeSet::new());
    while facts.len() < count {
        let fact = draw_fact(&mut dice, site, things);
        let due = troubled.saturating_sub(conflicts.len());
        let wanted = due > 0 && 2 * (count - facts.len()) <= due + 1;
        let alone = is_alone(&follows, &fact);
        let clashes: Vec<Fact> = facts.iter().filter(|g| !alone && clash(&follows, &fact, g)).copied().collect();
        let troubles = alone || !clashes.is_empty();
        if facts.contains(&fact) || troubles != wanted || clashes.len() > 2 {
            continue;
        }
        facts.insert(fact);
        if wanted {
            conflicts.extend(clashes);
            conflicts.insert(fact);
        }
    }
    facts.into_iter().collect()
}
