//! Sites with every count at its limit and one over, in their longest forms, and refused far from their start.

use crate::swept::check;
use outside::cleaner::{Cleaner, Refusal};
use outside::codes::*;
use outside::site::{bundle_bytes, Fact, Rule, RuleFile};

/// The first number of three bytes.
const THREE_BYTES: u32 = 16_384;
/// The longest valid bundle, as document 01 gives it.
const LONGEST_BUNDLE: usize = 28_674;
/// More bytes after a file than the program's buffer holds.
const FAR: usize = 70_000;

/// Two files, and the refusal written for them; number 0 if they are accepted.
struct Limit {
    rules: Vec<u8>,
    bundle: Vec<u8>,
    refused: Refusal,
}

fn accepted(rules: Vec<u8>, bundle: &[u8]) -> Limit {
    Limit { rules, bundle: bundle.to_vec(), refused: Refusal::default() }
}

/// Refused in the counts of a file, or after its last item: there is no item there.
fn refused(rules: Vec<u8>, bundle: &[u8], number: u32, side: u32, place: usize) -> Limit {
    refused_in(rules, bundle, number, side, place, NO_ITEM)
}

fn refused_in(rules: Vec<u8>, bundle: &[u8], number: u32, side: u32, place: usize, item: u32) -> Limit {
    let refused = Refusal { number, side, place: place as u64, item };
    Limit { rules, bundle: bundle.to_vec(), refused }
}

pub fn run(cleaner: &dyn Cleaner, sites: &mut u64) -> Result<(), String> {
    for limit in bundles().into_iter().chain(rule_files()).chain(long_tails()).chain(far_rules()).chain(far_facts()) {
        let got = cleaner.check_bundle(&limit.rules, &limit.bundle).refused;
        if got != limit.refused {
            return Err(format!("limit {sites}: got {got:?}, written {:?}", limit.refused));
        }
        check(cleaner, &limit.rules, &limit.bundle)?;
        *sites += 1;
    }
    Ok(())
}

fn file(rules: Vec<Rule>) -> Vec<u8> {
    RuleFile { concepts: CONCEPTS_MOST, roles: ROLES_MOST, rules }.bytes()
}

fn facts(count: u32, fact: impl Fn(u32) -> Fact) -> Vec<u8> {
    let facts: Vec<Fact> = (0..count).map(fact).collect();
    bundle_bytes(&facts)
}

/// The last role, and a pair of things of three bytes each.
fn longest(subject: u32, object: u32) -> Fact {
    let predicate = ROLE_PREDICATE + ROLES_MOST - 1;
    Fact { predicate, subject: THREE_BYTES + subject, object: THREE_BYTES + object }
}

/// All facts kept, all disputed one way, kept although functional, all alone, some disputed, and one fact over.
fn bundles() -> Vec<Limit> {
    let last = 2 * (ROLES_MOST - 1);
    let spread = facts(FACTS_MOST, |fact| longest(fact, fact / 2));
    assert_eq!(spread.len(), LONGEST_BUNDLE);
    let star = facts(FACTS_MOST, |fact| longest(0, fact));
    let over = facts(FACTS_MOST + 1, |fact| longest(0, fact));
    let concepts = facts(FACTS_MOST, |fact| Fact { predicate: fact / 512, subject: fact % 512, object: 0 });
    vec![
        accepted(file(vec![]), &spread),
        accepted(file(vec![Rule::Functional(last)]), &spread),
        accepted(file(vec![Rule::Functional(last + 1)]), &spread),
        accepted(file(vec![Rule::Functional(last)]), &star),
        accepted(file(vec![Rule::RolesDisjoint(last, last)]), &star),
        accepted(file(vec![Rule::ConceptsDisjoint(0, 7)]), &concepts),
        refused(file(vec![]), &over, COUNT_OVER, BUNDLE_SIDE, 0),
    ]
}

/// Each count of a rule file at its limit and one over.
fn rule_files() -> Vec<Limit> {
    let counts = |concepts, roles| RuleFile { concepts, roles, rules: vec![] }.bytes();
    let bundle = facts(3, |fact| Fact { predicate: [0, 63, 95][fact as usize], subject: 7, object: fact / 2 * 9 });
    let mut limits = vec![
        accepted(counts(CONCEPTS_MOST, ROLES_MOST), &bundle),
        refused(counts(CONCEPTS_MOST + 1, ROLES_MOST), &bundle, COUNT_OVER, RULES_SIDE, 0),
        refused(counts(CONCEPTS_MOST, ROLES_MOST + 1), &bundle, COUNT_OVER, RULES_SIDE, 1),
        refused_in(counts(0, 0), &bundle, UNDECLARED, BUNDLE_SIDE, 1, 0),
    ];
    for rules in [disjoint, chain, crossed] {
        limits.push(accepted(file(rules(RULES_MOST)), &bundle));
        limits.push(refused(file(rules(RULES_MOST + 1)), &bundle, COUNT_OVER, RULES_SIDE, 2));
    }
    limits
}

/// One rule with the last codes, over and over.
fn disjoint(count: u32) -> Vec<Rule> {
    vec![Rule::ConceptsDisjoint(63, 127); count as usize]
}

/// Roles disjoint from many others.
fn crossed(count: u32) -> Vec<Rule> {
    (0..count).map(|rule| Rule::RolesDisjoint(rule % 64, rule % 63)).collect()
}

/// Through all concepts, into a role, through all roles, and a contradiction at the far end; then the last rule again and again.
fn chain(count: u32) -> Vec<Rule> {
    let mut rules: Vec<Rule> = (0..CONCEPTS_MOST - 1).map(|i| Rule::ConceptIncluded(i, i + 1)).collect();
    rules.push(Rule::ConceptIncluded(CONCEPTS_MOST - 1, SOME));
    rules.extend((0..ROLES_MOST - 1).map(|j| Rule::RoleIncluded(2 * j, 2 * j + 3)));
    rules.resize(count as usize, Rule::ConceptsDisjoint(SOME + 63, SOME + 63));
    rules
}

/// Many bytes after the last item.
fn long_tails() -> Vec<Limit> {
    let bundle = facts(FACTS_MOST, |fact| longest(fact, fact));
    let rules = file(vec![]);
    let longer = |bytes: &[u8]| [bytes, &[0; FAR]].concat();
    vec![
        refused(rules.clone(), &longer(&bundle), BYTES_AFTER, BUNDLE_SIDE, LONGEST_BUNDLE),
        refused(longer(&rules), &bundle, BYTES_AFTER, RULES_SIDE, rules.len()),
        refused(longer(&[]), &longer(&[]), BYTES_AFTER, RULES_SIDE, 3),
    ]
}

/// Rules and facts about the edges of bytes, and the last that there may be.
const FAR_RULES: [u32; 5] = [0, 127, 255, 256, RULES_MOST - 1];
const FAR_FACTS: [u32; 5] = [1, 255, 256, 2_047, FACTS_MOST - 1];

/// As many rules as there may be, of three bytes each after four of counts, refused at one of them.
fn far_rules() -> Vec<Limit> {
    let whole = file(vec![Rule::RolesDisjoint(0, 1); RULES_MOST as usize]);
    let mut limits = Vec::new();
    for rule in FAR_RULES {
        let place = 4 + 3 * rule as usize;
        let mut put = |at: usize, byte: u8, number: u32| {
            let mut bytes = whole.clone();
            bytes[at] = byte;
            limits.push(refused_in(bytes, &[], number, RULES_SIDE, at, rule));
        };
        put(place, FUNCTIONAL as u8 + 1, NO_SUCH_KIND);
        put(place + 2, 2 * ROLES_MOST as u8, UNDECLARED);
        limits.push(refused_in(whole[..place].to_vec(), &[], BYTES_END, RULES_SIDE, place, rule));
        limits.push(refused_in(broken_at(rule), &[], FUNCTIONAL_RIGHT, RULES_SIDE, place, rule));
    }
    limits
}

/// A functional rule that is broken by the rules on both sides of it.
fn broken_at(rule: u32) -> Vec<u8> {
    let mut rules = vec![Rule::RoleIncluded(4, 2); RULES_MOST as usize];
    rules[rule as usize] = Rule::Functional(3);
    file(rules)
}

/// As many facts as there may be, of seven bytes each after two of the count, refused at one of them.
fn far_facts() -> Vec<Limit> {
    let whole = facts(FACTS_MOST, |fact| longest(fact, fact));
    let mut limits = Vec::new();
    for fact in FAR_FACTS {
        let place = 2 + 7 * fact as usize;
        let mut undeclared = whole.clone();
        undeclared[place] += 1;
        let again =
            facts(FACTS_MOST, |other| if other == fact { longest(fact - 1, fact - 1) } else { longest(other, other) });
        limits.push(refused_in(file(vec![]), &undeclared, UNDECLARED, BUNDLE_SIDE, place, fact));
        limits.push(refused_in(file(vec![]), &again, NOT_ABOVE, BUNDLE_SIDE, place, fact));
        limits.push(refused_in(file(vec![]), &whole[..place], BYTES_END, BUNDLE_SIDE, place, fact));
    }
    limits
}
