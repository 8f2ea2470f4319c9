//! The reference by the steps: document 01's included and excluded as sets of pairs grown step by step, then marks by its words.

use crate::codes::*;
use crate::judge::{Judge, Judged, Question};
use crate::site::{Fact, Rule, RuleFile};

/// Basic concepts have their own codes; basic role q is numbered `ROLE_NODE + q`.
const ROLE_NODE: usize = 128;
const NODES: usize = 192;

/// A relation on nodes: who is related to whom, and from whom, and the pairs still to be looked at.
struct Relation {
    holds: Vec<bool>,
    after: Vec<Vec<usize>>,
    before: Vec<Vec<usize>>,
    fresh: Vec<(usize, usize)>,
}

impl Relation {
    fn empty() -> Relation {
        let none = vec![Vec::new(); NODES];
        Relation { holds: vec![false; NODES * NODES], after: none.clone(), before: none, fresh: Vec::new() }
    }

    fn has(&self, x: usize, y: usize) -> bool {
        self.holds[x * NODES + y]
    }

    fn add(&mut self, x: usize, y: usize) {
        if !self.has(x, y) {
            self.holds[x * NODES + y] = true;
            self.after[x].push(y);
            self.before[y].push(x);
            self.fresh.push((x, y));
        }
    }
}

/// The judge by the steps. One step can be left out, to see that the comparison notices.
#[derive(Clone, Copy, Default)]
pub struct Steps {
    pub left_out: Option<u32>,
}

/// What decides clashes: the exclusions that follow from a rule file, and its functional roles.
struct Tables {
    excluded: Relation,
    functional: Vec<u32>,
}

fn role_node(q: u32) -> usize {
    ROLE_NODE + q as usize
}

fn some_node(q: u32) -> usize {
    (SOME + q) as usize
}

/// The basic role that a node is, if it is one.
fn as_role(node: usize) -> Option<u32> {
    (node >= ROLE_NODE).then(|| (node - ROLE_NODE) as u32)
}

/// The basic role q of which a node is q or "some q", if it is one.
fn as_mate(node: usize) -> Option<u32> {
    as_role(node).or((node >= SOME as usize && node < ROLE_NODE).then(|| node as u32 - SOME))
}

impl Steps {
    fn takes(&self, step: u32) -> bool {
        self.left_out != Some(step)
    }

    fn included(&self, file: &RuleFile) -> Relation {
        let mut included = Relation::empty();
        if self.takes(1) {
            declared(file).for_each(|node| included.add(node, node));
        }
        for rule in &file.rules {
            match *rule {
                Rule::ConceptIncluded(x, y) => included.add(x as usize, y as usize),
                Rule::RoleIncluded(x, y) => included.add(role_node(x), role_node(y)),
                _ => {}
            }
        }
        while let Some((x, y)) = included.fresh.pop() {
            self.include_more(&mut included, x, y);
        }
        included
    }

    /// What steps 2, 3 and 4 give from one inclusion and those that are there.
    fn include_more(&self, included: &mut Relation, x: usize, y: usize) {
        if self.takes(2) {
            included.after[y].clone().into_iter().for_each(|z| included.add(x, z));
            included.before[x].clone().into_iter().for_each(|w| included.add(w, y));
        }
        let (Some(p), Some(q)) = (as_role(x), as_role(y)) else { return };
        if self.takes(3) {
            included.add(role_node(inverse(p)), role_node(inverse(q)));
        }
        if self.takes(4) {
            included.add(some_node(p), some_node(q));
        }
    }

    fn excluded(&self, file: &RuleFile, included: &Relation) -> Relation {
        let mut excluded = Relation::empty();
        for rule in &file.rules {
            match *rule {
                Rule::ConceptsDisjoint(x, y) => excluded.add(x as usize, y as usize),
                Rule::RolesDisjoint(x, y) => excluded.add(role_node(x), role_node(y)),
                _ => {}
            }
        }
        while let Some((y, z)) = excluded.fresh.pop() {
            self.exclude_more(&mut excluded, included, y, z);
        }
        excluded
    }

    /// What steps 5 to 8 give from one exclusion.
    fn exclude_more(&self, excluded: &mut Relation, included: &Relation, y: usize, z: usize) {
        if self.takes(5) {
            excluded.add(z, y);
        }
        if self.takes(6) {
            included.before[y].iter().for_each(|&x| excluded.add(x, z));
        }
        if let (true, Some(p), Some(q)) = (self.takes(7), as_role(y), as_role(z)) {
            excluded.add(role_node(inverse(p)), role_node(inverse(q)));
        }
        if self.takes(8) && y == z {
            self.exclude_mates(excluded, y);
        }
    }

    /// Step 8: q, some q and some inverse q, if one of them excludes itself; "some q" is in the sets of q and of its inverse.
    fn exclude_mates(&self, excluded: &mut Relation, node: usize) {
        let Some(q) = as_mate(node) else { return };
        let roles = if as_role(node).is_some() { vec![q] } else { vec![q, inverse(q)] };
        for r in roles {
            for mate in [role_node(r), some_node(r), some_node(inverse(r))] {
                excluded.add(mate, mate);
            }
        }
    }

    fn tables(&self, file: &RuleFile) -> Tables {
        let excluded = self.excluded(file, &self.included(file));
        let functional = file.rules.iter().filter_map(|rule| match *rule {
            Rule::Functional(q) => Some(q),
            _ => None,
        });
        Tables { functional: functional.collect(), excluded }
    }
}

/// All declared nodes.
fn declared(file: &RuleFile) -> impl Iterator<Item = usize> {
    let roles = 0..2 * file.roles;
    (0..file.concepts as usize).chain(roles.clone().map(some_node)).chain(roles.map(role_node))
}

/// Where a type stands: at a thing, or at an ordered pair.
#[derive(Clone, Copy, PartialEq, Eq)]
enum Place {
    Thing(u64),
    Pair(u64, u64),
}

#[derive(Clone, Copy)]
struct Type {
    node: usize,
    place: Place,
}

/// The types of a fact: one for a concept's, four for a role's.
fn types(fact: Fact) -> Vec<Type> {
    let (a, b) = (u64::from(fact.subject), u64::from(fact.object));
    if !fact.is_role() {
        return vec![Type { node: fact.predicate as usize, place: Place::Thing(a) }];
    }
    let q = 2 * (fact.predicate - ROLE_PREDICATE);
    vec![
        Type { node: some_node(q), place: Place::Thing(a) },
        Type { node: some_node(inverse(q)), place: Place::Thing(b) },
        Type { node: role_node(q), place: Place::Pair(a, b) },
        Type { node: role_node(inverse(q)), place: Place::Pair(b, a) },
    ]
}

/// A fact joins these pairs by this basic role.
fn pair_by(fact: Fact, q: u32) -> Option<(u32, u32)> {
    let pair = if is_inverse(q) { (fact.object, fact.subject) } else { (fact.subject, fact.object) };
    (fact.predicate == ROLE_PREDICATE + role_of(q)).then_some(pair)
}

impl Tables {
    fn jar(&self, some: &[Type], others: &[Type]) -> bool {
        let meets = |x: &Type, y: &Type| x.place == y.place && self.excluded.has(x.node, y.node);
        some.iter().any(|x| others.iter().any(|y| meets(x, y)))
    }

    fn clash(&self, facts: &[Fact], types: &[Vec<Type>], one: usize, other: usize) -> bool {
        self.jar(&types[one], &types[other]) || self.functional.iter().any(|&q| two_things(facts[one], facts[other], q))
    }
}

/// Whether q joins one thing to two different things by the two facts.
fn two_things(one: Fact, other: Fact, q: u32) -> bool {
    match (pair_by(one, q), pair_by(other, q)) {
        (Some((a, b)), Some((c, d))) => a == c && b != d,
        _ => false,
    }
}

impl Judge for Steps {
    fn judge(&self, file: &RuleFile, facts: &[Fact]) -> Judged {
        let tables = self.tables(file);
        let types: Vec<Vec<Type>> = facts.iter().map(|&fact| types(fact)).collect();
        let alone: Vec<bool> = types.iter().map(|types| tables.jar(types, types)).collect();
        let clash = |one: usize, other: usize| {
            one != other && !alone[one] && !alone[other] && tables.clash(facts, &types, one, other)
        };
        let mut judged = Judged::default();
        for (one, &is_alone) in alone.iter().enumerate() {
            let lowest = (0..facts.len()).find(|&other| clash(one, other));
            let mark = if is_alone { ALONE } else { lowest.map_or(KEPT, |_| DISPUTED) };
            judged.marks.push(mark);
            judged.partners.push(lowest.map_or(NO_PARTNER, |other| other as u16));
        }
        judged
    }

    fn answer(&self, file: &RuleFile, facts: &[Fact], judged: &Judged, question: Question) -> Option<u32> {
        let included = self.included(file);
        let (node, place) = match question {
            Question::Has { code, thing } => (code as usize, Place::Thing(thing)),
            Question::Joins { code, from, to } => (role_node(code as u32), Place::Pair(from, to)),
        };
        let gives = |fact: Fact| types(fact).iter().any(|t| t.place == place && included.has(t.node, node));
        let lowest = (0..facts.len()).find(|&number| judged.is_kept(number) && gives(facts[number]));
        lowest.map(|number| number as u32)
    }
}
