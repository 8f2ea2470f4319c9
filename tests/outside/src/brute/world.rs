//! One world of some facts, built from the raw rules thing by thing, and what contradicts in it.
//!
//! The facts are told first. Then kind 0 and kind 2 rules are applied forward: concepts spread, links spread
//! along role inclusions, and a thing that owes a partner it has not got is given a new unnamed one. Nothing
//! is put in that a rule does not force, so the result maps into every world of the facts (named things to
//! themselves): what contradicts here contradicts in each, what holds of named things here holds in each.
//! If nothing contradicts, it is a world itself, once the parts left out by blocking are filled in by copies.
//!
//! Functional roles. A partner that is there already is used again, so a new partner is never a second one
//! by the role it is given by. Another link by a functional role could come only from a role inclusion with
//! that role on its right, and accepted rules have none. So two partners by a functional role are two named
//! things that facts join, and these are different things. Should an unnamed one ever turn up there, the
//! building stops with a panic: the argument would be wrong.
//!
//! The end. What rules do at a thing depends on its concepts and on the roles by which it has partners. A new
//! unnamed thing has one partner, its parent. Two new things that, after spreading, have the same concepts
//! and the same roles to their parents, therefore grow equal trees: nothing but links ever passes up to a
//! parent, and those are the same already. So the second one is blocked: it gets no partners, and a
//! contradiction below it would be below the first one too. There are finitely many such kinds of new
//! things, each opened one gets finitely many partners, so the building ends.

use crate::codes::{inverse, is_inverse, role_of, NUMBER_MOST, SOME};
use crate::judge::Question;
use crate::site::{Fact, Rule};

/// Whether a thing is given the partners that it owes.
#[derive(Clone, Copy, PartialEq, Eq)]
enum Turn {
    New,
    Open,
    Blocked,
}

/// A named or unnamed thing: bit i of `concepts` is concept i, bit q of `partners` a partner by basic role q.
#[derive(Clone, Copy)]
struct Thing {
    name: Option<u32>,
    concepts: u64,
    partners: u64,
    turn: Turn,
}

impl Thing {
    fn new(name: Option<u32>) -> Thing {
        let turn = if name.is_some() { Turn::Open } else { Turn::New };
        Thing { name, concepts: 0, partners: 0, turn }
    }

    /// Whether the basic concept is true of the thing.
    fn is(&self, basic: u32) -> bool {
        if basic < SOME {
            self.concepts >> basic & 1 == 1
        } else {
            self.partners >> (basic - SOME) & 1 == 1
        }
    }
}

#[derive(Clone, Copy, PartialEq, Eq)]
struct Link {
    role: u32,
    from: usize,
    to: usize,
}

impl Link {
    /// The link that joins `one` to `other` by the basic role.
    fn by(q: u32, one: usize, other: usize) -> Link {
        let (from, to) = if is_inverse(q) { (other, one) } else { (one, other) };
        Link { role: role_of(q), from, to }
    }

    /// The ordered pair that this link joins by the basic role, if it does.
    fn pair(self, q: u32) -> Option<(usize, usize)> {
        let pair = if is_inverse(q) { (self.to, self.from) } else { (self.from, self.to) };
        (self.role == role_of(q)).then_some(pair)
    }
}

/// The things and links so far, and the kinds of unnamed things that are open.
#[derive(Default)]
pub struct World {
    things: Vec<Thing>,
    links: Vec<Link>,
    opened: Vec<(u64, u64)>,
}

impl World {
    pub fn of(rules: &[Rule], facts: &[Fact]) -> World {
        let mut world = World::default();
        facts.iter().for_each(|fact| world.tell(fact));
        loop {
            while world.spread(rules) {}
            if !world.give_partners(rules) {
                return world;
            }
        }
    }

    fn tell(&mut self, fact: &Fact) {
        let subject = self.named(fact.subject);
        if fact.is_role() {
            let object = self.named(fact.object);
            self.join(2 * (fact.predicate - SOME), subject, object);
        } else {
            self.things[subject].concepts |= 1 << fact.predicate;
        }
    }

    /// The thing of this name, added if it is new.
    fn named(&mut self, name: u32) -> usize {
        match self.find(name) {
            Some(place) => place,
            None => self.add(Thing::new(Some(name))),
        }
    }

    fn find(&self, name: u32) -> Option<usize> {
        self.things.iter().position(|thing| thing.name == Some(name))
    }

    fn add(&mut self, thing: Thing) -> usize {
        self.things.push(thing);
        self.things.len() - 1
    }

    /// Joins two things by a basic role; says whether that was new.
    fn join(&mut self, q: u32, one: usize, other: usize) -> bool {
        let link = Link::by(q, one, other);
        if self.links.contains(&link) {
            return false;
        }
        self.links.push(link);
        self.things[one].partners |= 1 << q;
        self.things[other].partners |= 1 << inverse(q);
        true
    }

    /// Every inclusion once that needs no new thing; says whether anything changed.
    fn spread(&mut self, rules: &[Rule]) -> bool {
        let mut changed = false;
        for rule in rules {
            changed |= match *rule {
                Rule::ConceptIncluded(left, right) if right < SOME => self.spread_concept(left, right),
                Rule::RoleIncluded(left, right) => self.spread_role(left, right),
                _ => false,
            };
        }
        changed
    }

    fn spread_concept(&mut self, left: u32, right: u32) -> bool {
        let mut changed = false;
        for thing in &mut self.things {
            if thing.is(left) && !thing.is(right) {
                thing.concepts |= 1 << right;
                changed = true;
            }
        }
        changed
    }

    fn spread_role(&mut self, left: u32, right: u32) -> bool {
        let pairs: Vec<(usize, usize)> = self.pairs(left).collect();
        let mut changed = false;
        for (one, other) in pairs {
            changed |= self.join(right, one, other);
        }
        changed
    }

    fn pairs(&self, q: u32) -> impl Iterator<Item = (usize, usize)> + '_ {
        self.links.iter().filter_map(move |link| link.pair(q))
    }

    /// New partners for all things that are there now; says whether there were any.
    fn give_partners(&mut self, rules: &[Rule]) -> bool {
        let before = self.things.len();
        for place in 0..before {
            if self.takes_turn(place) {
                self.give_partners_to(place, rules);
            }
        }
        self.things.len() > before
    }

    /// A new thing is opened, or blocked if one of its kind is open.
    fn takes_turn(&mut self, place: usize) -> bool {
        let thing = self.things[place];
        if thing.turn == Turn::New {
            let kind = (thing.concepts, thing.partners);
            let again = self.opened.contains(&kind);
            self.things[place].turn = if again { Turn::Blocked } else { Turn::Open };
            if !again {
                self.opened.push(kind);
            }
        }
        self.things[place].turn == Turn::Open
    }

    fn give_partners_to(&mut self, place: usize, rules: &[Rule]) {
        for rule in rules {
            let Rule::ConceptIncluded(left, right) = *rule else { continue };
            if right >= SOME && self.things[place].is(left) && !self.things[place].is(right) {
                let partner = self.add(Thing::new(None));
                self.join(right - SOME, place, partner);
            }
        }
    }

    /// Whether a disjointness or a functional role is broken.
    pub fn contradicts(&self, rules: &[Rule]) -> bool {
        rules.iter().any(|rule| match *rule {
            Rule::ConceptsDisjoint(one, other) => self.things.iter().any(|thing| thing.is(one) && thing.is(other)),
            Rule::RolesDisjoint(one, other) => self.pairs(one).any(|pair| self.pairs(other).any(|too| too == pair)),
            Rule::Functional(q) => self.two_partners(q),
            Rule::ConceptIncluded(..) | Rule::RoleIncluded(..) => false,
        })
    }

    fn two_partners(&self, q: u32) -> bool {
        self.pairs(q).any(|(one, partner)| {
            self.pairs(q).any(|(same, second)| same == one && second != partner && self.differ(partner, second))
        })
    }

    /// Two named things that a functional role would make equal; an unnamed one cannot be here.
    fn differ(&self, one: usize, other: usize) -> bool {
        let named = self.things[one].name.is_some() && self.things[other].name.is_some();
        assert!(named, "an unnamed second partner by a functional role");
        true
    }

    /// Whether the question's answer is yes in this world.
    pub fn tells(&self, question: Question) -> bool {
        match question {
            Question::Has { code, thing } => {
                self.find(name(thing)).is_some_and(|place| self.things[place].is(code as u32))
            }
            Question::Joins { code, from, to } => {
                let ends = (self.find(name(from)), self.find(name(to)));
                self.pairs(code as u32).any(|(one, other)| ends == (Some(one), Some(other)))
            }
        }
    }
}

fn name(thing: u64) -> u32 {
    assert!(thing <= NUMBER_MOST, "a thing within the limit");
    thing as u32
}
