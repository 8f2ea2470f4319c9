//! A plain reader of rule files and bundles: what any bytes and arguments are refused with, in document 01's order.

use crate::cleaner::{Record, Refusal};
use crate::codes::*;
use crate::judge::Question;
use crate::site::{Fact, Rule, RuleFile};

/// A place in a file, and the side and the item that its refusals name.
struct Reader<'a> {
    bytes: &'a [u8],
    at: usize,
    side: u32,
    item: u32,
}

/// A number, and the place of its first byte.
#[derive(Clone, Copy)]
struct Placed {
    value: u32,
    place: usize,
}

impl<'a> Reader<'a> {
    /// A reader that is in no item.
    fn at_place(bytes: &'a [u8], side: u32, at: usize) -> Reader<'a> {
        Reader { bytes, at, side, item: NO_ITEM }
    }

    fn refuse<T>(&self, number: u32, place: usize) -> Result<T, Refusal> {
        Err(Refusal { number, side: self.side, place: place as u64, item: self.item })
    }

    /// The next number, judged as far as a number by itself can be.
    fn number(&mut self) -> Result<Placed, Refusal> {
        let place = self.at;
        let mut value = 0;
        for group in 0..NUMBER_BYTES {
            let Some(&byte) = self.bytes.get(place + group) else { return self.refuse(BYTES_END, place) };
            value |= u32::from(byte & 0x7F) << (7 * group);
            if byte < 0x80 {
                self.at = place + group + 1;
                return self.shortest(Placed { value, place }, group > 0 && byte == 0);
            }
        }
        self.refuse(TOO_LARGE, place)
    }

    fn shortest(&self, number: Placed, long: bool) -> Result<Placed, Refusal> {
        if long {
            return self.refuse(LONG_FORM, number.place);
        }
        if u64::from(number.value) > NUMBER_MOST {
            return self.refuse(TOO_LARGE, number.place);
        }
        Ok(number)
    }

    /// A number that must pass a test, or is refused at its own place.
    fn number_that(&mut self, refusal: u32, passes: impl Fn(u32) -> bool) -> Result<Placed, Refusal> {
        let number = self.number()?;
        if passes(number.value) {
            Ok(number)
        } else {
            self.refuse(refusal, number.place)
        }
    }

    fn count(&mut self, most: u32) -> Result<u32, Refusal> {
        Ok(self.number_that(COUNT_OVER, |count| count <= most)?.value)
    }

    /// Leaves the last item; no byte may follow it.
    fn done(&mut self) -> Result<(), Refusal> {
        self.item = NO_ITEM;
        if self.at < self.bytes.len() {
            return self.refuse(BYTES_AFTER, self.at);
        }
        Ok(())
    }
}

/// The rule file, or its refusal.
pub fn read_rules(bytes: &[u8]) -> Result<RuleFile, Refusal> {
    let mut reader = Reader::at_place(bytes, RULES_SIDE, 0);
    let concepts = reader.count(CONCEPTS_MOST)?;
    let roles = reader.count(ROLES_MOST)?;
    let count = reader.count(RULES_MOST)?;
    let mut file = RuleFile { concepts, roles, rules: Vec::new() };
    let mut places = Vec::new();
    for rule in 0..count {
        reader.item = rule;
        places.push(reader.at);
        let rule = read_rule(&mut reader, &file)?;
        file.rules.push(rule);
    }
    reader.done()?;
    let Some(rule) = first_broken(&file.rules) else { return Ok(file) };
    reader.item = rule as u32;
    reader.refuse(FUNCTIONAL_RIGHT, places[rule])
}

fn read_rule(reader: &mut Reader, file: &RuleFile) -> Result<Rule, Refusal> {
    let kind = reader.number_that(NO_SUCH_KIND, |kind| kind <= FUNCTIONAL)?.value;
    let mut code = || {
        let declared = |code| match kind {
            CONCEPT_INCLUDED | CONCEPTS_DISJOINT => basic_concept_declared(file, u64::from(code)),
            _ => basic_role_declared(file, u64::from(code)),
        };
        Ok(reader.number_that(UNDECLARED, declared)?.value)
    };
    Ok(match kind {
        CONCEPT_INCLUDED => Rule::ConceptIncluded(code()?, code()?),
        CONCEPTS_DISJOINT => Rule::ConceptsDisjoint(code()?, code()?),
        ROLE_INCLUDED => Rule::RoleIncluded(code()?, code()?),
        ROLES_DISJOINT => Rule::RolesDisjoint(code()?, code()?),
        _ => Rule::Functional(code()?),
    })
}

fn basic_concept_declared(file: &RuleFile, code: u64) -> bool {
    let some = u64::from(SOME);
    if code < some {
        code < u64::from(file.concepts)
    } else {
        basic_role_declared(file, code - some)
    }
}

fn basic_role_declared(file: &RuleFile, code: u64) -> bool {
    code < 2 * u64::from(file.roles)
}

/// The first functional rule whose role stands on the right of a role inclusion.
fn first_broken(rules: &[Rule]) -> Option<usize> {
    rules.iter().position(|rule| match *rule {
        Rule::Functional(q) => rules.iter().any(|other| stands_right(other, role_of(q))),
        _ => false,
    })
}

fn stands_right(rule: &Rule, role: u32) -> bool {
    matches!(*rule, Rule::RoleIncluded(_, right) if role_of(right) == role)
}

/// The facts of a bundle under accepted rules, or its refusal.
pub fn read_bundle(file: &RuleFile, bytes: &[u8]) -> Result<Vec<Fact>, Refusal> {
    let mut reader = Reader::at_place(bytes, BUNDLE_SIDE, 0);
    let count = reader.count(FACTS_MOST)?;
    let mut facts: Vec<Fact> = Vec::new();
    for number in 0..count {
        reader.item = number;
        let place = reader.at;
        let fact = read_fact(&mut reader, file)?;
        if facts.last().is_some_and(|before| *before >= fact) {
            return reader.refuse(NOT_ABOVE, place);
        }
        facts.push(fact);
    }
    reader.done()?;
    Ok(facts)
}

fn read_fact(reader: &mut Reader, file: &RuleFile) -> Result<Fact, Refusal> {
    let predicate = reader.number_that(UNDECLARED, |code| predicate_declared(file, code))?.value;
    let subject = reader.number()?.value;
    let mut fact = Fact { predicate, subject, object: 0 };
    if fact.is_role() {
        fact.object = reader.number()?.value;
    }
    Ok(fact)
}

fn predicate_declared(file: &RuleFile, code: u32) -> bool {
    if code < ROLE_PREDICATE {
        code < file.concepts
    } else {
        code - ROLE_PREDICATE < file.roles
    }
}

/// The place after the count of an accepted bundle.
pub fn after_count(bytes: &[u8]) -> Result<usize, Refusal> {
    let mut reader = Reader::at_place(bytes, BUNDLE_SIDE, 0);
    reader.number()?;
    Ok(reader.at)
}

/// What a reader finds.
pub enum Found {
    Fact(Fact),
    Done,
}

/// What a reader of any bytes finds at any place, and its place afterwards.
pub fn read_at(bytes: &[u8], at: u64) -> (Result<Found, Refusal>, u64) {
    if at >= bytes.len() as u64 {
        return (Ok(Found::Done), at);
    }
    let mut reader = Reader::at_place(bytes, BUNDLE_SIDE, at as usize);
    match any_fact(&mut reader) {
        Ok(fact) => (Ok(Found::Fact(fact)), reader.at as u64),
        Err(refusal) => (Err(refusal), at),
    }
}

/// A fact whose predicate need not be declared.
fn any_fact(reader: &mut Reader) -> Result<Fact, Refusal> {
    let predicate = reader.number()?.value;
    let subject = reader.number()?.value;
    let object = if predicate < ROLE_PREDICATE { 0 } else { reader.number()?.value };
    Ok(Fact { predicate, subject, object })
}

/// The refusal of a row of records that is to be written: its count, then its first record at fault.
pub fn check_row(file: &RuleFile, row: &[Record]) -> Result<(), Refusal> {
    if row.len() > FACTS_MOST as usize {
        return refuse_call(COUNT_OVER);
    }
    for (place, &record) in row.iter().enumerate() {
        let before = place.checked_sub(1).map(|before| row[before]);
        if let Some(number) = record_fault(file, record, before) {
            return Err(Refusal { number, side: CALL_SIDE, place: place as u64, item: NO_ITEM });
        }
    }
    Ok(())
}

/// Each record's predicate (5), object of a concept (12), subject (3), object (3), order (8).
fn record_fault(file: &RuleFile, record: Record, before: Option<Record>) -> Option<u32> {
    if !predicate_declared(file, record.predicate) {
        return Some(UNDECLARED);
    }
    if record.predicate < ROLE_PREDICATE && record.object != 0 {
        return Some(CONCEPT_OBJECT);
    }
    if [record.subject, record.object].iter().any(|&thing| u64::from(thing) > NUMBER_MOST) {
        return Some(TOO_LARGE);
    }
    before.filter(|before| *before >= record).map(|_| NOT_ABOVE)
}

fn refuse_call<T>(number: u32) -> Result<T, Refusal> {
    Err(Refusal { number, side: CALL_SIDE, place: 0, item: NO_ITEM })
}

/// The refusal of a fact number.
pub fn check_fact_number(count: usize, fact: u64) -> Result<usize, Refusal> {
    if fact < count as u64 {
        Ok(fact as usize)
    } else {
        refuse_call(NO_SUCH_FACT)
    }
}

/// The refusal of a question: its code, then its things.
pub fn check_question(file: &RuleFile, question: Question) -> Result<(), Refusal> {
    let (declared, things) = match question {
        Question::Has { code, thing } => (basic_concept_declared(file, code), vec![thing]),
        Question::Joins { code, from, to } => (basic_role_declared(file, code), vec![from, to]),
    };
    if !declared {
        return refuse_call(UNDECLARED);
    }
    if things.iter().any(|&thing| thing > NUMBER_MOST) {
        return refuse_call(TOO_LARGE);
    }
    Ok(())
}

/// The refusal of a lent output that is shorter than what is to be written.
pub fn check_room(lent: usize, needed: usize) -> Result<(), Refusal> {
    if lent < needed {
        return refuse_call(TOO_SHORT);
    }
    Ok(())
}
