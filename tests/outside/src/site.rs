//! A site as the tests hold it: rules and facts by their codes, and the tests' own writer of both files.

use crate::cleaner::Record;
use crate::codes::{CONCEPTS_DISJOINT, CONCEPT_INCLUDED, FUNCTIONAL, ROLES_DISJOINT, ROLE_INCLUDED, ROLE_PREDICATE};

/// A rule, with its codes as the file has them.
#[derive(Clone, Copy, Debug, PartialEq, Eq)]
pub enum Rule {
    ConceptIncluded(u32, u32),
    ConceptsDisjoint(u32, u32),
    RoleIncluded(u32, u32),
    RolesDisjoint(u32, u32),
    Functional(u32),
}

impl Rule {
    /// The rule's numbers in the order of the file.
    pub fn numbers(self) -> Vec<u32> {
        match self {
            Rule::ConceptIncluded(b1, b2) => vec![CONCEPT_INCLUDED, b1, b2],
            Rule::ConceptsDisjoint(b1, b2) => vec![CONCEPTS_DISJOINT, b1, b2],
            Rule::RoleIncluded(q1, q2) => vec![ROLE_INCLUDED, q1, q2],
            Rule::RolesDisjoint(q1, q2) => vec![ROLES_DISJOINT, q1, q2],
            Rule::Functional(q) => vec![FUNCTIONAL, q],
        }
    }
}

/// What a rule file says.
#[derive(Clone, Debug, Default, PartialEq, Eq)]
pub struct RuleFile {
    pub concepts: u32,
    pub roles: u32,
    pub rules: Vec<Rule>,
}

impl RuleFile {
    /// The file's numbers, its three counts first.
    pub fn numbers(&self) -> Vec<u32> {
        let mut numbers = vec![self.concepts, self.roles, self.rules.len() as u32];
        numbers.extend(self.rules.iter().flat_map(|rule| rule.numbers()));
        numbers
    }

    pub fn bytes(&self) -> Vec<u8> {
        write_numbers(&self.numbers())
    }
}

/// A fact; facts compare as document 01 orders them, and a concept's object is 0.
#[derive(Clone, Copy, Debug, PartialEq, Eq, PartialOrd, Ord)]
pub struct Fact {
    pub predicate: u32,
    pub subject: u32,
    pub object: u32,
}

impl Fact {
    pub fn is_role(self) -> bool {
        self.predicate >= ROLE_PREDICATE
    }

    /// The fact's numbers in the order of the bundle.
    pub fn numbers(self) -> Vec<u32> {
        let mut numbers = vec![self.predicate, self.subject];
        if self.is_role() {
            numbers.push(self.object);
        }
        numbers
    }

    pub fn record(self) -> Record {
        Record { predicate: self.predicate, subject: self.subject, object: self.object }
    }

    /// The fact that a record is of, whatever its numbers.
    pub fn of(record: Record) -> Fact {
        Fact { predicate: record.predicate, subject: record.subject, object: record.object }
    }
}

/// Facts as a row of records.
pub fn row_of(facts: &[Fact]) -> Vec<Record> {
    facts.iter().map(|fact| fact.record()).collect()
}

/// The numbers of a bundle, its count first.
pub fn bundle_numbers(facts: &[Fact]) -> Vec<u32> {
    let mut numbers = vec![facts.len() as u32];
    numbers.extend(facts.iter().flat_map(|fact| fact.numbers()));
    numbers
}

pub fn bundle_bytes(facts: &[Fact]) -> Vec<u8> {
    write_numbers(&bundle_numbers(facts))
}

pub fn write_numbers(numbers: &[u32]) -> Vec<u8> {
    let mut out = Vec::new();
    for &number in numbers {
        write_number(&mut out, number);
    }
    out
}

/// One number in its shortest form, lowest group first.
pub fn write_number(out: &mut Vec<u8>, number: u32) {
    let mut rest = number;
    while rest >= 0x80 {
        out.push(rest as u8 | 0x80);
        rest >>= 7;
    }
    out.push(rest as u8);
}

pub fn hex(bytes: &[u8]) -> String {
    let pairs: Vec<String> = bytes.iter().map(|byte| format!("{byte:02X}")).collect();
    pairs.join(" ")
}
