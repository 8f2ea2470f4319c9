//! Document 01's numbers that have a meaning, each named once for the tests.

/// The largest number that a file or a question may hold.
pub const NUMBER_MOST: u64 = 65_535;
/// The most bytes of one number.
pub const NUMBER_BYTES: usize = 3;
/// The most concepts, roles and rules of a rule file, and the most facts of a bundle.
pub const CONCEPTS_MOST: u32 = 64;
pub const ROLES_MOST: u32 = 32;
pub const RULES_MOST: u32 = 512;
pub const FACTS_MOST: u32 = 4_096;

/// The first code of "has some partner by q", and the first fact predicate of a role.
pub const SOME: u32 = 64;
pub const ROLE_PREDICATE: u32 = 64;

/// The kinds of rules.
pub const CONCEPT_INCLUDED: u32 = 0;
pub const CONCEPTS_DISJOINT: u32 = 1;
pub const ROLE_INCLUDED: u32 = 2;
pub const ROLES_DISJOINT: u32 = 3;
pub const FUNCTIONAL: u32 = 4;

/// The refusal numbers.
pub const BYTES_END: u32 = 1;
pub const LONG_FORM: u32 = 2;
pub const TOO_LARGE: u32 = 3;
pub const COUNT_OVER: u32 = 4;
pub const UNDECLARED: u32 = 5;
pub const FUNCTIONAL_RIGHT: u32 = 6;
pub const BYTES_AFTER: u32 = 7;
pub const NOT_ABOVE: u32 = 8;
pub const TOO_SHORT: u32 = 9;
pub const NO_SUCH_FACT: u32 = 10;
pub const NO_SUCH_KIND: u32 = 11;
pub const CONCEPT_OBJECT: u32 = 12;
/// How many refusal numbers there are, 0 for none counted.
pub const REFUSALS: usize = 13;

/// The item of a refusal that is in no rule and no fact.
pub const NO_ITEM: u32 = 65_535;

/// The sides of a refusal.
pub const RULES_SIDE: u32 = 0;
pub const BUNDLE_SIDE: u32 = 1;
pub const CALL_SIDE: u32 = 2;
pub const SIDES: usize = 3;

/// The marks, and the partner of a fact that has none.
pub const KEPT: u8 = 0;
pub const ALONE: u8 = 1;
pub const DISPUTED: u8 = 2;
pub const NO_PARTNER: u16 = 65_535;

/// The inverse of a basic role.
pub fn inverse(q: u32) -> u32 {
    q ^ 1
}

/// The role that a basic role is, or is the inverse of.
pub fn role_of(q: u32) -> u32 {
    q / 2
}

/// Whether a basic role is an inverse.
pub fn is_inverse(q: u32) -> bool {
    q % 2 == 1
}
