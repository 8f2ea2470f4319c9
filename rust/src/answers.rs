//! The answers as C lays them out. The outside tests take this file too where they cannot link the archive.

/// What is wrong, and where; all 0 if nothing is.
#[repr(C)]
#[derive(Clone, Copy, Debug, Default, PartialEq, Eq)]
pub struct Refusal {
    /// 0 for not refused, or the refusal's number.
    pub number: u32,
    /// 0 the rules, 1 the bundle, 2 the call's own arguments.
    pub side: u32,
    /// The byte, or the number of the record.
    pub place: u64,
    /// The number of the rule or fact there, or 65,535.
    pub item: u32,
}

/// How many facts there are, and how many of each mark.
#[repr(C)]
#[derive(Clone, Copy, Debug, Default, PartialEq, Eq)]
pub struct Counts {
    /// Number 0 if it is not refused.
    pub refused: Refusal,
    /// All facts.
    pub facts: u32,
    /// The kept ones.
    pub kept: u32,
    /// Those that are alone.
    pub alone: u32,
    /// The disputed ones.
    pub disputed: u32,
}

/// One fact's mark and partner.
#[repr(C)]
#[derive(Clone, Copy, Debug, Default, PartialEq, Eq)]
pub struct Asked {
    /// Number 0 if it is not refused.
    pub refused: Refusal,
    /// 0 kept, 1 alone, 2 disputed.
    pub mark: u32,
    /// The partner's number, or 65,535.
    pub partner: u32,
}

/// A question's answer.
#[repr(C)]
#[derive(Clone, Copy, Debug, Default, PartialEq, Eq)]
pub struct Answer {
    /// Number 0 if it is not refused.
    pub refused: Refusal,
    /// 1 yes, 0 no.
    pub yes: u32,
    /// For yes the lowest-numbered kept fact that says so.
    pub fact: u32,
}

/// How many bytes, rules, facts or records.
#[repr(C)]
#[derive(Clone, Copy, Debug, Default, PartialEq, Eq)]
pub struct Length {
    /// Number 0 if it is not refused.
    pub refused: Refusal,
    /// How many.
    pub length: u64,
}

/// A fact as three numbers. Records ascend as the facts of a bundle do.
#[repr(C)]
#[derive(Clone, Copy, Debug, Default, PartialEq, Eq, PartialOrd, Ord, Hash)]
pub struct Record {
    /// i for concept i, 64+j for role j.
    pub predicate: u32,
    /// A thing.
    pub subject: u32,
    /// A thing; 0 for a concept.
    pub object: u32,
}

/// Where a reader starts.
#[repr(C)]
#[derive(Clone, Copy, Debug, Default, PartialEq, Eq)]
pub struct Start {
    /// Number 0 if it is not refused.
    pub refused: Refusal,
    /// The place of the first fact.
    pub at: u64,
}

/// What a reader yields.
#[repr(C)]
#[derive(Clone, Copy, Debug, Default, PartialEq, Eq)]
pub struct Yield {
    /// Number 0 if it is not refused.
    pub refused: Refusal,
    /// 1 with a fact; 0 and not refused: it is done.
    pub found: u32,
    /// The fact; all 0 where there is none.
    pub fact: Record,
}
