//! Dzyunagor: cleans the facts of a site by its rules.
//!
//! Rule files and bundles are bytes (docs/FORMAT.md); any bytes may be given. Each function does its work or gives a [`Refusal`]
//! (docs/REFUSALS.md). A refusal writes nothing, and what lies past the written part of a lent slice stays as it was. Nothing is
//! kept between calls: no state, no heap, no files.
//!
//! ```
//! use dzyunagor::{mark, Mark, MOST_FACTS};
//!
//! // Switch and Camera are disjoint; a Camera has an uplink; what is uplinked to is a Switch; uplink is functional and
//! // disjoint from its inverse.
//! let rules = b"\x02\x01\x05\x01\x00\x01\x00\x01\x40\x00\x41\x00\x04\x00\x03\x00\x01";
//! // Switch(7), Camera(7), Camera(9), uplink(9,7), uplink(9,300), uplink(12,12)
//! let bundle = b"\x06\x00\x07\x01\x07\x01\x09\x40\x09\x07\x40\x09\xAC\x02\x40\x0C\x0C";
//!
//! let (mut marks, mut partners) = ([Mark::Kept; MOST_FACTS], [0; MOST_FACTS]);
//! let counts = mark(rules, bundle, &mut marks, &mut partners)?;
//! assert_eq!((counts.facts, counts.kept, counts.alone, counts.disputed), (6, 1, 1, 4));
//! assert_eq!((marks[4], partners[4]), (Mark::Disputed, 3));
//! # Ok::<(), dzyunagor::Refusal>(())
//! ```
//!
//! It links `libdzyunagor.a`, for x86-64: from the folder that the environment variable `DZYUNAGOR_LIB` names (an absolute path) when
//! it is built, else from the repository's `target/staticlib`, where `tools/archive.sh` puts it. Every call fits into 24 KiB of
//! stack (measured: docs/SPEED.md).
#![no_std]
#![deny(missing_docs, unsafe_code)]

mod answers;
pub mod c;
mod reader;
mod refusal;

pub use answers::Record;
pub use reader::Reader;
use refusal::answered;
pub use refusal::{Refusal, RefusalNumber, Side};

/// The most facts of a bundle: a row of so many marks, partners or records is never too short.
pub const MOST_FACTS: usize = 4096;

/// The most bytes of an accepted bundle: an output of so many is never too short for the kept facts, nor for a row's bundle.
pub const MOST_BUNDLE: usize = 28674;

/// The largest thing: a device number.
pub const MOST_THING: u64 = 65535;

/// The partner, in a row, of a fact that has none.
pub const NO_PARTNER: u16 = 65535;

/// A fact's mark.
#[repr(u8)]
#[derive(Clone, Copy, Debug, PartialEq, Eq, Hash)]
pub enum Mark {
    /// Neither alone nor disputed.
    Kept = 0,
    /// The rules forbid the fact by itself.
    Alone = 1,
    /// The rules forbid the fact together with some other fact that is not alone.
    Disputed = 2,
}

/// How many facts there are, and how many of each mark. The three add up to the facts.
#[derive(Clone, Copy, Debug, PartialEq, Eq)]
pub struct Counts {
    /// All facts.
    pub facts: usize,
    /// The kept ones.
    pub kept: usize,
    /// Those that are alone.
    pub alone: usize,
    /// The disputed ones.
    pub disputed: usize,
}

/// One fact, judged.
#[derive(Clone, Copy, Debug, PartialEq, Eq)]
pub struct Judged {
    /// Its mark.
    pub mark: Mark,
    /// Of a disputed fact the lowest-numbered fact that it clashes with; of others none.
    pub partner: Option<usize>,
}

/// A question's answer.
#[derive(Clone, Copy, Debug, PartialEq, Eq)]
pub enum Answer {
    /// Yes, by the lowest-numbered kept fact that says so.
    Yes(usize),
    /// No.
    No,
}

fn counts(counts: c::Counts) -> Result<Counts, Refusal> {
    let [facts, kept, alone, disputed] =
        [counts.facts, counts.kept, counts.alone, counts.disputed].map(|count| count as usize);
    answered(counts.refused, Counts { facts, kept, alone, disputed })
}

fn answer(answer: c::Answer) -> Result<Answer, Refusal> {
    answered(answer.refused, if answer.yes == 1 { Answer::Yes(answer.fact as usize) } else { Answer::No })
}

fn length(length: c::Length) -> Result<usize, Refusal> {
    answered(length.refused, length.length as usize)
}

/// Judges a rule file; gives the number of rules.
///
/// ```
/// assert_eq!(dzyunagor::check_rules(b"\x00\x00\x00"), Ok(0));
/// ```
pub fn check_rules(rules: &[u8]) -> Result<usize, Refusal> {
    length(c::check_rules(rules))
}

/// Judges a rule file, then a bundle under it; gives the number of facts.
///
/// ```
/// assert_eq!(dzyunagor::check_bundle(b"\x01\x00\x00", b"\x01\x00\x07"), Ok(1));
/// ```
pub fn check_bundle(rules: &[u8], bundle: &[u8]) -> Result<usize, Refusal> {
    length(c::check_bundle(rules, bundle))
}

/// Marks every fact: writes a mark and a partner for each, in order; gives the counts.
///
/// The partner of a fact that is not disputed is [`NO_PARTNER`]. Refuses 9 if either row is shorter than the count of facts. The
/// crate's first page has an example.
pub fn mark(rules: &[u8], bundle: &[u8], marks: &mut [Mark], partners: &mut [u16]) -> Result<Counts, Refusal> {
    counts(c::mark_row(rules, bundle, marks, partners))
}

/// Counts the facts and the marks, without the rows.
///
/// ```
/// # const RULES: &[u8] = include_bytes!(concat!(env!("CARGO_MANIFEST_DIR"), "/../crates/cleaner/data/rules.bin"));
/// # const BUNDLE: &[u8] = include_bytes!(concat!(env!("CARGO_MANIFEST_DIR"), "/../crates/cleaner/data/bundle.bin"));
/// let counts = dzyunagor::count(RULES, BUNDLE)?;
/// assert_eq!(counts.facts, counts.kept + counts.alone + counts.disputed);
/// # Ok::<(), dzyunagor::Refusal>(())
/// ```
pub fn count(rules: &[u8], bundle: &[u8]) -> Result<Counts, Refusal> {
    counts(c::count(rules, bundle))
}

/// Gives the mark and the partner of one fact, by its number from 0.
///
/// Refuses 10 if the number is not below the count of facts.
///
/// ```
/// # const RULES: &[u8] = include_bytes!(concat!(env!("CARGO_MANIFEST_DIR"), "/../crates/cleaner/data/rules.bin"));
/// # const BUNDLE: &[u8] = include_bytes!(concat!(env!("CARGO_MANIFEST_DIR"), "/../crates/cleaner/data/bundle.bin"));
/// assert_eq!(dzyunagor::ask(RULES, BUNDLE, 4)?.partner, Some(3));
/// # Ok::<(), dzyunagor::Refusal>(())
/// ```
pub fn ask(rules: &[u8], bundle: &[u8], fact: u64) -> Result<Judged, Refusal> {
    let asked = c::ask(rules, bundle, fact);
    let mark = [Mark::Kept, Mark::Alone, Mark::Disputed][asked.mark as usize];
    let partner = (mark == Mark::Disputed).then_some(asked.partner as usize);
    answered(asked.refused, Judged { mark, partner })
}

/// Asks "B of a": is the thing of the basic concept?
///
/// The code is i for concept i, 64+q for "has some partner by q". Refuses 5 if the code is not declared, then 3 if the thing is over
/// [`MOST_THING`].
///
/// ```
/// # const RULES: &[u8] = include_bytes!(concat!(env!("CARGO_MANIFEST_DIR"), "/../crates/cleaner/data/rules.bin"));
/// # const BUNDLE: &[u8] = include_bytes!(concat!(env!("CARGO_MANIFEST_DIR"), "/../crates/cleaner/data/bundle.bin"));
/// use dzyunagor::{has, Answer};
///
/// assert_eq!(has(RULES, BUNDLE, 64, 9)?, Answer::Yes(2)); // a camera has an uplink, even if it is not named
/// assert_eq!(has(RULES, BUNDLE, 0, 300)?, Answer::No);
/// # Ok::<(), dzyunagor::Refusal>(())
/// ```
pub fn has(rules: &[u8], bundle: &[u8], code: u64, thing: u64) -> Result<Answer, Refusal> {
    answer(c::has(rules, bundle, code, thing))
}

/// Asks "q from a to b": does the basic role join the two things?
///
/// The code is 2j for role j, 2j+1 for its inverse. Refuses 5 if the code is not declared, then 3 if a thing is over [`MOST_THING`].
///
/// ```
/// # const RULES: &[u8] = include_bytes!(concat!(env!("CARGO_MANIFEST_DIR"), "/../crates/cleaner/data/rules.bin"));
/// # const BUNDLE: &[u8] = include_bytes!(concat!(env!("CARGO_MANIFEST_DIR"), "/../crates/cleaner/data/bundle.bin"));
/// use dzyunagor::{joins, Answer};
///
/// assert_eq!(joins(RULES, BUNDLE, 0, 9, 7)?, Answer::No); // the fact that says so is disputed
/// # Ok::<(), dzyunagor::Refusal>(())
/// ```
pub fn joins(rules: &[u8], bundle: &[u8], code: u64, from: u64, to: u64) -> Result<Answer, Refusal> {
    answer(c::joins(rules, bundle, code, from, to))
}

/// Writes the bundle of the kept facts, from the output's first byte on; gives its length.
///
/// Refuses 9 if the output is shorter than that.
///
/// ```
/// # const RULES: &[u8] = include_bytes!(concat!(env!("CARGO_MANIFEST_DIR"), "/../crates/cleaner/data/rules.bin"));
/// # const BUNDLE: &[u8] = include_bytes!(concat!(env!("CARGO_MANIFEST_DIR"), "/../crates/cleaner/data/bundle.bin"));
/// let mut out = [0; dzyunagor::MOST_BUNDLE];
/// let length = dzyunagor::write_kept(RULES, BUNDLE, &mut out)?;
/// assert_eq!(&out[..length], b"\x01\x01\x09");
/// # Ok::<(), dzyunagor::Refusal>(())
/// ```
pub fn write_kept(rules: &[u8], bundle: &[u8], out: &mut [u8]) -> Result<usize, Refusal> {
    length(c::write_kept(rules, bundle, out))
}

/// Hands the facts out as records, in order, from the row's first slot on; gives their count.
///
/// Refuses 9 if the row is shorter than that.
///
/// ```
/// # const RULES: &[u8] = include_bytes!(concat!(env!("CARGO_MANIFEST_DIR"), "/../crates/cleaner/data/rules.bin"));
/// # const BUNDLE: &[u8] = include_bytes!(concat!(env!("CARGO_MANIFEST_DIR"), "/../crates/cleaner/data/bundle.bin"));
/// use dzyunagor::{records, write_records, Record, MOST_BUNDLE, MOST_FACTS};
///
/// let mut row = [Record::default(); MOST_FACTS];
/// let count = records(RULES, BUNDLE, &mut row)?;
/// assert_eq!(row[4], Record { predicate: 64, subject: 9, object: 300 });
///
/// let mut out = [0; MOST_BUNDLE];
/// let length = write_records(RULES, &row[..count], &mut out)?;
/// assert_eq!(&out[..length], BUNDLE);
/// # Ok::<(), dzyunagor::Refusal>(())
/// ```
pub fn records(rules: &[u8], bundle: &[u8], row: &mut [Record]) -> Result<usize, Refusal> {
    length(c::records(rules, bundle, row))
}

/// Writes a row of records as a bundle, from the output's first byte on; gives its length.
///
/// Refuses 4 if there are more than [`MOST_FACTS`]. Then, at the first record at fault, in this order: 5 if its predicate is not
/// declared, 12 if it is of a concept and its object is not 0, 3 if its subject, then its object, is over [`MOST_THING`], 8 if it is not
/// above the one before it. Then 9 if the output is shorter than the bundle. [`records`] has an example.
pub fn write_records(rules: &[u8], row: &[Record], out: &mut [u8]) -> Result<usize, Refusal> {
    length(c::write_records(rules, row, out))
}
