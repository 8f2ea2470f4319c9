//! The reader: a bundle and its next byte, one fact at a time.

use crate::refusal::answered;
use crate::{c, Record, Refusal};
use core::iter::FusedIterator;

/// Reads a bundle's facts one at a time, without a row. It borrows the bundle.
///
/// As an iterator it gives each fact, and ends when it is done or after a refusal. From [`Reader::start`] there is none.
///
/// ```
/// # const RULES: &[u8] = include_bytes!(concat!(env!("CARGO_MANIFEST_DIR"), "/../crates/cleaner/data/rules.bin"));
/// # const BUNDLE: &[u8] = include_bytes!(concat!(env!("CARGO_MANIFEST_DIR"), "/../crates/cleaner/data/bundle.bin"));
/// use dzyunagor::{Reader, Record};
///
/// let facts: Result<Vec<Record>, _> = Reader::start(RULES, BUNDLE)?.collect();
/// assert_eq!(facts?[3], Record { predicate: 64, subject: 9, object: 7 });
/// # Ok::<(), dzyunagor::Refusal>(())
/// ```
#[derive(Clone, Debug)]
pub struct Reader<'a> {
    bundle: &'a [u8],
    at: usize,
    refused: bool,
}

impl<'a> Reader<'a> {
    /// Judges a rule file, then a bundle under it; gives a reader at the bundle's first fact.
    pub fn start(rules: &[u8], bundle: &'a [u8]) -> Result<Reader<'a>, Refusal> {
        let start = c::reader_start(rules, bundle);
        answered(start.refused, Reader::at_place(bundle, start.at as usize))
    }

    /// A reader of any bytes, at any place, also past the end.
    pub fn at_place(bundle: &'a [u8], at: usize) -> Reader<'a> {
        Reader { bundle, at, refused: false }
    }

    /// The place of the next byte.
    pub fn place(&self) -> usize {
        self.at
    }

    /// The fact whose numbers stand at the next byte, or none if it is done: at or past the end.
    ///
    /// It moves behind the fact. Refused (1, 2 or 3, at the number at fault, without an item) it stays, and reads the same again. It
    /// judges no predicate and no order; a predicate from 64 on has an object.
    ///
    /// ```
    /// use dzyunagor::Reader;
    ///
    /// let mut reader = Reader::at_place(b"\x40\x09", 0);
    /// assert_eq!(reader.read().unwrap_err().place, 2);
    /// assert_eq!(reader.place(), 0);
    /// ```
    pub fn read(&mut self) -> Result<Option<Record>, Refusal> {
        let yields = c::reader_next(self.bundle, &mut self.at);
        answered(yields.refused, (yields.found == 1).then_some(yields.fact))
    }
}

impl Iterator for Reader<'_> {
    type Item = Result<Record, Refusal>;

    fn next(&mut self) -> Option<Self::Item> {
        if self.refused {
            return None;
        }
        let read = self.read();
        self.refused = read.is_err();
        read.transpose()
    }
}

impl FusedIterator for Reader<'_> {}
