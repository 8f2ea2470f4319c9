//! Lent memory with guards on both sides, so that a write outside of it, or where none is due, is noticed.

use crate::cleaner::Record;

/// How many guard elements stand before and after a lent row.
const GUARDS: usize = 16;

/// A row as it is lent, its guards, and a copy of all as it was before.
pub struct Lent<T> {
    all: Vec<T>,
    before: Vec<T>,
}

impl<T: Copy + PartialEq> Lent<T> {
    /// Lends these elements between guards.
    pub fn holding(row: &[T], guard: T) -> Lent<T> {
        let mut all = vec![guard; GUARDS];
        all.extend_from_slice(row);
        all.extend(std::iter::repeat_n(guard, GUARDS));
        Lent { before: all.clone(), all }
    }

    fn end(&self) -> usize {
        self.all.len() - GUARDS
    }

    pub fn row(&self) -> &[T] {
        &self.all[GUARDS..self.end()]
    }

    pub fn row_mut(&mut self) -> &mut [T] {
        let end = self.end();
        &mut self.all[GUARDS..end]
    }

    /// Whether both guards are as they were.
    pub fn guards_stand(&self) -> bool {
        let end = self.end();
        self.all[..GUARDS] == self.before[..GUARDS] && self.all[end..] == self.before[end..]
    }

    /// Whether nothing at all has changed.
    pub fn unchanged(&self) -> bool {
        self.all == self.before
    }
}

/// What an output holds before the call: no two neighbours alike, so that a stray write shows.
pub fn worn_bytes(length: usize) -> Vec<u8> {
    (0..length).map(|place| 0xA5u8.wrapping_add((place * 29) as u8)).collect()
}

/// The same for a row of 16-bit numbers.
pub fn worn_words(length: usize) -> Vec<u16> {
    (0..length).map(|place| 0xC3A5u16.wrapping_add((place * 7_919) as u16)).collect()
}

/// The same for a row of records.
pub fn worn_records(length: usize) -> Vec<Record> {
    let worn = |place: usize, by: u32| 0xC3A5_5A3Cu32.wrapping_add(place as u32 * 7_919).rotate_left(by);
    (0..length)
        .map(|place| Record { predicate: worn(place, 0), subject: worn(place, 9), object: worn(place, 20) })
        .collect()
}
