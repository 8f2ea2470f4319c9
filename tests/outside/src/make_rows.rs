//! Rows of records to be written: a site's own facts, mostly with a few records damaged, and now and then about as many as a row may hold.

use crate::cleaner::Record;
use crate::codes::{FACTS_MOST, ROLE_PREDICATE};
use crate::dice::Dice;
use crate::make_sites::Made;
use crate::site::row_of;

/// Values at which a kind or a limit begins or ends, and some that are harmless once they are cut to 8 or 16 bits.
const EDGES: [u32; 20] = [
    0,
    1,
    2,
    3,
    63,
    64,
    65,
    95,
    96,
    127,
    128,
    256,
    16_384,
    65_535,
    65_536,
    65_537,
    65_600,
    1 << 31,
    u32::MAX - 1,
    u32::MAX,
];

/// One row in so many is about as long as a row may be.
const LONG_ONES: usize = 400;

pub fn make_row(dice: &mut Dice, made: &Made) -> Vec<Record> {
    if dice.one_in(LONG_ONES) {
        return long_row(dice, made);
    }
    let mut row = row_of(&made.facts);
    for _ in 0..dice.pick(&[0, 0, 1, 1, 1, 2]) {
        damage_row(dice, &mut row);
    }
    row
}

/// As many records as a row may hold, or one more, of one concept or role.
fn long_row(dice: &mut Dice, made: &Made) -> Vec<Record> {
    let predicate = made.basics.iter().copied().find(|&code| code < ROLE_PREDICATE).unwrap_or(ROLE_PREDICATE);
    let count = FACTS_MOST + dice.below(2) as u32;
    (0..count).map(|subject| Record { predicate, subject, object: 0 }).collect()
}

/// Records changed in one number, swapped, doubled, turned round or taken out.
fn damage_row(dice: &mut Dice, row: &mut Vec<Record>) {
    if row.is_empty() {
        row.push(Record { predicate: value(dice, 0), subject: value(dice, 0), object: value(dice, 0) });
        return;
    }
    let (one, other) = (dice.below(row.len()), dice.below(row.len()));
    match dice.below(12) {
        0 => row.swap(one, other),
        1 => row.insert(one, row[one]),
        2 => row.reverse(),
        3 => {
            row.remove(one);
        }
        4 => row.insert(other, row[one]),
        5 => row[one].predicate = value(dice, row[one].predicate),
        6 => row[one].subject = value(dice, row[one].subject),
        7 => row[one].object = value(dice, row[one].object),
        8 | 9 => row[one] = turned_back(dice, row[0]),
        _ => damage_twice(dice, &mut row[one]),
    }
}

/// The first record with another thing, for a later place: not above what is before it there, and perhaps with a fault of its own.
fn turned_back(dice: &mut Dice, mut first: Record) -> Record {
    if dice.one_in(2) {
        first.subject = value(dice, first.subject);
    } else {
        first.object = value(dice, first.object);
    }
    first
}

/// Two numbers of one record, so that the order of its faults shows.
fn damage_twice(dice: &mut Dice, record: &mut Record) {
    let spared = dice.below(3);
    if spared != 0 {
        record.predicate = value(dice, record.predicate);
    }
    if spared != 1 {
        record.subject = value(dice, record.subject);
    }
    if spared != 2 {
        record.object = value(dice, record.object);
    }
}

/// An edge, a number beside the one there, one whose low bits are the same, or any at all.
fn value(dice: &mut Dice, old: u32) -> u32 {
    match dice.below(8) {
        0 => old.wrapping_add(1),
        1 => old.wrapping_sub(1),
        2 => old.wrapping_add(1 << 16),
        3 => dice.throw() as u32,
        _ => dice.pick(&EDGES),
    }
}
