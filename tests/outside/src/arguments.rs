//! The arguments of a call besides the two files: good ones, bad ones, very large ones, and rooms about as long as needed.

use crate::cleaner::Record;
use crate::codes::{NUMBER_MOST, SOME};
use crate::dice::Dice;
use crate::due::{row_bytes, Due};
use crate::judge::Question;
use crate::make_rows::make_row;
use crate::make_sites::Made;

const TWO_RECORDS: [Record; 2] =
    [Record { predicate: 1, subject: 7, object: 0 }, Record { predicate: 64, subject: 9, object: 7 }];

/// Arguments for one round over every entry point.
pub struct Arguments {
    pub marks_room: usize,
    pub partners_room: usize,
    pub out_room: usize,
    pub fact: u64,
    pub has: Question,
    pub joins: Question,
    pub row_room: usize,
    pub row: Vec<Record>,
    pub written_room: usize,
    pub place: u64,
}

impl Arguments {
    /// Rooms of just the right length, the last fact, questions in range, and the first place after a short count.
    /// The row is of the facts, or one of two records where there are none.
    pub fn exact(due: &Due) -> Arguments {
        let facts = due.facts();
        let row = if facts > 0 { due.row() } else { TWO_RECORDS.to_vec() };
        Arguments {
            marks_room: facts,
            partners_room: facts,
            out_room: due.kept_length(),
            fact: facts.saturating_sub(1) as u64,
            has: Question::Has { code: SOME.into(), thing: 7 },
            joins: Question::Joins { code: 0, from: 9, to: 7 },
            row_room: facts,
            written_room: row_bytes(&row).len(),
            row,
            place: 1,
        }
    }

    pub fn thrown(dice: &mut Dice, due: &Due, made: &Made, bundle: &[u8]) -> Arguments {
        let facts = due.facts();
        let (marks_room, partners_room) = (room(dice, facts), room(dice, facts));
        let out_room = room(dice, due.kept_length());
        let fact = number_near(dice, facts as u64);
        let has = Question::Has { code: code(dice, &made.basics), thing: thing(dice, &made.things) };
        let joins = joins(dice, made);
        let (row_room, row) = (room(dice, facts), make_row(dice, made));
        let written_room = room(dice, row_bytes(&row).len());
        let place = number_near(dice, bundle.len() as u64);
        Arguments { marks_room, partners_room, out_room, fact, has, joins, row_room, row, written_room, place }
    }
}

/// Mostly enough, exactly or with some to spare; sometimes one too short, or nothing.
fn room(dice: &mut Dice, needed: usize) -> usize {
    match dice.below(12) {
        0 => 0,
        1 | 2 => needed.saturating_sub(1),
        3..=7 => needed,
        8 => needed + 1,
        _ => needed + dice.below(9),
    }
}

/// Numbers whose low 16 or 32 bits look harmless.
fn huge(dice: &mut Dice, small: u64) -> u64 {
    match dice.below(5) {
        0 => (1 << 16) + small,
        1 => (1 << 32) + small,
        2 => (1 << 63) + small,
        3 => u64::MAX - small,
        _ => dice.throw(),
    }
}

/// Mostly below the bound, sometimes at it or above.
fn number_near(dice: &mut Dice, bound: u64) -> u64 {
    match dice.below(8) {
        0 => bound,
        1 => bound + 1,
        2 => {
            let small = dice.below(bound as usize + 1) as u64;
            huge(dice, small)
        }
        _ => dice.below(bound as usize + 1) as u64,
    }
}

fn joins(dice: &mut Dice, made: &Made) -> Question {
    let code = code(dice, &made.roles);
    Question::Joins { code, from: thing(dice, &made.things), to: thing(dice, &made.things) }
}

/// Mostly one of the site's own codes, if it has any.
fn code(dice: &mut Dice, codes: &[u32]) -> u64 {
    match dice.below(8) {
        0 | 1 => dice.below(132) as u64,
        2 => {
            let small = dice.below(128) as u64;
            huge(dice, small)
        }
        _ if codes.is_empty() => 0,
        _ => dice.pick(codes).into(),
    }
}

fn thing(dice: &mut Dice, things: &[u32]) -> u64 {
    match dice.below(10) {
        0 => NUMBER_MOST + dice.below(2) as u64,
        1 => {
            let small = dice.pick(things).into();
            huge(dice, small)
        }
        2 => dice.below(NUMBER_MOST as usize + 1) as u64,
        _ => dice.pick(things).into(),
    }
}
