//! Wrong versions of the rows of records and of the reader.

use crate::cleaner::{Answer, Asked, Cleaner, Counts, Length, Record, Refusal, Start, Yield};
use crate::codes::*;
use crate::due::{reader_step, row_bytes};
use crate::wrong::{short, RIGHT};

/// A fault in handing records out, in writing them, or in the reader.
#[derive(Clone, Copy, Debug)]
pub enum Misrows {
    RowOneSlotTooFar,
    RowFilledWhenRefused,
    RowNeverFilled,
    RowWantsMoreRoom,
    ObjectOfConceptKept,
    UndeclaredRecordWritten,
    ObjectOfConceptIgnored,
    RecordsNarrowed,
    EqualRecordsWritten,
    SubjectBeforePredicate,
    SubjectBeforeObject,
    OrderBeforeThings,
    EveryFaultAtRecordZero,
    RoomBeforeRecords,
    TooManyRecordsWritten,
    OutputWrittenWhenRefused,
    ReaderStartsAtTheCount,
    ReaderMovesOnRefusal,
    ReaderForgetsObject,
    ReaderForgetsObjectOfNoRole,
    ReaderStopsAtNoRole,
    ReaderCutsAtTheEnd,
    ReaderGoesBackToTheEnd,
    ReaderNeverMoves,
}

impl Misrows {
    pub const ALL: [Misrows; 24] = [
        Misrows::RowOneSlotTooFar,
        Misrows::RowFilledWhenRefused,
        Misrows::RowNeverFilled,
        Misrows::RowWantsMoreRoom,
        Misrows::ObjectOfConceptKept,
        Misrows::UndeclaredRecordWritten,
        Misrows::ObjectOfConceptIgnored,
        Misrows::RecordsNarrowed,
        Misrows::EqualRecordsWritten,
        Misrows::SubjectBeforePredicate,
        Misrows::SubjectBeforeObject,
        Misrows::OrderBeforeThings,
        Misrows::EveryFaultAtRecordZero,
        Misrows::RoomBeforeRecords,
        Misrows::TooManyRecordsWritten,
        Misrows::OutputWrittenWhenRefused,
        Misrows::ReaderStartsAtTheCount,
        Misrows::ReaderMovesOnRefusal,
        Misrows::ReaderForgetsObject,
        Misrows::ReaderForgetsObjectOfNoRole,
        Misrows::ReaderStopsAtNoRole,
        Misrows::ReaderCutsAtTheEnd,
        Misrows::ReaderGoesBackToTheEnd,
        Misrows::ReaderNeverMoves,
    ];

    /// The row that this fault takes for the one given, if it meddles with it.
    fn taken(self, row: &[Record]) -> Vec<Record> {
        let mut row = row.to_vec();
        match self {
            Misrows::ObjectOfConceptIgnored => {
                row.iter_mut().filter(|record| record.predicate < ROLE_PREDICATE).for_each(|record| record.object = 0)
            }
            Misrows::RecordsNarrowed => row.iter_mut().for_each(|record| *record = narrow(*record)),
            Misrows::EqualRecordsWritten => row.dedup(),
            Misrows::TooManyRecordsWritten => row.truncate(FACTS_MOST as usize),
            _ => {}
        }
        row
    }

    /// The refusal that this fault gives in the place of the right one.
    fn refused(self, row: &[Record], room: usize, right: Refusal) -> Refusal {
        let fault = |number: u32, place: usize| Refusal { number, place: place as u64, ..right };
        let at = right.place as usize;
        match self {
            _ if right.number == 0 || right.side != CALL_SIDE => right,
            Misrows::EveryFaultAtRecordZero => Refusal { place: 0, ..right },
            Misrows::RoomBeforeRecords if room == 0 => short(),
            Misrows::SubjectBeforePredicate if right.number == UNDECLARED && over(row[at].subject) => {
                fault(TOO_LARGE, at)
            }
            Misrows::SubjectBeforeObject if right.number == CONCEPT_OBJECT && over(row[at].subject) => {
                fault(TOO_LARGE, at)
            }
            Misrows::OrderBeforeThings if right.number == TOO_LARGE && at > 0 && row[at] <= row[at - 1] => {
                fault(NOT_ABOVE, at)
            }
            _ => right,
        }
    }

    /// What this reader yields from a place, and its place afterwards.
    fn steps(self, bundle: &[u8], at: u64) -> (Yield, u64) {
        let (right, next) = reader_step(bundle, at);
        let end = bundle.len() as u64;
        match self {
            Misrows::ReaderMovesOnRefusal if right.refused.number != 0 => (right, at + 1),
            Misrows::ReaderForgetsObject => without_object(bundle, at, ROLE_PREDICATE),
            Misrows::ReaderForgetsObjectOfNoRole => without_object(bundle, at, ROLE_PREDICATE + ROLES_MOST),
            Misrows::ReaderStopsAtNoRole if right.fact.predicate >= ROLE_PREDICATE + ROLES_MOST => {
                let refused = Refusal { number: UNDECLARED, side: BUNDLE_SIDE, place: at, item: NO_ITEM };
                (Yield { refused, ..Yield::default() }, at)
            }
            Misrows::ReaderCutsAtTheEnd if at == end => {
                let refused = Refusal { number: BYTES_END, side: BUNDLE_SIDE, place: at, item: NO_ITEM };
                (Yield { refused, ..Yield::default() }, at)
            }
            Misrows::ReaderGoesBackToTheEnd if at > end => (right, end),
            Misrows::ReaderNeverMoves => (right, at),
            _ => (right, next),
        }
    }
}

/// The row's bundle, if there is room, whatever its records are.
fn write_anyway(row: &[Record], out: &mut [u8]) -> Length {
    let bundle = row_bytes(row);
    let Some(start) = out.get_mut(..bundle.len()) else { return Length { refused: short(), length: 0 } };
    start.copy_from_slice(&bundle);
    Length { length: bundle.len() as u64, ..Length::default() }
}

fn over(thing: u32) -> bool {
    u64::from(thing) > NUMBER_MOST
}

fn narrow(record: Record) -> Record {
    let cut = |number: u32| number & 0xFFFF;
    Record { predicate: cut(record.predicate), subject: cut(record.subject), object: cut(record.object) }
}

/// A step that reads two numbers only where the predicate is from here on: a third one that is 0 is put after them.
fn without_object(bundle: &[u8], at: u64, from: u32) -> (Yield, u64) {
    let right = reader_step(bundle, at);
    if right.0.found == 0 || right.0.fact.predicate < from {
        return right;
    }
    let fact = Record { object: 0, ..right.0.fact };
    let cut = row_bytes(&[fact]).len() - 2;
    (Yield { fact, ..right.0 }, at + cut as u64)
}

impl Cleaner for Misrows {
    fn mark(&self, rules: &[u8], bundle: &[u8], marks: &mut [u8], partners: &mut [u16]) -> Counts {
        RIGHT.mark(rules, bundle, marks, partners)
    }

    fn count(&self, rules: &[u8], bundle: &[u8]) -> Counts {
        RIGHT.count(rules, bundle)
    }

    fn ask(&self, rules: &[u8], bundle: &[u8], fact: u64) -> Asked {
        RIGHT.ask(rules, bundle, fact)
    }

    fn has(&self, rules: &[u8], bundle: &[u8], code: u64, thing: u64) -> Answer {
        RIGHT.has(rules, bundle, code, thing)
    }

    fn joins(&self, rules: &[u8], bundle: &[u8], code: u64, from: u64, to: u64) -> Answer {
        RIGHT.joins(rules, bundle, code, from, to)
    }

    fn write_kept(&self, rules: &[u8], bundle: &[u8], out: &mut [u8]) -> Length {
        RIGHT.write_kept(rules, bundle, out)
    }

    fn check_rules(&self, rules: &[u8]) -> Length {
        RIGHT.check_rules(rules)
    }

    fn check_bundle(&self, rules: &[u8], bundle: &[u8]) -> Length {
        RIGHT.check_bundle(rules, bundle)
    }

    fn records(&self, rules: &[u8], bundle: &[u8], row: &mut [Record]) -> Length {
        let before = row.to_vec();
        let given = RIGHT.records(rules, bundle, row);
        let count = given.length as usize;
        match self {
            Misrows::RowOneSlotTooFar if given.refused.number == 0 && count < row.len() => {
                row[count] = Record::default()
            }
            Misrows::RowFilledWhenRefused if given.refused.number != 0 => row.fill(Record::default()),
            Misrows::RowNeverFilled => row.copy_from_slice(&before),
            Misrows::RowWantsMoreRoom if given.refused.number == 0 && count == row.len() => {
                row.copy_from_slice(&before);
                return Length { refused: short(), length: 0 };
            }
            Misrows::ObjectOfConceptKept => row[..count].iter_mut().zip(&before).for_each(|(slot, old)| {
                if slot.predicate < ROLE_PREDICATE {
                    slot.object = old.object;
                }
            }),
            _ => {}
        }
        given
    }

    fn write_records(&self, rules: &[u8], row: &[Record], out: &mut [u8]) -> Length {
        let mut written = out.to_vec();
        let right = RIGHT.write_records(rules, &self.taken(row), &mut written);
        let refused = self.refused(row, out.len(), right.refused);
        let unknown = (refused.number, refused.side) == (UNDECLARED, CALL_SIDE);
        match self {
            Misrows::UndeclaredRecordWritten if unknown => return write_anyway(row, out),
            Misrows::OutputWrittenWhenRefused if refused.number != 0 => out.fill(0),
            _ if refused.number == 0 => out.copy_from_slice(&written),
            _ => {}
        }
        Length { refused, length: right.length }
    }

    fn reader_start(&self, rules: &[u8], bundle: &[u8]) -> Start {
        let right = RIGHT.reader_start(rules, bundle);
        match self {
            Misrows::ReaderStartsAtTheCount => Start { at: 0, ..right },
            _ => right,
        }
    }

    fn reader_next(&self, bundle: &[u8], at: &mut u64) -> Yield {
        let (yields, next) = self.steps(bundle, *at);
        *at = next;
        yields
    }
}
