//! Document 01's records and reader with their answers written out by hand, and the order in which a row is refused.

use crate::written::{bytes, refused, refused_call, refused_length, Held, Told, F, NONE, R};
use outside::cleaner::{Length, Record, Start, Yield};
use outside::codes::{BUNDLE_SIDE, FACTS_MOST, RULES_SIDE};

/// The facts of F.
const WORKED: [(u32, u32, u32); 6] = [(0, 7, 0), (1, 7, 0), (1, 9, 0), (64, 9, 7), (64, 9, 300), (64, 12, 12)];

/// What stands in a row before the call.
const WORN: Record = Record { predicate: 77, subject: 777, object: 7_777 };

/// A number that is over the limit, and one that is not once it is cut to 16 bits.
const OVER: u32 = 65_536;
const MOST: u32 = u32::MAX;

/// Rows under R, each with its refusal's number and record.
const REFUSED_ROWS: [(&[(u32, u32, u32)], u32, u64); 31] = [
    (&[(2, 7, 0)], 5, 0),
    (&[(63, 7, 0)], 5, 0),
    (&[(65, 7, 7)], 5, 0),
    (&[(96, 7, 7)], 5, 0),
    (&[(OVER, 7, 0)], 5, 0),
    (&[(MOST, MOST, MOST)], 5, 0),
    (&[(2, 7, 1)], 5, 0),
    (&[(2, OVER, 0)], 5, 0),
    (&[(0, 7, 1)], 12, 0),
    (&[(1, 7, OVER)], 12, 0),
    (&[(1, 7, MOST)], 12, 0),
    (&[(0, OVER, 1)], 12, 0),
    (&[(0, 7, 0), (1, 7, 1), (64, 9, 7)], 12, 1),
    (&[(0, 7, 0), (1, 7, 0), (1, 9, 1)], 12, 2),
    (&[(0, 7, 0), (0, 7, 0), (1, 7, 1)], 8, 1),
    (&[(0, OVER, 0)], 3, 0),
    (&[(0, MOST, 0)], 3, 0),
    (&[(64, OVER, 7)], 3, 0),
    (&[(64, 7, OVER)], 3, 0),
    (&[(64, MOST, MOST)], 3, 0),
    (&[(0, 7, 0), (0, 7, 0)], 8, 1),
    (&[(1, 7, 0), (0, 9, 0)], 8, 1),
    (&[(64, 9, 300), (64, 9, 7)], 8, 1),
    (&[(64, 9, 7), (64, 8, 300)], 8, 1),
    (&[(0, 7, 0), (1, 7, 0), (1, 7, 0)], 8, 2),
    (&[(1, 9, 0), (0, OVER, 0)], 3, 1),
    (&[(64, 9, 7), (64, 8, OVER)], 3, 1),
    (&[(64, 9, 7), (0, 9, 1)], 12, 1),
    (&[(64, 9, 7), (2, 9, 0)], 5, 1),
    (&[(0, 7, 0), (0, 7, 0), (2, 7, 0)], 8, 1),
    (&[(0, 7, 0), (0, OVER, 0), (0, 6, 0)], 3, 1),
];

/// Bytes, a place in them, and the fact that a reader yields there with its place afterwards.
const YIELDED: [(&str, u64, (u32, u32, u32), u64); 9] = [
    (F, 0, (6, 0, 0), 2),
    (F, 1, (0, 7, 0), 3),
    (F, 2, (7, 1, 0), 4),
    (F, 10, (64, 9, 300), 14),
    (F, 12, (300, 64, 12), 16),
    (F, 15, (12, 12, 0), 17),
    ("FF FF 03 05 06", 0, (65_535, 5, 6), 5),
    ("60 80 01 80 80 01", 0, (96, 128, 16_384), 6),
    ("3F FF FF 03 00", 0, (63, 65_535, 0), 4),
];

/// Bytes, a place in them, and the refusal that a reader gives there; it stays.
const NOT_YIELDED: [(&str, u64, u32, u64); 8] = [
    (F, 16, 1, 17),
    ("40", 0, 1, 1),
    ("40 09", 0, 1, 2),
    ("40 09 80", 0, 1, 2),
    ("40 80 00 07", 0, 2, 1),
    ("40 07 FF FF 04", 0, 3, 2),
    ("80 80 80", 0, 3, 0),
    ("80 80 00 00", 0, 2, 0),
];

fn row(records: &[(u32, u32, u32)]) -> Vec<Record> {
    records.iter().map(|&(predicate, subject, object)| Record { predicate, subject, object }).collect()
}

fn given(length: usize) -> Length {
    Length { length: length as u64, ..Length::default() }
}

pub fn run(held: &mut Held) -> Told {
    out_and_back(held)?;
    rows_refused(held)?;
    too_many(held)?;
    starts(held)?;
    walk(held)?;
    any_place(held)
}

/// The worked facts into rows of every length about theirs, and back into outputs of every length about the bundle's.
fn out_and_back(held: &mut Held) -> Told {
    let (rules, bundle) = (bytes(R), bytes(F));
    for slots in 0..10 {
        let mut got = vec![WORN; slots];
        let fits = slots >= WORKED.len();
        let length = held.cleaner.records(&rules, &bundle, &mut got);
        held.hold("records", length, if fits { given(6) } else { refused_length(refused_call(9, 0)) })?;
        let due = if fits { [row(&WORKED), vec![WORN; slots - 6]].concat() } else { vec![WORN; slots] };
        held.hold("row", got, due)?;
    }
    for room in 0..20 {
        let mut got = vec![0xEE; room];
        let fits = room >= bundle.len();
        let length = held.cleaner.write_records(&rules, &row(&WORKED), &mut got);
        held.hold("write_records", length, if fits { given(17) } else { refused_length(refused_call(9, 0)) })?;
        let due = if fits { [bundle.clone(), vec![0xEE; room - 17]].concat() } else { vec![0xEE; room] };
        held.hold("written row", got, due)?;
    }
    let mut none = [];
    held.hold("no facts", held.cleaner.records(&rules, &bytes("00"), &mut none), given(0))?;
    let mut out = [0xEE; 2];
    held.hold("no records", held.cleaner.write_records(&rules, &[], &mut out), given(1))?;
    held.hold("no records, written", out, [0, 0xEE])
}

/// Each refused row with room and without, and under rules that are refused.
fn rows_refused(held: &mut Held) -> Told {
    for (records, number, place) in REFUSED_ROWS {
        for room in [0, 40] {
            let mut out = vec![0xEE; room];
            let got = held.cleaner.write_records(&bytes(R), &row(records), &mut out);
            held.hold(&format!("{records:?}"), got, refused_length(refused_call(number, place)))?;
            held.hold("nothing written", out, vec![0xEE; room])?;
        }
        let got = held.cleaner.write_records(&bytes("41 00 00"), &row(records), &mut []);
        held.hold("rules before records", got, refused_length(refused(4, RULES_SIDE, 0, NONE)))?;
    }
    Ok(())
}

/// One record too many, whatever they hold; and as many as there may be.
fn too_many(held: &mut Held) -> Told {
    let rules = bytes("40 20 00");
    let rising: Vec<Record> = (0..=FACTS_MOST).map(|subject| Record { subject, ..Record::default() }).collect();
    for over in [&rising, &vec![Record::default(); rising.len()], &vec![WORN; rising.len()]] {
        let got = held.cleaner.write_records(&rules, over, &mut []);
        held.hold("too many records", got, refused_length(refused_call(4, 0)))?;
    }
    // 2 bytes for the count; 2 for each of 128 facts, 3 for each of the others
    let mut out = vec![0xEE; 12_162];
    let got = held.cleaner.write_records(&rules, &rising[..FACTS_MOST as usize], &mut out);
    held.hold("the most records", got, given(12_162))?;
    let mut back = vec![WORN; FACTS_MOST as usize];
    held.hold("the most records, out", held.cleaner.records(&rules, &out, &mut back), given(4_096))?;
    held.hold("the most records, out", &back[..], &rising[..FACTS_MOST as usize])
}

/// The place after the count, of one byte or two; or the refusal of the rules, then of the bundle.
fn starts(held: &mut Held) -> Told {
    let many = [bytes("80 01"), (0..128).flat_map(|subject| [0, subject]).collect()].concat();
    let from = |at: u64| Start { at, ..Start::default() };
    held.hold("start", held.cleaner.reader_start(&bytes(R), &bytes(F)), from(1))?;
    held.hold("start, no facts", held.cleaner.reader_start(&bytes(R), &bytes("00")), from(1))?;
    held.hold("start, a long count", held.cleaner.reader_start(&bytes(R), &many), from(2))?;
    let broken = Start { refused: refused(8, BUNDLE_SIDE, 3, 1), ..Start::default() };
    held.hold("start, refused", held.cleaner.reader_start(&bytes(R), &bytes("02 00 07 00 07")), broken)?;
    let first = Start { refused: refused(6, RULES_SIDE, 3, 0), ..Start::default() };
    held.hold("start, rules refused", held.cleaner.reader_start(&bytes("00 01 02 04 00 02 01 01"), &[]), first)
}

/// From the start of F: its facts in order, then done, and again done.
fn walk(held: &mut Held) -> Told {
    let mut at = 1;
    for (fact, place) in row(&WORKED).into_iter().zip([3, 5, 7, 10, 14, 17]) {
        let got = held.cleaner.reader_next(&bytes(F), &mut at);
        held.hold("reader", (got, at), (Yield { found: 1, fact, ..Yield::default() }, place))?;
    }
    for past in [17, 17, 18, 1 << 32, u64::MAX] {
        let mut at = past;
        let got = held.cleaner.reader_next(&bytes(F), &mut at);
        held.hold("reader at the end", (got, at), (Yield::default(), past))?;
    }
    let mut at = 0;
    held.hold("reader of no bytes", held.cleaner.reader_next(&[], &mut at), Yield::default())
}

/// From any place: what stands there, or its refusal, which is given again.
fn any_place(held: &mut Held) -> Told {
    for (hex, place, (predicate, subject, object), next) in YIELDED {
        let mut at = place;
        let got = held.cleaner.reader_next(&bytes(hex), &mut at);
        let fact = Record { predicate, subject, object };
        held.hold(hex, (got, at), (Yield { found: 1, fact, ..Yield::default() }, next))?;
    }
    for (hex, place, number, fault) in NOT_YIELDED {
        let mut at = place;
        for _ in 0..2 {
            let got = held.cleaner.reader_next(&bytes(hex), &mut at);
            let due = Yield { refused: refused(number, BUNDLE_SIDE, fault, NONE), ..Yield::default() };
            held.hold(hex, (got, at), (due, place))?;
        }
    }
    Ok(())
}
