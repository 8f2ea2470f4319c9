//! Every function on the worked site, with the refusals that it can give. What is due is written by hand.

use dzyunagor::*;

const RULES: &[u8] = b"\x02\x01\x05\x01\x00\x01\x00\x01\x40\x00\x41\x00\x04\x00\x03\x00\x01";
const BUNDLE: &[u8] = b"\x06\x00\x07\x01\x07\x01\x09\x40\x09\x07\x40\x09\xAC\x02\x40\x0C\x0C";
const KEPT: &[u8] = b"\x01\x01\x09";
const COUNTS: Counts = Counts { facts: 6, kept: 1, alone: 1, disputed: 4 };
const EMPTY: Record = Record { predicate: 0, subject: 0, object: 0 };

fn record(predicate: u32, subject: u32, object: u32) -> Record {
    Record { predicate, subject, object }
}

fn row() -> [Record; 6] {
    [record(0, 7, 0), record(1, 7, 0), record(1, 9, 0), record(64, 9, 7), record(64, 9, 300), record(64, 12, 12)]
}

/// A refusal of a file, and the rule or fact there.
fn refused<T>(number: RefusalNumber, side: Side, place: u64, item: Option<usize>) -> Result<T, Refusal> {
    Err(Refusal { number, side, place, item })
}

/// A refusal of the call's own arguments: it has no item.
fn refused_call<T>(number: RefusalNumber, place: u64) -> Result<T, Refusal> {
    refused(number, Side::Call, place, None)
}

/// The same refusal of the rules, and of the bundle, from every function that takes both.
fn every_function(rules: &[u8], bundle: &[u8], due: Refusal) {
    let (mut marks, mut partners, mut slots, mut out) = ([Mark::Kept; 8], [0; 8], [EMPTY; 8], [0; 32]);
    assert_eq!(check_bundle(rules, bundle), Err(due));
    assert_eq!(mark(rules, bundle, &mut marks, &mut partners), Err(due));
    assert_eq!(count(rules, bundle), Err(due));
    assert_eq!(ask(rules, bundle, 0), Err(due));
    assert_eq!(has(rules, bundle, 0, 7), Err(due));
    assert_eq!(joins(rules, bundle, 0, 9, 7), Err(due));
    assert_eq!(write_kept(rules, bundle, &mut out), Err(due));
    assert_eq!(records(rules, bundle, &mut slots), Err(due));
    assert_eq!(Reader::start(rules, bundle).err(), Some(due));
    assert_eq!((marks, partners, slots, out), ([Mark::Kept; 8], [0; 8], [EMPTY; 8], [0; 32]));
}

#[test]
fn files_are_judged_first() {
    let broken = b"\x00\x01\x02\x04\x00\x02\x01\x01";
    let due = |number, side, place, item| refused::<()>(number, side, place, item).unwrap_err();
    every_function(broken, b"", due(RefusalNumber::Broken, Side::Rules, 3, Some(0)));
    every_function(RULES, b"", due(RefusalNumber::Cut, Side::Bundle, 0, None));
    every_function(RULES, b"\x02\x00\x07\x00\x07", due(RefusalNumber::Order, Side::Bundle, 3, Some(1)));
    assert_eq!(write_records(broken, &row(), &mut []), refused(RefusalNumber::Broken, Side::Rules, 3, Some(0)));
}

#[test]
fn files_are_checked() {
    assert_eq!(check_rules(RULES), Ok(5));
    assert_eq!(check_bundle(RULES, BUNDLE), Ok(6));
    let of_rules = |number, place, item| refused(number, Side::Rules, place, item);
    assert_eq!(check_rules(&[]), of_rules(RefusalNumber::Cut, 0, None));
    assert_eq!(check_rules(b"\x82\x00\x00\x00"), of_rules(RefusalNumber::Long, 0, None));
    assert_eq!(check_rules(b"\x41\x00\x00"), of_rules(RefusalNumber::TooMany, 0, None));
    assert_eq!(check_rules(&RULES[..3]), of_rules(RefusalNumber::Cut, 3, Some(0)));
    assert_eq!(check_rules(b"\x01\x00\x02\x01\x00\x00\x05"), of_rules(RefusalNumber::Kind, 6, Some(1)));
    assert_eq!(check_rules(b"\x01\x00\x01\x01\x00\x01"), of_rules(RefusalNumber::Unknown, 5, Some(0)));
    let of_bundle = |number, place, item| refused(number, Side::Bundle, place, item);
    assert_eq!(check_bundle(RULES, b"\x01\x01\x80\x80\x04"), of_bundle(RefusalNumber::Over, 2, Some(0)));
    assert_eq!(check_bundle(RULES, b"\x02\x01\x07\x02\x07"), of_bundle(RefusalNumber::Unknown, 3, Some(1)));
    assert_eq!(check_bundle(RULES, b"\x00\x00"), of_bundle(RefusalNumber::After, 1, None));
}

#[test]
fn facts_are_marked() {
    use Mark::{Alone, Disputed, Kept};
    let (mut marks, mut partners) = ([Alone; 8], [7; 8]);
    assert_eq!(mark(RULES, BUNDLE, &mut marks, &mut partners), Ok(COUNTS));
    assert_eq!(marks, [Disputed, Disputed, Kept, Disputed, Disputed, Alone, Alone, Alone]);
    assert_eq!(partners, [1, 0, NO_PARTNER, 1, 3, NO_PARTNER, 7, 7]);
    assert_eq!(count(RULES, BUNDLE), Ok(COUNTS));
    let room = || refused_call(RefusalNumber::Room, 0);
    assert_eq!(mark(RULES, BUNDLE, &mut marks[..5], &mut partners), room());
    assert_eq!(mark(RULES, BUNDLE, &mut marks, &mut partners[..5]), room());
    assert_eq!(mark(RULES, BUNDLE, &mut [], &mut []), room());
    assert_eq!(mark(RULES, b"\x00", &mut [], &mut []), Ok(Counts { facts: 0, kept: 0, alone: 0, disputed: 0 }));
}

#[test]
fn one_fact_is_asked_about() {
    let judged = |mark, partner| Ok(Judged { mark, partner });
    assert_eq!(ask(RULES, BUNDLE, 2), judged(Mark::Kept, None));
    assert_eq!(ask(RULES, BUNDLE, 4), judged(Mark::Disputed, Some(3)));
    assert_eq!(ask(RULES, BUNDLE, 5), judged(Mark::Alone, None));
    assert_eq!(ask(RULES, BUNDLE, 6), refused_call(RefusalNumber::NoFact, 0));
    assert_eq!(ask(RULES, BUNDLE, u64::MAX), refused_call(RefusalNumber::NoFact, 0));
}

#[test]
fn questions_are_answered() {
    assert_eq!(has(RULES, BUNDLE, 64, 9), Ok(Answer::Yes(2)));
    assert_eq!(has(RULES, BUNDLE, 0, 300), Ok(Answer::No));
    assert_eq!(has(RULES, BUNDLE, 0, 7), Ok(Answer::No));
    assert_eq!(has(RULES, BUNDLE, 2, 65536), refused_call(RefusalNumber::Unknown, 0));
    assert_eq!(has(RULES, BUNDLE, 0, MOST_THING + 1), refused_call(RefusalNumber::Over, 0));
    assert_eq!(joins(RULES, BUNDLE, 0, 9, 7), Ok(Answer::No));
    assert_eq!(joins(RULES, b"\x01\x40\x09\x07", 1, 7, 9), Ok(Answer::Yes(0)));
    assert_eq!(joins(RULES, BUNDLE, 2, 9, 7), refused_call(RefusalNumber::Unknown, 0));
    assert_eq!(joins(RULES, BUNDLE, 0, 9, 65536), refused_call(RefusalNumber::Over, 0));
}

#[test]
fn kept_facts_are_written() {
    let mut out = [0x5A; 5];
    assert_eq!(write_kept(RULES, BUNDLE, &mut out[..2]), refused_call(RefusalNumber::Room, 0));
    assert_eq!(out, [0x5A; 5]);
    assert_eq!(write_kept(RULES, BUNDLE, &mut out), Ok(3));
    assert_eq!((&out[..3], &out[3..]), (KEPT, &[0x5A; 2][..]));
}

#[test]
fn records_go_both_ways() {
    let (mut slots, mut out) = ([EMPTY; 7], [0; 32]);
    assert_eq!(records(RULES, BUNDLE, &mut slots[..5]), refused_call(RefusalNumber::Room, 0));
    assert_eq!(slots, [EMPTY; 7]);
    assert_eq!(records(RULES, BUNDLE, &mut slots), Ok(6));
    assert_eq!((&slots[..6], slots[6]), (&row()[..], EMPTY));
    assert_eq!(write_records(RULES, &slots[..6], &mut out), Ok(BUNDLE.len()));
    assert_eq!(&out[..BUNDLE.len()], BUNDLE);
    assert_eq!(write_records(RULES, &[], &mut out), Ok(1));
    assert_eq!(out[0], 0);
}

#[test]
fn bad_records_are_refused() {
    let mut out = [0; 100];
    let mut written = |row: &[Record]| write_records(RULES, row, &mut out);
    let at = |number, record| refused_call(number, record);
    assert_eq!(written(&[record(2, 7, 0)]), at(RefusalNumber::Unknown, 0));
    assert_eq!(written(&[record(0, 7, 0), record(1, 7, 1)]), at(RefusalNumber::Object, 1));
    assert_eq!(written(&[record(1, 9, 0), record(64, 9, 65536)]), at(RefusalNumber::Over, 1));
    assert_eq!(written(&[record(1, 7, 0), record(0, 7, 0)]), at(RefusalNumber::Order, 1));
    assert_eq!(written(&[EMPTY; MOST_FACTS + 1]), at(RefusalNumber::TooMany, 0));
    assert_eq!(write_records(RULES, &row(), &mut out[..16]), at(RefusalNumber::Room, 0));
}

#[test]
fn a_reader_gives_the_facts() {
    let mut reader = Reader::start(RULES, BUNDLE).unwrap();
    assert_eq!(reader.place(), 1);
    for (due, place) in row().into_iter().zip([3, 5, 7, 10, 14, 17]) {
        assert_eq!((reader.next(), reader.place()), (Some(Ok(due)), place));
    }
    assert_eq!((reader.next(), reader.next(), reader.place()), (None, None, 17));
    assert_eq!(reader.read(), Ok(None));
}

#[test]
fn a_reader_stands_anywhere() {
    let mut reader = Reader::at_place(BUNDLE, 12);
    assert_eq!(reader.read(), Ok(Some(record(300, 64, 12))));
    for _ in 0..2 {
        assert_eq!((reader.read(), reader.place()), (refused(RefusalNumber::Cut, Side::Bundle, 17, None), 16));
    }
    let items: Vec<_> = reader.collect();
    assert_eq!(items, [refused(RefusalNumber::Cut, Side::Bundle, 17, None)]);
    assert_eq!(Reader::at_place(BUNDLE, usize::MAX).next(), None);
    assert_eq!(Reader::at_place(&[], 0).next(), None);
}

#[test]
fn refusals_are_told_in_words() {
    let told = |refusal: Refusal| refusal.to_string();
    assert_eq!(
        told(check_bundle(RULES, b"\x02\x00\x07\x00\x07").unwrap_err()),
        "refused 8 in bundle at 3 (fact 1): a fact or record not above the one before it"
    );
    assert_eq!(
        told(check_rules(b"\x00\x00\x01\x05").unwrap_err()),
        "refused 11 in rules at 3 (rule 0): a rule kind over 4"
    );
    assert_eq!(told(ask(RULES, BUNDLE, 6).unwrap_err()), "refused 10 in call at 0: a fact number not below the count");
    let error: Box<dyn std::error::Error> = Box::new(check_rules(&[]).unwrap_err());
    assert_eq!(error.to_string(), "refused 1 in rules at 0: the bytes end before a number that is due is complete");
}
