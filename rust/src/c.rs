//! The C functions, declared once, and each as a safe function that gives C's own answer: the only unsafe code of the package.
//!
//! The functions of the crate's root are these with their answers as Rust has them; take these where you want the bare numbers.
//! In an answer that is refused all other fields are 0.
//!
//! A call asks for pointers that are valid, aligned and not null, and for outputs that overlap nothing. Slices are all that, also
//! empty ones. Declarations and fields are as in `include/dzyunagor.h`; the package's tests compare them.
#![allow(unsafe_code)]

pub use crate::answers::{Answer, Asked, Counts, Length, Record, Refusal, Start, Yield};
use crate::Mark;

/// The item of a refusal that has none.
pub const NO_ITEM: u32 = 65535;

/// A reader as C lays it out.
#[repr(C)]
struct Reader {
    bundle: *const u8,
    length: usize,
    at: usize,
}

extern "C" {
    fn dzy_mark(
        rules: *const u8,
        rules_length: usize,
        bundle: *const u8,
        bundle_length: usize,
        marks: *mut u8,
        marks_length: usize,
        partners: *mut u16,
        partners_length: usize,
    ) -> Counts;
    fn dzy_count(rules: *const u8, rules_length: usize, bundle: *const u8, bundle_length: usize) -> Counts;
    fn dzy_ask(rules: *const u8, rules_length: usize, bundle: *const u8, bundle_length: usize, fact: u64) -> Asked;
    fn dzy_has(
        rules: *const u8,
        rules_length: usize,
        bundle: *const u8,
        bundle_length: usize,
        code: u64,
        thing: u64,
    ) -> Answer;
    fn dzy_joins(
        rules: *const u8,
        rules_length: usize,
        bundle: *const u8,
        bundle_length: usize,
        code: u64,
        from: u64,
        to: u64,
    ) -> Answer;
    fn dzy_write_kept(
        rules: *const u8,
        rules_length: usize,
        bundle: *const u8,
        bundle_length: usize,
        out: *mut u8,
        out_length: usize,
    ) -> Length;
    fn dzy_records(
        rules: *const u8,
        rules_length: usize,
        bundle: *const u8,
        bundle_length: usize,
        row: *mut Record,
        row_length: usize,
    ) -> Length;
    fn dzy_write_records(
        rules: *const u8,
        rules_length: usize,
        row: *const Record,
        row_length: usize,
        out: *mut u8,
        out_length: usize,
    ) -> Length;
    fn dzy_reader_start(rules: *const u8, rules_length: usize, bundle: *const u8, bundle_length: usize) -> Start;
    fn dzy_reader_next(reader: *mut Reader) -> Yield;
    fn dzy_check_rules(rules: *const u8, rules_length: usize) -> Length;
    fn dzy_check_bundle(rules: *const u8, rules_length: usize, bundle: *const u8, bundle_length: usize) -> Length;
}

// SAFETY of every call below: a slice's pointer is valid for its length, aligned and not null; a mutable slice is
// borrowed by this call alone, so that it overlaps no other.

/// `dzy_mark`: a mark and a partner for each fact.
pub fn mark(rules: &[u8], bundle: &[u8], marks: &mut [u8], partners: &mut [u16]) -> Counts {
    unsafe {
        dzy_mark(
            rules.as_ptr(),
            rules.len(),
            bundle.as_ptr(),
            bundle.len(),
            marks.as_mut_ptr(),
            marks.len(),
            partners.as_mut_ptr(),
            partners.len(),
        )
    }
}

/// The same into a row of marks. SAFETY: a mark is one byte, and none but 0, 1 and 2 is written.
pub(crate) fn mark_row(rules: &[u8], bundle: &[u8], marks: &mut [Mark], partners: &mut [u16]) -> Counts {
    mark(rules, bundle, unsafe { &mut *(marks as *mut [Mark] as *mut [u8]) }, partners)
}

/// `dzy_count`: the counts, without the rows.
pub fn count(rules: &[u8], bundle: &[u8]) -> Counts {
    unsafe { dzy_count(rules.as_ptr(), rules.len(), bundle.as_ptr(), bundle.len()) }
}

/// `dzy_ask`: one fact's mark and partner.
pub fn ask(rules: &[u8], bundle: &[u8], fact: u64) -> Asked {
    unsafe { dzy_ask(rules.as_ptr(), rules.len(), bundle.as_ptr(), bundle.len(), fact) }
}

/// `dzy_has`: is the thing of the basic concept?
pub fn has(rules: &[u8], bundle: &[u8], code: u64, thing: u64) -> Answer {
    unsafe { dzy_has(rules.as_ptr(), rules.len(), bundle.as_ptr(), bundle.len(), code, thing) }
}

/// `dzy_joins`: does the basic role join the two things?
pub fn joins(rules: &[u8], bundle: &[u8], code: u64, from: u64, to: u64) -> Answer {
    unsafe { dzy_joins(rules.as_ptr(), rules.len(), bundle.as_ptr(), bundle.len(), code, from, to) }
}

/// `dzy_write_kept`: the bundle of the kept facts.
pub fn write_kept(rules: &[u8], bundle: &[u8], out: &mut [u8]) -> Length {
    unsafe { dzy_write_kept(rules.as_ptr(), rules.len(), bundle.as_ptr(), bundle.len(), out.as_mut_ptr(), out.len()) }
}

/// `dzy_records`: the facts as records.
pub fn records(rules: &[u8], bundle: &[u8], row: &mut [Record]) -> Length {
    unsafe { dzy_records(rules.as_ptr(), rules.len(), bundle.as_ptr(), bundle.len(), row.as_mut_ptr(), row.len()) }
}

/// `dzy_write_records`: the bundle of a row of records.
pub fn write_records(rules: &[u8], row: &[Record], out: &mut [u8]) -> Length {
    unsafe { dzy_write_records(rules.as_ptr(), rules.len(), row.as_ptr(), row.len(), out.as_mut_ptr(), out.len()) }
}

/// `dzy_reader_start`: the place of the bundle's first fact.
pub fn reader_start(rules: &[u8], bundle: &[u8]) -> Start {
    unsafe { dzy_reader_start(rules.as_ptr(), rules.len(), bundle.as_ptr(), bundle.len()) }
}

/// `dzy_reader_next`: one step of a reader of these bytes whose next byte is `at`.
pub fn reader_next(bundle: &[u8], at: &mut usize) -> Yield {
    let mut reader = Reader { bundle: bundle.as_ptr(), length: bundle.len(), at: *at };
    let yields = unsafe { dzy_reader_next(&mut reader) };
    debug_assert!(reader.bundle == bundle.as_ptr() && reader.length == bundle.len(), "the reader has another bundle");
    *at = reader.at;
    yields
}

/// `dzy_check_rules`: the number of rules.
pub fn check_rules(rules: &[u8]) -> Length {
    unsafe { dzy_check_rules(rules.as_ptr(), rules.len()) }
}

/// `dzy_check_bundle`: the number of facts.
pub fn check_bundle(rules: &[u8], bundle: &[u8]) -> Length {
    unsafe { dzy_check_bundle(rules.as_ptr(), rules.len(), bundle.as_ptr(), bundle.len()) }
}
