//! The operations as the tests call them. Their answers are laid out as the C header lays them out, in the one file of the Rust package
//! that says so: as part of the package where it is linked, else the file alone.

#[cfg(not(feature = "library"))]
#[path = "../../../rust/src/answers.rs"]
mod answers;
#[cfg(not(feature = "library"))]
pub use answers::{Answer, Asked, Counts, Length, Record, Refusal, Start, Yield};
#[cfg(feature = "library")]
pub use dzyunagor::c::{Answer, Asked, Counts, Length, Record, Refusal, Start, Yield};

/// One implementation of the operations; every field that does not apply is 0.
pub trait Cleaner {
    fn mark(&self, rules: &[u8], bundle: &[u8], marks: &mut [u8], partners: &mut [u16]) -> Counts;
    fn count(&self, rules: &[u8], bundle: &[u8]) -> Counts;
    fn ask(&self, rules: &[u8], bundle: &[u8], fact: u64) -> Asked;
    fn has(&self, rules: &[u8], bundle: &[u8], code: u64, thing: u64) -> Answer;
    fn joins(&self, rules: &[u8], bundle: &[u8], code: u64, from: u64, to: u64) -> Answer;
    fn write_kept(&self, rules: &[u8], bundle: &[u8], out: &mut [u8]) -> Length;
    fn check_rules(&self, rules: &[u8]) -> Length;
    fn check_bundle(&self, rules: &[u8], bundle: &[u8]) -> Length;
    fn records(&self, rules: &[u8], bundle: &[u8], row: &mut [Record]) -> Length;
    fn write_records(&self, rules: &[u8], row: &[Record], out: &mut [u8]) -> Length;
    fn reader_start(&self, rules: &[u8], bundle: &[u8]) -> Start;
    /// One step of a reader of these bytes, whose next byte is `at`.
    fn reader_next(&self, bundle: &[u8], at: &mut u64) -> Yield;
}
