//! The library through its Rust package, which links the archive.

use crate::cleaner::{Answer, Asked, Cleaner, Counts, Length, Record, Start, Yield};
use dzyunagor::c;

pub struct Library;

impl Cleaner for Library {
    fn mark(&self, rules: &[u8], bundle: &[u8], marks: &mut [u8], partners: &mut [u16]) -> Counts {
        c::mark(rules, bundle, marks, partners)
    }

    fn count(&self, rules: &[u8], bundle: &[u8]) -> Counts {
        c::count(rules, bundle)
    }

    fn ask(&self, rules: &[u8], bundle: &[u8], fact: u64) -> Asked {
        c::ask(rules, bundle, fact)
    }

    fn has(&self, rules: &[u8], bundle: &[u8], code: u64, thing: u64) -> Answer {
        c::has(rules, bundle, code, thing)
    }

    fn joins(&self, rules: &[u8], bundle: &[u8], code: u64, from: u64, to: u64) -> Answer {
        c::joins(rules, bundle, code, from, to)
    }

    fn write_kept(&self, rules: &[u8], bundle: &[u8], out: &mut [u8]) -> Length {
        c::write_kept(rules, bundle, out)
    }

    fn check_rules(&self, rules: &[u8]) -> Length {
        c::check_rules(rules)
    }

    fn check_bundle(&self, rules: &[u8], bundle: &[u8]) -> Length {
        c::check_bundle(rules, bundle)
    }

    fn records(&self, rules: &[u8], bundle: &[u8], row: &mut [Record]) -> Length {
        c::records(rules, bundle, row)
    }

    fn write_records(&self, rules: &[u8], row: &[Record], out: &mut [u8]) -> Length {
        c::write_records(rules, row, out)
    }

    fn reader_start(&self, rules: &[u8], bundle: &[u8]) -> Start {
        c::reader_start(rules, bundle)
    }

    fn reader_next(&self, bundle: &[u8], at: &mut u64) -> Yield {
        let mut place = *at as usize;
        let yields = c::reader_next(bundle, &mut place);
        *at = place as u64;
        yields
    }
}
