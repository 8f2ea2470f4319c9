//! Which rule or fact a refusal names, written out by hand: each refusal in the first, a middle and the last item, in the counts and
//! after the end, from every operation that reads the file. Document 01's own refusals are in `written.rs`, and go the same way.

use crate::written::{bytes, refused, Held, RefusedFile, Told, NONE, R};
use outside::cleaner::{Record, Refusal};
use outside::codes::{BUNDLE_SIDE, RULES_SIDE};

/// Of `02 02 03 | 00 00 01 | 03 02 00 | 04 01`: three rules, at 3, 6 and 9.
const RULES_CUT: [RefusedFile; 12] = [
    ("82", 1, 0, NONE),
    ("02", 1, 1, NONE),
    ("02 02", 1, 2, NONE),
    ("02 02 83 80", 1, 2, NONE),
    ("02 02 03", 1, 3, 0),
    ("02 02 03 00", 1, 4, 0),
    ("02 02 03 00 00", 1, 5, 0),
    ("02 02 03 00 00 01", 1, 6, 1),
    ("02 02 03 00 00 01 03 02", 1, 8, 1),
    ("02 02 03 00 00 01 03 02 00", 1, 9, 2),
    ("02 02 03 00 00 01 03 02 00 04", 1, 10, 2),
    ("02 02 03 00 00 01 03 02 00 04 81", 1, 10, 2),
];

const RULE_COUNTS: [RefusedFile; 9] = [
    ("82 00 02 03", 2, 0, NONE),
    ("02 82 00 03", 2, 1, NONE),
    ("02 02 83 00", 2, 2, NONE),
    ("80 80 04 02 03", 3, 0, NONE),
    ("02 80 80 80 03", 3, 1, NONE),
    ("02 02 FF FF 04", 3, 2, NONE),
    ("41 02 03", 4, 0, NONE),
    ("02 21 03", 4, 1, NONE),
    ("02 02 81 04", 4, 2, NONE),
];

const RULE_NUMBERS: [RefusedFile; 20] = [
    ("02 02 03 80 00 00 01 03 02 00 04 01", 2, 3, 0),
    ("02 02 03 00 00 81 00 03 02 00 04 01", 2, 5, 0),
    ("02 02 03 00 00 01 83 00 02 00 04 01", 2, 6, 1),
    ("02 02 03 00 00 01 03 82 00 00 04 01", 2, 7, 1),
    ("02 02 03 00 00 01 03 02 00 84 00 01", 2, 9, 2),
    ("02 02 03 00 00 01 03 02 00 04 81 00", 2, 10, 2),
    ("02 02 03 80 80 04 00 01 03 02 00 04 01", 3, 3, 0),
    ("02 02 03 00 80 80 80 01 03 02 00 04 01", 3, 4, 0),
    ("02 02 03 00 00 01 FF FF 04 02 00 04 01", 3, 6, 1),
    ("02 02 03 00 00 01 03 02 FF FF 04 04 01", 3, 8, 1),
    ("02 02 03 00 00 01 03 02 00 80 80 04 01", 3, 9, 2),
    ("02 02 03 00 00 01 03 02 00 04 FF FF FF", 3, 10, 2),
    ("02 02 03 00 02 01 03 02 00 04 01", 5, 4, 0),
    ("02 02 03 00 00 44 03 02 00 04 01", 5, 5, 0),
    ("02 02 03 00 00 01 03 04 00 04 01", 5, 7, 1),
    ("02 02 03 00 00 01 03 02 04 04 01", 5, 8, 1),
    ("02 02 03 00 00 01 03 02 00 04 04", 5, 10, 2),
    ("02 02 03 05 00 01 03 02 00 04 01", 11, 3, 0),
    ("02 02 03 00 00 01 80 01 02 00 04 01", 11, 6, 1),
    ("02 02 03 00 00 01 03 02 00 FF FF 03", 11, 9, 2),
];

/// Two faults, of which the first is given; a functional rule that is broken, as the first, a middle and the last; bytes after all.
const RULES_WHOLE: [RefusedFile; 12] = [
    ("02 02 03 00 00 01 05 02 00 05 01", 11, 6, 1),
    ("02 02 03 00 00 02 05 02 00 04 01", 5, 5, 0),
    ("00 02 03 04 00 02 02 01 03 00 02", 6, 3, 0),
    ("00 02 03 02 02 01 04 00 03 00 02", 6, 6, 1),
    ("00 02 03 02 02 01 03 00 02 04 01", 6, 9, 2),
    ("00 02 04 04 02 02 02 01 04 01 04 00", 6, 8, 2),
    ("00 02 03 02 02 01 03 00 02 04 01 00", 7, 11, NONE),
    ("02 02 03 00 00 01 03 02 00 04 01 00", 7, 11, NONE),
    ("02 02 03 00 00 01 03 02 00 04 01 80 80 80", 7, 11, NONE),
    ("02 02 03 00 00 01 03 02 00 04 01 05 05", 7, 11, NONE),
    ("02 02 00 00", 7, 3, NONE),
    ("00 00 00 80 00", 7, 3, NONE),
];

/// Under R, of `03 | 01 07 | 40 09 07 | 40 09 08`: three facts, at 1, 3 and 6.
const BUNDLE_CUT: [RefusedFile; 11] = [
    ("83", 1, 0, NONE),
    ("80 80", 1, 0, NONE),
    ("03", 1, 1, 0),
    ("03 01", 1, 2, 0),
    ("03 01 07", 1, 3, 1),
    ("03 01 07 40", 1, 4, 1),
    ("03 01 07 40 09", 1, 5, 1),
    ("03 01 07 40 09 07", 1, 6, 2),
    ("03 01 07 40 09 07 40", 1, 7, 2),
    ("03 01 07 40 09 07 40 09", 1, 8, 2),
    ("03 01 07 40 09 07 40 09 88", 1, 8, 2),
];

const FACT_NUMBERS: [RefusedFile; 18] = [
    ("83 00", 2, 0, NONE),
    ("80 80 04", 3, 0, NONE),
    ("80 80 80", 3, 0, NONE),
    ("03 81 00 07 40 09 07 40 09 08", 2, 1, 0),
    ("03 01 87 00 40 09 07 40 09 08", 2, 2, 0),
    ("03 01 07 C0 00 09 07 40 09 08", 2, 3, 1),
    ("03 01 07 40 09 87 00 40 09 08", 2, 5, 1),
    ("03 01 07 40 09 07 40 89 00 08", 2, 7, 2),
    ("03 01 07 40 09 07 40 09 88 00", 2, 8, 2),
    ("03 80 80 04 07 40 09 07 40 09 08", 3, 1, 0),
    ("03 01 80 80 80 40 09 07 40 09 08", 3, 2, 0),
    ("03 01 07 40 FF FF 04 07 40 09 08", 3, 4, 1),
    ("03 01 07 40 09 07 80 80 04 09 08", 3, 6, 2),
    ("03 01 07 40 09 07 40 09 FF FF 83", 3, 8, 2),
    ("03 02 07 40 09 07 40 09 08", 5, 1, 0),
    ("03 01 07 41 09 07 40 09 08", 5, 3, 1),
    ("03 01 07 40 09 07 3F 09 08", 5, 6, 2),
    ("03 01 07 40 09 07 80 01 09 08", 5, 6, 2),
];

/// Two faults, of which the first is given; a fact that is not above the one before it, as a middle and the last; bytes after all.
const FACTS_WHOLE: [RefusedFile; 11] = [
    ("03 01 07 41 09 07 02 09", 5, 3, 1),
    ("03 01 07 01 06 02 09", 8, 3, 1),
    ("03 01 07 01 07 40 09 08", 8, 3, 1),
    ("03 01 07 00 09 40 09 08", 8, 3, 1),
    ("03 01 07 40 09 07 40 09 07", 8, 6, 2),
    ("03 01 07 40 09 07 40 08 09", 8, 6, 2),
    ("03 01 07 40 09 07 01 09", 8, 6, 2),
    ("03 01 07 40 09 07 40 09 07 00", 8, 6, 2),
    ("03 01 07 40 09 07 40 09 08 00", 7, 9, NONE),
    ("03 01 07 40 09 07 40 09 08 80 80 80", 7, 9, NONE),
    ("00 80 00", 7, 1, NONE),
];

pub fn run(held: &mut Held) -> Told {
    let rules = [&RULES_CUT[..], &RULE_COUNTS, &RULE_NUMBERS, &RULES_WHOLE].concat();
    let bundles = [&BUNDLE_CUT[..], &FACT_NUMBERS, &FACTS_WHOLE].concat();
    refused_files(held, &rules, &bundles)
}

/// Rule files, and bundles under R, each refused by everything that reads it.
pub fn refused_files(held: &mut Held, rules: &[RefusedFile], bundles: &[RefusedFile]) -> Told {
    for &(hex, number, place, item) in rules {
        refused_rules(held, hex, refused(number, RULES_SIDE, place, item))?;
    }
    for &(hex, number, place, item) in bundles {
        refused_site(held, hex, &bytes(R), &bytes(hex), refused(number, BUNDLE_SIDE, place, item))?;
    }
    Ok(())
}

/// What takes rules alone, and then what takes both files; the bundle is bad too.
fn refused_rules(held: &mut Held, hex: &str, due: Refusal) -> Told {
    let rules = bytes(hex);
    held.hold(hex, held.cleaner.check_rules(&rules).refused, due)?;
    let row = [Record { predicate: 99, subject: 99, object: 99 }];
    held.hold(hex, held.cleaner.write_records(&rules, &row, &mut []).refused, due)?;
    refused_site(held, hex, &rules, &bytes("81 20"), due)
}

/// Everything that takes both files, with arguments and rooms that are bad too.
fn refused_site(held: &mut Held, hex: &str, rules: &[u8], bundle: &[u8], due: Refusal) -> Told {
    let cleaner = held.cleaner;
    let got = [
        cleaner.check_bundle(rules, bundle).refused,
        cleaner.count(rules, bundle).refused,
        cleaner.mark(rules, bundle, &mut [], &mut []).refused,
        cleaner.ask(rules, bundle, u64::MAX).refused,
        cleaner.has(rules, bundle, u64::MAX, u64::MAX).refused,
        cleaner.joins(rules, bundle, u64::MAX, 0, u64::MAX).refused,
        cleaner.write_kept(rules, bundle, &mut []).refused,
        cleaner.records(rules, bundle, &mut []).refused,
        cleaner.reader_start(rules, bundle).refused,
    ];
    got.into_iter().try_for_each(|refused| held.hold(hex, refused, due))
}
