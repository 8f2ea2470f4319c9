//! Valid files cut at every byte, and the worked files with each byte changed to every other value.

use crate::written::{bytes, F, R};
use outside::arguments::Arguments;
use outside::check::{shown, Check};
use outside::cleaner::Cleaner;
use outside::due::Due;
use outside::steps::Steps;

/// Sites with numbers of one, two and three bytes, every kind of rule, and every kind of fact.
const SITES: [(&str, &str); 4] = [
    (R, F),
    ("00 00 00", "00"),
    (
        "40 20 06 00 3F 7F 01 7E 3E 02 3E 3D 03 3D 3C 04 00 04 01",
        "05 3E FF FF 03 3F 80 80 01 40 80 01 FF 7F 5E 07 80 01 5F FF FF 03 FF FF 03",
    ),
    (
        "02 02 07 02 00 02 00 00 42 00 43 01 01 00 01 03 02 03 01 40 41 02 01 03",
        "04 00 07 01 AC 02 40 07 AC 02 41 07 07",
    ),
];

pub fn run(cleaner: &dyn Cleaner, files: &mut u64) -> Result<(), String> {
    for (rules, bundle) in SITES {
        let whole = cleaner.check_bundle(&bytes(rules), &bytes(bundle)).refused;
        if whole.number != 0 {
            return Err(format!("refused as {whole:?}: {}", shown("whole", &bytes(rules), &bytes(bundle))));
        }
        cut(cleaner, &bytes(rules), &bytes(bundle), files)?;
        change(cleaner, &bytes(rules), &bytes(bundle), files)?;
    }
    Ok(())
}

/// Every entry point on one pair of files, with rooms that are just long enough.
pub fn check(cleaner: &dyn Cleaner, rules: &[u8], bundle: &[u8]) -> Result<(), String> {
    let judge = Steps::default();
    let due = Due::of(&judge, rules, bundle);
    let checked = Check::new(cleaner, &due, rules, bundle).every_operation(&Arguments::exact(&due));
    checked.map(|_| ()).map_err(|told| format!("{told}\n{}", shown("listed", rules, bundle)))
}

fn cut(cleaner: &dyn Cleaner, rules: &[u8], bundle: &[u8], files: &mut u64) -> Result<(), String> {
    for end in 0..=rules.len() {
        check(cleaner, &rules[..end], bundle)?;
        *files += 1;
    }
    for end in 0..=bundle.len() {
        check(cleaner, rules, &bundle[..end])?;
        *files += 1;
    }
    Ok(())
}

fn change(cleaner: &dyn Cleaner, rules: &[u8], bundle: &[u8], files: &mut u64) -> Result<(), String> {
    for other in 1..=u8::MAX {
        for place in 0..rules.len() {
            check(cleaner, &changed(rules, place, other), bundle)?;
            *files += 1;
        }
        for place in 0..bundle.len() {
            check(cleaner, rules, &changed(bundle, place, other))?;
            *files += 1;
        }
    }
    Ok(())
}

fn changed(file: &[u8], place: usize, by: u8) -> Vec<u8> {
    let mut file = file.to_vec();
    file[place] ^= by;
    file
}
