//! The worked site's facts as records: handed out, written back as the same bytes, and read one at a time.

use dzyunagor::{records, write_records, Reader, Record, Refusal, MOST_BUNDLE, MOST_FACTS};

const RULES: &[u8] = b"\x02\x01\x05\x01\x00\x01\x00\x01\x40\x00\x41\x00\x04\x00\x03\x00\x01";
const BUNDLE: &[u8] = b"\x06\x00\x07\x01\x07\x01\x09\x40\x09\x07\x40\x09\xAC\x02\x40\x0C\x0C";

fn print(what: &str, number: usize, record: Record) {
    println!("{what} {number}: {} {} {}", record.predicate, record.subject, record.object);
}

fn main() -> Result<(), Refusal> {
    let (mut row, mut out) = ([Record::default(); MOST_FACTS], [0; MOST_BUNDLE]);
    let count = records(RULES, BUNDLE, &mut row)?;
    for (number, &record) in row[..count].iter().enumerate() {
        print("record", number, record);
    }
    let length = write_records(RULES, &row[..count], &mut out)?;
    println!("written back: {}", if &out[..length] == BUNDLE { "the same bytes" } else { "other bytes" });
    let mut reader = Reader::start(RULES, BUNDLE)?;
    let mut at = reader.place();
    while let Some(record) = reader.read()? {
        print("at", at, record);
        at = reader.place();
    }
    Ok(())
}
