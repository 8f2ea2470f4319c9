//! The library through the relay, a program that links it and calls it on guarded memory, for machines that cannot link it themselves.

use crate::cleaner::{Answer, Asked, Cleaner, Counts, Length, Record, Refusal, Start, Yield};
use std::cell::RefCell;
use std::io::{BufReader, Read, Write};
use std::process::{Child, ChildStdin, ChildStdout, Command, Stdio};

/// The operations by the relay's numbers.
const MARK: u64 = 0;
const COUNT: u64 = 1;
const ASK: u64 = 2;
const HAS: u64 = 3;
const JOINS: u64 = 4;
const WRITE_KEPT: u64 = 5;
const CHECK_RULES: u64 = 6;
const CHECK_BUNDLE: u64 = 7;
const RECORDS: u64 = 8;
const WRITE_RECORDS: u64 = 9;
const READER_START: u64 = 10;
const READER_NEXT: u64 = 11;
/// How many numbers a reply begins with.
const NUMBERS: usize = 9;
/// How many bytes a record has.
const RECORD: usize = 12;

/// The running relay and the pipes to and from it.
struct Pipes {
    child: Child,
    to: ChildStdin,
    from: BufReader<ChildStdout>,
}

pub struct Relay {
    pipes: RefCell<Pipes>,
}

/// An operation, its arguments, and its outputs as they are lent.
struct Request<'a> {
    operation: u64,
    rules: &'a [u8],
    bundle: &'a [u8],
    arguments: [u64; 3],
    bytes: &'a mut [u8],
    words: &'a mut [u16],
}

impl Request<'_> {
    fn written(&self) -> Vec<u8> {
        let [a, b, c] = self.arguments;
        let lengths = [self.rules.len(), self.bundle.len(), self.bytes.len(), self.words.len()].map(|n| n as u64);
        let numbers = [self.operation, lengths[0], lengths[1], a, b, c, lengths[2], lengths[3]];
        let mut out: Vec<u8> = numbers.iter().flat_map(|number| number.to_le_bytes()).collect();
        out.extend_from_slice(self.rules);
        out.extend_from_slice(self.bundle);
        out.extend_from_slice(self.bytes);
        out.extend(self.words.iter().flat_map(|word| word.to_le_bytes()));
        out
    }
}

/// A refusal and up to four values.
struct Reply {
    refused: Refusal,
    values: [u64; 4],
}

impl Relay {
    /// Starts the relay with these words: a program, perhaps an emulator before it.
    pub fn start(words: &str) -> Relay {
        let mut words = words.split_whitespace();
        let mut command = Command::new(words.next().expect("--relay needs a command"));
        command.args(words).stdin(Stdio::piped()).stdout(Stdio::piped());
        let mut child = command.spawn().expect("the relay starts");
        let (to, from) = (child.stdin.take(), child.stdout.take());
        let (to, from) = (to.expect("a pipe to the relay"), from.expect("a pipe from the relay"));
        Relay { pipes: RefCell::new(Pipes { child, to, from: BufReader::new(from) }) }
    }

    /// Sends a request and takes its reply. A relay that died, or memory that it found changed, is a panic.
    fn call(&self, request: Request) -> Reply {
        let mut pipes = self.pipes.borrow_mut();
        pipes.to.write_all(&request.written()).expect("the relay takes the request");
        let numbers: [u64; NUMBERS] = std::array::from_fn(|_| read_number(&mut pipes.from));
        pipes.from.read_exact(request.bytes).expect("the relay gives the bytes");
        for word in request.words {
            let mut two = [0; 2];
            pipes.from.read_exact(&mut two).expect("the relay gives the 16-bit numbers");
            *word = u16::from_le_bytes(two);
        }
        let [number, side, place, item, values @ .., intact] = numbers;
        assert_eq!(intact, 1, "memory about the lent outputs, or a file, was written to");
        let [number, side, item] = [number, side, item].map(|field| field as u32);
        Reply { refused: Refusal { number, side, place, item }, values }
    }

    /// A call that is lent no output.
    fn ask_only(&self, operation: u64, rules: &[u8], bundle: &[u8], arguments: [u64; 3]) -> Reply {
        self.call(Request { operation, rules, bundle, arguments, bytes: &mut [], words: &mut [] })
    }

    /// A call that is lent bytes.
    fn fill(&self, operation: u64, rules: &[u8], bundle: &[u8], bytes: &mut [u8]) -> Reply {
        self.call(Request { operation, rules, bundle, arguments: [0; 3], bytes, words: &mut [] })
    }
}

/// A row as the relay's memory holds it.
fn record_bytes(row: &[Record]) -> Vec<u8> {
    let numbers = row.iter().flat_map(|record| [record.predicate, record.subject, record.object]);
    numbers.flat_map(u32::to_le_bytes).collect()
}

fn record(bytes: &[u8]) -> Record {
    let number = |at: usize| u32::from_le_bytes([bytes[at], bytes[at + 1], bytes[at + 2], bytes[at + 3]]);
    Record { predicate: number(0), subject: number(4), object: number(8) }
}

fn read_number(from: &mut impl Read) -> u64 {
    let mut bytes = [0; 8];
    from.read_exact(&mut bytes).expect("the relay replies");
    u64::from_le_bytes(bytes)
}

impl Drop for Pipes {
    /// Ends the relay that was started here.
    fn drop(&mut self) {
        let _ = self.child.kill();
        let _ = self.child.wait();
    }
}

fn counts(reply: Reply) -> Counts {
    let [facts, kept, alone, disputed] = reply.values.map(|value| value as u32);
    Counts { refused: reply.refused, facts, kept, alone, disputed }
}

fn answer(reply: Reply) -> Answer {
    Answer { refused: reply.refused, yes: reply.values[0] as u32, fact: reply.values[1] as u32 }
}

fn length(reply: Reply) -> Length {
    Length { refused: reply.refused, length: reply.values[0] }
}

impl Cleaner for Relay {
    fn mark(&self, rules: &[u8], bundle: &[u8], marks: &mut [u8], partners: &mut [u16]) -> Counts {
        counts(self.call(Request { operation: MARK, rules, bundle, arguments: [0; 3], bytes: marks, words: partners }))
    }

    fn count(&self, rules: &[u8], bundle: &[u8]) -> Counts {
        counts(self.ask_only(COUNT, rules, bundle, [0; 3]))
    }

    fn ask(&self, rules: &[u8], bundle: &[u8], fact: u64) -> Asked {
        let reply = self.ask_only(ASK, rules, bundle, [fact, 0, 0]);
        Asked { refused: reply.refused, mark: reply.values[0] as u32, partner: reply.values[1] as u32 }
    }

    fn has(&self, rules: &[u8], bundle: &[u8], code: u64, thing: u64) -> Answer {
        answer(self.ask_only(HAS, rules, bundle, [code, thing, 0]))
    }

    fn joins(&self, rules: &[u8], bundle: &[u8], code: u64, from: u64, to: u64) -> Answer {
        answer(self.ask_only(JOINS, rules, bundle, [code, from, to]))
    }

    fn write_kept(&self, rules: &[u8], bundle: &[u8], out: &mut [u8]) -> Length {
        length(self.fill(WRITE_KEPT, rules, bundle, out))
    }

    fn check_rules(&self, rules: &[u8]) -> Length {
        length(self.ask_only(CHECK_RULES, rules, &[], [0; 3]))
    }

    fn check_bundle(&self, rules: &[u8], bundle: &[u8]) -> Length {
        length(self.ask_only(CHECK_BUNDLE, rules, bundle, [0; 3]))
    }

    fn records(&self, rules: &[u8], bundle: &[u8], row: &mut [Record]) -> Length {
        let mut bytes = record_bytes(row);
        let reply = self.fill(RECORDS, rules, bundle, &mut bytes);
        row.iter_mut().zip(bytes.chunks_exact(RECORD)).for_each(|(slot, bytes)| *slot = record(bytes));
        length(reply)
    }

    fn write_records(&self, rules: &[u8], row: &[Record], out: &mut [u8]) -> Length {
        length(self.fill(WRITE_RECORDS, rules, &record_bytes(row), out))
    }

    fn reader_start(&self, rules: &[u8], bundle: &[u8]) -> Start {
        let reply = self.ask_only(READER_START, rules, bundle, [0; 3]);
        Start { refused: reply.refused, at: reply.values[0] }
    }

    fn reader_next(&self, bundle: &[u8], at: &mut u64) -> Yield {
        let mut bytes = at.to_le_bytes();
        let reply = self.fill(READER_NEXT, &[], bundle, &mut bytes);
        *at = u64::from_le_bytes(bytes);
        let [found, predicate, subject, object] = reply.values.map(|value| value as u32);
        Yield { refused: reply.refused, found, fact: Record { predicate, subject, object } }
    }
}
