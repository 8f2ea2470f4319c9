//! One operation on one pair of files: called on guarded memory, and its answer and all memory held to what is due.

use crate::arguments::Arguments;
use crate::cleaner::{Answer, Asked, Cleaner, Counts, Length, Record, Refusal, Start, Yield};
use crate::due::{reader_step, Due};
use crate::judge::Question;
use crate::lent::{worn_bytes, worn_records, worn_words, Lent};
use crate::site::hex;
use std::fmt::Debug;

/// What stands around lent bytes, lent 16-bit numbers and lent records.
const BYTE_GUARD: u8 = 0x5A;
const WORD_GUARD: u16 = 0x5AA5;
const RECORD_GUARD: Record = Record { predicate: 0x5AA5_5AA5, subject: 0xA55A_A55A, object: 0x5AA5_A55A };

/// How many entry points there are.
pub const OPERATIONS: usize = 12;

/// What the cleaner answered, or a difference told in one line.
pub type Checked<T> = Result<T, String>;

/// A cleaner, the two files lent to it, and what is due on them.
pub struct Check<'a> {
    cleaner: &'a dyn Cleaner,
    due: &'a Due<'a>,
    rules: Lent<u8>,
    bundle: Lent<u8>,
}

/// A case in hex, for the report of a difference.
pub fn shown(case: &str, rules: &[u8], bundle: &[u8]) -> String {
    format!("case   {case}\nrules  {}\nbundle {}", hex(rules), hex(bundle))
}

fn same<T: Debug + PartialEq>(what: &str, got: T, due: T) -> Checked<T> {
    if got == due {
        Ok(got)
    } else {
        Err(format!("{what}: got {got:?}, due {due:?}"))
    }
}

/// A row for the report of a difference, cut where it is long.
fn told_row(row: &[Record]) -> String {
    let numbers = |record: &Record| format!("({}, {}, {})", record.predicate, record.subject, record.object);
    let told: Vec<String> = row.iter().take(16).map(numbers).collect();
    format!("{} records {}", row.len(), told.join(" "))
}

fn row_written<T: Copy + Debug + PartialEq>(what: &str, lent: &Lent<T>, due: &[T]) -> Checked<()> {
    if !lent.guards_stand() {
        return Err(format!("{what}: written outside of the lent row"));
    }
    same(what, lent.row(), due).map(|_| ())
}

impl<'a> Check<'a> {
    pub fn new(cleaner: &'a dyn Cleaner, due: &'a Due<'a>, rules: &[u8], bundle: &[u8]) -> Check<'a> {
        let lend = |bytes| Lent::holding(bytes, BYTE_GUARD);
        Check { cleaner, due, rules: lend(rules), bundle: lend(bundle) }
    }

    /// Passes an answer on if both files are as they were.
    fn files_unchanged<T>(&self, what: &str, got: T) -> Checked<T> {
        if self.rules.unchanged() && self.bundle.unchanged() {
            Ok(got)
        } else {
            Err(format!("{what}: a file that was lent for reading has changed"))
        }
    }

    pub fn mark(&self, marks_room: usize, partners_room: usize) -> Checked<Counts> {
        let (mut due_marks, mut due_partners) = (worn_bytes(marks_room), worn_words(partners_room));
        let mut marks = Lent::holding(&due_marks, BYTE_GUARD);
        let mut partners = Lent::holding(&due_partners, WORD_GUARD);
        let (rules, bundle) = (self.rules.row(), self.bundle.row());
        let got = self.cleaner.mark(rules, bundle, marks.row_mut(), partners.row_mut());
        let got = same("mark", got, self.due.mark(&mut due_marks, &mut due_partners))?;
        row_written("marks", &marks, &due_marks)?;
        row_written("partners", &partners, &due_partners)?;
        self.files_unchanged("mark", got)
    }

    pub fn count(&self) -> Checked<Counts> {
        let got = self.cleaner.count(self.rules.row(), self.bundle.row());
        self.files_unchanged("count", same("count", got, self.due.count())?)
    }

    pub fn ask(&self, fact: u64) -> Checked<Asked> {
        let got = self.cleaner.ask(self.rules.row(), self.bundle.row(), fact);
        self.files_unchanged("ask", same(&format!("ask {fact}"), got, self.due.ask(fact))?)
    }

    pub fn question(&self, question: Question) -> Checked<Answer> {
        let (rules, bundle) = (self.rules.row(), self.bundle.row());
        let got = match question {
            Question::Has { code, thing } => self.cleaner.has(rules, bundle, code, thing),
            Question::Joins { code, from, to } => self.cleaner.joins(rules, bundle, code, from, to),
        };
        self.files_unchanged("question", same(&format!("{question:?}"), got, self.due.answer(question))?)
    }

    pub fn write_kept(&self, room: usize) -> Checked<Length> {
        let mut due_out = worn_bytes(room);
        let mut out = Lent::holding(&due_out, BYTE_GUARD);
        let got = self.cleaner.write_kept(self.rules.row(), self.bundle.row(), out.row_mut());
        let got = same("write_kept", got, self.due.write_kept(&mut due_out))?;
        row_written("kept bundle", &out, &due_out)?;
        self.files_unchanged("write_kept", got)
    }

    pub fn check_rules(&self) -> Checked<Length> {
        let got = self.cleaner.check_rules(self.rules.row());
        self.files_unchanged("check_rules", same("check_rules", got, self.due.check_rules())?)
    }

    pub fn check_bundle(&self) -> Checked<Length> {
        let got = self.cleaner.check_bundle(self.rules.row(), self.bundle.row());
        self.files_unchanged("check_bundle", same("check_bundle", got, self.due.check_bundle())?)
    }

    pub fn records(&self, room: usize) -> Checked<Length> {
        let mut due_row = worn_records(room);
        let mut row = Lent::holding(&due_row, RECORD_GUARD);
        let got = self.cleaner.records(self.rules.row(), self.bundle.row(), row.row_mut());
        let got = same("records", got, self.due.records(&mut due_row))?;
        row_written("row", &row, &due_row)?;
        self.files_unchanged("records", got)
    }

    pub fn write_records(&self, row: &[Record], room: usize) -> Checked<Length> {
        let mut due_out = worn_bytes(room);
        let mut out = Lent::holding(&due_out, BYTE_GUARD);
        let lent = Lent::holding(row, RECORD_GUARD);
        let got = self.cleaner.write_records(self.rules.row(), lent.row(), out.row_mut());
        let told = || format!("write_records into {room} of {}", told_row(row));
        let got = same(&told(), got, self.due.write_records(row, &mut due_out))?;
        row_written(&told(), &out, &due_out)?;
        if !lent.unchanged() {
            return Err(format!("{}: the row has changed", told()));
        }
        self.files_unchanged("write_records", got)
    }

    pub fn reader_start(&self) -> Checked<Start> {
        let got = self.cleaner.reader_start(self.rules.row(), self.bundle.row());
        self.files_unchanged("reader_start", same("reader_start", got, self.due.reader_start())?)
    }

    /// One step of a reader from a place; gives what it yields, and its place afterwards.
    pub fn reader_next(&self, at: u64) -> Checked<(Yield, u64)> {
        let mut next = at;
        let yields = self.cleaner.reader_next(self.bundle.row(), &mut next);
        let got = same(&format!("reader at {at}"), (yields, next), reader_step(self.bundle.row(), at))?;
        self.files_unchanged("reader_next", got)
    }

    /// Every entry point once, with these arguments; gives the refusal of each.
    pub fn every_operation(&self, arguments: &Arguments) -> Checked<[Refusal; OPERATIONS]> {
        Ok([
            self.check_rules()?.refused,
            self.check_bundle()?.refused,
            self.count()?.refused,
            self.mark(arguments.marks_room, arguments.partners_room)?.refused,
            self.ask(arguments.fact)?.refused,
            self.question(arguments.has)?.refused,
            self.question(arguments.joins)?.refused,
            self.write_kept(arguments.out_room)?.refused,
            self.records(arguments.row_room)?.refused,
            self.write_records(&arguments.row, arguments.written_room)?.refused,
            self.reader_start()?.refused,
            self.reader_next(arguments.place)?.0.refused,
        ])
    }
}
