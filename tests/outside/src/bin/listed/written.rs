//! Document 01's cases with their answers written out by hand, and the order of its refusals.

use crate::{items, rows};
use outside::cleaner::{Answer, Asked, Cleaner, Counts, Length, Refusal};
use outside::codes::{BUNDLE_SIDE, CALL_SIDE, RULES_SIDE};
use std::fmt::Debug;

/// The worked site.
pub const R: &str = "02 01 05 01 00 01 00 01 40 00 41 00 04 00 03 00 01";
pub const F: &str = "06 00 07 01 07 01 09 40 09 07 40 09 AC 02 40 0C 0C";

/// A bundle that is refused with 8 at 3, fact 1.
const NOT_ASCENDING: &str = "02 00 07 00 07";

/// R with its rules in other orders; then each of them twice, all of them twice, and some again at the end.
const RULES_OF_R: [&str; 6] = [
    "02 01 05 03 00 01 04 00 00 41 00 00 01 40 01 00 01",
    "02 01 05 04 00 01 00 01 03 00 01 00 41 00 00 01 40",
    "02 01 05 00 41 00 03 00 01 00 01 40 01 00 01 04 00",
    "02 01 0A 01 00 01 01 00 01 00 01 40 00 01 40 00 41 00 00 41 00 04 00 04 00 03 00 01 03 00 01",
    "02 01 0A 01 00 01 00 01 40 00 41 00 04 00 03 00 01 01 00 01 00 01 40 00 41 00 04 00 03 00 01",
    "02 01 08 04 00 03 00 01 00 01 40 01 00 01 00 41 00 01 00 01 04 00 00 01 40",
];

/// A file in hex, and its refusal's number, place and item.
pub type RefusedFile = (&'static str, u32, u64, u32);

/// The item of a refusal that has none.
pub const NONE: u32 = 65_535;

/// Rule files.
const REFUSED_RULES: [RefusedFile; 17] = [
    ("", 1, 0, NONE),
    ("00 01 02 04 00 02 01 01", 6, 3, 0),
    ("00 01 02 02 01 01 04 00", 6, 6, 1),
    ("00 01 02 04 00 02 01 01 00", 7, 8, NONE),
    ("00 01 03 04 00 02 00 00 04 01", 6, 3, 0),
    ("00 02 04 04 02 04 00 02 03 01 04 01", 6, 5, 1),
    ("41 00 00", 4, 0, NONE),
    ("00 21 00", 4, 1, NONE),
    ("00 00 81 04", 4, 2, NONE),
    ("00 00 01 05", 11, 3, 0),
    ("00 00 01 FF FF 03", 11, 3, 0),
    ("00 00 01 80 80 04", 3, 3, 0),
    ("01 01 01 00 00 42", 5, 5, 0),
    ("01 01 01 00 01 40", 5, 4, 0),
    ("01 01 01 02 00 02", 5, 5, 0),
    ("01 01 01 04 02", 5, 4, 0),
    ("40 20 01 00 3F 80 01", 5, 5, 0),
];

/// Bundles under R.
const REFUSED_BUNDLES: [RefusedFile; 15] = [
    ("", 1, 0, NONE),
    ("80 20", 1, 2, 0),
    ("81 20", 4, 0, NONE),
    ("02 00 07 00 07", 8, 3, 1),
    ("02 00 07 00 06", 8, 3, 1),
    ("02 01 07 00 08", 8, 3, 1),
    ("02 40 07 08 40 07 80", 1, 6, 1),
    ("02 40 07 08 40 06 80 00", 2, 6, 1),
    ("02 40 07 08 40 07 07", 8, 4, 1),
    ("02 01 07 02 07", 5, 3, 1),
    ("01 41 07 08", 5, 1, 0),
    ("01 80 01 07", 5, 1, 0),
    ("01 01 07 00", 7, 3, NONE),
    ("00 00", 7, 1, NONE),
    ("01 01 80 80 80", 3, 2, 0),
];

/// Written hex as bytes.
pub fn bytes(hex: &str) -> Vec<u8> {
    hex.split_whitespace().map(|pair| u8::from_str_radix(pair, 16).expect("two hex digits")).collect()
}

/// A cleaner, and how many answers have been held to it.
pub struct Held<'a> {
    pub cleaner: &'a dyn Cleaner,
    answers: &'a mut u64,
}

pub type Told = Result<(), String>;

pub fn run(cleaner: &dyn Cleaner, answers: &mut u64) -> Told {
    let mut held = Held { cleaner, answers };
    held.numbers()?;
    held.worked_marks()?;
    held.worked_answers()?;
    held.worked_kept()?;
    held.careful_errors()?;
    held.refusals()?;
    held.rules_again()?;
    held.functional_rules()?;
    held.order_of_arguments()?;
    rows::run(&mut held)?;
    items::run(&mut held)
}

pub fn refused(number: u32, side: u32, place: u64, item: u32) -> Refusal {
    Refusal { number, side, place, item }
}

/// The refusal of the call's own arguments.
pub fn refused_call(number: u32, place: u64) -> Refusal {
    refused(number, CALL_SIDE, place, NONE)
}

fn yes(fact: u32) -> Answer {
    Answer { yes: 1, fact, ..Answer::default() }
}

fn no() -> Answer {
    Answer::default()
}

fn refused_answer(refused: Refusal) -> Answer {
    Answer { refused, ..Answer::default() }
}

pub fn refused_length(refused: Refusal) -> Length {
    Length { refused, length: 0 }
}

/// The refusal of the bundle that does not ascend.
fn not_ascending() -> Refusal {
    refused(8, BUNDLE_SIDE, 3, 1)
}

fn asked(mark: u32, partner: u32) -> Asked {
    Asked { mark, partner, ..Asked::default() }
}

impl Held<'_> {
    pub fn hold<T: Debug + PartialEq>(&mut self, what: &str, got: T, written: T) -> Told {
        *self.answers += 1;
        if got == written {
            return Ok(());
        }
        Err(format!("{what}: got {got:?}, written {written:?}"))
    }

    /// A number as the subject of one fact, and as the first number of a rule file.
    fn numbers(&mut self) -> Told {
        for (hex, value) in [("7F", 127), ("80 01", 128), ("FF FF 03", 65_535)] {
            let (rules, bundle) = (bytes("01 00 00"), bytes(&format!("01 00 {hex}")));
            self.hold(hex, self.cleaner.has(&rules, &bundle, 0, value), yes(0))?;
        }
        let bad = [("80 80 04", 3), ("80 00", 2), ("80 80 80", 3), ("80", 1), ("80 80", 1), ("80 80 00", 2)];
        for (hex, number) in bad {
            let (rules, bundle) = (bytes("01 00 00"), bytes(&format!("01 00 {hex}")));
            let got = self.cleaner.check_bundle(&rules, &bundle);
            self.hold(hex, got, refused_length(refused(number, BUNDLE_SIDE, 2, 0)))?;
            let count = refused_length(refused(number, RULES_SIDE, 0, NONE));
            self.hold(hex, self.cleaner.check_rules(&bytes(hex)), count)?;
        }
        Ok(())
    }

    /// The marks of F, under R or rules that say the same.
    fn marks_of_f(&mut self, rules: &str) -> Told {
        let counts = Counts { refused: Refusal::default(), facts: 6, kept: 1, alone: 1, disputed: 4 };
        self.marks(rules, F, counts, &[2, 2, 0, 2, 2, 1], &[1, 0, 65_535, 1, 3, 65_535])
    }

    fn worked_marks(&mut self) -> Told {
        self.marks_of_f(R)?;
        self.hold("rules of R", self.cleaner.check_rules(&bytes(R)), Length { length: 5, ..Length::default() })?;
        let facts = self.cleaner.check_bundle(&bytes(R), &bytes(F));
        self.hold("facts of F", facts, Length { length: 6, ..Length::default() })
    }

    /// Marks and partners of a site, all at once, one by one, and counted.
    fn marks(&mut self, rules: &str, bundle: &str, counts: Counts, marks: &[u8], partners: &[u16]) -> Told {
        let (rules, bundle) = (bytes(rules), bytes(bundle));
        let (mut got_marks, mut got_partners) = (vec![77; marks.len() + 1], vec![777; partners.len() + 1]);
        let got = self.cleaner.mark(&rules, &bundle, &mut got_marks, &mut got_partners);
        self.hold("mark", got, counts)?;
        self.hold("count", self.cleaner.count(&rules, &bundle), counts)?;
        self.hold("marks", got_marks, [marks, &[77]].concat())?;
        self.hold("partners", got_partners, [partners, &[777]].concat())?;
        for (fact, (&mark, &partner)) in marks.iter().zip(partners).enumerate() {
            let got = self.cleaner.ask(&rules, &bundle, fact as u64);
            self.hold("ask", got, asked(mark.into(), partner.into()))?;
        }
        Ok(())
    }

    fn worked_answers(&mut self) -> Told {
        let (rules, bundle) = (bytes(R), bytes(F));
        for (code, thing, answer) in [(64, 9, yes(2)), (0, 300, no()), (0, 7, no()), (1, 9, yes(2)), (65, 9, no())] {
            self.hold("B of a", self.cleaner.has(&rules, &bundle, code, thing), answer)?;
        }
        self.hold("q from a to b", self.cleaner.joins(&rules, &bundle, 0, 9, 7), no())?;
        let pair = bytes("01 40 09 07");
        for (code, from, to, answer) in [(0, 9, 7, yes(0)), (1, 7, 9, yes(0)), (0, 7, 9, no()), (1, 9, 7, no())] {
            self.hold("q from a to b", self.cleaner.joins(&rules, &pair, code, from, to), answer)?;
        }
        self.hold("the other end", self.cleaner.has(&rules, &pair, 0, 7), yes(0))
    }

    fn worked_kept(&mut self) -> Told {
        for room in [3, 4, 9] {
            let mut out = vec![0xEE; room];
            let got = self.cleaner.write_kept(&bytes(R), &bytes(F), &mut out);
            self.hold("kept", got, Length { length: 3, ..Length::default() })?;
            let written = [bytes("01 01 09"), vec![0xEE; room - 3]].concat();
            self.hold("kept bundle", out, written)?;
        }
        let mut out = vec![0xEE; 2];
        let got = self.cleaner.write_kept(&bytes(R), &bytes(F), &mut out);
        self.hold("kept, one too short", got, refused_length(refused_call(9, 0)))?;
        self.hold("nothing written", out, vec![0xEE; 2])
    }

    /// An empty role, a fact that is alone beside one that is not, a loop, a functional inverse.
    fn careful_errors(&mut self) -> Told {
        let two = |kept, alone, disputed| Counts { refused: Refusal::default(), facts: 2, kept, alone, disputed };
        let none = 65_535;
        let empty = "02 01 04 01 00 01 00 01 40 00 41 00 00 41 01";
        self.marks(empty, "02 00 07 01 07", two(1, 1, 0), &[0, 1], &[none, none])?;
        self.marks("02 00 02 01 00 00 01 00 01", "02 00 07 01 07", two(1, 1, 0), &[1, 0], &[none, none])?;
        self.marks("00 01 01 01 40 41", "02 40 07 07 40 08 09", two(1, 1, 0), &[1, 0], &[none, none])?;
        self.marks("00 01 01 04 01", "02 40 07 09 40 08 09", two(0, 0, 2), &[2, 2], &[1, 0])?;
        self.marks("00 01 01 04 01", "02 40 07 08 40 07 09", two(2, 0, 0), &[0, 0], &[none, none])?;
        let single = Counts { refused: Refusal::default(), facts: 1, kept: 1, alone: 0, disputed: 0 };
        self.marks(R, "01 01 09", single, &[0], &[none])
    }

    /// Refusals of the rules, which come before a bad bundle's; then those of bundles.
    fn refusals(&mut self) -> Told {
        items::refused_files(self, &REFUSED_RULES, &REFUSED_BUNDLES)?;
        self.hold("no facts", self.cleaner.check_bundle(&bytes(R), &bytes("00")), Length::default())
    }

    /// "Rules may repeat and come in any order": the same marks, partners, counts, answers and kept bundle.
    fn rules_again(&mut self) -> Told {
        for hex in RULES_OF_R {
            self.marks_of_f(hex)?;
            let (rules, bundle) = (bytes(hex), bytes(F));
            self.hold(hex, self.cleaner.has(&rules, &bundle, 64, 9), yes(2))?;
            let mut out = vec![0xEE; 4];
            let got = self.cleaner.write_kept(&rules, &bundle, &mut out);
            self.hold(hex, got, Length { length: 3, ..Length::default() })?;
            self.hold(hex, out, bytes("01 01 09 EE"))?;
        }
        Ok(())
    }

    /// One of two roles is functional by q, and one basic role is included in another, after it and before it: refused if
    /// the one on the right is q or its inverse, whatever is on the left; but a byte after the rules is refused first.
    fn functional_rules(&mut self) -> Told {
        for (q, left, right) in (0..32).map(|case| (case % 2, case / 2 % 4, case / 8)) {
            let after = format!("00 02 02 04 0{q} 02 0{left} 0{right}");
            let before = format!("00 02 02 02 0{left} 0{right} 04 0{q}");
            for (hex, place, rule) in [(after, 3, 0), (before, 6, 1)] {
                let broken = refused_length(refused(6, RULES_SIDE, place, rule));
                let due = if right < 2 { broken } else { Length { length: 2, ..Length::default() } };
                self.hold(&hex, self.cleaner.check_rules(&bytes(&hex)), due)?;
                self.hold(&hex, self.cleaner.count(&bytes(&hex), &bytes("00")).refused, due.refused)?;
                let longer = bytes(&format!("{hex} 00"));
                let after = refused_length(refused(7, RULES_SIDE, 8, NONE));
                self.hold(&hex, self.cleaner.check_rules(&longer), after)?;
            }
        }
        Ok(())
    }

    /// Arguments after both files, the code before the things, room last.
    fn order_of_arguments(&mut self) -> Told {
        let (rules, bundle) = (bytes(R), bytes(F));
        self.fact_numbers(&rules, &bundle)?;
        self.question_codes(&rules, &bundle)?;
        self.question_things(&rules, &bundle)?;
        self.rooms(&rules, &bundle)
    }

    fn fact_numbers(&mut self, rules: &[u8], bundle: &[u8]) -> Told {
        let none = Asked { refused: refused_call(10, 0), ..Asked::default() };
        let broken = Asked { refused: not_ascending(), ..Asked::default() };
        for fact in [6, 7, 65_536, 1 << 32, u64::MAX] {
            self.hold("fact number", self.cleaner.ask(rules, bundle, fact), none)?;
            self.hold("fact number after the bundle", self.cleaner.ask(rules, &bytes(NOT_ASCENDING), fact), broken)?;
        }
        Ok(())
    }

    fn question_codes(&mut self, rules: &[u8], bundle: &[u8]) -> Told {
        let (undeclared, broken) = (refused_answer(refused_call(5, 0)), refused_answer(not_ascending()));
        for code in [2, 63, 66, 128, 65_536, 1 << 32, u64::MAX] {
            self.hold("code", self.cleaner.has(rules, bundle, code, u64::MAX), undeclared)?;
            self.hold("code", self.cleaner.joins(rules, bundle, code, u64::MAX, 0), undeclared)?;
            self.hold("code after the bundle", self.cleaner.has(rules, &bytes(NOT_ASCENDING), code, 0), broken)?;
        }
        Ok(())
    }

    fn question_things(&mut self, rules: &[u8], bundle: &[u8]) -> Told {
        let too_large = refused_answer(refused_call(3, 0));
        for thing in [65_536, 1 << 32, u64::MAX] {
            self.hold("thing", self.cleaner.has(rules, bundle, 64, thing), too_large)?;
            self.hold("from", self.cleaner.joins(rules, bundle, 1, thing, 0), too_large)?;
            self.hold("to", self.cleaner.joins(rules, bundle, 1, 0, thing), too_large)?;
        }
        Ok(())
    }

    fn rooms(&mut self, rules: &[u8], bundle: &[u8]) -> Told {
        for (marks_room, partners_room) in [(5, 6), (6, 5), (0, 6), (6, 0), (0, 0)] {
            let (mut marks, mut partners) = (vec![77; marks_room], vec![777; partners_room]);
            let got = self.cleaner.mark(rules, bundle, &mut marks, &mut partners);
            self.hold("room", got, Counts { refused: refused_call(9, 0), ..Counts::default() })?;
            self.hold("no marks written", marks, vec![77; marks_room])?;
            self.hold("no partners written", partners, vec![777; partners_room])?;
        }
        Ok(())
    }
}
