//! What a judge of accepted sites must give: a mark and a partner a fact, and answers to questions.

use crate::codes::KEPT;
use crate::site::{Fact, RuleFile};

/// The marks and partners of all facts of a site.
#[derive(Clone, Debug, Default, PartialEq, Eq)]
pub struct Judged {
    pub marks: Vec<u8>,
    pub partners: Vec<u16>,
}

impl Judged {
    pub fn is_kept(&self, fact: usize) -> bool {
        self.marks[fact] == KEPT
    }

    /// How many facts have this mark.
    pub fn count(&self, mark: u8) -> u32 {
        self.marks.iter().filter(|&&other| other == mark).count() as u32
    }

    /// The kept ones of these facts, in order.
    pub fn kept(&self, facts: &[Fact]) -> Vec<Fact> {
        let numbered = facts.iter().enumerate();
        numbered.filter(|&(number, _)| self.is_kept(number)).map(|(_, &fact)| fact).collect()
    }
}

/// A question, its numbers as wide as the call takes them.
#[derive(Clone, Copy, Debug, PartialEq, Eq)]
pub enum Question {
    /// "B of a"
    Has { code: u64, thing: u64 },
    /// "q from a to b"
    Joins { code: u64, from: u64, to: u64 },
}

/// Two judges that share nothing must agree on every accepted site.
pub trait Judge {
    fn judge(&self, file: &RuleFile, facts: &[Fact]) -> Judged;

    /// The fact that a yes names, or nothing for a no; the question's numbers are declared and in range.
    fn answer(&self, file: &RuleFile, facts: &[Fact], judged: &Judged, question: Question) -> Option<u32>;
}
