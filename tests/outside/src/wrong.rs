//! Wrong versions, made on purpose: the checks are of use only if each of these is noticed.

use crate::cleaner::{Answer, Asked, Cleaner, Counts, Length, Record, Refusal, Start, Yield};
use crate::codes::*;
use crate::due::ByJudge;
use crate::judge::{Judge, Judged, Question};
use crate::site::{Fact, Rule, RuleFile};
use crate::steps::Steps;
use crate::wrong_items::Misnames;
use crate::wrong_rows::Misrows;

/// A fault in the judging of an accepted site.
#[derive(Clone, Copy, Debug)]
pub enum Misjudges {
    AllKept,
    AllAlone,
    FirstFillsTheRest,
    FirstOfTwoKept,
    AloneDisputes,
    LoopsKept,
    UnnamedPartnerDropped,
    AnyPartner,
    DroppedAnswers,
    HighestFactAnswers,
}

impl Misjudges {
    pub const ALL: [Misjudges; 10] = [
        Misjudges::AllKept,
        Misjudges::AllAlone,
        Misjudges::FirstFillsTheRest,
        Misjudges::FirstOfTwoKept,
        Misjudges::AloneDisputes,
        Misjudges::LoopsKept,
        Misjudges::UnnamedPartnerDropped,
        Misjudges::AnyPartner,
        Misjudges::DroppedAnswers,
        Misjudges::HighestFactAnswers,
    ];

    /// The mark and partner that this fault gives a fact, if it meddles with it.
    fn meddle(self, file: &RuleFile, facts: &[Fact], right: &Judged, fact: usize) -> Option<(u8, u16)> {
        let kept = Some((KEPT, NO_PARTNER));
        let (mark, partner) = (right.marks[fact], right.partners[fact]);
        match self {
            Misjudges::AllKept => kept,
            Misjudges::AllAlone => Some((ALONE, NO_PARTNER)),
            Misjudges::FirstFillsTheRest => Some((right.marks[0], right.partners[0])),
            Misjudges::FirstOfTwoKept if mark == DISPUTED && usize::from(partner) > fact => kept,
            Misjudges::AloneDisputes if mark == KEPT => alone_neighbour(facts, right, fact).map(|by| (DISPUTED, by)),
            Misjudges::LoopsKept if facts[fact].is_role() && facts[fact].subject == facts[fact].object => kept,
            Misjudges::UnnamedPartnerDropped if demands(file, facts[fact]) => Some((ALONE, NO_PARTNER)),
            Misjudges::AnyPartner if mark == DISPUTED => {
                Some((DISPUTED, highest_partner(right, fact).unwrap_or(partner)))
            }
            _ => None,
        }
    }
}

/// A fact that is alone and has the same subject.
fn alone_neighbour(facts: &[Fact], right: &Judged, fact: usize) -> Option<u16> {
    let near = |other: &usize| right.marks[*other] == ALONE && facts[*other].subject == facts[fact].subject;
    (0..facts.len()).find(near).map(|other| other as u16)
}

/// Whether the fact's concept demands a partner by a rule.
fn demands(file: &RuleFile, fact: Fact) -> bool {
    let by =
        |rule: &Rule| matches!(*rule, Rule::ConceptIncluded(left, right) if left == fact.predicate && right >= SOME);
    !fact.is_role() && file.rules.iter().any(by)
}

/// The highest fact whose lowest partner is this one.
fn highest_partner(right: &Judged, fact: usize) -> Option<u16> {
    right.partners.iter().rposition(|&partner| usize::from(partner) == fact).map(|other| other as u16)
}

impl Judge for Misjudges {
    fn judge(&self, file: &RuleFile, facts: &[Fact]) -> Judged {
        let right = Steps::default().judge(file, facts);
        let pairs = (0..facts.len()).map(|fact| {
            let meddled = self.meddle(file, facts, &right, fact);
            meddled.unwrap_or((right.marks[fact], right.partners[fact]))
        });
        let (marks, partners) = pairs.unzip();
        Judged { marks, partners }
    }

    fn answer(&self, file: &RuleFile, facts: &[Fact], judged: &Judged, question: Question) -> Option<u32> {
        let mut shown = judged.clone();
        if let Misjudges::DroppedAnswers = self {
            shown.marks.fill(KEPT);
        }
        let lowest = Steps::default().answer(file, facts, &shown, question)?;
        if let Misjudges::HighestFactAnswers = self {
            shown.marks[..=lowest as usize].fill(ALONE);
            return Steps::default().answer(file, facts, &shown, question).or(Some(lowest));
        }
        Some(lowest)
    }
}

/// A fault in a call.
#[derive(Clone, Copy, Debug)]
pub enum Miscalls {
    AlwaysRefuses,
    WritesNoMarks,
    InventsCounts,
    WritesPastTheCount,
    WritesWhenRefused,
    NarrowsArguments,
    WantsMoreRoom,
    FillsTheOutput,
    ChecksRoomFirst,
}

impl Miscalls {
    pub const ALL: [Miscalls; 9] = [
        Miscalls::AlwaysRefuses,
        Miscalls::WritesNoMarks,
        Miscalls::InventsCounts,
        Miscalls::WritesPastTheCount,
        Miscalls::WritesWhenRefused,
        Miscalls::NarrowsArguments,
        Miscalls::WantsMoreRoom,
        Miscalls::FillsTheOutput,
        Miscalls::ChecksRoomFirst,
    ];

    fn narrow(self, argument: u64) -> u64 {
        match self {
            Miscalls::NarrowsArguments => u64::from(argument as u32),
            _ => argument,
        }
    }
}

/// The operations as they should be.
pub const RIGHT: ByJudge<Steps> = ByJudge(Steps { left_out: None });

pub fn short() -> Refusal {
    Refusal { number: TOO_SHORT, side: CALL_SIDE, place: 0, item: NO_ITEM }
}

impl Cleaner for Miscalls {
    fn mark(&self, rules: &[u8], bundle: &[u8], marks: &mut [u8], partners: &mut [u16]) -> Counts {
        let refused = Counts { refused: short(), ..Counts::default() };
        match self {
            Miscalls::AlwaysRefuses => return refused,
            Miscalls::ChecksRoomFirst if marks.is_empty() => return refused,
            Miscalls::WritesNoMarks => return RIGHT.mark(rules, bundle, &mut marks.to_vec(), partners),
            _ => {}
        }
        let mut counts = RIGHT.mark(rules, bundle, marks, partners);
        match self {
            Miscalls::InventsCounts if counts.facts > 0 => counts.kept = counts.facts - 1,
            Miscalls::WritesPastTheCount => partners.iter_mut().skip(counts.facts as usize).for_each(|slot| *slot = 0),
            Miscalls::WritesWhenRefused if counts.refused.number != 0 => marks.fill(KEPT),
            _ => {}
        }
        counts
    }

    fn count(&self, rules: &[u8], bundle: &[u8]) -> Counts {
        RIGHT.count(rules, bundle)
    }

    fn ask(&self, rules: &[u8], bundle: &[u8], fact: u64) -> Asked {
        RIGHT.ask(rules, bundle, self.narrow(fact))
    }

    fn has(&self, rules: &[u8], bundle: &[u8], code: u64, thing: u64) -> Answer {
        RIGHT.has(rules, bundle, self.narrow(code), self.narrow(thing))
    }

    fn joins(&self, rules: &[u8], bundle: &[u8], code: u64, from: u64, to: u64) -> Answer {
        RIGHT.joins(rules, bundle, self.narrow(code), self.narrow(from), self.narrow(to))
    }

    fn write_kept(&self, rules: &[u8], bundle: &[u8], out: &mut [u8]) -> Length {
        let length = RIGHT.write_kept(rules, bundle, &mut out.to_vec());
        if let (Miscalls::WantsMoreRoom, true) = (self, length.refused.number == 0 && length.length == out.len() as u64)
        {
            return Length { refused: short(), length: 0 };
        }
        if let Miscalls::FillsTheOutput = self {
            out.fill(0);
        }
        RIGHT.write_kept(rules, bundle, out)
    }

    fn check_rules(&self, rules: &[u8]) -> Length {
        RIGHT.check_rules(rules)
    }

    fn check_bundle(&self, rules: &[u8], bundle: &[u8]) -> Length {
        RIGHT.check_bundle(rules, bundle)
    }

    fn records(&self, rules: &[u8], bundle: &[u8], row: &mut [Record]) -> Length {
        RIGHT.records(rules, bundle, row)
    }

    fn write_records(&self, rules: &[u8], row: &[Record], out: &mut [u8]) -> Length {
        RIGHT.write_records(rules, row, out)
    }

    fn reader_start(&self, rules: &[u8], bundle: &[u8]) -> Start {
        RIGHT.reader_start(rules, bundle)
    }

    fn reader_next(&self, bundle: &[u8], at: &mut u64) -> Yield {
        RIGHT.reader_next(bundle, at)
    }
}

/// The steps whose loss changes a mark or an answer: all but step 7, since a role fact has both directions as types.
pub const STEPS_THAT_SHOW: [u32; 7] = [1, 2, 3, 4, 5, 6, 8];

/// Every wrong version, with its name.
pub fn every_wrong_version() -> Vec<(String, Box<dyn Cleaner>)> {
    let mut all: Vec<(String, Box<dyn Cleaner>)> = Vec::new();
    for fault in Misjudges::ALL {
        all.push((format!("{fault:?}"), Box::new(ByJudge(fault))));
    }
    for fault in Miscalls::ALL {
        all.push((format!("{fault:?}"), Box::new(fault)));
    }
    for fault in Misrows::ALL {
        all.push((format!("{fault:?}"), Box::new(fault)));
    }
    for fault in Misnames::ALL {
        all.push((format!("{fault:?}"), Box::new(fault)));
    }
    for step in STEPS_THAT_SHOW {
        all.push((format!("WithoutStep{step}"), Box::new(ByJudge(Steps { left_out: Some(step) }))));
    }
    all
}
