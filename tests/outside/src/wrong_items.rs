//! Wrong versions of what a refusal names: its number where 5 was split, and its item.

use crate::cleaner::{Answer, Asked, Cleaner, Counts, Length, Record, Refusal, Start, Yield};
use crate::codes::*;
use crate::wrong::RIGHT;

/// A fault in the number or the item of a refusal; all else is right.
#[derive(Clone, Copy, Debug)]
pub enum Misnames {
    KindRefusedByFive,
    ObjectRefusedByFive,
    CodeRefusedAsKind,
    PredicateRefusedAsObject,
    CutNamesTheNext,
    CutNamesTheOneBefore,
    ItemOfTheNext,
    NoItemInside,
    CutHasNoItem,
    HeaderIsItemZero,
    EndIsItemZero,
    BrokenHasNoItem,
    BrokenIsRuleZero,
    OrderNamesTheFactBefore,
    FactsHaveNoItem,
    CallHasItemZero,
    RecordIsTheItem,
    AcceptedHasNoItem,
    ReaderGivesItemZero,
    StartHasNoItem,
}

impl Misnames {
    pub const ALL: [Misnames; 20] = [
        Misnames::KindRefusedByFive,
        Misnames::ObjectRefusedByFive,
        Misnames::CodeRefusedAsKind,
        Misnames::PredicateRefusedAsObject,
        Misnames::CutNamesTheNext,
        Misnames::CutNamesTheOneBefore,
        Misnames::ItemOfTheNext,
        Misnames::NoItemInside,
        Misnames::CutHasNoItem,
        Misnames::HeaderIsItemZero,
        Misnames::EndIsItemZero,
        Misnames::BrokenHasNoItem,
        Misnames::BrokenIsRuleZero,
        Misnames::OrderNamesTheFactBefore,
        Misnames::FactsHaveNoItem,
        Misnames::CallHasItemZero,
        Misnames::RecordIsTheItem,
        Misnames::AcceptedHasNoItem,
        Misnames::ReaderGivesItemZero,
        Misnames::StartHasNoItem,
    ];

    /// The number that this fault gives in the place of the right one.
    fn number(self, right: Refusal) -> u32 {
        match (self, right.number) {
            (Misnames::KindRefusedByFive, NO_SUCH_KIND) => UNDECLARED,
            (Misnames::ObjectRefusedByFive, CONCEPT_OBJECT) => UNDECLARED,
            (Misnames::CodeRefusedAsKind, UNDECLARED) if right.side == RULES_SIDE => NO_SUCH_KIND,
            (Misnames::PredicateRefusedAsObject, UNDECLARED) if right.side == CALL_SIDE => CONCEPT_OBJECT,
            (_, number) => number,
        }
    }

    /// The item that this fault gives in the place of the right one.
    fn item(self, right: Refusal) -> u32 {
        if right.number == 0 {
            return if let Misnames::AcceptedHasNoItem = self { NO_ITEM } else { 0 };
        }
        match right.side {
            CALL_SIDE => self.item_of_call(right),
            _ if right.item == NO_ITEM => self.item_outside(right.number),
            side => self.item_inside(side, right.number, right.item),
        }
    }

    fn item_of_call(self, right: Refusal) -> u32 {
        match self {
            Misnames::CallHasItemZero => 0,
            Misnames::RecordIsTheItem => right.place as u32,
            _ => right.item,
        }
    }

    /// In the counts of a file, or after its last item.
    fn item_outside(self, number: u32) -> u32 {
        match self {
            Misnames::HeaderIsItemZero if number != BYTES_AFTER => 0,
            Misnames::EndIsItemZero if number == BYTES_AFTER => 0,
            _ => NO_ITEM,
        }
    }

    fn item_inside(self, side: u32, number: u32, item: u32) -> u32 {
        match (self, number) {
            (Misnames::ItemOfTheNext, _) => item + 1,
            (Misnames::CutNamesTheNext, BYTES_END) => item + 1,
            (Misnames::CutNamesTheOneBefore, BYTES_END) => item.saturating_sub(1),
            (Misnames::NoItemInside, _) => NO_ITEM,
            (Misnames::CutHasNoItem, BYTES_END) => NO_ITEM,
            (Misnames::BrokenHasNoItem, FUNCTIONAL_RIGHT) => NO_ITEM,
            (Misnames::BrokenIsRuleZero, FUNCTIONAL_RIGHT) => 0,
            (Misnames::OrderNamesTheFactBefore, NOT_ABOVE) => item - 1,
            (Misnames::FactsHaveNoItem, _) if side == BUNDLE_SIDE => NO_ITEM,
            _ => item,
        }
    }

    fn renamed(self, right: Refusal) -> Refusal {
        Refusal { number: self.number(right), item: self.item(right), ..right }
    }

    fn length(self, right: Length) -> Length {
        Length { refused: self.renamed(right.refused), ..right }
    }
}

impl Cleaner for Misnames {
    fn mark(&self, rules: &[u8], bundle: &[u8], marks: &mut [u8], partners: &mut [u16]) -> Counts {
        let right = RIGHT.mark(rules, bundle, marks, partners);
        Counts { refused: self.renamed(right.refused), ..right }
    }

    fn count(&self, rules: &[u8], bundle: &[u8]) -> Counts {
        let right = RIGHT.count(rules, bundle);
        Counts { refused: self.renamed(right.refused), ..right }
    }

    fn ask(&self, rules: &[u8], bundle: &[u8], fact: u64) -> Asked {
        let right = RIGHT.ask(rules, bundle, fact);
        Asked { refused: self.renamed(right.refused), ..right }
    }

    fn has(&self, rules: &[u8], bundle: &[u8], code: u64, thing: u64) -> Answer {
        let right = RIGHT.has(rules, bundle, code, thing);
        Answer { refused: self.renamed(right.refused), ..right }
    }

    fn joins(&self, rules: &[u8], bundle: &[u8], code: u64, from: u64, to: u64) -> Answer {
        let right = RIGHT.joins(rules, bundle, code, from, to);
        Answer { refused: self.renamed(right.refused), ..right }
    }

    fn write_kept(&self, rules: &[u8], bundle: &[u8], out: &mut [u8]) -> Length {
        self.length(RIGHT.write_kept(rules, bundle, out))
    }

    fn check_rules(&self, rules: &[u8]) -> Length {
        self.length(RIGHT.check_rules(rules))
    }

    fn check_bundle(&self, rules: &[u8], bundle: &[u8]) -> Length {
        self.length(RIGHT.check_bundle(rules, bundle))
    }

    fn records(&self, rules: &[u8], bundle: &[u8], row: &mut [Record]) -> Length {
        self.length(RIGHT.records(rules, bundle, row))
    }

    fn write_records(&self, rules: &[u8], row: &[Record], out: &mut [u8]) -> Length {
        self.length(RIGHT.write_records(rules, row, out))
    }

    fn reader_start(&self, rules: &[u8], bundle: &[u8]) -> Start {
        let right = RIGHT.reader_start(rules, bundle);
        let mut refused = self.renamed(right.refused);
        if let (Misnames::StartHasNoItem, true) = (self, refused.number != 0) {
            refused.item = NO_ITEM;
        }
        Start { refused, ..right }
    }

    fn reader_next(&self, bundle: &[u8], at: &mut u64) -> Yield {
        let mut right = RIGHT.reader_next(bundle, at);
        if let (Misnames::ReaderGivesItemZero, true) = (self, right.refused.number != 0) {
            right.refused.item = 0;
        }
        right
    }
}
