//! What is due from each operation on given bytes: the plain reader's refusals, then a judge's marks and answers.

use crate::cleaner::{Answer, Asked, Cleaner, Counts, Length, Record, Refusal, Start, Yield};
use crate::codes::{ALONE, DISPUTED, KEPT};
use crate::judge::{Judge, Judged, Question};
use crate::plain::{self, Found};
use crate::site::{bundle_bytes, row_of, Fact, RuleFile};

/// An accepted site, judged, and the place of its first fact.
pub struct Cleaned {
    pub file: RuleFile,
    pub facts: Vec<Fact>,
    pub judged: Judged,
    start: usize,
}

/// One pair of files, read and judged once; each operation's answer is taken from it.
pub struct Due<'a> {
    judge: &'a dyn Judge,
    rules: Result<RuleFile, Refusal>,
    pub site: Result<Cleaned, Refusal>,
}

impl<'a> Due<'a> {
    pub fn of(judge: &'a dyn Judge, rules: &[u8], bundle: &[u8]) -> Due<'a> {
        let rules = plain::read_rules(rules);
        let site = rules.clone().and_then(|file| {
            let facts = plain::read_bundle(&file, bundle)?;
            let judged = judge.judge(&file, &facts);
            Ok(Cleaned { file, facts, judged, start: plain::after_count(bundle)? })
        });
        Due { judge, rules, site }
    }

    fn site(&self) -> Result<&Cleaned, Refusal> {
        self.site.as_ref().map_err(|&refusal| refusal)
    }

    fn file(&self) -> Result<&RuleFile, Refusal> {
        self.rules.as_ref().map_err(|&refusal| refusal)
    }

    /// How many facts there are, 0 if the site is refused.
    pub fn facts(&self) -> usize {
        self.site.as_ref().map_or(0, |site| site.facts.len())
    }

    /// How long the kept bundle is, 0 if the site is refused.
    pub fn kept_length(&self) -> usize {
        self.site.as_ref().map_or(0, |site| site.kept_bytes().len())
    }

    /// The facts as records, none if the site is refused.
    pub fn row(&self) -> Vec<Record> {
        self.site.as_ref().map_or(Vec::new(), |site| row_of(&site.facts))
    }

    /// The kept ones of them.
    pub fn kept_row(&self) -> Vec<Record> {
        self.site.as_ref().map_or(Vec::new(), |site| row_of(&site.judged.kept(&site.facts)))
    }

    pub fn mark(&self, marks: &mut [u8], partners: &mut [u16]) -> Counts {
        let written = self.site().and_then(|site| {
            plain::check_room(marks.len().min(partners.len()), site.facts.len())?;
            marks[..site.facts.len()].copy_from_slice(&site.judged.marks);
            partners[..site.facts.len()].copy_from_slice(&site.judged.partners);
            Ok(site.counts())
        });
        written.unwrap_or_else(|refused| Counts { refused, ..Counts::default() })
    }

    pub fn count(&self) -> Counts {
        self.site().map_or_else(|refused| Counts { refused, ..Counts::default() }, Cleaned::counts)
    }

    pub fn ask(&self, fact: u64) -> Asked {
        let asked = self.site().and_then(|site| {
            let fact = plain::check_fact_number(site.facts.len(), fact)?;
            let (mark, partner) = (site.judged.marks[fact].into(), site.judged.partners[fact].into());
            Ok(Asked { mark, partner, ..Asked::default() })
        });
        asked.unwrap_or_else(|refused| Asked { refused, ..Asked::default() })
    }

    pub fn answer(&self, question: Question) -> Answer {
        let answered = self.site().and_then(|site| {
            plain::check_question(&site.file, question)?;
            Ok(self.judge.answer(&site.file, &site.facts, &site.judged, question))
        });
        match answered {
            Err(refused) => Answer { refused, ..Answer::default() },
            Ok(None) => Answer::default(),
            Ok(Some(fact)) => Answer { yes: 1, fact, ..Answer::default() },
        }
    }

    pub fn write_kept(&self, out: &mut [u8]) -> Length {
        let written = self.site().and_then(|site| {
            let kept = site.kept_bytes();
            plain::check_room(out.len(), kept.len())?;
            out[..kept.len()].copy_from_slice(&kept);
            Ok(kept.len() as u64)
        });
        length(written)
    }

    pub fn check_rules(&self) -> Length {
        length(self.file().map(|file| file.rules.len() as u64))
    }

    pub fn check_bundle(&self) -> Length {
        length(self.site().map(|site| site.facts.len() as u64))
    }

    pub fn records(&self, row: &mut [Record]) -> Length {
        length(self.site().and_then(|site| {
            plain::check_room(row.len(), site.facts.len())?;
            row[..site.facts.len()].copy_from_slice(&row_of(&site.facts));
            Ok(site.facts.len() as u64)
        }))
    }

    pub fn write_records(&self, row: &[Record], out: &mut [u8]) -> Length {
        length(self.file().and_then(|file| {
            plain::check_row(file, row)?;
            let bundle = row_bytes(row);
            plain::check_room(out.len(), bundle.len())?;
            out[..bundle.len()].copy_from_slice(&bundle);
            Ok(bundle.len() as u64)
        }))
    }

    pub fn reader_start(&self) -> Start {
        match self.site() {
            Ok(site) => Start { at: site.start as u64, ..Start::default() },
            Err(refused) => Start { refused, ..Start::default() },
        }
    }
}

/// The bundle of a row, whose records are taken as they are.
pub fn row_bytes(row: &[Record]) -> Vec<u8> {
    bundle_bytes(&row.iter().map(|&record| Fact::of(record)).collect::<Vec<_>>())
}

/// One step of a reader, and its place afterwards; the rules have no say in it.
pub fn reader_step(bundle: &[u8], at: u64) -> (Yield, u64) {
    let (found, next) = plain::read_at(bundle, at);
    let yields = match found {
        Ok(Found::Fact(fact)) => Yield { found: 1, fact: fact.record(), ..Yield::default() },
        Ok(Found::Done) => Yield::default(),
        Err(refused) => Yield { refused, ..Yield::default() },
    };
    (yields, next)
}

impl Cleaned {
    fn kept_bytes(&self) -> Vec<u8> {
        bundle_bytes(&self.judged.kept(&self.facts))
    }

    fn counts(&self) -> Counts {
        Counts {
            refused: Refusal::default(),
            facts: self.facts.len() as u32,
            kept: self.judged.count(KEPT),
            alone: self.judged.count(ALONE),
            disputed: self.judged.count(DISPUTED),
        }
    }
}

fn length(result: Result<u64, Refusal>) -> Length {
    match result {
        Ok(length) => Length { length, ..Length::default() },
        Err(refused) => Length { refused, ..Length::default() },
    }
}

/// The operations done by the plain reader and a judge, to be compared in the library's stead.
pub struct ByJudge<J: Judge>(pub J);

impl<J: Judge> Cleaner for ByJudge<J> {
    fn mark(&self, rules: &[u8], bundle: &[u8], marks: &mut [u8], partners: &mut [u16]) -> Counts {
        Due::of(&self.0, rules, bundle).mark(marks, partners)
    }

    fn count(&self, rules: &[u8], bundle: &[u8]) -> Counts {
        Due::of(&self.0, rules, bundle).count()
    }

    fn ask(&self, rules: &[u8], bundle: &[u8], fact: u64) -> Asked {
        Due::of(&self.0, rules, bundle).ask(fact)
    }

    fn has(&self, rules: &[u8], bundle: &[u8], code: u64, thing: u64) -> Answer {
        Due::of(&self.0, rules, bundle).answer(Question::Has { code, thing })
    }

    fn joins(&self, rules: &[u8], bundle: &[u8], code: u64, from: u64, to: u64) -> Answer {
        Due::of(&self.0, rules, bundle).answer(Question::Joins { code, from, to })
    }

    fn write_kept(&self, rules: &[u8], bundle: &[u8], out: &mut [u8]) -> Length {
        Due::of(&self.0, rules, bundle).write_kept(out)
    }

    fn check_rules(&self, rules: &[u8]) -> Length {
        Due::of(&self.0, rules, &[]).check_rules()
    }

    fn check_bundle(&self, rules: &[u8], bundle: &[u8]) -> Length {
        Due::of(&self.0, rules, bundle).check_bundle()
    }

    fn records(&self, rules: &[u8], bundle: &[u8], row: &mut [Record]) -> Length {
        Due::of(&self.0, rules, bundle).records(row)
    }

    fn write_records(&self, rules: &[u8], row: &[Record], out: &mut [u8]) -> Length {
        Due::of(&self.0, rules, &[]).write_records(row, out)
    }

    fn reader_start(&self, rules: &[u8], bundle: &[u8]) -> Start {
        Due::of(&self.0, rules, bundle).reader_start()
    }

    fn reader_next(&self, bundle: &[u8], at: &mut u64) -> Yield {
        let (yields, next) = reader_step(bundle, *at);
        *at = next;
        yields
    }
}
