//! Refusals: what is wrong, on which side, at which place, in which item.

use crate::c;
use core::fmt::{Display, Formatter, Result as Told};

/// What is wrong, and where: the answer in place of work that cannot be done. Nothing was written.
///
/// ```
/// let refusal = dzyunagor::check_rules(b"\x00\x00\x01\x05").unwrap_err();
/// assert_eq!((refusal.place, refusal.item), (3, Some(0)));
/// assert_eq!(refusal.to_string(), "refused 11 in rules at 3 (rule 0): a rule kind over 4");
/// ```
#[derive(Clone, Copy, Debug, PartialEq, Eq, Hash)]
pub struct Refusal {
    /// What is wrong.
    pub number: RefusalNumber,
    /// Where.
    pub side: Side,
    /// The byte, from 0, of the rules or the bundle; for [`Side::Call`] the number of the record at fault, else 0.
    pub place: u64,
    /// The number, from 0, of the rule or fact there, also where the bytes end while it is due. None in a file's counts and after its
    /// last item, for [`Side::Call`], and from a step of a [`Reader`](crate::Reader).
    pub item: Option<usize>,
}

/// Each number once, with its name and its text.
macro_rules! refusal_numbers {
    ($($number:literal $name:ident $text:literal)*) => {
        /// What is wrong, by number; it prints its text. More numbers may come with a new minor version.
        #[derive(Clone, Copy, Debug, PartialEq, Eq, Hash)]
        #[non_exhaustive]
        pub enum RefusalNumber {
            $(#[doc = $text] $name = $number,)*
        }

        impl RefusalNumber {
            /// Every number, ascending.
            pub const ALL: &'static [RefusalNumber] = &[$(RefusalNumber::$name),*];

            /// What it means, in the header's words.
            pub fn text(self) -> &'static str {
                match self {
                    $(RefusalNumber::$name => $text,)*
                }
            }
        }
    };
}

refusal_numbers! {
    1 Cut "the bytes end before a number that is due is complete"
    2 Long "a number of more than one byte, the last of them 0"
    3 Over "a third byte with its top bit set, or a value over 65,535"
    4 TooMany "a count over its limit"
    5 Unknown "a concept or role that is not declared"
    6 Broken "a functional role on the right of a kind 2 rule"
    7 After "bytes after the last item"
    8 Order "a fact or record not above the one before it"
    9 Room "a lent output too short"
    10 NoFact "a fact number not below the count"
    11 Kind "a rule kind over 4"
    12 Object "a concept record whose object is not 0"
}

/// Where a refusal's fault is. More sides may come with a new minor version.
#[derive(Clone, Copy, Debug, PartialEq, Eq, Hash)]
#[non_exhaustive]
pub enum Side {
    /// The rules.
    Rules = 0,
    /// The bundle.
    Bundle = 1,
    /// The call's own arguments.
    Call = 2,
}

impl Side {
    /// Every side, ascending.
    pub const ALL: &'static [Side] = &[Side::Rules, Side::Bundle, Side::Call];
}

impl Display for RefusalNumber {
    fn fmt(&self, out: &mut Formatter) -> Told {
        out.write_str(self.text())
    }
}

impl Display for Side {
    fn fmt(&self, out: &mut Formatter) -> Told {
        out.write_str(match self {
            Side::Rules => "rules",
            Side::Bundle => "bundle",
            Side::Call => "call",
        })
    }
}

/// The line of the program `cleaner`, the rule or fact if there is one, then what the number means.
impl Display for Refusal {
    fn fmt(&self, out: &mut Formatter) -> Told {
        write!(out, "refused {} in {} at {}", self.number as u32, self.side, self.place)?;
        if let Some(item) = self.item {
            write!(out, " ({} {item})", if self.side == Side::Rules { "rule" } else { "fact" })?;
        }
        write!(out, ": {}", self.number)
    }
}

impl core::error::Error for Refusal {}

/// An answer of C as a result. Numbers and sides that are not in the header come from an archive of another version.
pub(crate) fn answered<T>(refused: c::Refusal, answer: T) -> Result<T, Refusal> {
    if refused.number == 0 {
        return Ok(answer);
    }
    let number = RefusalNumber::ALL.iter().find(|&&number| number as u32 == refused.number);
    let side = Side::ALL.iter().find(|&&side| side as u32 == refused.side);
    let item = (refused.item != c::NO_ITEM).then_some(refused.item as usize);
    match (number, side) {
        (Some(&number), Some(&side)) => Err(Refusal { number, side, place: refused.place, item }),
        _ => panic!("{refused:?}: the archive is of another version than this package"),
    }
}
