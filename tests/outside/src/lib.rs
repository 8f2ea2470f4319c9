//! The outside tests of Dzyunagor: worlds, a plain reader and the steps, all written apart from the library.
#![forbid(unsafe_code)]

pub mod arguments;
pub mod brute;
pub mod check;
pub mod cleaner;
pub mod codes;
pub mod command;
pub mod comparing;
pub mod damages;
pub mod damaging;
pub mod dice;
pub mod due;
pub mod judge;
pub mod lent;
#[cfg(feature = "library")]
pub mod library;
pub mod make_rows;
pub mod make_sites;
pub mod plain;
pub mod relay;
pub mod site;
pub mod steps;
pub mod wrong;
pub mod wrong_items;
pub mod wrong_rows;
