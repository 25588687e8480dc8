//! Refusals: a number of document 01 or 02, its place, and what it means.

use std::fmt;

/// Why a record or a store was not merged.
#[derive(Clone, Copy, Debug, PartialEq, Eq)]
pub struct Refused {
    /// 9 to 17, 22, 60 or 61.
    pub number: u64,
    /// A function (9), 2,048 times the function plus the row (10 to 17), else 0.
    pub place: u64,
}

impl Refused {
    /// What the number means, in short.
    pub fn meaning(&self) -> &'static str {
        match self.number {
            22 => "store of another length",
            60 => "store full and appliance new",
            61 => "limit function missing or of another signature",
            _ => self.of_the_table().meaning(),
        }
    }

    /// The same as a refusal of the table.
    fn of_the_table(&self) -> ial::Refused {
        ial::Refused { number: self.number, place: self.place }
    }
}

impl fmt::Display for Refused {
    fn fmt(&self, f: &mut fmt::Formatter) -> fmt::Result {
        match self.number {
            22 | 60 | 61 => write!(f, "refused {}: {}", self.number, self.meaning()),
            _ => self.of_the_table().fmt(f),
        }
    }
}

impl std::error::Error for Refused {}
