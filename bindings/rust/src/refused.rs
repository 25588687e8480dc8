//! Refusals: a number of document 01 or 02, its place, and what it means.

use std::fmt;

/// Why a text, table, argument or function was refused.
#[derive(Clone, Copy, Debug, PartialEq, Eq)]
pub struct Refused {
    /// 1 to 22, or 30 to 33.
    pub number: u64,
    /// A byte of the text (2 to 8), a function (9), 2,048 times the function plus the row (10 to 17), an argument or their
    /// count (20), else 0.
    pub place: u64,
}

impl Refused {
    /// What the number means: document 01's table ("Numbers we answer") and document 02, in short.
    pub fn meaning(&self) -> &'static str {
        match self.number {
            1 => "text too long",
            2 => "no token here, or name too long",
            3 => "token not allowed here, end included",
            4 => "number out of range",
            5 => "a size exceeded",
            6 => "function, register or block declared twice",
            7 => "name not declared",
            8 => "no entry block",
            9 => "not a table: a number, size, position, name or list of predecessors that no text gives",
            10 => "block without terminator at its end, or one earlier",
            11 => "types wrong, or leave outside a void function",
            12 => "ssa: register assigned twice, or parameter assigned",
            13 => "copy in ssa, or phi outside it",
            14 => "phi in entry, or after another instruction",
            15 => "phi entries differ in number from predecessors, or are none",
            16 => "ssa: register used, never assigned",
            17 => "ssa: some path from entry reaches the use without an assignment",
            20 => "argument count wrong, or an argument too large for its type",
            21 => "no such function",
            22 => "register buffer too short, or table output of another length",
            30 => "not ssa, so not to be translated",
            31 => "too large when translated",
            32 => "text longer than the buffer",
            33 => "text longer than 65,536 bytes",
            _ => "no number of a refusal",
        }
    }
}

impl fmt::Display for Refused {
    fn fmt(&self, f: &mut fmt::Formatter) -> fmt::Result {
        write!(f, "refused {}: {}", self.number, self.meaning())?;
        match self.number {
            2..=8 => write!(f, ", at byte {}", self.place),
            9 => write!(f, ", in function {}", self.place),
            10..=17 => write!(f, ", in function {}, row {}", self.place / 2048, self.place % 2048),
            20 => write!(f, ", at {}", self.place),
            _ => Ok(()),
        }
    }
}

impl std::error::Error for Refused {}
