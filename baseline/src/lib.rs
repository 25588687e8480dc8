//! IAL in plain Rust, written from documents 01 and 02 and the table layout alone.
//!
//! It takes and answers what the verified library's entry points do, for any input, and shares no code with it.

#![forbid(unsafe_code)]

mod checker;
mod flow;
mod lexer;
mod listing;
mod machine;
pub mod merge;
mod names;
mod reader;
mod spelling;
pub mod table;
mod translator;
mod words;
mod writer;

pub use checker::check;
pub use listing::listing;
pub use machine::run;
pub use reader::read;
pub use table::TABLE;
pub use translator::translate;
pub use writer::write;

/// A refusal: its number and its place.
pub type Refusal = (u64, u64);

/// How a call of `run` ended.
#[derive(Clone, Copy, Debug, PartialEq, Eq)]
pub enum Ran {
    Returned { value: u64, steps: u64 },
    Left { steps: u64 },
    Stopped { number: u64, place: u64, steps: u64 },
    Refused { number: u64, place: u64 },
}

/// An answer as numbers; those unstated are 0.
#[derive(Clone, Copy, Debug, Default, PartialEq, Eq)]
pub struct Answer {
    pub number: u64,
    pub place: u64,
    pub value: u64,
    pub steps: u64,
}

impl From<Ran> for Answer {
    fn from(ran: Ran) -> Answer {
        let nothing = Answer::default();
        match ran {
            Ran::Returned { value, steps } => Answer { value, steps, ..nothing },
            Ran::Left { steps } => Answer { steps, ..nothing },
            Ran::Stopped { number, place, steps } => Answer { number, place, steps, ..nothing },
            Ran::Refused { number, place } => Answer { number, place, ..nothing },
        }
    }
}

impl From<Refusal> for Answer {
    fn from((number, place): Refusal) -> Answer {
        Answer { number, place, ..Answer::default() }
    }
}
