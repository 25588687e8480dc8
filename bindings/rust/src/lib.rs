//! The verified IAL library for Rust: an owned [`Table`] that a text is read into, and what can be done with it.
//!
//! ```
//! let text = b"function ssa uint8 twice(uint8 a) { register uint8 b; block entry { b = ari.add a, a; return b; } }";
//! let table = ial::Table::read(text)?;
//! assert_eq!(table.run(0, &[21], 100)?.end, ial::End::Ended(42));
//! let plain = table.translate(0)?;
//! assert_eq!(plain.run(0, &[21], 100)?.end, ial::End::Ended(42));
//! assert!(plain.write()?.starts_with(b"function uint8 twice ( uint8 a ) {\nregister uint8 b ;\n"));
//! # Ok::<(), ial::Refused>(())
//! ```
//!
//! Names are kept and compared by their contents: `x` and `'x'` are one name, and of `'it\'s'` the table has four bytes. [`Table::write`] puts a name in quotes only
//! where plain spelling is not possible.
//!
//! A call needs free stack, since the library has no heap: [`READ_STACK`], [`CHECK_STACK`], [`SIGNATURE_STACK`], [`RUN_STACK`], [`RUN_EACH_STACK`],
//! [`TRANSLATE_STACK`] and [`WRITE_STACK`] say how much. Give a thread that calls it some KiB more for itself: `std::thread::Builder::new().stack_size(ial::READ_STACK + 16 * 1024)`.

pub mod raw;
mod refused;

pub use refused::Refused;

use raw::*;

/// The bytes of a table.
pub const TABLE: usize = 621_713;

/// The most registers a function has.
pub const REGISTERS: usize = 256;

/// The most bytes of a text.
pub const TEXT: usize = 65_536;

/// The bytes of stack that must be free when [`Table::read`] is called, for any text. This and the next six are those of the
/// compiled library, with at least 8 KiB to spare, in whole 16 KiB; a call with less crashes at the end of the stack.
pub const READ_STACK: usize = 64 * 1024;

/// The same for [`Table::check`], and for [`Table::from_cells`] with another length.
pub const CHECK_STACK: usize = 16 * 1024;

/// The same for [`Table::has_signature`].
pub const SIGNATURE_STACK: usize = 16 * 1024;

/// The same for [`Table::run`].
pub const RUN_STACK: usize = 32 * 1024;

/// The same for [`Table::run_each`].
pub const RUN_EACH_STACK: usize = 32 * 1024;

/// The same for [`Table::translate`].
pub const TRANSLATE_STACK: usize = 16 * 1024;

/// The same for [`Table::write`] and [`Table::write_into`].
pub const WRITE_STACK: usize = 16 * 1024;

impl Answer {
    /// The value, if it was not refused; only for calls that do not stop.
    fn done(self) -> Result<u64, Refused> {
        if self.number == 0 {
            return Ok(self.value);
        }
        Err(Refused { number: self.number, place: self.place })
    }

    /// How a run ended, if it was not refused.
    fn ended(self) -> Result<Outcome, Refused> {
        let end = match self.number {
            0 => End::Ended(self.value),
            40..=43 => End::Stopped { number: self.number, place: self.place },
            number => return Err(Refused { number, place: self.place }),
        };
        Ok(Outcome { end, steps: self.steps })
    }
}

/// A program as cells: functions, registers, blocks and rows at fixed offsets.
#[derive(Clone, PartialEq, Eq)]
pub struct Table {
    cells: Box<[u8]>,
}

/// How a run ended.
#[derive(Clone, Copy, Debug, PartialEq, Eq)]
pub enum End {
    /// By `return`, with the value, or by `leave`, with 0.
    Ended(u64),
    /// By a stop of document 01: 40 to 42, or 43 for a budget used up. The place is 2,048 times the function plus the row.
    Stopped { number: u64, place: u64 },
}

/// How one run of many ended, and after how many steps.
#[derive(Clone, Copy, Debug, PartialEq, Eq)]
pub struct Outcome {
    pub end: End,
    pub steps: u64,
}

/// A run: how it ended, after how many steps, and what its registers held then.
#[derive(Clone, Debug, PartialEq, Eq)]
pub struct Run {
    pub end: End,
    pub steps: u64,
    pub registers: Box<[u64; REGISTERS]>,
}

impl Table {
    /// Reads a text. The table is not checked yet; [`Table::check`] does that, and so do runs and translations.
    pub fn read(text: &[u8]) -> Result<Table, Refused> {
        let mut cells = vec![0; TABLE].into_boxed_slice();
        // Both pointers lead to as many bytes as their lengths say; the output is this function's own.
        unsafe { ial_read(text.as_ptr(), text.len(), cells.as_mut_ptr(), cells.len()) }.done()?;
        Ok(Table { cells })
    }

    /// A table from cells of any content, as stored or sent earlier. Another length than [`TABLE`] is refused with 9.
    pub fn from_cells(cells: &[u8]) -> Result<Table, Refused> {
        let table = Table { cells: cells.into() };
        if cells.len() != TABLE {
            table.check()?;
        }
        Ok(table)
    }

    pub fn cells(&self) -> &[u8] {
        &self.cells
    }

    /// Checks the whole table: 9 to 17.
    pub fn check(&self) -> Result<(), Refused> {
        unsafe { ial_check(self.cells.as_ptr(), self.cells.len()) }.done().map(|_| ())
    }

    /// Whether a function gives a result of this type and takes exactly parameters of these, by the types' numbers in a table: `int8` to `int64` 0
    /// to 3, `uint8` to `uint64` 4 to 7, `int` 8, `uint` 9, and as a result `void` 10. Nothing else is checked: without [`Table::check`] the
    /// answer says little.
    pub fn has_signature(&self, function: u64, result: u8, types: &[u8]) -> bool {
        unsafe { ial_has_signature(self.cells.as_ptr(), self.cells.len(), function, result, types.as_ptr(), types.len()) == 1 }
    }

    /// Checks the table and runs a function on arguments, for at most `budget` steps. Arguments and values are below 2^w, those of
    /// signed types in two's complement.
    pub fn run(&self, function: u64, arguments: &[u64], budget: u64) -> Result<Run, Refused> {
        let mut registers = Box::new([0; REGISTERS]);
        let answer = unsafe {
            ial_run(
                self.cells.as_ptr(),
                self.cells.len(),
                function,
                arguments.as_ptr(),
                arguments.len(),
                budget,
                registers.as_mut_ptr(),
                registers.len(),
            )
        };
        let Outcome { end, steps } = answer.ended()?;
        Ok(Run { end, steps, registers })
    }

    /// Checks the table once and runs a function on each argument alone, for at most `budget` steps each: what [`Table::run`] answers for
    /// `&[argument]`, without the registers.
    pub fn run_each(&self, function: u64, arguments: &[u64], budget: u64) -> Vec<Result<Outcome, Refused>> {
        let mut registers = Box::new([0; REGISTERS]);
        let mut output = vec![0; 4 * arguments.len()];
        // There are four numbers for each argument, so that the call itself is not refused.
        unsafe {
            ial_run_each(
                self.cells.as_ptr(),
                self.cells.len(),
                function,
                arguments.as_ptr(),
                arguments.len(),
                budget,
                registers.as_mut_ptr(),
                registers.len(),
                output.as_mut_ptr(),
                output.len(),
            )
        };
        output.chunks_exact(4).map(|n| Answer { number: n[0], place: n[1], value: n[2], steps: n[3] }.ended()).collect()
    }

    /// Checks the table and translates a function out of ssa: a table of that function alone, number 0.
    pub fn translate(&self, function: u64) -> Result<Table, Refused> {
        let mut cells = vec![0; TABLE].into_boxed_slice();
        unsafe { ial_translate(self.cells.as_ptr(), self.cells.len(), function, cells.as_mut_ptr(), cells.len()) }.done()?;
        Ok(Table { cells })
    }

    /// Checks the table and writes it as text; what has no name is called `p.0`, `e.0` and so on. [`Table::read`] of the text gives the
    /// same table with these names. 33 for more than [`TEXT`] bytes.
    pub fn write(&self) -> Result<Vec<u8>, Refused> {
        let mut text = vec![0; TEXT];
        let length = self.write_into(&mut text)?;
        text.truncate(length);
        Ok(text)
    }

    /// The same into a lent buffer: the text's length, and 0 past it. 32 for a text longer than the buffer.
    pub fn write_into(&self, buffer: &mut [u8]) -> Result<usize, Refused> {
        let written = unsafe { ial_write(self.cells.as_ptr(), self.cells.len(), buffer.as_mut_ptr(), buffer.len()) }.done()?;
        Ok(written as usize)
    }
}

impl std::fmt::Debug for Table {
    fn fmt(&self, f: &mut std::fmt::Formatter) -> std::fmt::Result {
        f.debug_struct("Table").field("functions", &self.cells[0]).finish_non_exhaustive()
    }
}

#[cfg(test)]
mod tests {
    use super::*;
    use std::ptr::{null, null_mut};

    fn numbers(a: Answer) -> [u64; 4] {
        [a.number, a.place, a.value, a.steps]
    }

    // As bindings/c/ial.h says.
    #[test]
    fn null_is_an_empty_slice() {
        let mut cells = vec![1; TABLE];
        unsafe {
            assert_eq!(numbers(ial_read(null(), 0, cells.as_mut_ptr(), cells.len())), [0; 4]);
            assert_eq!(numbers(ial_read(null(), 0, null_mut(), 0)), [22, 0, 0, 0]);
            assert_eq!(numbers(ial_check(null(), 0)), [9, 0, 0, 0]);
            assert_eq!(ial_has_signature(null(), 0, 0, 0, null(), 0), 0);
            assert_eq!(numbers(ial_run_each(null(), 0, 0, null(), 0, 0, null_mut(), 0, null_mut(), 0)), [0; 4]);
            assert_eq!(numbers(ial_write(null(), 0, null_mut(), 0)), [9, 0, 0, 0]);
            assert_eq!(numbers(ial_write(cells.as_ptr(), cells.len(), null_mut(), 0)), [0; 4]);
        }
        assert!(cells.iter().all(|&c| c == 0));
    }
}
