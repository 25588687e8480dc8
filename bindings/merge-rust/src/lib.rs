//! The verified merge of test records for Rust: an owned [`Store`] that holds, of each appliance, the record that counts.
//!
//! Of the records of one appliance the one with the later time wins; then fail over pass; then the lower tablet number; then the
//! larger reading. The verdict is what a [`Limit`] function says of the reading. Whatever the order in which records come and stores are
//! joined, and however often, the same records give the same store, as long as one limit judges all of them and nothing is refused.
//!
//! ```
//! use merge::{Limit, Store, Test, Verdict};
//!
//! let text = b"function uint limit(int64 reading) { register int64 most; register uint within;
//!     block entry { most = load.i64 (100); within = cmp.lteq reading, most; return within; } }";
//! let table = ial::Table::read(text).unwrap();
//! let limit = Limit { table: &table, function: 0, budget: 1_000 };
//! let mut office = Store::empty();
//! office.record(&limit, Test { appliance: 417, time: 850, tablet: 2, reading: 130 })?;
//! office.record(&limit, Test { appliance: 417, time: 570, tablet: 1, reading: 80 })?;
//! assert_eq!(office.look(417).unwrap().verdict, Verdict::Fail);
//! # Ok::<(), merge::Refused>(())
//! ```
//!
//! A call needs free stack, since the library has no heap: [`RECORD_STACK`], [`RECORDS_STACK`], [`JOIN_STACK`] and [`LOOK_STACK`] say how much. Give a
//! thread that calls it some KiB more for itself.

pub mod raw;
mod refused;

pub use refused::Refused;

use raw::*;

/// The bytes of a store.
pub const STORE: usize = 40_968;

/// The most appliances of a store.
pub const APPLIANCES: usize = 1_024;

/// The bytes of stack that must be free when [`Store::record`] is called. This and the next three are those of bindings/c/merge.h.
pub const RECORD_STACK: usize = 32 * 1024;

/// The same for [`Store::records`].
pub const RECORDS_STACK: usize = 80 * 1024;

/// The same for [`Store::join`].
pub const JOIN_STACK: usize = 64 * 1024;

/// The same for [`Store::empty`], [`Store::from_bytes`], [`Store::look`] and each step of [`Store::iter`].
pub const LOOK_STACK: usize = 16 * 1024;

impl Answer {
    fn done(self) -> Result<(), Refused> {
        if self.number == 0 {
            return Ok(());
        }
        Err(Refused { number: self.number, place: self.place })
    }
}

/// A test as a tablet brings it: the library reads it as the four numbers of a record.
#[repr(C)]
#[derive(Clone, Copy, Debug, PartialEq, Eq)]
pub struct Test {
    pub appliance: u64,
    pub time: u64,
    pub tablet: u64,
    pub reading: i64,
}

#[derive(Clone, Copy, Debug, PartialEq, Eq)]
pub enum Verdict {
    Pass,
    Fail,
}

/// A test with its verdict, as a store holds it.
#[derive(Clone, Copy, Debug, PartialEq, Eq)]
pub struct Record {
    pub test: Test,
    pub verdict: Verdict,
}

/// What gives verdicts: a function of a table with one `int64` parameter, the reading, and the result `uint`, run for at most `budget`
/// steps. Result 1 is pass; any stop or other result is fail. It is to be the same for all records of a store.
#[derive(Clone, Copy, Debug)]
pub struct Limit<'a> {
    pub table: &'a ial::Table,
    pub function: u64,
    pub budget: u64,
}

/// The record that counts, for each of at most [`APPLIANCES`] appliances. Stores that hold the same records are equal.
#[derive(Clone, PartialEq, Eq)]
pub struct Store {
    bytes: Box<[u8; STORE]>,
}

impl Store {
    /// A store that holds nothing.
    pub fn empty() -> Store {
        let mut bytes = zeroed();
        // The pointer leads to as many bytes as the length says, here and below; a length of STORE is not refused.
        unsafe { merge_empty(bytes.as_mut_ptr(), bytes.len()) };
        Store { bytes }
    }

    /// A store from bytes as [`Store::bytes`] gave them. Another length than [`STORE`] is refused with 22; other bytes than a store's get
    /// answers too, but what is said of stores does not hold of them.
    pub fn from_bytes(bytes: &[u8]) -> Result<Store, Refused> {
        let bytes = Box::<[u8]>::from(bytes).try_into().map_err(|_| Refused { number: 22, place: 0 })?;
        Ok(Store { bytes })
    }

    /// All of the store: the same bytes for the same records.
    pub fn bytes(&self) -> &[u8; STORE] {
        &self.bytes
    }

    /// Checks the limit's table and merges a test with its verdict. Refuses with 9 to 17, then 61 (no such function, or of another
    /// signature), 60 (store full and appliance new); the store then stays as it is.
    pub fn record(&mut self, limit: &Limit, test: Test) -> Result<(), Refused> {
        let table = limit.table.cells();
        unsafe {
            merge_record(
                self.bytes.as_mut_ptr(),
                self.bytes.len(),
                table.as_ptr(),
                table.len(),
                limit.function,
                limit.budget,
                test.appliance,
                test.time,
                test.tablet,
                test.reading as u64,
            )
        }
        .done()
    }

    /// The same for many tests, all of them or none; the table is checked once, and again for each 64 tests.
    pub fn records(&mut self, limit: &Limit, tests: &[Test]) -> Result<(), Refused> {
        let table = limit.table.cells();
        // A Test is four numbers of eight bytes, one after the other.
        unsafe {
            merge_records(
                self.bytes.as_mut_ptr(),
                self.bytes.len(),
                table.as_ptr(),
                table.len(),
                limit.function,
                limit.budget,
                tests.as_ptr().cast(),
                4 * tests.len(),
            )
        }
        .done()
    }

    /// Merges all records of another store. Refuses with 60 exactly if the two hold more than [`APPLIANCES`] appliances together; the store
    /// then stays as it is.
    pub fn join(&mut self, other: &Store) -> Result<(), Refused> {
        unsafe { merge_store(self.bytes.as_mut_ptr(), self.bytes.len(), other.bytes.as_ptr(), other.bytes.len()) }.done()
    }

    /// The record of an appliance: the winner of those merged, or none.
    pub fn look(&self, appliance: u64) -> Option<Record> {
        unsafe { merge_look(self.bytes.as_ptr(), self.bytes.len(), appliance) }.record()
    }

    /// All records, by rising appliance number.
    pub fn iter(&self) -> Iter<'_> {
        Iter { store: self, next: 0 }
    }
}

/// Allocated where it stays: it may be more than a thread's stack has room for.
fn zeroed() -> Box<[u8; STORE]> {
    vec![0; STORE].into_boxed_slice().try_into().unwrap()
}

impl Look {
    fn record(self) -> Option<Record> {
        let test = Test { appliance: self.appliance, time: self.time, tablet: self.tablet, reading: self.reading as i64 };
        let verdict = if self.fail == 0 { Verdict::Pass } else { Verdict::Fail };
        (self.found == 1).then_some(Record { test, verdict })
    }
}

/// The records of a store, one after the other.
#[derive(Clone)]
pub struct Iter<'a> {
    store: &'a Store,
    next: u64,
}

impl Iterator for Iter<'_> {
    type Item = Record;

    fn next(&mut self) -> Option<Record> {
        let bytes = &self.store.bytes;
        let record = unsafe { merge_nth(bytes.as_ptr(), bytes.len(), self.next) }.record()?;
        self.next += 1;
        Some(record)
    }
}

impl<'a> IntoIterator for &'a Store {
    type Item = Record;
    type IntoIter = Iter<'a>;

    fn into_iter(self) -> Iter<'a> {
        self.iter()
    }
}

impl Default for Store {
    fn default() -> Store {
        Store::empty()
    }
}

impl std::fmt::Debug for Store {
    fn fmt(&self, f: &mut std::fmt::Formatter) -> std::fmt::Result {
        f.debug_list().entries(self).finish()
    }
}

#[cfg(test)]
mod tests {
    use super::*;
    use std::ptr::{null, null_mut};

    fn numbers(a: Look) -> [u64; 7] {
        [a.number, a.found, a.appliance, a.time, a.fail, a.tablet, a.reading]
    }

    // As bindings/c/merge.h says.
    #[test]
    fn null_is_an_empty_slice() {
        let mut store = Store::empty();
        let refused = |number: u64, answer: Answer| assert_eq!(answer.done(), Err(Refused { number, place: 0 }));
        unsafe {
            refused(22, merge_empty(null_mut(), 0));
            refused(9, merge_record(null_mut(), 0, null(), 0, 0, 0, 1, 1, 1, 1));
            refused(9, merge_records(store.bytes.as_mut_ptr(), STORE, null(), 0, 0, 0, null(), 0));
            refused(22, merge_store(store.bytes.as_mut_ptr(), STORE, null(), 0));
            assert_eq!(numbers(merge_look(null(), 0, 1)), [22, 0, 0, 0, 0, 0, 0]);
            assert_eq!(numbers(merge_nth(null(), 0, 0)), [22, 0, 0, 0, 0, 0, 0]);
        }
        assert!(store.bytes.iter().all(|&b| b == 0));
    }
}
