//! The library's functions as they are linked, for whoever lends memory of his own. `bindings/c/merge.h` says what each takes and answers.
//! Each pointer is to lead to as many bytes or numbers as the length after it says, and may be null where that is 0.

/// What was refused and where, or 0 0.
#[repr(C)]
#[derive(Clone, Copy, Debug, Default, PartialEq, Eq)]
pub struct Answer {
    pub number: u64,
    pub place: u64,
}

/// What was refused, or 0; then whether there is a record (1), and the record.
#[repr(C)]
#[derive(Clone, Copy, Debug, Default, PartialEq, Eq)]
pub struct Look {
    pub number: u64,
    pub found: u64,
    pub appliance: u64,
    pub time: u64,
    pub fail: u64,
    pub tablet: u64,
    pub reading: u64,
}

extern "C" {
    pub fn merge_empty(store: *mut u8, store_length: usize) -> Answer;
    pub fn merge_record(
        store: *mut u8,
        store_length: usize,
        table: *const u8,
        table_length: usize,
        function: u64,
        budget: u64,
        appliance: u64,
        time: u64,
        tablet: u64,
        reading: u64,
    ) -> Answer;
    pub fn merge_records(
        store: *mut u8,
        store_length: usize,
        table: *const u8,
        table_length: usize,
        function: u64,
        budget: u64,
        numbers: *const u64,
        number_count: usize,
    ) -> Answer;
    pub fn merge_store(store: *mut u8, store_length: usize, other: *const u8, other_length: usize) -> Answer;
    pub fn merge_look(store: *const u8, store_length: usize, appliance: u64) -> Look;
    pub fn merge_nth(store: *const u8, store_length: usize, n: u64) -> Look;
}
