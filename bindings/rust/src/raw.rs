//! The library's functions as they are linked, for whoever lends memory of his own. `bindings/c/ial.h` says what each takes and answers.
//! Each pointer is to lead to as many bytes or numbers as the length after it says, and may be null where that is 0.

/// What was refused or stopped and where, or 0 0; then the value and the steps of a run, or the length of a text.
#[repr(C)]
#[derive(Clone, Copy, Debug, Default, PartialEq, Eq)]
pub struct Answer {
    pub number: u64,
    pub place: u64,
    pub value: u64,
    pub steps: u64,
}

extern "C" {
    pub fn ial_read(text: *const u8, text_length: usize, table: *mut u8, table_length: usize) -> Answer;
    pub fn ial_check(table: *const u8, table_length: usize) -> Answer;
    pub fn ial_has_signature(
        table: *const u8,
        table_length: usize,
        function: u64,
        result: u8,
        types: *const u8,
        type_count: usize,
    ) -> u64;
    pub fn ial_run(
        table: *const u8,
        table_length: usize,
        function: u64,
        arguments: *const u64,
        argument_count: usize,
        budget: u64,
        registers: *mut u64,
        register_count: usize,
    ) -> Answer;
    pub fn ial_run_each(
        table: *const u8,
        table_length: usize,
        function: u64,
        arguments: *const u64,
        argument_count: usize,
        budget: u64,
        registers: *mut u64,
        register_count: usize,
        output: *mut u64,
        output_count: usize,
    ) -> Answer;
    pub fn ial_translate(table: *const u8, table_length: usize, function: u64, output: *mut u8, output_length: usize) -> Answer;
    pub fn ial_write(table: *const u8, table_length: usize, buffer: *mut u8, buffer_length: usize) -> Answer;
}
