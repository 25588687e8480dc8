//! The cells of a table, at the offsets of docs/TABLE.md.

use crate::words::PHI;

/// The one length of a table.
pub const TABLE: usize = 1 + FUNCTIONS * FUNCTION;
pub type Table = [u8; TABLE];

pub const FUNCTIONS: usize = 16;
pub const REGISTERS: usize = 256;
pub const BLOCKS: usize = 64;
pub const ROWS: usize = 1024;
pub const ENTRIES: usize = 1024;
/// The longest name.
pub const NAME: usize = 64;

pub const REGISTER_SIZE: usize = 2 + NAME;
pub const BLOCK_SIZE: usize = BLOCK_PREDECESSORS + 1 + BLOCKS;
pub const ROW_SIZE: usize = 12;
/// The cells of a function.
pub const FUNCTION: usize = FIRST_ENTRY + ENTRIES;
const FUNCTION_NAME: usize = 9;
pub const FIRST_REGISTER: usize = FUNCTION_NAME + NAME;
/// In a block: the count of its predecessors, which follow.
pub const BLOCK_PREDECESSORS: usize = 5 + NAME;
const FIRST_BLOCK: usize = FIRST_REGISTER + REGISTERS * REGISTER_SIZE;
const FIRST_ROW: usize = FIRST_BLOCK + BLOCKS * BLOCK_SIZE;
const FIRST_ENTRY: usize = FIRST_ROW + ROWS * ROW_SIZE;

/// The cell where function i begins; the next five are those of a function that begins at this cell.
pub const fn function_at(i: usize) -> usize {
    1 + FUNCTION * i
}
pub const fn register_at(function: usize, r: usize) -> usize {
    function + FIRST_REGISTER + REGISTER_SIZE * r
}
pub const fn block_at(function: usize, b: usize) -> usize {
    function + FIRST_BLOCK + BLOCK_SIZE * b
}
pub const fn predecessors_at(function: usize, b: usize) -> usize {
    block_at(function, b) + BLOCK_PREDECESSORS
}
pub const fn row_at(function: usize, k: usize) -> usize {
    function + FIRST_ROW + ROW_SIZE * k
}
pub const fn entry_at(function: usize, e: usize) -> usize {
    function + FIRST_ENTRY + e
}

/// A row as a place.
pub fn place(function: usize, row: usize) -> u64 {
    2048 * function as u64 + row as u64
}

/// One row's cells; which of them mean something goes by the instruction.
#[derive(Clone, Copy, Default)]
pub struct Row(pub [u8; ROW_SIZE]);

impl Row {
    pub fn instruction(&self) -> u8 {
        self.0[0]
    }
    pub fn target(&self) -> u8 {
        self.0[1]
    }
    pub fn source(&self) -> u8 {
        self.0[2]
    }
    pub fn second(&self) -> u8 {
        self.0[3]
    }
    pub fn number(&self) -> u64 {
        u64::from_le_bytes(self.0[4..12].try_into().unwrap())
    }
    /// The block of a `jump`, or that of a `jump.cond` if its source is not 0.
    pub fn block(&self) -> u8 {
        self.0[4]
    }
    /// The block of a `jump.cond` if its source is 0.
    pub fn other_block(&self) -> u8 {
        self.0[5]
    }
    pub fn first_entry(&self) -> usize {
        usize::from(u16::from_le_bytes([self.0[4], self.0[5]]))
    }
    pub fn entry_count(&self) -> usize {
        usize::from(u16::from_le_bytes([self.0[6], self.0[7]]))
    }

    pub fn set_number(&mut self, number: u64) {
        self.0[4..12].copy_from_slice(&number.to_le_bytes());
    }
    pub fn set_entries(&mut self, first: usize, count: usize) {
        self.0[4..6].copy_from_slice(&(first as u16).to_le_bytes());
        self.0[6..8].copy_from_slice(&(count as u16).to_le_bytes());
    }
}

/// One function's cells.
#[derive(Clone, Copy)]
pub struct Function<'a>(&'a [u8; FUNCTION]);

impl<'a> Function<'a> {
    /// Function i, for i below `FUNCTIONS`.
    pub fn of(table: &'a Table, i: usize) -> Function<'a> {
        let (functions, _) = table[1..].as_chunks();
        Function(&functions[i])
    }

    fn pair(&self, at: usize) -> usize {
        usize::from(u16::from_le_bytes([self.0[at], self.0[at + 1]]))
    }
    fn slice(&self, at: usize, length: u8) -> &'a [u8] {
        &self.0[at..at + usize::from(length)]
    }

    pub fn ssa(&self) -> u8 {
        self.0[0]
    }
    pub fn result(&self) -> u8 {
        self.0[1]
    }
    pub fn parameters(&self) -> usize {
        self.pair(2)
    }
    pub fn registers(&self) -> usize {
        self.pair(4)
    }
    pub fn blocks(&self) -> usize {
        usize::from(self.0[6])
    }
    pub fn entry(&self) -> usize {
        usize::from(self.0[7])
    }
    pub fn name(&self) -> &'a [u8] {
        self.slice(FUNCTION_NAME, self.0[8])
    }

    pub fn register_type(&self, r: usize) -> u8 {
        self.0[FIRST_REGISTER + REGISTER_SIZE * r]
    }
    pub fn register_name(&self, r: usize) -> &'a [u8] {
        let at = FIRST_REGISTER + REGISTER_SIZE * r;
        self.slice(at + 2, self.0[at + 1])
    }

    pub fn block_first(&self, b: usize) -> usize {
        self.pair(FIRST_BLOCK + BLOCK_SIZE * b)
    }
    pub fn block_rows(&self, b: usize) -> usize {
        self.pair(FIRST_BLOCK + BLOCK_SIZE * b + 2)
    }
    pub fn block_name(&self, b: usize) -> &'a [u8] {
        let at = FIRST_BLOCK + BLOCK_SIZE * b;
        self.slice(at + 5, self.0[at + 4])
    }
    /// The predecessors put down of block b.
    pub fn predecessors(&self, b: usize) -> &'a [u8] {
        let at = predecessors_at(0, b);
        self.slice(at + 1, self.0[at])
    }
    /// The last row of block b, if it has one.
    pub fn last_row(&self, b: usize) -> Option<Row> {
        let rows = self.block_rows(b);
        (rows > 0).then(|| self.row(self.block_first(b) + rows - 1))
    }
    /// How many rows at the beginning of block b are phi.
    pub fn phis(&self, b: usize) -> usize {
        let rows = &self.row_cells()[self.block_first(b)..][..self.block_rows(b)];
        rows.iter().take_while(|row| row[0] == PHI).count()
    }
    /// The sum of the blocks' row counts.
    pub fn rows(&self) -> usize {
        (0..self.blocks()).map(|b| self.block_rows(b)).sum()
    }

    /// Room for all rows, those past the last included.
    pub fn row_cells(&self) -> &'a [[u8; ROW_SIZE]] {
        self.0[FIRST_ROW..FIRST_ENTRY].as_chunks().0
    }
    pub fn row(&self, k: usize) -> Row {
        Row(self.row_cells()[k])
    }
    pub fn entries(&self, row: &Row) -> &'a [u8] {
        &self.entry_cells()[row.first_entry()..][..row.entry_count()]
    }
    /// Room for all phi entries.
    pub fn entry_cells(&self) -> &'a [u8] {
        &self.0[FIRST_ENTRY..]
    }
}

/// The same cells, to be written.
pub struct FunctionMut<'a>(&'a mut [u8; FUNCTION]);

impl<'a> FunctionMut<'a> {
    /// Function i, for i below `FUNCTIONS`.
    pub fn of(table: &'a mut Table, i: usize) -> FunctionMut<'a> {
        let (functions, _) = table[1..].as_chunks_mut();
        FunctionMut(&mut functions[i])
    }

    pub fn function(&self) -> Function<'_> {
        Function(self.0)
    }

    fn set_pair(&mut self, at: usize, value: usize) {
        self.0[at..at + 2].copy_from_slice(&(value as u16).to_le_bytes());
    }
    /// A length cell and the bytes after it.
    fn set_bytes(&mut self, at: usize, bytes: &[u8]) {
        self.0[at] = bytes.len() as u8;
        self.0[at + 1..][..bytes.len()].copy_from_slice(bytes);
    }

    pub fn set_head(&mut self, ssa: u8, result: u8, name: &[u8]) {
        self.0[0] = ssa;
        self.0[1] = result;
        self.set_bytes(FUNCTION_NAME - 1, name);
    }
    pub fn set_parameters(&mut self, count: usize) {
        self.set_pair(2, count);
    }
    pub fn set_registers(&mut self, count: usize) {
        self.set_pair(4, count);
    }
    pub fn set_blocks(&mut self, count: usize, entry: usize) {
        self.0[6] = count as u8;
        self.0[7] = entry as u8;
    }
    pub fn set_register(&mut self, r: usize, kind: u8, name: &[u8]) {
        let at = FIRST_REGISTER + REGISTER_SIZE * r;
        self.0[at] = kind;
        self.set_bytes(at + 1, name);
    }
    pub fn set_block(&mut self, b: usize, first: usize, rows: usize, name: &[u8]) {
        let at = FIRST_BLOCK + BLOCK_SIZE * b;
        self.set_pair(at, first);
        self.set_pair(at + 2, rows);
        self.set_bytes(at + 4, name);
    }
    pub fn set_predecessors(&mut self, b: usize, blocks: impl Iterator<Item = usize>) {
        let at = predecessors_at(0, b);
        let mut count = 0;
        for (cell, block) in self.0[at + 1..].iter_mut().zip(blocks) {
            *cell = block as u8;
            count += 1;
        }
        self.0[at] = count;
    }
    pub fn set_row(&mut self, k: usize, row: Row) {
        let (rows, _) = self.0[FIRST_ROW..FIRST_ENTRY].as_chunks_mut();
        rows[k] = row.0;
    }
    /// The first (0) or second (1) block that row k names.
    pub fn set_named_block(&mut self, k: usize, which: usize, block: u8) {
        self.0[FIRST_ROW + ROW_SIZE * k + 4 + which] = block;
    }
    pub fn set_entry_cell(&mut self, e: usize, register: u8) {
        self.0[FIRST_ENTRY..][e] = register;
    }
}
