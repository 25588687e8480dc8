//! A table as text (document 02, A1).

use crate::checker::checked;
use crate::reader::TEXT;
use crate::spelling::spelling;
use crate::table::{Function, Row, BLOCKS, REGISTERS};
use crate::words::*;
use crate::Refusal;
use std::borrow::Cow;

/// Writes a table that passes the check as text, and answers the text's length. Past it `out` is zero, after a refusal all of it.
pub fn write(table: &[u8], out: &mut [u8]) -> Result<usize, Refusal> {
    let written = text(table, out);
    out[written.unwrap_or(0)..].fill(0);
    written
}

/// 9 to 17, then 33, then 32.
fn text(table: &[u8], out: &mut [u8]) -> Result<usize, Refusal> {
    let table = checked(table)?;
    let mut page = Page { out, length: 0 };
    for i in 0..usize::from(table[0]) {
        write_function(&Function::of(table, i), &mut page);
    }
    if page.length > TEXT {
        Err((33, 0))
    } else if page.length > page.out.len() {
        Err((32, 0))
    } else {
        Ok(page.length)
    }
}

/// A buffer and how long the text is so far, in it or beyond it.
struct Page<'a> {
    out: &'a mut [u8],
    length: usize,
}

impl Page<'_> {
    #[inline]
    fn put(&mut self, bytes: &[u8]) {
        let end = self.length + bytes.len();
        if let Some(room) = self.out.get_mut(self.length..end) {
            room.copy_from_slice(bytes);
        }
        self.length = end;
    }

    /// A number by its meaning.
    fn number(&mut self, number: u64, kind: u8) {
        let least = mask(kind) / 2 + 1;
        if signed(kind) && number >= least {
            self.put(b"-");
            self.put(Digits::of(number.wrapping_neg() & mask(kind)).get());
        } else {
            self.put(Digits::of(number).get());
        }
    }
}

/// A number in decimal digits, the first at `from`.
struct Digits {
    bytes: [u8; 20],
    from: usize,
}

impl Digits {
    fn of(mut number: u64) -> Digits {
        let mut digits = Digits { bytes: [0; 20], from: 20 };
        loop {
            digits.from -= 1;
            digits.bytes[digits.from] = b'0' + (number % 10) as u8;
            number /= 10;
            if number == 0 {
                return digits;
            }
        }
    }

    fn get(&self) -> &[u8] {
        &self.bytes[self.from..]
    }
}

/// The longest made name, `p.255`.
const MADE: usize = 5;

/// How those of one kind in a function are written, N at most; names not there are made.
struct Called<'a, const N: usize> {
    spellings: [Cow<'a, [u8]>; N],
    /// The made name of each that has none.
    made: [[u8; MADE]; N],
}

impl<'a, const N: usize> Called<'a, N> {
    /// The unnamed ones take the smallest numbers that no name of the kind has. The entry block is called by a word, which is no name.
    fn of(count: usize, kind: u8, entry: Option<usize>, name: impl Fn(usize) -> &'a [u8]) -> Called<'a, N> {
        let mut called = Called { spellings: [const { Cow::Borrowed(&[]) }; N], made: [[0; MADE]; N] };
        let mut used = [false; REGISTERS];
        let mut unnamed = 0;
        for i in 0..count {
            called.spellings[i] = match name(i) {
                _ if entry == Some(i) => Cow::Borrowed(b"entry"),
                [] => {
                    unnamed += 1;
                    continue;
                }
                name => {
                    made_number(name, kind).inspect(|&number| used[usize::from(number)] = true);
                    spelling(name)
                }
            };
        }
        if unnamed > 0 {
            let mut free = (0..REGISTERS).filter(|&number| !used[number]);
            for i in (0..count).filter(|&i| called.spellings[i].is_empty()) {
                // There are as many numbers as registers, and each name uses one at most.
                called.made[i] = made_name(kind, free.next().unwrap());
            }
        }
        called
    }

    #[inline]
    fn name(&self, i: u8) -> &[u8] {
        let i = usize::from(i);
        match &*self.spellings[i] {
            [] => made_bytes(&self.made[i]),
            spelling => spelling,
        }
    }
}

/// The number of a name like a made one, if it is one that a function may need.
fn made_number(name: &[u8], kind: u8) -> Option<u8> {
    let digits = match name {
        [first, b'.', digits @ ..] if *first == kind => digits,
        _ => return None,
    };
    let shortest = matches!(digits, [b'0'] | [b'1'..=b'9', ..]);
    shortest.then(|| std::str::from_utf8(digits).ok()?.parse().ok()).flatten()
}

/// A made name, and 0 past it.
fn made_name(kind: u8, number: usize) -> [u8; MADE] {
    let mut name = [kind, b'.', 0, 0, 0];
    let digits = Digits::of(number as u64);
    name[2..][..digits.get().len()].copy_from_slice(digits.get());
    name
}

fn made_bytes(name: &[u8; MADE]) -> &[u8] {
    let length = name.iter().position(|&b| b == 0).unwrap_or(MADE);
    &name[..length]
}

fn write_function(f: &Function, page: &mut Page) {
    let registers: Called<REGISTERS> = Called::of(f.registers(), b'p', None, |r| f.register_name(r));
    let blocks: Called<BLOCKS> = Called::of(f.blocks(), b'e', Some(f.entry()), |b| f.block_name(b));
    write_head(f, &registers, page);
    for r in f.parameters()..f.registers() {
        page.put(b"register ");
        page.put(type_spelling(f.register_type(r)));
        page.put(b" ");
        page.put(registers.name(r as u8));
        page.put(b" ;\n");
    }
    for b in 0..f.blocks() {
        // The answer is 33 by now, whatever follows.
        if page.length > TEXT {
            return;
        }
        page.put(b"block ");
        page.put(blocks.name(b as u8));
        page.put(b" {\n");
        let first = f.block_first(b);
        for k in first..first + f.block_rows(b) {
            write_row(f, &f.row(k), &registers, &blocks, page);
        }
        page.put(b"}\n");
    }
    page.put(b"}\n");
}

fn write_head(f: &Function, registers: &Called<REGISTERS>, page: &mut Page) {
    page.put(if f.ssa() == 1 { b"function ssa " } else { b"function " });
    page.put(if f.result() == VOID { b"void" } else { type_spelling(f.result()) });
    page.put(b" ");
    page.put(&spelling(f.name()));
    page.put(b" (");
    for r in 0..f.parameters() {
        page.put(if r > 0 { b" , " } else { b" " });
        page.put(type_spelling(f.register_type(r)));
        page.put(b" ");
        page.put(registers.name(r as u8));
    }
    page.put(b" ) {\n");
}

fn write_row(f: &Function, row: &Row, registers: &Called<REGISTERS>, blocks: &Called<BLOCKS>, page: &mut Page) {
    let shape = shape(row.instruction());
    if shape.target {
        page.put(registers.name(row.target()));
        page.put(b" = ");
    }
    page.put(instruction_spelling(row.instruction()));
    if shape.sources > 0 {
        page.put(b" ");
        page.put(registers.name(row.source()));
    }
    if shape.sources > 1 {
        page.put(b" , ");
        page.put(registers.name(row.second()));
    }
    match shape.operand {
        Operand::None => {}
        Operand::Number => {
            page.put(b" ( ");
            page.number(row.number(), loaded(row.instruction()));
            page.put(b" )");
        }
        Operand::Block => {
            page.put(b" ( ");
            page.put(blocks.name(row.block()));
            page.put(b" )");
        }
        Operand::TwoBlocks => {
            page.put(b" ( ");
            page.put(blocks.name(row.block()));
            page.put(b" , ");
            page.put(blocks.name(row.other_block()));
            page.put(b" )");
        }
        Operand::Registers => {
            for (n, &entry) in f.entries(row).iter().enumerate() {
                page.put(if n > 0 { b" , " } else { b" ( " });
                page.put(registers.name(entry));
            }
            page.put(b" )");
        }
    }
    page.put(b" ;\n");
}
