//! The listing: a line for each function, or the one line of a refusal.

use crate::checker::checked;
use crate::reader::read;
use crate::spelling::spelling;
use crate::table::{Function, TABLE};

pub fn listing(text: &[u8]) -> Vec<u8> {
    let mut table = vec![0; TABLE];
    let checked = read(text, &mut table).and_then(|()| checked(&table));
    let table = match checked {
        Err((number, place)) => return format!("refused\t{number}\t{place}\n").into_bytes(),
        Ok(table) => table,
    };
    let mut lines = Vec::new();
    for i in 0..usize::from(table[0]) {
        let f = Function::of(table, i);
        let counts = format!("\t{}\t{}\t{}\t{}\n", f.ssa(), f.registers(), f.blocks(), f.rows());
        lines.extend_from_slice(&spelling(f.name()));
        lines.extend_from_slice(counts.as_bytes());
    }
    lines
}
