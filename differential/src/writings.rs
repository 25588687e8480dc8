//! Names that writing may have to make or to pass by, and the table that a text read back must give.

use crate::near_words;
use crate::rng::Rng;
use ial_baseline::table::{block_at, function_at, register_at, Function, FunctionMut, Row, Table};
use ial_baseline::TABLE;
use std::collections::HashSet;

/// The longest text.
pub const LONGEST: usize = ial::TEXT;

/// The length cell of the name of register or block i of function f.
fn register_name(f: usize, i: usize) -> usize {
    register_at(function_at(f), i) + 1
}

fn block_name(f: usize, i: usize) -> usize {
    block_at(function_at(f), i) + 4
}

fn set_name(table: &mut [u8], at: usize, name: &[u8]) {
    table[at] = name.len() as u8;
    table[at + 1..][..name.len()].copy_from_slice(name);
}

/// A name like a made one, often one that will be made, or one that only looks so, or a word or nearly one; rarely contents that no text can spell.
fn clash(rng: &mut Rng) -> Vec<u8> {
    if rng.once_in(6) {
        return near_words::name(rng);
    }
    let kind = *rng.of(&["p", "p", "e", "e", "q"]);
    let n = if rng.once_in(6) { rng.below(600) } else { rng.below(12) };
    let name = match rng.below(20) {
        0 => format!("{kind}.0{n}"),
        1 => format!("'{kind}.{n}'"),
        2 => format!("{kind}.{n}_"),
        3 => format!("{kind}."),
        4 => format!("{kind}{n}"),
        5 => format!("{kind}.{}", rng.number()),
        6 => "'".to_string(),
        7 => format!("{n}.{kind}"),
        8 if rng.once_in(8) => format!("{kind}.{n}\\"),
        _ => format!("{kind}.{n}"),
    };
    name.into_bytes()
}

/// A name of 64 bytes that no other place has: plain, or most of them quotes, which are spelled with twice as many.
fn long(i: usize, quotes: bool) -> Vec<u8> {
    if quotes { format!("{i:'>64}") } else { format!("{i:x>64}") }.into_bytes()
}

/// All names are made long, so that a text may exceed its limit.
const LONG: usize = 2;

fn first_registers(table: &[u8]) -> usize {
    Function::of(table.try_into().unwrap(), 0).registers()
}

/// Takes names away, puts others that clash with made ones, or makes all of them long. The table is one that was read.
pub fn rename(table: &mut [u8], rng: &mut Rng) {
    let large = table[0] > 3 || first_registers(table) > 60;
    let style = if large && rng.once_in(2) { LONG } else { rng.below(4) };
    let quotes = rng.once_in(3);
    for f in 0..usize::from(table[0]) {
        let cells: &Table = (&*table).try_into().unwrap();
        let function = Function::of(cells, f);
        let (registers, blocks, entry) = (function.registers(), function.blocks(), function.entry());
        let places = (0..registers).map(|i| register_name(f, i)).chain((0..blocks).filter(|&b| b != entry).map(|b| block_name(f, b)));
        for (i, at) in places.collect::<Vec<_>>().into_iter().enumerate() {
            match style {
                0 => set_name(table, at, b""),
                1 if rng.once_in(2) => set_name(table, at, b""),
                LONG => set_name(table, at, &long(i, quotes)),
                _ if rng.once_in(if registers < 40 { 8 } else { 60 }) => set_name(table, at, &clash(rng)),
                _ if rng.once_in(4) => set_name(table, at, b""),
                _ => {}
            }
        }
    }
}

/// The names of one kind, each empty one with the smallest number not in use by then; none is made for `kept`.
fn names(prefix: &str, given: &[&[u8]], kept: Option<usize>) -> Vec<Vec<u8>> {
    let mut used: HashSet<Vec<u8>> = given.iter().map(|name| name.to_vec()).collect();
    let mut make = || {
        let name = (0..).map(|n| format!("{prefix}{n}").into_bytes()).find(|name| !used.contains(name)).unwrap();
        used.insert(name.clone());
        name
    };
    (0..given.len()).map(|i| if given[i].is_empty() && kept != Some(i) { make() } else { given[i].to_vec() }).collect()
}

/// The cells that are needed of an accepted table, with the made names filled in, and 0 in all others.
pub fn named(table: &[u8]) -> Vec<u8> {
    let table: &Table = table.try_into().unwrap();
    let mut cells = vec![0; TABLE];
    let out: &mut Table = (&mut cells[..]).try_into().unwrap();
    out[0] = table[0];
    for i in 0..usize::from(table[0]) {
        name_function(&Function::of(table, i), FunctionMut::of(out, i));
    }
    cells
}

fn name_function(f: &Function, mut out: FunctionMut) {
    out.set_head(f.ssa(), f.result(), f.name());
    out.set_parameters(f.parameters());
    out.set_registers(f.registers());
    out.set_blocks(f.blocks(), f.entry());
    let given: Vec<&[u8]> = (0..f.registers()).map(|r| f.register_name(r)).collect();
    for (r, name) in names("p.", &given, None).iter().enumerate() {
        out.set_register(r, f.register_type(r), name);
    }
    let given: Vec<&[u8]> = (0..f.blocks()).map(|b| f.block_name(b)).collect();
    for (b, name) in names("e.", &given, Some(f.entry())).iter().enumerate() {
        out.set_block(b, f.block_first(b), f.block_rows(b), name);
        out.set_predecessors(b, f.predecessors(b).iter().map(|&p| usize::from(p)));
    }
    for k in 0..f.rows() {
        let row = f.row(k);
        out.set_row(k, needed(&row));
        if row.instruction() == 31 {
            f.entries(&row).iter().enumerate().for_each(|(n, &r)| out.set_entry_cell(row.first_entry() + n, r));
        }
    }
}

/// The cells of a row that its instruction needs.
fn needed(row: &Row) -> Row {
    let count = match row.instruction() {
        0 | 35 => [1, 0, 0],
        1..=8 => [2, 0, 8],
        14 | 18 | 29 | 30 => [3, 0, 0],
        9..=28 => [4, 0, 0],
        31 => [2, 0, 4],
        32 => [1, 0, 1],
        33 => [1, 1, 2],
        _ => [1, 1, 0],
    };
    let mut new = Row::default();
    for (first, count) in [0, 2, 4].into_iter().zip(count) {
        new.0[first..first + count].copy_from_slice(&row.0[first..first + count]);
    }
    new
}
