//! The outside vectors of texts, those of document 01 and of document 02's A2: every line of every expected answer.

mod naming;
mod outside;

use ial_baseline::table::{block_at, entry_at, function_at, predecessors_at, register_at, row_at};
use ial_baseline::{check, listing, read, run, translate, Ran, Refusal, TABLE};
use naming::edited;
use outside::{all, Expected};
use std::fmt::Write;

const TYPES: [&str; 11] =
    ["int8", "int16", "int32", "int64", "uint8", "uint16", "uint32", "uint64", "int", "uint", "void"];
const INSTRUCTIONS: [&str; 36] = [
    "nop", "load.i8", "load.ui8", "load.i16", "load.ui16", "load.i32", "load.ui32", "load.i64", "load.ui64",
    "ari.add", "ari.sub", "ari.mul", "ari.div", "ari.rem", "ari.neg", "bit.and", "bit.or", "bit.xor", "bit.neg",
    "shl", "shr", "rol", "ror", "cmp.eq", "cmp.neq", "cmp.gt", "cmp.lt", "cmp.gteq", "cmp.lteq",
    "conv", "copy", "phi", "jump", "jump.cond", "return", "leave",
];

/// Reads cells, and remembers which of them were needed.
struct Cells<'a> {
    table: &'a [u8],
    needed: Vec<bool>,
}

impl<'a> Cells<'a> {
    fn of(table: &'a [u8]) -> Cells<'a> {
        Cells { table, needed: vec![false; table.len()] }
    }

    fn bytes(&mut self, at: usize, count: usize) -> &'a [u8] {
        self.needed[at..at + count].fill(true);
        &self.table[at..at + count]
    }

    fn number(&mut self, at: usize, count: usize) -> u64 {
        self.bytes(at, count).iter().rev().fold(0, |number, &byte| number << 8 | u64::from(byte))
    }

    fn count(&mut self, at: usize, count: usize) -> usize {
        self.number(at, count) as usize
    }

    /// A length cell and the name after it, in hexadecimal.
    fn name(&mut self, at: usize) -> String {
        let length = self.count(at, 1);
        let hex: String = self.bytes(at + 1, length).iter().map(|byte| format!("{byte:02x}")).collect();
        if hex.is_empty() { "-".to_string() } else { hex }
    }
}

/// The dump of a table and which of its cells are needed.
fn dump(table: &[u8]) -> (String, Vec<bool>) {
    let mut cells = Cells::of(table);
    let mut text = String::new();
    for i in 0..cells.count(0, 1) {
        dump_function(&mut cells, i, &mut text);
    }
    (text, cells.needed)
}

fn dump_function(cells: &mut Cells, i: usize, text: &mut String) {
    let at = function_at(i);
    let ssa = if cells.number(at, 1) == 1 { "ssa" } else { "plain" };
    let result = TYPES[cells.count(at + 1, 1)];
    let parameters = cells.count(at + 2, 2);
    let registers = cells.count(at + 4, 2);
    let blocks = cells.count(at + 6, 1);
    let entry = cells.count(at + 7, 1);
    let name = cells.name(at + 8);
    let rows: usize = (0..blocks).map(|b| cells.count(block_at(at, b) + 2, 2)).sum();
    writeln!(text, "function\t{i}\t{name}\t{ssa}\t{result}\tparams={parameters}\tregisters={registers}\tblocks={blocks}\trows={rows}\tentry={entry}").unwrap();
    for r in 0..registers {
        let register = register_at(at, r);
        let kind = TYPES[cells.count(register, 1)];
        writeln!(text, "register\t{r}\t{kind}\t{}", cells.name(register + 1)).unwrap();
    }
    for b in 0..blocks {
        let block = block_at(at, b);
        let (first, rows) = (cells.count(block, 2), cells.count(block + 2, 2));
        writeln!(text, "block\t{b}\t{}\t{first}\t{rows}", cells.name(block + 4)).unwrap();
    }
    for k in 0..rows {
        let line = dump_row(cells, at, row_at(at, k));
        writeln!(text, "row\t{k}\t{line}").unwrap();
    }
    for b in 0..blocks {
        let list = predecessors_at(at, b);
        let count = cells.count(list, 1);
        let listed = cells.bytes(list + 1, count);
        let named: Vec<u8> = (0..blocks).filter(|&p| names(cells, at, p, b)).map(|p| p as u8).collect();
        assert_eq!(listed, named, "the predecessors of block {b} of function {i}");
    }
}

/// Whether the last row of block p is a `jump` or `jump.cond` that names block b.
fn names(cells: &mut Cells, function: usize, p: usize, b: usize) -> bool {
    let block = block_at(function, p);
    let row = row_at(function, cells.count(block, 2) + cells.count(block + 2, 2) - 1);
    let named = match cells.count(row, 1) {
        32 => cells.bytes(row + 4, 1),
        33 => cells.bytes(row + 4, 2),
        _ => &[],
    };
    named.contains(&(b as u8))
}

fn dump_row(cells: &mut Cells, function: usize, row: usize) -> String {
    let instruction = cells.count(row, 1);
    let target = match instruction {
        1..=31 => cells.number(row + 1, 1).to_string(),
        _ => "-".to_string(),
    };
    let sources = match instruction {
        9..=13 | 15..=17 | 19..=28 => format!("{},{}", cells.number(row + 2, 1), cells.number(row + 3, 1)),
        9..=30 | 33 | 34 => cells.number(row + 2, 1).to_string(),
        _ => "-".to_string(),
    };
    let operand = match instruction {
        1..=8 => format!("number {}", cells.number(row + 4, 8)),
        31 => {
            let first = cells.count(row + 4, 2);
            let count = cells.count(row + 6, 2);
            let entries = cells.bytes(entry_at(function, first), count);
            format!("registers {}", join(&entries.iter().map(|&e| u64::from(e)).collect::<Vec<_>>()))
        }
        32 => format!("blocks {}", cells.number(row + 4, 1)),
        33 => format!("blocks {},{}", cells.number(row + 4, 1), cells.number(row + 5, 1)),
        _ => "-".to_string(),
    };
    format!("{}\t{target}\t{sources}\t{operand}", INSTRUCTIONS[instruction])
}

fn join(numbers: &[u64]) -> String {
    if numbers.is_empty() {
        return "-".to_string();
    }
    numbers.iter().map(u64::to_string).collect::<Vec<_>>().join(",")
}

fn lines(expected: &mut Expected, count: usize) -> String {
    (0..count).map(|_| format!("{}\n", expected.line())).collect()
}

/// A run's line without its first word.
fn run_line(table: &[u8], fields: &[&str]) -> String {
    let function: u64 = fields[0].parse().unwrap();
    let budget: u64 = fields[1].parse().unwrap();
    let args: Vec<u64> = fields[2].split(',').filter(|&a| a != "-").map(|a| a.parse().unwrap()).collect();
    let mut registers = [u64::MAX; 260];
    let ran = run(table, function, &args, budget, &mut registers);
    let (kind, value, number, place, steps) = match ran {
        Ran::Returned { value, steps } => ("returned", value, 0, 0, steps),
        Ran::Left { steps } => ("left", 0, 0, 0, steps),
        Ran::Stopped { number, place, steps } => ("stopped", 0, number, place, steps),
        Ran::Refused { number, place } => ("refused", 0, number, place, 0),
    };
    let count = if kind == "refused" { 0 } else { Cells::of(table).count(function_at(function as usize) + 4, 2) };
    assert!(registers[count..].iter().all(|&value| value == 0), "cells past the registers");
    let registers = join(&registers[..count]);
    format!("{}\t{}\t{}\t{kind}\t{value}\t{number}\t{place}\t{steps}\t{registers}", fields[0], fields[1], fields[2])
}

/// The table with something in each cell that is not needed.
fn littered(table: &[u8], needed: &[bool]) -> Vec<u8> {
    table.iter().zip(needed).map(|(&cell, &needed)| if needed { cell } else { 0xa5 }).collect()
}

fn assert_clean(table: &[u8], needed: &[bool]) {
    assert!(table.iter().zip(needed).all(|(&cell, &needed)| needed || cell == 0), "a cell that is not needed");
}

/// An answer as its line begins.
fn answer_line(word: &str, answer: Result<(), Refusal>) -> String {
    let (number, place) = answer.err().unwrap_or((0, 0));
    format!("{word}\t{number}\t{place}")
}

/// One vector; the number of lines and dumps compared.
fn vector(text: &[u8], expected: &[u8]) -> usize {
    let mut expected = Expected(expected);
    let mut compared = 0;
    let mut table = vec![1; TABLE];
    let mut lent = Vec::new();
    let mut translation = vec![1; TABLE];
    let mut renamed = Vec::new();
    while !expected.0.is_empty() {
        let line = expected.line();
        let fields: Vec<&str> = line.split('\t').collect();
        match fields[0] {
            "listing" => assert_eq!(listing(text), expected.bytes(fields[1].parse().unwrap())),
            "read" => assert_eq!(answer_line("read", read(text, &mut table)) + "\t0\t0", line),
            "check" => assert_eq!(answer_line("check", check(&table)) + "\t0\t0", line),
            "edited" => renamed = edited(&table, fields[1].parse().unwrap(), &mut expected),
            "check.edited" => assert_eq!(answer_line("check.edited", check(&renamed)), line),
            "table" => {
                assert_eq!(read(text, &mut table), Ok(()));
                let (dumped, needed) = dump(&table);
                assert_eq!(dumped, lines(&mut expected, fields[1].parse().unwrap()));
                assert_clean(&table, &needed);
                lent = littered(&table, &needed);
                assert_eq!(check(&table), check(&lent));
            }
            "run" => {
                assert_eq!(format!("run\t{}", run_line(&table, &fields[1..])), line);
                assert_eq!(format!("run\t{}", run_line(&lent, &fields[1..])), line);
            }
            "trun" => assert_eq!(format!("trun\t{}", run_line(&translation, &fields[1..])), line),
            "translate" => {
                let answer = translate(&lent, fields[1].parse().unwrap(), &mut translation);
                if let Err((number, place)) = answer {
                    assert_eq!(format!("translate\t{}\trefused\t{number}\t{place}", fields[1]), line);
                } else {
                    assert_eq!(fields[2], "ok", "{line}");
                    let (dumped, needed) = dump(&translation);
                    let count = |label: &str| {
                        let head = dumped.lines().next().unwrap();
                        head.split('\t').find_map(|field| field.strip_prefix(label)).unwrap()
                    };
                    assert_eq!(fields[3..6], [count("registers="), count("blocks="), count("rows=")]);
                    assert_eq!(dumped, lines(&mut expected, fields[6].parse().unwrap()));
                    assert_clean(&translation, &needed);
                    assert_eq!(check(&translation), Ok(()));
                }
            }
            other => panic!("unknown line {other}"),
        }
        compared += 1;
    }
    compared
}

#[test]
fn all_vectors() {
    all(".", vector);
    all("requests/a2", vector);
}
