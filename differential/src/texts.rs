//! Texts made here: functions that pass the check more often than not, in ssa or without, and what becomes of them when a
//! byte, a word or a line is changed.

use crate::rng::Rng;
use std::fmt::Write;

pub const TYPES: [&str; 10] = ["int8", "int16", "int32", "int64", "uint8", "uint16", "uint32", "uint64", "int", "uint"];
const BINARY: [&str; 9] = ["ari.add", "ari.sub", "ari.mul", "ari.div", "ari.rem", "bit.and", "bit.or", "bit.xor", "ari.add"];
pub const SHIFTS: [&str; 4] = ["shl", "shr", "rol", "ror"];
pub const COMPARES: [&str; 6] = ["cmp.eq", "cmp.neq", "cmp.gt", "cmp.lt", "cmp.gteq", "cmp.lteq"];
pub const UINT: usize = 9;

/// A function under construction: the type of each register, and the rows of each block.
struct Function {
    ssa: bool,
    params: usize,
    types: Vec<usize>,
    blocks: Vec<String>,
}

impl Function {
    fn register(&mut self, kind: usize) -> usize {
        self.types.push(kind);
        self.types.len() - 1
    }

    /// The register an instruction assigns: a new one in ssa, else often an old one of that type.
    fn target(&mut self, kind: usize, known: usize, rng: &mut Rng) -> usize {
        let old: Vec<usize> = (0..known).filter(|&r| self.types[r] == kind).collect();
        if self.ssa || old.is_empty() || rng.once_in(3) {
            return self.register(kind);
        }
        *rng.of(&old)
    }
}

/// A word for type t's constant, if it has a load.
fn load(kind: usize, rng: &mut Rng) -> Option<String> {
    let bits = 8 << (kind % 4);
    match kind {
        0..=3 => {
            let least = i64::MIN >> (64 - bits);
            let any = rng.number() as i64 >> (64 - bits);
            let meant = *rng.of(&[least, -1, any]);
            // Once in a while one past the range.
            let meant = i128::from(meant) - i128::from(rng.once_in(400) && meant == least);
            Some(format!("load.i{bits} ({meant})"))
        }
        4..=7 => Some(format!("load.ui{bits} (0x{:x})", rng.number() >> (64 - bits))),
        _ => None,
    }
}

/// One instruction over registers that are assigned here, its target new or old.
fn row(f: &mut Function, known: &mut Vec<usize>, rng: &mut Rng) -> String {
    let a = *rng.of(known);
    let kind = f.types[a];
    let same: Vec<usize> = known.iter().copied().filter(|&r| f.types[r] == kind).collect();
    let b = *rng.of(&same);
    let counts: Vec<usize> = known.iter().copied().filter(|&r| f.types[r] == UINT).collect();
    let c = *rng.of(&counts);
    let old = f.types.len();
    let (to, word) = match rng.below(12) {
        0 => return "nop;".into(),
        1 | 2 => (kind, format!("{} r{a}, r{c}", rng.of(&SHIFTS))),
        3 | 4 => (UINT, format!("{} r{a}, r{b}", rng.of(&COMPARES))),
        5 | 6 => (rng.below(10), format!("conv r{a}")),
        7 => (kind, format!("{} r{a}", rng.of(&["ari.neg", "bit.neg"]))),
        8 if !f.ssa => (kind, format!("copy r{a}")),
        9 => match load(kind, rng) {
            Some(word) => (kind, word),
            None => return "nop;".into(),
        },
        _ => (kind, format!("{} r{a}, r{b}", rng.of(&BINARY))),
    };
    let t = f.target(to, old, rng);
    known.push(t);
    format!("r{t} = {word};")
}

/// The blocks that each block goes to: seldom `entry` (number 0), which has no phi; now and then most or all go to one.
fn edges(count: usize, rng: &mut Rng) -> Vec<Vec<usize>> {
    let hub = rng.below(count);
    let share = if rng.once_in(12) { 1 + rng.below(4) } else { 0 };
    let to = |rng: &mut Rng| if rng.once_in(16) { 0 } else { 1 + rng.below(count - 1) };
    (0..count)
        .map(|b| match rng.below(5) {
            _ if rng.below(4) < share => vec![hub],
            0 | 1 if count > 1 => vec![to(rng)],
            2 | 3 if count > 1 => vec![to(rng), if b + 1 < count { b + 1 } else { to(rng) }],
            _ => vec![],
        })
        .collect()
}

/// What may be wrong with a function's blocks.
#[derive(Clone, Copy, PartialEq)]
enum Fault {
    None,
    EntryMissing,
    PhiLate,
    EntryTooMany,
    NeverAssigned,
    OtherBlock,
}

/// A whole function. Registers of `entry` serve everywhere, those of another block in it alone. A large one has sizes near the
/// limits, its own or its translation's.
pub fn function(name: usize, large: bool, rng: &mut Rng) -> String {
    let params = rng.below(4);
    let fault = if rng.once_in(6) {
        *rng.of(&[Fault::EntryMissing, Fault::PhiLate, Fault::EntryTooMany, Fault::NeverAssigned, Fault::OtherBlock])
    } else {
        Fault::None
    };
    let mut f = Function { ssa: !rng.once_in(3), params, types: vec![], blocks: vec![] };
    for _ in 0..f.params {
        let kind = rng.below(10);
        f.register(kind);
    }
    let result = if rng.once_in(6) { None } else { Some(rng.below(10)) };
    let mut entry: Vec<usize> = (0..params).collect();
    let mut first = String::new();
    for kind in 0..8 {
        let r = f.register(kind);
        write!(first, "r{r} = {}; ", load(kind, rng).unwrap()).unwrap();
        entry.push(r);
    }
    for kind in [8, UINT] {
        let r = f.register(kind);
        write!(first, "r{r} = conv r{}; ", params + 4).unwrap();
        entry.push(r);
    }
    let count = if large { 1 + rng.below(65) } else { 1 + rng.below(7) };
    let most_phi = if large { 7 } else { 4 };
    let goes = edges(count, rng);
    for b in 0..count {
        let mut known = entry.clone();
        let mut rows = if b == 0 { first.clone() } else { String::new() };
        let came = (0..count).filter(|&x| goes[x].contains(&b)).count();
        if fault == Fault::PhiLate && b > 0 {
            rows.push_str("nop; ");
        }
        for _ in 0..if f.ssa && b > 0 && came > 0 { rng.below(most_phi) } else { 0 } {
            let kind = f.types[*rng.of(&entry)];
            let same: Vec<usize> = entry.iter().copied().filter(|&r| f.types[r] == kind).collect();
            let t = f.register(kind);
            let entries = came + usize::from(fault == Fault::EntryTooMany && rng.once_in(2));
            let list: Vec<String> = (0..entries).map(|_| format!("r{}", rng.of(&same))).collect();
            write!(rows, "r{t} = phi ({}); ", list.join(", ")).unwrap();
            known.push(t);
        }
        if fault == Fault::NeverAssigned && b == count / 2 {
            let r = f.register(UINT);
            known.push(r);
        }
        for _ in 0..rng.below(if large { 4 } else { 8 }) {
            let word = row(&mut f, &mut known, rng);
            write!(rows, "{word} ").unwrap();
        }
        let counts: Vec<usize> = known.iter().copied().filter(|&r| f.types[r] == UINT).collect();
        let block = |x: usize| if x == 0 { "entry".to_string() } else { format!("b{x}") };
        match (goes[b].as_slice(), result) {
            ([x], _) => write!(rows, "jump ({});", block(*x)).unwrap(),
            ([x, y], _) => write!(rows, "jump.cond r{} ({}, {});", rng.of(&counts), block(*x), block(*y)).unwrap(),
            (_, None) => rows.push_str("leave;"),
            (_, Some(kind)) => {
                let same: Vec<usize> = known.iter().copied().filter(|&r| f.types[r] == kind).collect();
                write!(rows, "return r{};", rng.of(&same)).unwrap();
            }
        }
        if fault == Fault::OtherBlock {
            entry.extend(known.last());
        }
        f.blocks.push(rows);
    }
    spell(name, &f, result, fault != Fault::EntryMissing)
}

fn spell(name: usize, f: &Function, result: Option<usize>, has_entry: bool) -> String {
    let list: Vec<String> = (0..f.params).map(|r| format!("{} r{r}", TYPES[f.types[r]])).collect();
    let mut s = format!("function {}{} f{name}({}) {{\n", if f.ssa { "ssa " } else { "" }, result.map_or("void", |t| TYPES[t]), list.join(", "));
    for r in f.params..f.types.len() {
        writeln!(s, " register {} r{r};", TYPES[f.types[r]]).unwrap();
    }
    for (b, rows) in f.blocks.iter().enumerate() {
        let block = if b == 0 && has_entry { "entry".to_string() } else { format!("b{b}") };
        writeln!(s, " block {block} {{ {rows} }}").unwrap();
    }
    s + "}\n"
}

/// A text of one to three functions.
pub fn program(rng: &mut Rng) -> Vec<u8> {
    let large = rng.once_in(20);
    let count = if rng.once_in(100) { 15 + rng.below(3) } else { 1 + rng.below(3) };
    (0..count).map(|i| function(i, large && i == 0, rng)).collect::<String>().into_bytes()
}

const PIECES: [&str; 24] = [
    "phi ", "copy ", "entry", "'", "\\", "//", "\r", "0x", "256", "-", "r0", "r1", "b1", "jump (b1);", "leave;", "block", "}", "{", ";", ",", "void", "ssa", "\0", "uint",
];

/// The text with some bytes changed, left out, doubled or put in.
pub fn damaged(text: &[u8], rng: &mut Rng) -> Vec<u8> {
    let mut s = text.to_vec();
    for _ in 0..1 + rng.below(3) {
        let at = rng.below(s.len() + 1);
        let end = (at + rng.below(12)).min(s.len());
        match rng.below(5) {
            0 if at < s.len() => s[at] = rng.next() as u8,
            1 => drop(s.drain(at..end)),
            2 => {
                let part = s[at..end].to_vec();
                s.splice(at..at, part);
            }
            3 => drop(s.splice(at..at, rng.of(&PIECES).bytes())),
            _ => s.truncate(at.max(s.len() / 2)),
        }
    }
    s
}
