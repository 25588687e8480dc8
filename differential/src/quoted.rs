//! Names by their contents: any bytes, up to 64 of them and past that; spelled in quotes and, where that is possible, plain; declared in one spelling and used in the
//! other; quotes and backslashes put in and left out; and contents put into tables, those that no text can spell among them.

use crate::near_words;
use crate::rng::Rng;
use ial_baseline::table::{block_at, function_at, register_at, Function, Table};

/// Lengths of contents: short ones, and those next to the limit.
const LENGTHS: [usize; 10] = [1, 1, 2, 3, 4, 9, 63, 64, 64, 65];

/// The bytes that contents are made of: letters alone, those that mean something in a text, quotes and backslashes, and any.
const SORTS: [&[u8]; 5] = [b"ab", b"ab_.09", b"'", b"'\\a", b"a'\\ \n\0\xff/0{};,=()"];

/// Contents of these lengths, or those of a word or of what is nearly one. Seldom a backslash is the last byte.
pub fn contents(rng: &mut Rng) -> Vec<u8> {
    if rng.once_in(4) {
        return near_words::name(rng);
    }
    let length = *rng.of(&LENGTHS);
    let sort = *rng.of(&SORTS);
    let any = rng.once_in(6);
    let mut bytes: Vec<u8> = (0..length).map(|_| if any { rng.next() as u8 } else { *rng.of(sort) }).collect();
    if bytes.last() == Some(&b'\\') && !rng.once_in(12) {
        *bytes.last_mut().unwrap() = *rng.of(b"a'");
    }
    bytes
}

/// Whether a plain spelling is possible, but for the length.
fn is_plain(contents: &[u8]) -> bool {
    let begins = contents.first().is_some_and(|b| !b.is_ascii_digit());
    begins && contents.iter().all(|&b| b.is_ascii_alphanumeric() || b == b'.' || b == b'_') && !near_words::is_word(contents)
}

/// One of the spellings that contents have.
pub fn spelled(contents: &[u8], rng: &mut Rng) -> Vec<u8> {
    if is_plain(contents) && rng.once_in(2) {
        return contents.to_vec();
    }
    let mut text = vec![b'\''];
    for &b in contents {
        text.extend((b == b'\'').then_some(b'\\'));
        text.push(b);
    }
    text.push(b'\'');
    text
}

/// The same behind a word: a blank where one is needed, and now and then where it is not.
fn apart(contents: &[u8], rng: &mut Rng) -> Vec<u8> {
    let name = spelled(contents, rng);
    let blank = name[0] != b'\'' || rng.once_in(2);
    [if blank { &b" "[..] } else { b"" }, &name].concat()
}

/// The names of one kind, all different but for one now and then.
fn names(count: usize, rng: &mut Rng) -> Vec<Vec<u8>> {
    let mut names: Vec<Vec<u8>> = (0..count).map(|_| contents(rng)).collect();
    if !rng.once_in(30) {
        names.retain(|n| n.len() <= 64 && n.last() != Some(&b'\\'));
    }
    if !rng.once_in(16) {
        names.sort();
        names.dedup();
    }
    names
}

/// Mentions one of these names, seldom one that is nearly so called.
fn mention(names: &[Vec<u8>], rng: &mut Rng) -> Vec<u8> {
    let mut name = rng.of(names).clone();
    if rng.once_in(80) {
        let at = rng.below(name.len());
        match rng.below(4) {
            0 => name.insert(at, b'\\'),
            1 => name.insert(at, b'\''),
            2 => drop(name.remove(at)),
            _ => name[at] ^= 1,
        }
    }
    apart(&name, rng)
}

/// A function that passes the check more often than not: each block assigns registers and goes on or leaves.
fn function(name: &[u8], rng: &mut Rng) -> Vec<u8> {
    let ssa = rng.once_in(2);
    let (mut registers, mut blocks) = (names(2 + rng.below(7), rng), names(rng.below(6), rng));
    registers.extend(registers.is_empty().then(|| b"'".to_vec()));
    let params = if ssa { registers.len() } else { rng.below(registers.len() + 1) };
    let mut s = [if ssa { &b"function ssa void"[..] } else { b"function void" }, &apart(name, rng), b"("].concat();
    for (i, r) in registers[..params].iter().enumerate() {
        s.extend([if i == 0 { &b"uint"[..] } else { b",uint" }, &apart(r, rng)].concat());
    }
    s.extend(b") {");
    for r in &registers[params..] {
        s.extend([&b" register uint"[..], &apart(r, rng), b";"].concat());
    }
    // `entry` the word and `'entry'` the name are two blocks.
    blocks.insert(rng.below(blocks.len() + 1), vec![]);
    let block = |b: &Vec<u8>, rng: &mut Rng| if b.is_empty() { b" entry".to_vec() } else { apart(b, rng) };
    for b in &blocks {
        s.extend([&b"\nblock"[..], &block(b, rng), b"{"].concat());
        for _ in 0..if ssa { 0 } else { rng.below(4) } {
            s.extend([&mention(&registers, rng)[..], b"=ari.add", &mention(&registers, rng), b",", &mention(&registers, rng), b";"].concat());
        }
        let (to, other) = (rng.of(&blocks), rng.of(&blocks));
        s.extend(match rng.below(4) {
            0 => b"leave;}".to_vec(),
            1 => [&b"jump("[..], &block(to, rng), b");}"].concat(),
            _ => [&b"jump.cond"[..], &mention(&registers, rng), b"(", &block(to, rng), b",", &block(other, rng), b");}"].concat(),
        });
    }
    s.push(b'}');
    s
}

/// Quotes and backslashes put in, left out or doubled, next to others; or the text cut off behind one.
fn damage(text: &mut Vec<u8>, rng: &mut Rng) {
    for _ in 0..1 + rng.below(2) {
        let places: Vec<usize> = (0..text.len()).filter(|&i| matches!(text[i], b'\'' | b'\\')).collect();
        if places.is_empty() {
            return;
        }
        let at = *rng.of(&places);
        match rng.below(6) {
            0 => drop(text.remove(at)),
            1 => text.insert(at, text[at]),
            2 => text.insert(at, b'\\'),
            3 => text.insert(at + 1, *rng.of(b"'\\")),
            4 => text[at] ^= b'\'' ^ b'\\',
            _ => text.truncate(at + rng.below(3)),
        }
    }
}

/// One to three functions of such names.
pub fn text(rng: &mut Rng) -> Vec<u8> {
    let called = names(1 + rng.below(3), rng);
    let mut text: Vec<u8> = called.iter().flat_map(|name| function(name, rng)).collect();
    if rng.once_in(4) {
        damage(&mut text, rng);
    }
    text
}

/// What the length cell of a stored name says where its bytes do not.
const STORED: [u8; 8] = [0, 1, 2, 63, 64, 65, 128, 255];

fn store(table: &mut [u8], at: usize, rng: &mut Rng) {
    let name = contents(rng);
    let kept = &name[..name.len().min(64)];
    table[at] = kept.len() as u8;
    table[at + 1..][..kept.len()].copy_from_slice(kept);
    if rng.once_in(40) {
        table[at] = *rng.of(&STORED);
    }
    if rng.once_in(60) {
        table[at + rng.below(66)] = b'\\';
    }
}

/// Puts contents of any kind into a table that was read, for few names or for all of them, the functions' too.
pub fn rename(table: &mut [u8], rng: &mut Rng) {
    let share = *rng.of(&[1, 2, 20]);
    for f in 0..usize::from(table[0]) {
        let cells: &Table = (&*table).try_into().unwrap();
        let function = Function::of(cells, f);
        let (registers, blocks, entry, at) = (function.registers(), function.blocks(), function.entry(), function_at(f));
        let mut places = vec![at + 8];
        places.extend((0..registers).map(|r| register_at(at, r) + 1));
        // Seldom the entry block gets a name, which no text gives it.
        places.extend((0..blocks).filter(|&b| b != entry || rng.once_in(60)).map(|b| block_at(at, b) + 4));
        for place in places {
            if rng.once_in(share) {
                store(table, place, rng);
            }
        }
    }
}
