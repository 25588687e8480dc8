//! Names that are nearly words, and words where names should stand.

use crate::rng::Rng;

const WORDS: [&str; 52] = [
    "function", "ssa", "void", "register", "block", "entry", "int8", "int16", "int32", "int64", "uint8", "uint16", "uint32", "uint64", "int", "uint", "nop", "load.i8",
    "load.ui8", "load.i16", "load.ui16", "load.i32", "load.ui32", "load.i64", "load.ui64", "ari.add", "ari.sub", "ari.mul", "ari.div", "ari.rem", "ari.neg", "bit.and",
    "bit.or", "bit.xor", "bit.neg", "shl", "shr", "rol", "ror", "cmp.eq", "cmp.neq", "cmp.gt", "cmp.lt", "cmp.gteq", "cmp.lteq", "conv", "copy", "phi", "jump",
    "jump.cond", "return", "leave",
];

pub fn is_word(name: &[u8]) -> bool {
    WORDS.iter().any(|word| word.as_bytes() == name)
}

/// A word with one byte changed, left out, put in or in the other case, or the first bytes of one word and the last of another; seldom the word itself.
pub fn name(rng: &mut Rng) -> Vec<u8> {
    let mut name = rng.of(&WORDS).as_bytes().to_vec();
    let at = rng.below(name.len());
    match rng.below(16) {
        0 => {}
        1..=4 => name[at] = *rng.of(b"abcdefghijklmnopqrstuvwxyz._0123456789"),
        5 | 6 => drop(name.remove(at)),
        7 | 8 => name.insert(at, *rng.of(b"abcdefghijklmnopqrstuvwxyz._")),
        9 => name[at] ^= 32 * u8::from(name[at].is_ascii_alphabetic()),
        10 => name.swap(at, 0),
        11 => drop(name.pop()),
        _ => {
            let other = rng.of(&WORDS).as_bytes();
            name.truncate(1 + at);
            name.extend(&other[rng.below(other.len())..]);
        }
    }
    if name[0].is_ascii_digit() {
        name.insert(0, b'.');
    }
    name
}

/// A function whose registers and blocks have such names; seldom a word is declared, at which reading ends.
pub fn text(rng: &mut Rng) -> Vec<u8> {
    let mut names: Vec<Vec<u8>> = (0..2 + rng.below(40)).map(|_| name(rng)).collect();
    if !rng.once_in(4) {
        names.retain(|n| !is_word(n));
    }
    names.sort();
    names.dedup();
    let mut text = b"function void f() {".to_vec();
    for n in &names {
        text.extend([&b" register "[..], rng.of(&["int8", "uint64", "uint", "int"]).as_bytes(), b" ", n, b";"].concat());
    }
    text.extend(b" block entry { leave; }");
    for n in &names {
        let (other, to): (&Vec<u8>, &Vec<u8>) = (rng.of(&names), rng.of(&names));
        text.extend([&b" block "[..], n, b" { ", n, b" = ari.add ", n, b", ", other, b"; jump (", to, b"); }"].concat());
    }
    text.push(b'}');
    text
}
