//! Texts for what reading keeps while it reads: names that are nearly the same or nearly words, blocks mentioned up to the most that can be declared and past it, registers and
//! functions up to their limits, comments of every short length, and texts that end anywhere. Most of them break rules of the check, and are only read.

use crate::near_words;
use crate::quoted::spelled;
use crate::rng::Rng;
use ial_baseline::TABLE;
use std::collections::BTreeSet;

/// The lengths of the outputs that each text is read for.
pub const OUTPUTS: [usize; 6] = [TABLE, 0, 1, TABLE - 1, TABLE + 1, 2 * TABLE];

const LETTERS: &[u8; 54] = b"abcdefghijklmnopqrstuvwxyzABCDEFGHIJKLMNOPQRSTUVWXYZ._";

/// Names whose contents differ in two letters alone, or as long as it will do in one, with these bytes before and behind them.
struct Alike {
    one: bool,
    front: Vec<u8>,
    back: Vec<u8>,
}

impl Alike {
    fn new(rng: &mut Rng) -> Alike {
        let length = *rng.of(&[1, 2, 3, 4, 5, 6, 7, 8, 9, 10, 12, 17, 63, 64]) + usize::from(rng.once_in(100));
        let quoted = length > 2 && rng.once_in(3);
        let pieces: &[&str] = if quoted { &["a", "0", " ", "//", "'", "\\", "\\'", "\n", "\0"] } else { &["a", "0", "_"] };
        let more = length.saturating_sub(2);
        let any = rng.below(more + 1);
        let split = *rng.of(&[0, more, more.saturating_sub(8), any]);
        let mut fill = |n: usize| {
            let mut bytes = vec![];
            while bytes.len() < n {
                let piece = if n - bytes.len() < 2 { "a" } else { rng.of(pieces) };
                bytes.extend(piece.bytes());
            }
            bytes
        };
        let (mut front, mut back) = (fill(split), fill(more - split));
        if let Some(first) = front.first_mut().filter(|_| !quoted) {
            *first = b'a';
        }
        if let Some(last) = back.last_mut().filter(|last| **last == b'\\') {
            *last = b'\'';
        }
        Alike { one: length == 1, front, back }
    }
}

/// Names by their numbers, of up to three sorts.
struct Names(Vec<Alike>);

impl Names {
    fn new(rng: &mut Rng) -> Names {
        Names((0..1 + rng.below(3)).map(|_| Alike::new(rng)).collect())
    }

    fn name(&self, i: usize) -> Word {
        let Alike { one, front, back } = &self.0[i % self.0.len()];
        let letters = [LETTERS[i / 54 % 54], LETTERS[i % 54]];
        let own = if *one && i < 54 { &letters[1..] } else { &letters };
        Word::Name([front, own, back].concat())
    }
}

/// A word or mark, or a name by its contents.
enum Word {
    Said(Vec<u8>),
    Name(Vec<u8>),
}

/// The words of a text, one after the other.
#[derive(Default)]
struct Words(Vec<Word>);

impl Words {
    fn say(&mut self, words: &str) {
        self.0.extend(words.split(' ').map(|word| Word::Said(word.as_bytes().to_vec())));
    }

    fn name(&mut self, name: Word) {
        self.0.push(name);
    }

    /// Names in parentheses, parted by commas.
    fn list(&mut self, names: Vec<Word>) {
        for (i, name) in names.into_iter().enumerate() {
            self.say(if i == 0 { "(" } else { "," });
            self.name(name);
        }
        self.say(")");
    }
}

/// Now and then another name that is nearly this one.
fn almost(word: Word, rng: &mut Rng) -> Word {
    if !rng.once_in(150) {
        return word;
    }
    let (Word::Said(mut name) | Word::Name(mut name)) = word;
    let at = rng.below(name.len());
    match rng.below(4) {
        0 => drop(name.remove(at)),
        1 => name.insert(at, b'a'),
        2 => name[at] = *rng.of(LETTERS),
        _ => drop(name.pop()),
    }
    Word::Name(name)
}

fn shuffle<T>(items: &mut [T], rng: &mut Rng) {
    (1..items.len()).for_each(|i| items.swap(i, rng.below(i + 1)));
}

/// Which of so many names, in the order in which they are first mentioned, are not declared: those that there is no room for, and few more; the first, the last or
/// any. Seldom one less than must be, which is a block too many.
fn undeclared(count: usize, room: usize, rng: &mut Rng) -> BTreeSet<usize> {
    let least = count.saturating_sub(room);
    let n = (least + rng.of(&[0, 0, 1, 2])).saturating_sub(usize::from(rng.once_in(16))).min(count);
    let mut numbers: Vec<usize> = (0..count).collect();
    match rng.below(4) {
        0 => {}
        1 => numbers.reverse(),
        2 => numbers.sort_by_key(|i| i.abs_diff(64)),
        _ => shuffle(&mut numbers, rng),
    }
    numbers.truncate(n);
    numbers.into_iter().collect()
}

/// Blocks whose jumps mention this many names or so, some of them again and again; `entry` is one of these or not mentioned.
fn blocks(words: &mut Words, names: &Names, rng: &mut Rng) {
    let count = *rng.of(&[1, 2, 8, 62, 63, 64, 65, 66, 70, 130]);
    let entry = if rng.once_in(2) { rng.below(count) } else { count };
    let mut missing = undeclared(count, if entry < count { 64 } else { 63 }, rng);
    if !rng.once_in(8) {
        missing.remove(&entry);
    }
    let block = |i: usize| if i == entry { Word::Said(b"entry".to_vec()) } else { names.name(i) };
    let mut declared: Vec<usize> = (0..count.max(entry + 1)).filter(|i| !missing.contains(i)).collect();
    if rng.once_in(2) {
        shuffle(&mut declared, rng);
    }
    if rng.once_in(30) {
        declared.extend(declared.last().copied());
    }
    let mut mentions = vec![];
    for i in 0..count {
        mentions.push(i);
        while rng.once_in(3) {
            mentions.push(rng.below(i + 1));
        }
    }
    let again = if rng.once_in(12) { 1_500 } else { rng.below(8) };
    mentions.extend((0..again).map(|_| rng.below(count)));
    let share = mentions.len().div_ceil(declared.len().max(1)) + rng.below(4);
    let mut rest = &mentions[..];
    for b in declared {
        words.say("block");
        words.name(block(b));
        words.say("{");
        let (mut own, later) = rest.split_at(share.min(rest.len()));
        rest = later;
        while !own.is_empty() {
            let n = if own.len() > 1 && rng.once_in(2) { 2 } else { 1 };
            words.say(if n == 2 { "jump.cond c" } else { "jump" });
            words.list(own[..n].iter().map(|&i| almost(block(i), rng)).collect());
            words.say(";");
            own = &own[n..];
        }
        words.say("leave ; }");
    }
}

/// Declarations of registers, parameters among them, and rows that name them; sometimes one is declared twice.
fn registers(words: &mut Words, names: &Names, rng: &mut Rng) {
    let count = *rng.of(&[1, 2, 8, 9, 60, 255, 256, 256, 257]);
    let some = rng.below(count);
    let params = *rng.of(&[0, 1, count, some]);
    let twice = if rng.once_in(5) { 1 + rng.below(count) } else { count };
    let declared = |i: usize| names.name(if i == twice { i / 2 } else { i });
    words.say("(");
    for i in 0..params {
        words.say(if i == 0 { "int8" } else { ", int8" });
        words.name(declared(i));
    }
    words.say(") {");
    for i in params..count {
        words.say("register uint64");
        words.name(declared(i));
        words.say(";");
    }
    words.say("block entry {");
    for _ in 0..rng.below(60) {
        let mut any = || almost(declared(rng.below(count)), rng);
        let (target, one, other) = (any(), any(), any());
        words.name(target);
        words.say("=");
        if rng.once_in(3) {
            words.say("phi");
            words.list(vec![one, other]);
        } else {
            words.say("ari.add");
            words.name(one);
            words.say(",");
            words.name(other);
        }
        words.say(";");
    }
    words.say("leave ; }");
}

fn function(words: &mut Words, name: Word, small: bool, rng: &mut Rng) {
    words.say(if rng.once_in(2) { "function ssa void" } else { "function void" });
    words.name(name);
    match rng.below(if small { 1 } else { 3 }) {
        0 => words.say("( ) { block entry { leave ; }"),
        1 => {
            words.say("( uint c ) {");
            blocks(words, &Names::new(rng), rng);
        }
        _ => registers(words, &Names::new(rng), rng),
    }
    words.say("}");
}

/// A comment without its LF, of 0 to 20 bytes, some of them LF but for a bit.
fn comment(text: &mut Vec<u8>, rng: &mut Rng) {
    text.extend(b"//");
    text.extend((0..rng.below(21)).map(|_| *rng.of(b" a/'\\\r\x0b\x08\x8a\x1a\0\xff")));
}

/// What stands between two words: nothing if a mark is one of them, spaces, or comments, of which a text has few or many.
fn between(text: &mut Vec<u8>, mark: bool, comments: usize, rng: &mut Rng) {
    if mark && rng.once_in(2) {
        return;
    }
    while rng.below(40) < comments {
        comment(text, rng);
        text.push(b'\n');
    }
    text.extend(rng.of(&[" ", " ", "\n", "\r\n", "\t  "]).bytes());
}

/// One of these texts: whole, or cut off anywhere, with a comment at its end or not; or one of names that are nearly words.
pub fn text(rng: &mut Rng) -> Vec<u8> {
    if rng.once_in(6) {
        return near_words::text(rng);
    }
    let (mut words, names) = (Words::default(), Names::new(rng));
    let count = *rng.of(&[1, 1, 1, 1, 2, 3, 15, 16, 17, 18]);
    let twice = if rng.once_in(6) { 1 + rng.below(count) } else { count };
    for i in 0..count {
        let name = names.name(if i == twice { i / 2 } else { i });
        function(&mut words, name, count > 3 && !rng.once_in(count), rng);
    }
    let comments = *rng.of(&[0, 0, 1, 8, 30]);
    let is_mark = |word: &Word| matches!(word, Word::Said(said) if matches!(said[..], [b] if b"{}(),;=".contains(&b)));
    let mut text = vec![];
    for (i, word) in words.0.iter().enumerate() {
        match word {
            Word::Said(word) => text.extend(word),
            Word::Name(contents) => text.extend(spelled(contents, rng)),
        }
        between(&mut text, is_mark(word) || words.0.get(i + 1).is_some_and(is_mark), comments, rng);
    }
    if rng.once_in(3) {
        text.truncate(rng.below(text.len() + 1));
    }
    if rng.once_in(4) {
        comment(&mut text, rng);
    }
    text
}
