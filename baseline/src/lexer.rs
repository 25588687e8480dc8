//! Bytes to tokens.

use crate::table::NAME;
use crate::words::{word, Word};
use crate::Refusal;

const OTHER: u8 = 0;
const LETTER: u8 = 1;
const DIGIT: u8 = 2;
const SPACE: u8 = 3;
const QUOTE: u8 = 4;
const SIGN: u8 = 5;
const SLASH: u8 = 6;
const MARK: u8 = 7;

/// The class of each byte value.
static CLASS: [u8; 256] = {
    let mut class = [OTHER; 256];
    let mut byte = 0;
    while byte < 256 {
        class[byte] = match byte as u8 {
            b'a'..=b'z' | b'A'..=b'Z' | b'.' | b'_' => LETTER,
            b'0'..=b'9' => DIGIT,
            b' ' | b'\t' | b'\r' | b'\n' => SPACE,
            b'\'' => QUOTE,
            b'+' | b'-' => SIGN,
            b'/' => SLASH,
            b'{' | b'}' | b'(' | b')' | b',' | b';' | b'=' => MARK,
            _ => OTHER,
        };
        byte += 1;
    }
    class
};

#[derive(Clone, Copy, Debug, PartialEq, Eq)]
pub enum Kind<'a> {
    /// By its contents.
    Name(&'a [u8]),
    Word(Word),
    /// The magnitude is absent from 2^64 on.
    Number { negative: bool, magnitude: Option<u64> },
    Mark(u8),
    End,
}

/// A token and its byte.
#[derive(Clone, Copy, Debug)]
pub struct Token<'a> {
    pub at: usize,
    pub kind: Kind<'a>,
}

pub struct Lexer<'a> {
    text: &'a [u8],
    at: usize,
    /// For contents that are not a part of the text as they stand.
    room: &'a mut [u8],
}

impl<'a> Lexer<'a> {
    /// Of room the text's length always suffices.
    pub fn new(text: &'a [u8], room: &'a mut [u8]) -> Lexer<'a> {
        Lexer { text, at: 0, room }
    }

    /// The next token, or 2 where none stands.
    pub fn next(&mut self) -> Result<Token<'a>, Refusal> {
        self.skip();
        let at = self.at;
        let Some(&byte) = self.text.get(at) else {
            return Ok(Token { at, kind: Kind::End });
        };
        let kind = match CLASS[byte as usize] {
            MARK => {
                self.at += 1;
                Some(Kind::Mark(byte))
            }
            LETTER => self.plain(),
            DIGIT | SIGN => self.number(),
            QUOTE => self.quoted(),
            _ => None,
        };
        kind.map(|kind| Token { at, kind }).ok_or((2, at as u64))
    }

    /// Passes spaces and comments; a slash alone is left standing.
    fn skip(&mut self) {
        loop {
            match self.text.get(self.at) {
                Some(&byte) if CLASS[byte as usize] == SPACE => self.at += 1,
                Some(b'/') if self.text.get(self.at + 1) == Some(&b'/') => {
                    let rest = &self.text[self.at..];
                    self.at += rest.iter().position(|&b| b == b'\n').unwrap_or(rest.len());
                }
                _ => return,
            }
        }
    }

    fn plain(&mut self) -> Option<Kind<'a>> {
        let rest = &self.text[self.at..];
        let length = plain_length(rest);
        self.at += length;
        let spelling = &rest[..length];
        if let Some(word) = word(spelling) {
            return Some(Kind::Word(word));
        }
        (length <= NAME).then_some(Kind::Name(spelling))
    }

    /// Between the quotes stand the contents, less each backslash directly before a quote; they have 1 to 64 bytes.
    fn quoted(&mut self) -> Option<Kind<'a>> {
        let rest = &self.text[self.at + 1..];
        let inside = &rest[..closing(rest)?];
        let escapes = inside.iter().filter(|&&b| b == b'\'').count();
        let length = inside.len() - escapes;
        if !(1..=NAME).contains(&length) {
            return None;
        }
        self.at += inside.len() + 2;
        Some(Kind::Name(if escapes == 0 { inside } else { self.unescaped(inside, length) }))
    }

    fn unescaped(&mut self, inside: &[u8], length: usize) -> &'a [u8] {
        let (contents, room) = std::mem::take(&mut self.room).split_at_mut(length);
        self.room = room;
        let dropped = |i: usize| inside[i..].starts_with(b"\\'");
        let kept = (0..inside.len()).filter(|&i| !dropped(i));
        contents.iter_mut().zip(kept).for_each(|(byte, i)| *byte = inside[i]);
        contents
    }

    fn number(&mut self) -> Option<Kind<'a>> {
        let mut rest = &self.text[self.at..];
        let negative = rest[0] == b'-';
        if CLASS[rest[0] as usize] == SIGN {
            rest = &rest[1..];
        }
        let (base, digits) = match rest {
            [b'0', b'x', digits @ ..] => (16, digits),
            _ => (10, rest),
        };
        let mut magnitude = Some(0u64);
        let mut length = 0;
        while let Some(digit) = digits.get(length).and_then(|&b| (b as char).to_digit(base)) {
            magnitude = magnitude
                .and_then(|m| m.checked_mul(u64::from(base)))
                .and_then(|m| m.checked_add(u64::from(digit)));
            length += 1;
        }
        let spoiled = digits.get(length).is_some_and(|&b| CLASS[b as usize] == LETTER);
        if length == 0 || spoiled {
            return None;
        }
        self.at = self.text.len() - digits.len() + length;
        Some(Kind::Number { negative, magnitude })
    }
}

/// How many name characters stand at the beginning.
fn plain_length(text: &[u8]) -> usize {
    let named = |&b: &u8| matches!(CLASS[b as usize], LETTER | DIGIT);
    text.iter().position(|b| !named(b)).unwrap_or(text.len())
}

/// Where the quote stands that closes a name, if it is not too far for 64 bytes of contents, each with a backslash before it.
fn closing(text: &[u8]) -> Option<usize> {
    (0..text.len().min(2 * NAME + 1)).find(|&i| text[i] == b'\'' && (i == 0 || text[i - 1] != b'\\'))
}

/// Whether these bytes are a plain name.
pub fn is_plain(name: &[u8]) -> bool {
    let begun = name.first().is_some_and(|&first| CLASS[first as usize] == LETTER);
    begun && name.len() <= NAME && plain_length(name) == name.len() && word(name).is_none()
}
