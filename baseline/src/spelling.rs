//! Names by their contents: which of them a text can spell, and how.

use crate::lexer::is_plain;
use crate::table::NAME;
use std::borrow::Cow;

/// Whether some text can spell these contents. A backslash at their end would make the closing quote part of the name.
pub fn is_spellable(contents: &[u8]) -> bool {
    contents.len() <= NAME && contents.last().is_some_and(|&last| last != b'\\')
}

/// How a name is written: in quotes only where plain spelling is not possible, with a backslash before each quote in it.
pub fn spelling(contents: &[u8]) -> Cow<'_, [u8]> {
    if is_plain(contents) {
        return Cow::Borrowed(contents);
    }
    let mut quoted = Vec::with_capacity(2 * NAME + 2);
    quoted.push(b'\'');
    for &byte in contents {
        if byte == b'\'' {
            quoted.push(b'\\');
        }
        quoted.push(byte);
    }
    quoted.push(b'\'');
    Cow::Owned(quoted)
}
