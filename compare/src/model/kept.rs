//! Document 01's kept tokens, and what each of them shows.

use super::checks::{Head, key_class, word};
use super::layout::switch;
use crate::sheet::*;

/// All tokens but the switch comments, the tokens dropped after them, and Whitespace while on.
pub struct Kept<'s> {
    pub token: usize,
    pub kind: u8,
    /// Otherwise copied under the switch.
    pub laid_out: bool,
    /// Its own value, or its parameter.
    pub shown: &'s [u8],
    /// Indexed, and a placeholder laid out with OneIndexed 0, which layout refuses. It has its own value here.
    pub nought: bool,
}

pub fn kept<'s>(sheet: &'s [u8], head: &Head) -> Vec<Kept<'s>> {
    let mut kept = Vec::new();
    let (mut on, mut drop_next, mut counter) = (true, false, 0);
    for token in 0..head.n {
        let at = head.tokens + 20 * token;
        let (kind, own) = ((word(sheet, at) & 31) as u8, place(sheet, head, at + 4));
        if std::mem::take(&mut drop_next) {
            continue;
        }
        if let Some(now) = switch(own).filter(|_| [LINE_COMMENT, BLOCK_COMMENT].contains(&kind)) {
            (on, drop_next) = (now, true);
            continue;
        }
        if on && kind == WHITESPACE {
            continue;
        }
        let placeholder = on && kind == PLACEHOLDER;
        let entry = if placeholder { entry(sheet, head, at, &mut counter) } else { None };
        let from_one = key_class(word(sheet, at)) == 3 && word(sheet, at + 12) == 0;
        let nought = placeholder && from_one && word(sheet, 16) == MODE_INDEXED;
        kept.push(Kept { token, kind, laid_out: on, shown: entry.unwrap_or(own), nought });
    }
    kept
}

pub fn place<'s>(sheet: &'s [u8], head: &Head, at: usize) -> &'s [u8] {
    let start = head.body + word(sheet, at) as usize;
    &sheet[start..start + word(sheet, at + 4) as usize]
}

/// The entry that is shown for the placeholder at this record, if one is. One-based 0 shows none
/// under Indexed.
fn entry<'s>(sheet: &'s [u8], head: &Head, at: usize, counter: &mut usize) -> Option<&'s [u8]> {
    let (class, number) = (key_class(word(sheet, at)), word(sheet, at + 12) as usize);
    let name: &[u8] = if class == 1 { place(sheet, head, at + 12) } else { b"" };
    let record = |i: usize| head.params + 16 * i;
    let value = |i: usize| (i < head.p).then(|| place(sheet, head, record(i) + 8));
    match (word(sheet, 16), class) {
        (1, 0 | 1) if name.is_empty() => {
            *counter += 1;
            value(*counter - 1)
        }
        (1, 2) => value(number),
        (1, 3) => value(number.checked_sub(1)?),
        (2, 1..) => value((0..head.p).find(|&i| place(sheet, head, record(i)) == name)?),
        _ => None,
    }
}
