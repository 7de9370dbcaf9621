//! Document 02's rows: for each placeholder laid out, where its value stands in the text.

use std::ops::Range;

use super::layout::switch;
use super::text::Text;
use crate::sheet::{BLOCK_COMMENT, LINE_COMMENT, PLACEHOLDER};

/// The words of one row.
pub const WORDS: usize = 5;

/// In a row's second word: the token's own value was shown.
const OWN: u32 = u32::MAX;

#[derive(Debug, Clone, Copy, PartialEq, Eq)]
pub struct Row {
    pub token: usize,
    /// Counted from nought; `None` if the token's own value was shown.
    pub entry: Option<usize>,
    /// The bytes of the final text that were appended before the value's first byte.
    pub before: usize,
    /// How many of the value's bytes are in the final text.
    pub survived: usize,
}

impl Row {
    /// The count of bytes before takes two words, the low one first.
    fn words(self) -> [u32; WORDS] {
        let [token, survived] = [self.token, self.survived].map(|n| n as u32);
        let entry = self.entry.map_or(OWN, |number| number as u32);
        [token, entry, self.before as u32, (self.before as u64 >> 32) as u32, survived]
    }
}

/// A list of so many words that holds these rows: zero after the last.
pub fn list(rows: &[Row], words: usize) -> Vec<u32> {
    let mut list: Vec<u32> = rows.iter().flat_map(|row| row.words()).collect();
    list.resize(words, 0);
    list
}

/// A value that was shown, and the numbers that its bytes got among all that were appended.
pub struct Shown {
    pub token: usize,
    pub entry: Option<usize>,
    pub numbers: Range<usize>,
}

/// The rows of a final text.
pub fn of(text: &Text, shown: &[Shown]) -> Vec<Row> {
    let row = |Shown { token, entry, numbers }: &Shown| {
        let before = text.before(numbers.start);
        let survived = text.before(numbers.end) - before;
        Row { token: *token, entry: *entry, before, survived }
    };
    shown.iter().map(row).collect()
}

/// How many placeholders are to be laid out: the switch alone decides. Kinds and values as sent.
pub fn placeholders<'s>(tokens: impl Iterator<Item = (u8, &'s [u8])>) -> usize {
    let mut count = 0;
    let (mut on, mut dropped) = (true, false);
    for (kind, value) in tokens {
        if dropped {
            dropped = false;
        } else if let (LINE_COMMENT | BLOCK_COMMENT, Some(now)) = (kind, switch(value)) {
            (on, dropped) = (now, true);
        } else if on && kind == PLACEHOLDER {
            count += 1;
        }
    }
    count
}
