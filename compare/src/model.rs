//! Documents 01 and 02 as plain Rust: from a sheet, the buffer's length and the list's to the answer.
//!
//! Shares no code with the judge: it reads the sheet's bytes by itself and keeps its own stacks.

mod ahead;
mod checks;
mod compact;
mod convert;
mod judge;
mod kept;
mod layout;
mod mend;
mod room;
mod rows;
mod text;

use crate::watched::{Height, Stretch};
pub use compact::compacted;
pub use convert::converted;
pub use judge::{Verdict, judge};
pub use mend::{CHANGE, Change, mended};
pub use room::room;
pub use rows::{Row, WORDS, list};

#[derive(Debug, Clone, Copy, PartialEq, Eq)]
pub struct Refusal {
    pub number: u32,
    pub place: usize,
}

#[derive(Debug, Clone, PartialEq, Eq)]
pub enum Answer {
    Laid { text: Vec<u8>, lines: usize, width: usize },
    Refused(Refusal),
}

impl Answer {
    /// Refused by a check of the sheet, before the lent list, the table and the buffer are looked at.
    pub fn is_of_checks(&self) -> bool {
        matches!(self, Answer::Refused(Refusal { number: 1..=4 | 14, .. }))
    }
}

/// The answer with what led to it, for the comparison and for the choice of buffers.
pub struct Trial {
    pub answer: Answer,
    pub heights: Vec<Height>,
    pub handlers: Vec<&'static str>,
    /// Of the text; none on a refusal.
    pub rows: Vec<Row>,
    /// The same, found by other means.
    pub stretches: Vec<Stretch>,
    /// The placeholders to be laid out; none on refusals 1 to 4 and 14.
    pub placeholders: usize,
}

impl Trial {
    pub fn refused(refusal: Refusal) -> Self {
        Trial {
            answer: Answer::Refused(refusal),
            heights: Vec::new(),
            handlers: Vec::new(),
            rows: Vec::new(),
            stretches: Vec::new(),
            placeholders: 0,
        }
    }
}

/// What the second call gives: the answer, and the list's words.
#[derive(Debug, Clone, PartialEq, Eq)]
pub struct Listed {
    pub answer: Answer,
    pub list: Vec<u32>,
}

/// The first offence of checks 1 to 4.
pub fn check(sheet: &[u8]) -> Result<(), Refusal> {
    checks::check(sheet).map(|_| ())
}

/// A buffer that no sheet fills.
pub const AMPLE: usize = usize::MAX;

pub fn answer(sheet: &[u8], room: usize) -> Answer {
    trial(sheet, room).answer
}

pub fn trial(sheet: &[u8], room: usize) -> Trial {
    match checks::check_for_layout(sheet) {
        Ok(head) => laid_out(sheet, &head, room),
        Err(refusal) => Trial::refused(refusal),
    }
}

/// Word 7 at 1 laid out all the same. No call does so: it is the Rust's inline on, by which the Rust
/// judges what 2 has in common with it.
pub fn trial_with_on(sheet: &[u8], room: usize) -> Trial {
    match checks::check(sheet) {
        Ok(head) => laid_out(sheet, &head, room),
        Err(refusal) => Trial::refused(refusal),
    }
}

fn laid_out(sheet: &[u8], head: &checks::Head, room: usize) -> Trial {
    let mut layout = layout::Layout::new(sheet, head, room);
    let placeholders = layout.placeholders();
    let laid = layout.lay_out();
    let (text, handlers) = (layout.text, layout.handlers);
    match laid {
        Ok(()) => Trial {
            rows: rows::of(&text, &layout.shown),
            answer: report(text.bytes),
            heights: text.heights,
            handlers,
            stretches: text.stretches,
            placeholders,
        },
        Err(refusal) => {
            Trial { heights: text.heights, handlers, placeholders, ..Trial::refused(refusal) }
        }
    }
}

/// Refusal 10 comes after 4 and 14, and before any token is laid out.
pub fn listed(sheet: &[u8], room: usize, words: usize) -> Listed {
    let Trial { answer, rows, placeholders, .. } = trial(sheet, room);
    if !answer.is_of_checks() && words < WORDS * placeholders {
        let answer = Answer::Refused(Refusal { number: 10, place: 0 });
        return Listed { answer, list: vec![0; words] };
    }
    Listed { answer, list: list(&rows, words) }
}

fn report(text: Vec<u8>) -> Answer {
    let (lines, width) = lines_width(&text);
    Answer::Laid { text, lines, width }
}

/// Width: the largest column reached on any line, a tab moving to the next multiple of 8 strictly
/// above, every other byte by one.
pub fn lines_width(text: &[u8]) -> (usize, usize) {
    let mut feeds = 0;
    let (mut width, mut column) = (0, 0);
    for &byte in text {
        feeds += usize::from(byte == b'\n');
        column = match byte {
            b'\n' => 0,
            b'\t' => (column / 8 + 1) * 8,
            _ => column + 1,
        };
        width = width.max(column);
    }
    (if text.is_empty() { 0 } else { feeds + 1 }, width)
}
