//! Document 02, Wish 13: whether a text of another formatter is what demand 3 requires of a sheet.

use super::Refusal;
use super::checks::{Head, check, word};
use super::kept::{Kept, kept, place};
use super::text::is_white;
use crate::sheet::{CLOSE, NEWLINE, NEWLINE_AFTER, NO_INDENT, OPEN, RESERVED, TOP_LEVEL};

#[derive(Debug, Clone, Copy, PartialEq, Eq)]
pub enum Verdict {
    Yes,
    /// From this token on; the token count if only extra bytes remain.
    No(usize),
}

/// Refusals 1 to 4; then 5, before any text is compared; then 15. No depth, no buffer, and word 7 is
/// not asked for.
pub fn judge(sheet: &[u8], text: &[u8]) -> Result<Verdict, Refusal> {
    let head = check(sheet)?;
    let kept = kept(sheet, &head);
    if let Some(token) = kept.iter().find(|token| token.nought) {
        return Err(Refusal { number: 5, place: token.token });
    }
    if let Some(place) = text.iter().position(|&byte| byte >= 128) {
        return Err(Refusal { number: 15, place });
    }
    let text = without_white(text);
    let mut rest = text.as_slice();
    for token in &kept {
        match rest.strip_prefix(without_white(&due(sheet, &head, token)).as_slice()) {
            Some(after) => rest = after,
            None => return Ok(Verdict::No(token.token)),
        }
    }
    Ok(if rest.is_empty() { Verdict::Yes } else { Verdict::No(head.n) })
}

/// In the asked letter case where case applies: the five kinds named Reserved and brackets, laid out,
/// unless the value equals a keep word.
fn due(sheet: &[u8], head: &Head, token: &Kept) -> Vec<u8> {
    const CASED: [u8; 7] = [RESERVED, TOP_LEVEL, NO_INDENT, NEWLINE, NEWLINE_AFTER, OPEN, CLOSE];
    let keeps = |value| (0..head.k).any(|i| place(sheet, head, head.keeps + 8 * i) == value);
    let cased = token.laid_out && CASED.contains(&token.kind) && !keeps(token.shown);
    match word(sheet, 24) {
        1 if cased => token.shown.to_ascii_uppercase(),
        2 if cased => token.shown.to_ascii_lowercase(),
        _ => token.shown.to_vec(),
    }
}

fn without_white(bytes: &[u8]) -> Vec<u8> {
    bytes.iter().copied().filter(|&byte| !is_white(byte)).collect()
}
