//! Document 02, Wish 12: word 7 at 1 is withdrawn, and a stored sheet has 2 written in its place.

use super::Refusal;
use super::checks::{check, word};

/// Refusals 1 to 4 alone.
pub fn converted(sheet: &[u8]) -> Result<Vec<u8>, Refusal> {
    check(sheet)?;
    let mut new = sheet.to_vec();
    if word(sheet, 28) == 1 {
        new[28..32].copy_from_slice(&2_u32.to_le_bytes());
    }
    Ok(new)
}
