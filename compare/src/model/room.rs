//! Document 02, Wish 9: the sum that the working text never passes.

use super::Refusal;
use super::checks::{check_for_layout, word};
use super::kept::kept;

/// A refusal of 1 to 4 or 14, or the sum.
pub fn room(sheet: &[u8]) -> Result<u64, Refusal> {
    let head = check_for_layout(sheet)?;
    let indent = if word(sheet, 20) == 256 { 1 } else { u64::from(word(sheet, 20)) };
    let i = 128 * indent;
    let mut sum = 0;
    for token in kept(sheet, &head) {
        let value = token.shown;
        sum += value.len() as u64;
        if token.laid_out {
            let feeds = value.iter().filter(|&&byte| byte == b'\n').count() as u64;
            let between = if value == b";" { u64::from(word(sheet, 32)) } else { 0 };
            sum += 3 + 2 * i + (i + 1) * feeds + between;
        }
    }
    Ok(sum)
}
