//! Document 02, Wish 10: a damaged sheet mended, and what was changed.

use super::Refusal;
use super::checks::{Head, head, key_class, word};

/// The offset of a word or a byte in the file, its old number and its new one.
pub type Change = [u32; 3];

/// Words of the report for each change.
pub const CHANGE: usize = 3;

/// Kind Word, without a key or an alias.
const PLAIN_WORD: u32 = 15;

/// Refusal 1 as before; then 13: the report has fewer than three words for each change.
pub fn mended(sheet: &[u8], words: usize) -> Result<(Vec<u8>, Vec<[u32; 3]>), Refusal> {
    let head = head(sheet).ok_or(Refusal { number: 1, place: 0 })?;
    let mut new = sheet.to_vec();
    mend_head(&mut new, &head);
    mend_tokens(&mut new, &head);
    mend_names(&mut new, &head);
    mend_places(&mut new, &head);
    new[head.body..].iter_mut().filter(|byte| **byte >= 128).for_each(|byte| *byte = b'?');
    let changes = changes(sheet, &new, &head);
    if words < CHANGE * changes.len() {
        return Err(Refusal { number: 13, place: 0 });
    }
    Ok((new, changes))
}

fn put(sheet: &mut [u8], at: usize, number: u32) {
    sheet[at..at + 4].copy_from_slice(&number.to_le_bytes());
}

/// A bad option word takes the Rust's default; words 9 to 11 may be anything. A bad mode becomes 1 if
/// there are parameters and else 0, and so does a mode of 0 with parameters.
fn mend_head(sheet: &mut [u8], head: &Head) {
    let mode = word(sheet, 16);
    if mode > 2 || mode == 0 && head.p > 0 {
        put(sheet, 16, u32::from(head.p > 0));
    }
    for (at, most, default) in [(20, 256, 2), (24, 2, 0), (28, 2, 0), (32, 255, 1)] {
        if word(sheet, at) > most {
            put(sheet, at, default);
        }
    }
}

/// The packed word, then the key words that the class it has now forbids.
fn mend_tokens(sheet: &mut [u8], head: &Head) {
    for at in (0..head.n).map(|i| head.tokens + 20 * i) {
        let packed = word(sheet, at);
        if packed & 31 > 16 || packed >> 8 != 0 {
            put(sheet, at, PLAIN_WORD);
        }
        let class = key_class(word(sheet, at));
        if class == 0 {
            put(sheet, at + 12, 0);
        }
        if class != 1 {
            put(sheet, at + 16, 0);
        }
    }
}

/// Names stand in mode 2 alone, and the mode is the new one.
fn mend_names(sheet: &mut [u8], head: &Head) {
    if word(sheet, 16) != 2 {
        for at in (0..head.p).map(|i| head.params + 16 * i) {
            put(sheet, at, 0);
            put(sheet, at + 4, 0);
        }
    }
}

/// Every place: each token's value and Named key, names and entries, keep words. Names that the mode
/// forbids are 0, 0 by now, which is inside any bodies.
fn mend_places(sheet: &mut [u8], head: &Head) {
    let tokens = (0..head.n).map(|i| head.tokens + 20 * i);
    let mut starts: Vec<usize> = tokens.clone().map(|at| at + 4).collect();
    starts.extend(tokens.filter(|&at| key_class(word(sheet, at)) == 1).map(|at| at + 12));
    starts.extend((0..2 * head.p).map(|i| head.params + 8 * i));
    starts.extend((0..head.k).map(|i| head.keeps + 8 * i));
    for at in starts {
        if u64::from(word(sheet, at)) + u64::from(word(sheet, at + 4)) > head.b as u64 {
            put(sheet, at, 0);
            put(sheet, at + 4, 0);
        }
    }
}

/// Each word before the bodies that is another, then each body byte.
fn changes(old: &[u8], new: &[u8], head: &Head) -> Vec<Change> {
    let words = (0..head.body).step_by(4).map(|at| (at, word(old, at), word(new, at)));
    let bytes = (head.body..old.len()).map(|at| (at, u32::from(old[at]), u32::from(new[at])));
    let changed = words.chain(bytes).filter(|(_, old, new)| old != new);
    changed.map(|(at, old, new)| [at as u32, old, new]).collect()
}
