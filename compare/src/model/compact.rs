//! Document 02, Wish 6: a new sheet with only those body bytes that some place covers, in their old
//! order.

use super::Refusal;
use super::checks::{Head, check, key_class, word};

/// Refusal 11: the buffer is shorter than the new sheet; after 4.
pub fn compacted(sheet: &[u8], room: usize) -> Result<Vec<u8>, Refusal> {
    let new = compact(sheet)?;
    if room < new.len() {
        return Err(Refusal { number: 11, place: 0 });
    }
    Ok(new)
}

fn compact(sheet: &[u8]) -> Result<Vec<u8>, Refusal> {
    let head = check(sheet)?;
    let starts = starts(sheet, &head);
    let place = |at: usize| (word(sheet, at) as usize, word(sheet, at + 4) as usize);
    let covered = |byte: usize| {
        let mut places = starts.iter().map(|&at| place(at));
        places.any(|(start, length)| start <= byte && byte < start + length)
    };
    let kept: Vec<usize> = (0..head.b).filter(|&byte| covered(byte)).collect();
    let mut new = sheet[..head.body].to_vec();
    let mut write = |at: usize, number: usize| {
        new[at..at + 4].copy_from_slice(&(number as u32).to_le_bytes());
    };
    write(12, kept.len());
    for &at in &starts {
        let (start, length) = place(at);
        let before = kept.iter().filter(|&&byte| byte < start).count();
        write(at, if length > 0 { before } else { 0 });
    }
    new.extend(kept.iter().map(|&byte| sheet[head.body + byte]));
    Ok(new)
}

/// Where the start word of each place stands: each token's value, a Named key on any kind, names in
/// mode 2 alone, entries' values, keep words.
fn starts(sheet: &[u8], head: &Head) -> Vec<usize> {
    let mut starts = Vec::new();
    for at in (0..head.n).map(|i| head.tokens + 20 * i) {
        starts.push(at + 4);
        if key_class(word(sheet, at)) == 1 {
            starts.push(at + 12);
        }
    }
    for at in (0..head.p).map(|i| head.params + 16 * i) {
        if word(sheet, 16) == 2 {
            starts.push(at);
        }
        starts.push(at + 8);
    }
    starts.extend((0..head.k).map(|i| head.keeps + 8 * i));
    starts
}
