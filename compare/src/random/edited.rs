//! A sheet as a station's tool leaves it: new text at the end of the bodies, places moved to it, old
//! text left behind.

use super::Dice;

const MOST: usize = 32768;

/// Edits it some times, or until the bodies are full.
pub fn edited(dice: &mut Dice, mut sheet: Vec<u8>) -> Vec<u8> {
    let starts = starts(&sheet);
    if starts.is_empty() {
        return sheet;
    }
    let full = dice.one_in(16);
    let longest = if full { 400 } else { 12 };
    for _ in 0..if full { 10_000 } else { 1 + dice.below(12) } {
        let at = dice.pick(&starts);
        let left = MOST - word(&sheet, 12);
        let length = dice.below(longest);
        if full && left < longest || length > left {
            break;
        }
        edit(dice, &mut sheet, at, length);
    }
    sheet
}

/// Moves a place: to new text at the end, into the text that is there, or to nothing.
fn edit(dice: &mut Dice, sheet: &mut Vec<u8>, at: usize, length: usize) {
    let body = word(sheet, 12);
    let (start, length) = match dice.below(6) {
        0 => (dice.below(body + 1), 0),
        1 => {
            let start = dice.below(body + 1);
            (start, dice.below(body - start + 1).min(40))
        }
        _ => {
            sheet.extend((0..length).map(|_| dice.pick(b"abc, ;\n(?)'-")));
            put(sheet, 12, body + length);
            (body, length)
        }
    };
    put(sheet, at, start);
    put(sheet, at + 4, length);
}

/// Where the start words of places stand in a whole sheet.
fn starts(sheet: &[u8]) -> Vec<usize> {
    let [n, p, k] = [0, 4, 8].map(|at| word(sheet, at));
    let tokens = (0..n).map(|i| 48 + 20 * i);
    let mut starts: Vec<usize> = tokens.clone().map(|at| at + 4).collect();
    starts.extend(tokens.filter(|&at| sheet[at] >> 5 & 3 == 1).map(|at| at + 12));
    let params = 48 + 20 * n;
    let names = if word(sheet, 16) == 2 { 1 } else { 2 };
    starts.extend((1..=2 * p).filter(|i| names == 1 || i % 2 == 0).map(|i| params + 8 * (i - 1)));
    starts.extend((0..k).map(|i| params + 16 * p + 8 * i));
    starts
}

fn word(sheet: &[u8], at: usize) -> usize {
    u32::from_le_bytes([sheet[at], sheet[at + 1], sheet[at + 2], sheet[at + 3]]) as usize
}

fn put(sheet: &mut [u8], at: usize, number: usize) {
    sheet[at..at + 4].copy_from_slice(&(number as u32).to_le_bytes());
}
