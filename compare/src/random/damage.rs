//! Damaged sheets for refusals 1 to 4.

use super::Dice;
use crate::model::Refusal;

/// One offence that can be put into a whole sheet, and the refusal it earns.
struct Offence {
    refusal: Refusal,
    at: usize,
    bytes: Vec<u8>,
}

fn word(sheet: &[u8], at: usize) -> u32 {
    u32::from_le_bytes([sheet[at], sheet[at + 1], sheet[at + 2], sheet[at + 3]])
}

/// Damage done on purpose, so that the refusal is known without any reading of the sheet.
pub fn known(dice: &mut Dice, mut sheet: Vec<u8>) -> (Vec<u8>, Refusal) {
    if dice.one_in(3) {
        return (misshapen(dice, sheet), Refusal { number: 1, place: 0 });
    }
    let offences = offences(dice, &sheet);
    let by_number = 2 + dice.below(3) as u32;
    let mut first: Option<Refusal> = None;
    for _ in 0..dice.pick(&[1, 1, 2, 3]) {
        let same: Vec<_> = offences.iter().filter(|o| o.refusal.number == by_number).collect();
        let all: Vec<_> = offences.iter().collect();
        let from = if same.is_empty() || dice.one_in(4) { all } else { same };
        let offence = dice.pick(&from);
        sheet[offence.at..offence.at + offence.bytes.len()].copy_from_slice(&offence.bytes);
        let earlier = |old: &Refusal| (old.number, old.place);
        let refusal = offence.refusal;
        first = Some(first.map_or(refusal, |old| std::cmp::min_by_key(old, refusal, earlier)));
    }
    (sheet, first.unwrap_or(Refusal { number: 1, place: 0 }))
}

/// Refusal 1: cut short, drawn out, or with one count changed.
fn misshapen(dice: &mut Dice, mut sheet: Vec<u8>) -> Vec<u8> {
    match dice.below(4) {
        0 => sheet.truncate(dice.below(sheet.len())),
        1 => sheet.truncate(dice.below(49).min(sheet.len() - 1)),
        2 => sheet.extend((0..1 + dice.below(9)).map(|_| 32)),
        _ => {
            let at = 4 * dice.below(4);
            let most = [1024, 256, 64, 32768][at / 4];
            let count = word(&sheet, at);
            let other = [count + 1, count.wrapping_sub(1), most, most + 1, u32::MAX, 0];
            let others: Vec<u32> = other.into_iter().filter(|&c| c != count).collect();
            let changed = dice.pick(&others).to_le_bytes();
            sheet[at..at + 4].copy_from_slice(&changed);
        }
    }
    sheet
}

/// Every word and byte of the sheet that can be made an offence by itself.
fn offences(dice: &mut Dice, sheet: &[u8]) -> Vec<Offence> {
    let [n, p, k, b, mode] = [0, 4, 8, 12, 16].map(|at| word(sheet, at) as usize);
    let params = 48 + 20 * n;
    let keeps = params + 16 * p;
    let body = keeps + 8 * k;
    let mut offences = head_offences(dice, p);
    for at in (0..n).map(|i| 48 + 20 * i) {
        token_offences(dice, sheet, at, b, &mut offences);
    }
    for at in (0..p).map(|i| params + 16 * i) {
        match mode {
            2 => offences.push(place_offence(dice, sheet, at, b)),
            _ => offences.extend([at, at + 4].map(|at| word_offence(at, 1))),
        }
        offences.push(place_offence(dice, sheet, at + 8, b));
    }
    for at in (0..k).map(|i| keeps + 8 * i) {
        offences.push(place_offence(dice, sheet, at, b));
    }
    for at in body..body + b {
        let bytes = vec![dice.pick(&[128, 129, 194, 255])];
        offences.push(Offence { refusal: Refusal { number: 4, place: at }, at, bytes });
    }
    offences
}

fn word_offence(at: usize, word: u32) -> Offence {
    let bytes = word.to_le_bytes().to_vec();
    Offence { refusal: Refusal { number: 2, place: at }, at, bytes }
}

fn head_offences(dice: &mut Dice, p: usize) -> Vec<Offence> {
    let past = dice.pick(&[0, 1, 256, u32::MAX - 300]);
    let mut offences = vec![word_offence(16, 3 + past)];
    if p > 0 {
        offences.push(word_offence(16, 0));
    }
    for (at, least) in [(20, 257), (24, 3), (28, 3), (32, 256)] {
        offences.push(word_offence(at, least + past));
    }
    offences
}

fn token_offences(dice: &mut Dice, sheet: &[u8], at: usize, b: usize, to: &mut Vec<Offence>) {
    let packed = word(sheet, at);
    let kind = dice.pick(&[17, 18, 24, 31]);
    to.push(word_offence(at, packed & !31 | kind));
    let high = 1 << (8 + dice.below(24));
    to.push(word_offence(at, packed | high));
    to.push(place_offence(dice, sheet, at + 4, b));
    let number = dice.pick(&[1, 256, u32::MAX]);
    match packed >> 5 & 3 {
        0 => to.extend([at + 12, at + 16].map(|at| word_offence(at, number))),
        1 => to.push(place_offence(dice, sheet, at + 12, b)),
        _ => to.push(word_offence(at + 16, number)),
    }
}

/// Refusal 3: one past the end, far past it, or past 2^32 where a u32 sum would come round.
fn place_offence(dice: &mut Dice, sheet: &[u8], at: usize, b: usize) -> Offence {
    let (start, length) = (word(sheet, at), word(sheet, at + 4));
    let b = b as u32;
    let (start, length) = match dice.below(5) {
        0 => (start, b - start + 1),
        1 => (b - length + 1, length),
        2 => (b + 1, 0),
        3 => (u32::MAX, 1 + length),
        _ => (1 + start, u32::MAX),
    };
    let bytes = [start.to_le_bytes(), length.to_le_bytes()].concat();
    Offence { refusal: Refusal { number: 3, place: at }, at, bytes }
}

/// Bytes changed anywhere: the answer may be anything.
pub fn flipped(dice: &mut Dice, mut sheet: Vec<u8>) -> Vec<u8> {
    for _ in 0..1 + dice.below(3) {
        let at = dice.below(sheet.len());
        sheet[at] = match dice.below(3) {
            0 => sheet[at] ^ 1 << dice.below(8),
            1 => dice.below(256) as u8,
            _ => dice.below(9) as u8,
        };
    }
    sheet
}
