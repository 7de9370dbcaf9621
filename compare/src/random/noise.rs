//! Bytes by chance, of every length from 0 up.

use super::Dice;
use crate::model::Refusal;

/// Lengths up to this one are all met.
pub const LONGEST: usize = 400;

/// The bytes, and the refusal if their length alone earns it.
pub fn bytes(dice: &mut Dice) -> (Vec<u8>, Option<Refusal>) {
    let length = dice.below(LONGEST + 1);
    let most = dice.pick(&[256, 256, 128, 20, 3]);
    let mut bytes: Vec<u8> = (0..length).map(|_| dice.below(most) as u8).collect();
    if length < 48 {
        return (bytes, Some(Refusal { number: 1, place: 0 }));
    }
    if !dice.one_in(4) {
        fit(dice, &mut bytes);
    }
    (bytes, None)
}

/// Gives the bytes a head that goes with their length, so that the checks after the first are met.
fn fit(dice: &mut Dice, bytes: &mut [u8]) {
    let mut rest = bytes.len() - 48;
    let mut counts = [20, 16, 8].map(|record| {
        let count = dice.below(rest / record + 1).min(dice.below(6));
        rest -= record * count;
        count as u32
    });
    let mode = dice.below(3) as u32;
    if mode == 0 {
        rest += 16 * counts[1] as usize;
        counts[1] = 0;
    }
    let [n, p, k] = counts;
    let inline = dice.below(3) as u32;
    let mut head = [n, p, k, rest as u32, mode, 2, 1, inline, 1, 50, 9, 9];
    if dice.one_in(4) {
        head[4 + dice.below(8)] = dice.pick(&[0, 1, 2, 3, 256, 257, u32::MAX]);
    }
    for (to, word) in bytes.chunks_exact_mut(4).zip(head) {
        to.copy_from_slice(&word.to_le_bytes());
    }
    shrink(dice, &mut bytes[48..]);
}

/// Most words become small numbers or nought: a record made of any bytes is refused at its first word.
fn shrink(dice: &mut Dice, records: &mut [u8]) {
    for word in records.chunks_exact_mut(4) {
        if !dice.one_in(40) {
            word[1..].fill(0);
            word[0] %= dice.pick(&[1, 1, 1, 9, 17]);
        }
    }
}
