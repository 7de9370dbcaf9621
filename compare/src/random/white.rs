//! Values that are all white, edged with white, or empty.

use super::Dice;
use crate::sheet::*;

const WHITE: [u8; 6] = [9, 10, 11, 12, 13, 32];

pub fn is_white(value: &[u8]) -> bool {
    value.iter().all(|byte| WHITE.contains(byte))
}

/// One white byte over and over, or any of them in turn; often none.
fn value(dice: &mut Dice) -> Vec<u8> {
    let length = match dice.below(12) {
        0..3 => 0,
        3..6 => 1,
        6..11 => 2 + dice.below(6),
        _ => dice.below(60),
    };
    let one = dice.pick(&WHITE);
    let same = dice.one_in(3);
    (0..length).map(|_| if same { one } else { dice.pick(&WHITE) }).collect()
}

fn whiten(dice: &mut Dice, old: &mut Vec<u8>) {
    match dice.below(8) {
        0..4 => *old = value(dice),
        4 => *old = [value(dice), std::mem::take(old), value(dice)].concat(),
        _ => {}
    }
}

/// Half of all values, names and keep words become white, and some of the others get white ends.
pub fn whitened(dice: &mut Dice, mut sheet: Sheet) -> Sheet {
    for token in &mut sheet.tokens {
        whiten(dice, &mut token.value);
        if let Key::Named(name) = &mut token.key {
            whiten(dice, name);
        }
    }
    for param in &mut sheet.params {
        whiten(dice, &mut param.value);
        if sheet.mode == MODE_NAMED {
            whiten(dice, &mut param.name);
        }
    }
    for word in &mut sheet.keep {
        whiten(dice, word);
    }
    sheet
}
