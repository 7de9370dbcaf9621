//! Tabs in values, entries and comments, and for an indent, beside cells of about 8 and 16 bytes: the
//! columns around a stop.

use super::Dice;
use crate::sheet::*;

/// The bytes between two stops: about none, about a stop, about two.
fn cell(dice: &mut Dice) -> Vec<u8> {
    let length = dice.pick(&[0, 0, 1, 2, 5, 6, 7, 7, 8, 8, 9, 14, 15, 16, 17, 23, 24]);
    let other = dice.pick(b"a  \r\x0b\x0c\0");
    (0..length).map(|at| if at + 2 == length { other } else { b'x' }).collect()
}

fn cells(dice: &mut Dice) -> Vec<u8> {
    let mut value = Vec::new();
    for _ in 0..1 + dice.below(4) {
        value.extend(cell(dice));
        value.push(dice.pick(b"\t\t\t\t\n"));
    }
    value.extend(cell(dice));
    value
}

/// Cells for the value, or in it, or at one of its ends; or a tab somewhere.
fn tab(dice: &mut Dice, old: &mut Vec<u8>) {
    let at = dice.below(old.len() + 1);
    match dice.below(8) {
        0 | 1 => *old = cells(dice),
        2 => drop(old.splice(at..at, cells(dice))),
        3 => old.extend(cells(dice)),
        4 => old.insert(at, b'\t'),
        _ => {}
    }
}

/// A comment keeps its start, so that a switch comment stays one.
pub fn tabbed(dice: &mut Dice, mut sheet: Sheet) -> Sheet {
    if dice.one_in(2) {
        sheet.options.indent = 256;
    }
    for token in &mut sheet.tokens {
        match token.kind {
            LINE_COMMENT | BLOCK_COMMENT if dice.one_in(2) => token.value.extend(cells(dice)),
            LINE_COMMENT | BLOCK_COMMENT => {}
            _ => tab(dice, &mut token.value),
        }
    }
    for param in &mut sheet.params {
        tab(dice, &mut param.value);
    }
    sheet
}
