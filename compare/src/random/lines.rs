//! Values of many lines: short ones, with one about as long as the longest here and there, and runs of
//! tabs. The call passes what cannot be the longest line many bytes at a time, in stretches of 16, 192
//! and 4,224 bytes, of which eight parts are looked at together; where tabs stand close it counts sixteen parts side by
//! side.

use super::Dice;
use crate::sheet::*;

/// Lengths about which the call goes another way.
const MOST: [usize; 20] = [0, 1, 1, 2, 3, 3, 4, 6, 7, 8, 9, 15, 16, 17, 30, 63, 70, 100, 126, 128];
const SIZES: [usize; 8] = [20, 60, 75, 80, 140, 200, 400, 600];
/// More than two stretches, where the sheet has room for it.
const LONG: usize = 9000;
const FEW: usize = 16_000;

fn line(dice: &mut Dice, length: usize, others: &[u8]) -> Vec<u8> {
    let other = dice.pick(others);
    (0..length).map(|at| if at + 2 == length { other } else { b'x' }).collect()
}

fn lines(dice: &mut Dice) -> Vec<u8> {
    let size = dice.pick(&SIZES);
    lines_of(dice, size)
}

/// All of one length, or of any up to it, and some a little longer; with many tabs, or with one or none.
fn lines_of(dice: &mut Dice, size: usize) -> Vec<u8> {
    let (most, steady, tabs) = (dice.pick(&MOST), dice.one_in(2), dice.one_in(2));
    let others: &[u8] = if tabs { b"xxxx \r\t" } else { b"xxxx \r" };
    let mut value = Vec::new();
    while value.len() < size {
        let length = if steady { most } else { dice.below(most + 1) };
        let longer = if dice.one_in(30) { 1 + dice.below(2) } else { 0 };
        value.extend(line(dice, length + longer, others));
        value.push(b'\n');
    }
    if dice.one_in(2) {
        value.extend(line(dice, most, others));
    }
    if !tabs && dice.one_in(2) {
        let at = dice.below(value.len() + 1);
        value.insert(at, b'\t');
    }
    value
}

/// Many lines, the first as long as any, and one longer by a byte somewhere among them: no other line tells.
fn one_longer(dice: &mut Dice) -> Vec<u8> {
    let most = dice.pick(&MOST);
    let mut lines = vec![vec![b'x'; most]];
    let mut size = most;
    while size < LONG {
        let length = dice.below(most + 1);
        lines.push(vec![b'x'; length]);
        size += length + 1;
    }
    let at = 1 + dice.below(lines.len());
    lines.insert(at, vec![b'y'; most + 1]);
    lines.join(&b'\n')
}

/// Tabs, letters and line feeds in no order, each as often as the dice say.
fn close_tabs(dice: &mut Dice) -> Vec<u8> {
    let size = dice.pick(&[500, 511, 512, 513, 640, 1000, 2112, 4224, 4225, LONG]);
    let (tabs, feeds) = (dice.pick(&[2, 5, 12, 40]), dice.pick(&[2, 6, 30, 200, 2000, 100_000]));
    let byte = |dice: &mut Dice| match () {
        () if dice.one_in(tabs) => b'\t',
        () if dice.one_in(feeds) => b'\n',
        () => b'x',
    };
    (0..size).map(|_| byte(dice)).chain([b'y']).collect()
}

/// Tabs in a row, about 16 and 32 of them, after some letters.
fn tabs(dice: &mut Dice) -> Vec<u8> {
    let letters = dice.below(18);
    let mut value = line(dice, letters, b"x");
    value.resize(value.len() + dice.pick(&[7, 8, 15, 16, 17, 23, 24, 25, 40, 60]), b'\t');
    value.extend(line(dice, 2, b"x"));
    value
}

fn long(dice: &mut Dice, old: &mut Vec<u8>) {
    let at = dice.below(old.len() + 1);
    match dice.below(6) {
        0 => *old = lines(dice),
        1 => drop(old.splice(at..at, lines(dice))),
        2 if dice.one_in(2) => old.extend(tabs(dice)),
        _ => {}
    }
}

/// A comment keeps its start, so that a switch comment stays one.
pub fn lined(dice: &mut Dice, mut sheet: Sheet) -> Sheet {
    for token in &mut sheet.tokens {
        match token.kind {
            LINE_COMMENT | BLOCK_COMMENT if dice.one_in(4) => token.value.extend(lines(dice)),
            LINE_COMMENT | BLOCK_COMMENT => {}
            _ => long(dice, &mut token.value),
        }
    }
    for param in &mut sheet.params {
        long(dice, &mut param.value);
    }
    let values = sheet.tokens.iter().map(|token| token.value.len());
    let entries = sheet.params.iter().map(|param| param.name.len() + param.value.len());
    let taken = values.chain(entries).sum::<usize>();
    if taken < FEW && !sheet.tokens.is_empty() && dice.one_in(10) {
        let at = dice.below(sheet.tokens.len());
        sheet.tokens[at].value.extend(lines_of(dice, LONG));
        if dice.one_in(2) {
            let alone = dice.pick(&[one_longer, close_tabs]);
            sheet.tokens[at].value = alone(dice);
            sheet.tokens.swap(0, at);
            sheet.tokens.truncate(1);
        }
    }
    sheet
}
