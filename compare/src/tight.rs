//! Wish 9's sum against the longest working text: sheets for which little is to spare, searched for.

use crate::check::peak;
use crate::model;
use crate::random::Dice;
use crate::sheet::*;
use crate::show;

/// The most tokens of a sheet.
const MOST: usize = 6;
/// Changes to a sheet before a new one is begun.
const CHANGES: usize = 60;

const VALUES: &[&str] = &[
    "a",
    "",
    " ",
    "\n",
    ",",
    ".",
    ":",
    ";",
    "(",
    ")",
    "a\nb",
    "\n \n",
    "-- c",
    "/* c */",
    "/*\n\t*/",
    "-- fmt: off",
    "-- fmt: on",
    "AND",
    "END",
    "::t",
    "?",
];

/// One token put in, taken out or exchanged, or other options.
fn changed(dice: &mut Dice, sheet: &Sheet) -> Sheet {
    let mut sheet = sheet.clone();
    let count = sheet.tokens.len();
    match dice.below(5) {
        0 if count < MOST => sheet.tokens.insert(dice.below(count + 1), token(dice)),
        1 if count > 1 => drop(sheet.tokens.remove(dice.below(count))),
        2 => {
            let options = &mut sheet.options;
            options.indent = dice.pick(&[0, 0, 0, 1, 2, 256]);
            options.inline = dice.pick(&[0, 2]);
            options.lines = dice.pick(&[0, 1, 3, 255]);
            options.block = dice.pick(&[0, 50]);
            options.top_level = dice.pick(&[0, 60, NONE]);
        }
        _ => sheet.tokens[dice.below(count)] = token(dice),
    }
    sheet
}

fn token(dice: &mut Dice) -> Token {
    let mut token = Token::new(dice.below(17) as u8, dice.pick(VALUES));
    token.create = dice.one_in(6);
    if token.kind == PLACEHOLDER {
        token.key = dice.pick(&[0_u32, 1, 2]).checked_sub(1).map_or(Key::None, Key::OneIndexed);
    }
    token
}

fn fresh(dice: &mut Dice) -> Sheet {
    let entry = Param { name: Vec::new(), value: dice.pick(&["aaa", ";", "a\nb"]).into() };
    let mode = dice.pick(&[0, MODE_INDEXED, MODE_NAMED]);
    let params = if mode == 0 { Vec::new() } else { vec![entry] };
    Sheet { mode, params, tokens: vec![token(dice)], ..Sheet::default() }
}

/// Copied text fills its part of the sum by itself.
const NOT_LAID_OUT: [&str; 5] =
    ["dropped", "switch on", "switch off", "switched off", "whitespace"];

/// What is to spare, if a token is laid out and there is a text.
fn spare(bytes: &[u8]) -> Option<u64> {
    let sum = model::room(bytes).ok()?;
    let trial = model::trial(bytes, model::AMPLE);
    let longest = peak(&trial.heights) as u64;
    assert!(longest <= sum, "passed:\n{}", show::sheet(bytes));
    let lays_out = trial.handlers.iter().any(|handler| !NOT_LAID_OUT.contains(handler));
    (longest > 0 && lays_out).then_some(sum - longest)
}

/// For each number of tokens the sheet with the least to spare.
pub fn run(n: u64, seed: u64) -> bool {
    let mut best: Vec<Option<(u64, Vec<u8>)>> = vec![None; MOST + 1];
    for turn in 0..n {
        let mut dice = Dice::new(seed, turn);
        let mut sheet = fresh(&mut dice);
        let mut least = u64::MAX;
        for _ in 0..CHANGES {
            let next = changed(&mut dice, &sheet);
            let bytes = next.encode(&mut in_turn);
            let Some(spare) = spare(&bytes).filter(|&spare| spare <= least) else { continue };
            (least, sheet) = (spare, next);
            let known = &mut best[sheet.tokens.len()];
            if known.as_ref().is_none_or(|(least, _)| spare < *least) {
                *known = Some((spare, bytes));
            }
        }
    }
    for (count, (spare, bytes)) in
        best.iter().enumerate().filter_map(|(i, b)| Some((i, b.as_ref()?)))
    {
        println!("{count} tokens: {spare} to spare\n{}", show::sheet(bytes));
    }
    println!("{n} searches of {CHANGES} changes, seed {seed}: no text passes the sum");
    true
}
