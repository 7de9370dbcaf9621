//! Parameters whose values are empty, white, with white ends or with line feeds, beside all that cuts
//! what stands before it: what is left of a value, and where.

use super::{Dice, Size, soup};
use crate::sheet::*;

const VALUES: &[&str] = &[
    "7",
    "12",
    "'x y'",
    "",
    "",
    " ",
    "\n",
    "\t",
    " \n ",
    "\n\n",
    "\r\u{b}\u{c}",
    "a ",
    "a \t",
    " a",
    "a\n",
    "\na",
    "a\n ",
    "a \n",
    "a\r",
    " a b ",
    "a\nb",
    "\ta\n\n",
    ",",
    ";",
    ".",
    "-- c",
    "-- fmt: off",
    "?",
    ":line",
];

const NAMES: &[&str] = &["line", "call", "", ""];

/// What the tokens show if no entry fits.
const OWN: &[&str] = &["?", "?", "?", ":line", "$1", "", " ", "a ", "\n", "a\n", "7", ",", ";"];

type Piece = fn(&mut Dice, &mut Vec<Token>);

const AFTER: &[Piece] = &[
    operator,
    operator,
    operator,
    type_specifier,
    type_specifier,
    closed,
    folded,
    folded,
    comment_after_comma,
    comment_after_comma,
    comment_after_unlaid,
    opened,
    word,
    word,
    switched_off,
    switched_off,
    any,
    none,
    none,
];

pub fn tokens(dice: &mut Dice, options: &mut Options, size: Size) -> Vec<Token> {
    options.block = dice.pick(&[0, 0, 3, 50]);
    options.top_level = dice.pick(&[NONE, 0, 0, 1, 20]);
    let rounds = if size == Size::Table { 2 } else { 1 + dice.below(5) };
    let mut tokens = Vec::new();
    if dice.one_in(4) {
        dice.pick(AFTER)(dice, &mut tokens);
    }
    for _ in 0..rounds {
        for _ in 0..dice.pick(&[1, 1, 1, 2, 3]) {
            tokens.push(placeholder(dice));
            gap(dice, &mut tokens);
        }
        dice.pick(AFTER)(dice, &mut tokens);
    }
    tokens
}

/// Entries under any of the two modes, some of them what a token shows of its own.
pub fn params(dice: &mut Dice, tokens: &[Token], most: usize) -> (u32, Vec<Param>) {
    let mode = dice.pick(&[MODE_INDEXED, MODE_INDEXED, MODE_NAMED]);
    let params = (0..1 + dice.below(most)).map(|_| {
        let name = if mode == MODE_NAMED { dice.pick(NAMES) } else { "" };
        let own = tokens.get(dice.below(4 * tokens.len())).map(|token| token.value.clone());
        Param { name: name.into(), value: own.unwrap_or_else(|| dice.pick(VALUES).into()) }
    });
    (mode, params.collect())
}

fn placeholder(dice: &mut Dice) -> Token {
    let number = dice.pick(&[0, 1, 1, 2, 2, 3, u32::MAX]);
    let key = match dice.below(10) {
        0..5 => Key::None,
        5 | 6 => Key::Named(dice.pick(NAMES).into()),
        7 | 8 => Key::ZeroIndexed(number),
        _ => Key::OneIndexed(if dice.one_in(8) { number } else { number.max(1) }),
    };
    Token { key, ..Token::new(PLACEHOLDER, dice.pick(OWN)) }
}

fn put(tokens: &mut Vec<Token>, kind: u8, value: &str) {
    tokens.push(Token::new(kind, value));
}

fn gap(dice: &mut Dice, tokens: &mut Vec<Token>) {
    if dice.one_in(4) {
        put(tokens, WHITESPACE, dice.pick(&[" ", "\n"]));
    }
}

fn none(_: &mut Dice, _: &mut Vec<Token>) {}

fn any(dice: &mut Dice, tokens: &mut Vec<Token>) {
    let kind = dice.below(17) as u8;
    tokens.push(soup::token(dice, kind));
}

fn operator(dice: &mut Dice, tokens: &mut Vec<Token>) {
    put(tokens, OPERATOR, dice.pick(&[",", ",", ".", ".", ":", ":", ";", "="]));
}

fn type_specifier(dice: &mut Dice, tokens: &mut Vec<Token>) {
    put(tokens, TYPE_SPECIFIER, dice.pick(&["::t", "::t", "", "\n"]));
    gap(dice, tokens);
}

fn closed(dice: &mut Dice, tokens: &mut Vec<Token>) {
    put(tokens, CLOSE, dice.pick(&[")", ")", "]", "end", ""]));
}

fn opened(dice: &mut Dice, tokens: &mut Vec<Token>) {
    put(tokens, OPEN, dice.pick(&["(", "(", "[", "case", ""]));
}

/// New lines, which cut blanks.
fn word(dice: &mut Dice, tokens: &mut Vec<Token>) {
    const KINDS: &[u8] = &[TOP_LEVEL, NO_INDENT, NEWLINE, NEWLINE_AFTER, RESERVED, BLOCK_COMMENT];
    put(tokens, dice.pick(KINDS), dice.pick(&["FROM", "and", ""]));
}

/// A fold right after its word, which is mostly empty, so that the cut reaches the value before it.
fn folded(dice: &mut Dice, tokens: &mut Vec<Token>) {
    put(tokens, TOP_LEVEL, dice.pick(&["", "", " ", "FROM"]));
    gap(dice, tokens);
    put(tokens, OPEN, "(");
    tokens.push(placeholder(dice));
    put(tokens, CLOSE, ")");
}

/// The comma is two before the comment, with a value between that the cut reaches.
fn comment_after_comma(dice: &mut Dice, tokens: &mut Vec<Token>) {
    put(tokens, OPERATOR, ",");
    tokens.push(placeholder(dice));
    put(tokens, LINE_COMMENT, dice.pick(&["-- c", "", "-- c\n"]));
}

/// The comma is not laid out: the value stands before it.
fn comment_after_unlaid(dice: &mut Dice, tokens: &mut Vec<Token>) {
    put(tokens, WHITESPACE, ",");
    put(tokens, WHITESPACE, " ");
    put(tokens, LINE_COMMENT, dice.pick(&["-- c", "", "-- c\n"]));
}

/// Copied: no row for any of them.
fn switched_off(dice: &mut Dice, tokens: &mut Vec<Token>) {
    put(tokens, LINE_COMMENT, "-- fmt: off");
    // The dropped one has no row either.
    tokens.push(placeholder(dice));
    for _ in 0..dice.below(3) {
        tokens.push(placeholder(dice));
    }
    if dice.one_in(4) {
        return;
    }
    put(tokens, LINE_COMMENT, "-- fmt: on");
    tokens.push(placeholder(dice));
}
