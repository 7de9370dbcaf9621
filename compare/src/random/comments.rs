//! Line comments beside all that cuts what stands before it: word 7 at 2 holds a line feed there.

use super::{Dice, Size, soup};
use crate::sheet::*;

/// Empty and white ones too, and line feeds and blanks at their ends.
const COMMENTS: &[&str] = &[
    "-- c",
    "-- c",
    "-- c",
    "",
    "",
    " ",
    "\n",
    "\t\n",
    "-- c\n",
    "-- c\n",
    "-- c \n ",
    "-- c \t",
    "--\n\n",
    "\n-- c",
    "-- c\r",
    "-- c\u{b}\u{c}",
    "-- a\n  b",
    "-- fmt: o",
];

/// Values that end with a line feed or with blanks, or are nothing else.
const ENDED: &[&str] = &["a", "a\n", "a \n", "a\n ", "a\t", "\n", " ", "", "\n\n", "a\r"];

const FED: &[u8] = &[WORD, STRING, NUMBER, PLACEHOLDER, JOIN, OPERATOR, BLOCK_COMMENT, RESERVED];

type Piece = fn(&mut Dice, &mut Vec<Token>);

const BEFORE: &[Piece] = &[ended, ended, comma, separator, opened, top_level, copied, any, none];

const AFTER: &[Piece] = &[
    type_specifier,
    type_specifier,
    type_specifier,
    comma_before_comment,
    comma_unlaid,
    folded,
    folded,
    folded_unlaid,
    opened,
    closed,
    copied,
    block_comment,
    separator,
    ended,
    any,
];

pub fn tokens(dice: &mut Dice, options: &mut Options, size: Size) -> Vec<Token> {
    options.block = dice.pick(&[0, 0, 0, 3, 50]);
    options.top_level = dice.pick(&[NONE, 0, 0, 0, 1, 3, 20]);
    let rounds = if size == Size::Table { 1 } else { 1 + dice.below(4) };
    let mut tokens = Vec::new();
    for _ in 0..rounds {
        dice.pick(BEFORE)(dice, &mut tokens);
        gap(dice, &mut tokens);
        comment(dice, &mut tokens);
        gap(dice, &mut tokens);
        dice.pick(AFTER)(dice, &mut tokens);
        if dice.one_in(3) {
            dice.pick(AFTER)(dice, &mut tokens);
        }
    }
    tokens
}

fn put(tokens: &mut Vec<Token>, kind: u8, value: &str) {
    tokens.push(Token::new(kind, value));
}

fn gap(dice: &mut Dice, tokens: &mut Vec<Token>) {
    if dice.one_in(3) {
        put(tokens, WHITESPACE, dice.pick(&[" ", "\n", "\t", "\n  "]));
    }
}

fn comment(dice: &mut Dice, tokens: &mut Vec<Token>) {
    put(tokens, LINE_COMMENT, dice.pick(COMMENTS));
}

fn none(_: &mut Dice, _: &mut Vec<Token>) {}

fn any(dice: &mut Dice, tokens: &mut Vec<Token>) {
    let kind = dice.below(17) as u8;
    tokens.push(soup::token(dice, kind));
}

fn ended(dice: &mut Dice, tokens: &mut Vec<Token>) {
    put(tokens, dice.pick(FED), dice.pick(ENDED));
}

fn comma(_: &mut Dice, tokens: &mut Vec<Token>) {
    put(tokens, OPERATOR, ",");
}

fn separator(_: &mut Dice, tokens: &mut Vec<Token>) {
    put(tokens, OPERATOR, ";");
}

fn top_level(_: &mut Dice, tokens: &mut Vec<Token>) {
    put(tokens, TOP_LEVEL, "FROM");
}

fn opened(dice: &mut Dice, tokens: &mut Vec<Token>) {
    put(tokens, OPEN, dice.pick(&["(", "[", "case", ""]));
}

fn closed(dice: &mut Dice, tokens: &mut Vec<Token>) {
    put(tokens, CLOSE, dice.pick(&[")", "]", "end", ""]));
}

/// Now and then right after a value of nothing but white.
fn type_specifier(dice: &mut Dice, tokens: &mut Vec<Token>) {
    if dice.one_in(4) {
        put(tokens, WORD, dice.pick(&["", " ", "\n", " \n "]));
    }
    put(tokens, TYPE_SPECIFIER, dice.pick(&["::t", "::t", "", "\n"]));
    if dice.one_in(4) {
        put(tokens, RESERVED, "AS");
    }
}

fn block_comment(dice: &mut Dice, tokens: &mut Vec<Token>) {
    put(tokens, BLOCK_COMMENT, dice.pick(&["/* b */", "/* b\n  c */", "", "\n"]));
    type_specifier(dice, tokens);
}

/// The comma is two before the second comment, and white stands between in the text.
fn comma_before_comment(dice: &mut Dice, tokens: &mut Vec<Token>) {
    comma(dice, tokens);
    if dice.one_in(2) {
        comment(dice, tokens);
    } else {
        put(tokens, WHITESPACE, " ");
    }
    comment(dice, tokens);
}

/// A comma that is not laid out, so that the cut reaches the comment before it.
fn comma_unlaid(dice: &mut Dice, tokens: &mut Vec<Token>) {
    if dice.one_in(2) {
        put(tokens, WHITESPACE, ",");
    } else {
        put(tokens, LINE_COMMENT, "-- fmt: on");
        comma(dice, tokens);
    }
    put(tokens, WHITESPACE, " ");
    comment(dice, tokens);
}

/// A fold right after its word, which may be empty: then the cut reaches what stands before that.
fn folded(dice: &mut Dice, tokens: &mut Vec<Token>) {
    let mut top = Token::new(TOP_LEVEL, dice.pick(&["", "", " ", "\n", "FROM"]));
    top.create = dice.one_in(3);
    tokens.push(top);
    gap(dice, tokens);
    block(dice, tokens);
}

/// A fold whose word is dropped: the noted span is that of the word before the comment.
fn folded_unlaid(dice: &mut Dice, tokens: &mut Vec<Token>) {
    if dice.one_in(2) {
        top_level(dice, tokens);
        comment(dice, tokens);
    }
    put(tokens, LINE_COMMENT, "-- fmt: on");
    top_level(dice, tokens);
    block(dice, tokens);
}

fn block(dice: &mut Dice, tokens: &mut Vec<Token>) {
    put(tokens, OPEN, "(");
    if dice.one_in(3) {
        comment(dice, tokens);
    }
    put(tokens, WORD, "a");
    put(tokens, CLOSE, ")");
}

/// Copied as it is: it holds nothing, whatever it ends with.
fn copied(dice: &mut Dice, tokens: &mut Vec<Token>) {
    put(tokens, LINE_COMMENT, "-- fmt: off");
    put(tokens, WHITESPACE, "\n");
    for _ in 0..1 + dice.below(2) {
        put(tokens, dice.pick(&[LINE_COMMENT, WHITESPACE, WORD]), dice.pick(ENDED));
    }
    put(tokens, LINE_COMMENT, "-- fmt: on");
    put(tokens, WHITESPACE, "\n");
}
