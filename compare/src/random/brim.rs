//! Up to the 128 entries of the indent stack, and to and fro across that bound.

use super::{Dice, soup};
use crate::sheet::*;

pub fn tokens(dice: &mut Dice, options: &mut Options) -> Vec<Token> {
    const ABOUT: &[u8] = &[
        OPEN,
        OPEN,
        OPEN,
        OPEN,
        CLOSE,
        CLOSE,
        CLOSE,
        TOP_LEVEL,
        NO_INDENT,
        NEWLINE,
        NEWLINE_AFTER,
        RESERVED,
        OPERATOR,
        PLACEHOLDER,
        WORD,
        WHITESPACE,
    ];
    options.indent = dice.pick(&[0, 0, 1, 2, 256]);
    options.block = dice.pick(&[0, 0, 3, 40000, 40000]);
    let depth = 122 + dice.below(8);
    let mut tokens = climb(dice, depth);
    for _ in 0..dice.below(30) {
        let kind = dice.pick(ABOUT);
        tokens.push(soup::token(dice, kind));
    }
    let closes = dice.pick(&[0, 1, depth / 2, depth, depth + 3]);
    tokens.extend((0..closes).map(|_| Token::new(CLOSE, ")")));
    tokens
}

/// Brackets alone, or with a top-level word in each or in some: either takes an entry of its own.
fn climb(dice: &mut Dice, depth: usize) -> Vec<Token> {
    let words = dice.pick(&[0, 1, 3]);
    let mut tokens = Vec::new();
    // A previous word that takes no entry: the 129th of them.
    if dice.one_in(2) {
        tokens.push(Token::new(dice.pick(&[RESERVED, NO_INDENT]), "as"));
    }
    let mut entries = 0;
    while entries < depth {
        tokens.push(Token::new(OPEN, "("));
        entries += 1;
        if words > 0 && dice.one_in(words) {
            tokens.push(Token::new(TOP_LEVEL, "SELECT"));
            entries += 1;
        } else if dice.one_in(12) {
            tokens.push(Token::new(WORD, "a"));
        }
    }
    tokens
}
