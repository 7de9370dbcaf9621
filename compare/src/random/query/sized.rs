//! Queries of a given size, for the measure of speed.

use super::Stream;
use crate::random::Dice;
use crate::sheet::*;

/// So many tokens of queries of the usual shape, one after another.
pub fn usual(dice: &mut Dice, size: usize) -> Vec<Token> {
    repeated(dice, size, |stream| stream.statement(0))
}

/// So many tokens of queries within queries, each as deep as the size and the indent stack let it be.
pub fn deep(dice: &mut Dice, size: usize) -> Vec<Token> {
    repeated(dice, size, |stream| stream.nest((size / 12).min(40)))
}

fn repeated(dice: &mut Dice, size: usize, query: impl Fn(&mut Stream)) -> Vec<Token> {
    // A switch would have half of a long sheet copied as it is.
    let mut stream = Stream { dice, tokens: Vec::new(), upper: true, most: size, switches: false };
    while !stream.full() {
        query(&mut stream);
        stream.put(OPERATOR, ";");
        stream.gap();
    }
    stream.tokens.truncate(size);
    stream.tokens
}

impl Stream<'_> {
    fn nest(&mut self, depth: usize) {
        self.word(TOP_LEVEL, "SELECT");
        self.word(WORD, "note");
        self.word(TOP_LEVEL, "FROM");
        if depth == 0 {
            return self.word(WORD, "calls");
        }
        if self.dice.one_in(2) {
            self.put(WORD, "latest");
        }
        self.put(OPEN, "(");
        self.nest(depth - 1);
        self.word(CLOSE, ")");
    }
}
