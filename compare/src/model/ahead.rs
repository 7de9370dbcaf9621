//! What a top-level word and an opening bracket read ahead. Both read the sheet as sent.

use super::layout::Token;
use crate::sheet::{
    BLOCK_COMMENT, CLOSE, LINE_COMMENT, NEWLINE, NEWLINE_AFTER, NO_INDENT, OPEN, OPERATOR,
    TOP_LEVEL, WHITESPACE,
};

pub struct Reading {
    pub full: usize,
    pub blocks: usize,
    pub arguments: usize,
}

/// The span of the word at `at`, the open level being `open`.
pub fn span(tokens: &[Token], at: usize, open: usize) -> Reading {
    let mut reading = Reading { full: 0, blocks: 0, arguments: 0 };
    let mut level = open;
    for token in &tokens[at + 1..] {
        let equal = level == open;
        match (token.kind, token.value) {
            (WHITESPACE, _) => {
                reading.full += 1;
                continue;
            }
            (OPEN, _) => {
                reading.blocks += usize::from(equal);
                level += 1;
            }
            (CLOSE, _) => {
                level = level.saturating_sub(1);
                if level < open {
                    break;
                }
            }
            (TOP_LEVEL | NO_INDENT | NEWLINE_AFTER, _) | (OPERATOR, b";") if equal => break,
            (TOP_LEVEL | NO_INDENT | NEWLINE_AFTER, _) | (OPERATOR, b";") => {}
            (OPERATOR, b",") => reading.arguments += usize::from(equal),
            _ => reading.arguments = reading.arguments.max(1),
        }
        reading.full += token.value.len();
    }
    reading
}

/// What decides if the block that opens at `at` may stand inline.
pub struct Block {
    pub length: usize,
    pub forbidden: bool,
    pub newline_words: bool,
    pub top_level_span: usize,
}

pub fn block(tokens: &[Token], at: usize) -> Block {
    let mut block = Block { length: 0, forbidden: false, newline_words: false, top_level_span: 0 };
    let mut level = 0;
    // The first top-level word of a pair: its level and the length up to its end.
    let mut first: Option<(usize, usize)> = None;
    for token in &tokens[at..] {
        block.length += token.value.len();
        match token.kind {
            OPEN => level += 1,
            CLOSE => {
                level -= 1;
                if level == 0 {
                    break;
                }
            }
            NEWLINE => block.newline_words = true,
            TOP_LEVEL | NO_INDENT => match first {
                None => first = Some((level, block.length)),
                Some((same, from)) if same == level => {
                    block.top_level_span = block.top_level_span.max(block.length - from);
                    first = None;
                }
                Some(_) => {}
            },
            _ => {}
        }
        let comment = token.kind == LINE_COMMENT || token.kind == BLOCK_COMMENT;
        block.forbidden |= comment || token.value == b";";
    }
    block
}
