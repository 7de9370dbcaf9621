//! Tokens by chance: fitting and unfitting values, and mixtures aimed at one part of the layout.

use super::{Dice, Size};
use crate::sheet::*;

/// Fitting values, by kind.
const FITTING: [&[&str]; 17] = [
    &["::int", "::text", "::", "[]", "::numeric(3)"],
    &[" ", " ", " ", "\n", "  ", "\t", "\n\n", " \n ", "\r\n", ""],
    &["'a'", "\"b c\"", "'x\ny'", "''", "`q`", "' ;'"],
    &["AS", "in", "is  null", "Between", "not\tnull", "limit", "LIMIT", "on", " as ", "d\n\nesc"],
    &["SELECT", "from", "WHERE", "order  by", "LIMIT", "limit", "Create\tTable", "insert\ninto"],
    &["UNION", "union  all", "WITH", "Intersect", "except"],
    &["AND", "or", "left  join", "Else", "WHEN", "cross\napply"],
    &["SET", "on  conflict", "Returning", "do\tupdate"],
    &[",", ",", ",", ";", "=", ".", ":", "+", "||", "<", ", "],
    &["(", "(", "(", "(", "[", "case", "CASE", "Case"],
    &[")", ")", ")", ")", "]", "end", "END", "End"],
    COMMENTS,
    &[
        "/* a */",
        "/* a\n  b\n\tc\nd */",
        "/*\n\n*/",
        "/* a\r\n b */",
        "/**/",
        "-- fmt: off",
        "-- fmt: on",
    ],
    &["1", "12", "3.5", "-4", "0x1F"],
    &["?", ":line", "$1", "?1", "@x", "{n}", "?"],
    &["a", "id", "calls", "x_y", "caller_notes", "B"],
    &["join", "LEFT  JOIN", "Inner\njoin"],
];

const COMMENTS: &[&str] = &[
    "-- c",
    "--",
    "# note",
    "-- a\n  b",
    " -- led",
    "-- fmt: off",
    "-- fmt: on",
    "-- fmt: onward",
    "--fmt:OFF",
    "--  FmT  :  oN",
    "-- fmt off",
    "-- fmt: o",
    "-- fmt: of",
    "-- fmt:\toff",
    "-fmt: off",
    " -- fmt: off",
    "-- fmt: offset",
    "---fmt:on",
];

/// Values that any kind may carry.
const ODD: &[&str] = &[
    ",",
    ";",
    ":",
    ".",
    "[",
    "(",
    ")",
    "]",
    "case",
    "END",
    "end",
    "limit",
    "LIMIT",
    "limit ",
    "",
    " ",
    "\n",
    "  \t",
    "a  b",
    "\tQ\nr ",
    "x\n",
    "\nx",
    "-- fmt: off",
    "-- fmt: on",
    "\u{b}\u{c}",
    "\0",
    "\u{7f}",
    "a\u{1f}b",
    "CREATE",
    "ab\rcd",
    ",,",
    "; ",
];

fn value(dice: &mut Dice, kind: u8) -> &'static str {
    if dice.one_in(7) { dice.pick(ODD) } else { dice.pick(FITTING[kind as usize]) }
}

fn key(dice: &mut Dice) -> Key {
    let number = dice.pick(&[0, 0, 1, 1, 2, 3, 4, 5, u32::MAX]);
    match dice.below(5) {
        0 => Key::None,
        1 => Key::Named(dice.pick(NAMES).into()),
        2 => Key::Named(Vec::new()),
        3 => Key::ZeroIndexed(number),
        _ => Key::OneIndexed(number),
    }
}

const NAMES: &[&str] = &["line", "call", "x", "n", "line ", ""];

pub fn token(dice: &mut Dice, kind: u8) -> Token {
    let mut token = Token::new(kind, value(dice, kind));
    if kind == PLACEHOLDER && !dice.one_in(3) || dice.one_in(12) {
        token.key = key(dice);
    }
    token.create = dice.one_in(if kind == TOP_LEVEL { 4 } else { 12 });
    token
}

fn of_kinds(dice: &mut Dice, count: usize, kinds: &[u8]) -> Vec<Token> {
    (0..count)
        .map(|_| {
            let kind = dice.pick(kinds);
            token(dice, kind)
        })
        .collect()
}

pub fn tokens(dice: &mut Dice, count: usize) -> Vec<Token> {
    let kinds: Vec<u8> = (0..17).chain([WHITESPACE, OPERATOR, OPEN, CLOSE, WORD]).collect();
    if dice.one_in(2) {
        return of_kinds(dice, count, &kinds);
    }
    // A few kinds only, so that rare meetings of two kinds come up.
    let few: Vec<u8> = (0..2 + dice.below(4)).map(|_| dice.pick(&kinds)).collect();
    of_kinds(dice, count, &few)
}

pub fn brackets(dice: &mut Dice, count: usize) -> Vec<Token> {
    const KINDS: &[u8] = &[
        OPEN,
        OPEN,
        OPEN,
        OPEN,
        CLOSE,
        CLOSE,
        CLOSE,
        TOP_LEVEL,
        TOP_LEVEL,
        NO_INDENT,
        NEWLINE,
        NEWLINE_AFTER,
        WORD,
        WORD,
        WHITESPACE,
        RESERVED,
        OPERATOR,
        OPERATOR,
        LINE_COMMENT,
    ];
    of_kinds(dice, count, KINDS)
}

pub fn switches(dice: &mut Dice, count: usize) -> Vec<Token> {
    const KINDS: &[u8] = &[
        LINE_COMMENT,
        LINE_COMMENT,
        LINE_COMMENT,
        BLOCK_COMMENT,
        WHITESPACE,
        WHITESPACE,
        WORD,
        PLACEHOLDER,
        PLACEHOLDER,
        PLACEHOLDER,
        PLACEHOLDER,
        OPERATOR,
        OPEN,
        CLOSE,
        TOP_LEVEL,
        NEWLINE,
        RESERVED,
        TYPE_SPECIFIER,
        STRING,
    ];
    of_kinds(dice, count, KINDS)
}

pub fn placeholders(dice: &mut Dice, count: usize) -> Vec<Token> {
    const KINDS: &[u8] = &[
        PLACEHOLDER,
        PLACEHOLDER,
        PLACEHOLDER,
        PLACEHOLDER,
        PLACEHOLDER,
        WHITESPACE,
        OPERATOR,
        LINE_COMMENT,
        WORD,
        OPEN,
        CLOSE,
        NUMBER,
        JOIN,
    ];
    of_kinds(dice, count, KINDS)
}

/// Top-level words right before a block that does not fit: folding, and refusal 8.
pub fn folds(dice: &mut Dice, options: &mut Options, size: Size) -> Vec<Token> {
    const FILL: &[u8] = &[WORD, WHITESPACE, OPEN, CLOSE, NUMBER, TOP_LEVEL, OPERATOR, NEWLINE];
    options.block = dice.pick(&[0, 0, 0, 1, 3]);
    options.top_level = dice.pick(&[0, 0, 0, 1, 3, 5]);
    let mut tokens = Vec::new();
    let rounds = if size == Size::Table { 1 } else { 1 + dice.below(3) };
    for _ in 0..rounds {
        if dice.one_in(3) {
            tokens.push(token(dice, NO_INDENT));
            tokens.push(Token::new(LINE_COMMENT, "-- fmt: on"));
            // Without this one the top-level word itself is dropped: 8 without the alias.
            if dice.one_in(2) {
                let kind = dice.below(17) as u8;
                tokens.push(token(dice, kind));
            }
        }
        let mut top = token(dice, TOP_LEVEL);
        top.create = !dice.one_in(3);
        tokens.push(top);
        if dice.one_in(2) {
            tokens.push(Token::new(WHITESPACE, " "));
        }
        tokens.push(Token::new(OPEN, "("));
        for _ in 0..dice.below(4) {
            let kind = dice.pick(FILL);
            tokens.push(token(dice, kind));
        }
        tokens.push(Token::new(CLOSE, ")"));
    }
    tokens
}

/// Around 128 entries on the indent stack, by brackets and top-level words.
pub fn deep(dice: &mut Dice, options: &mut Options) -> Vec<Token> {
    options.indent = dice.pick(&[0, 0, 1, 2, 256, 255]);
    options.block = dice.pick(&[0, 3, 50, 1000, 40000]);
    let shape = dice.below(4);
    let depth = 118 + dice.below(16);
    let mut tokens = Vec::new();
    if dice.one_in(2) {
        tokens.push(Token::new(TOP_LEVEL, "SELECT"));
    }
    for i in 0..depth {
        let kind = match shape {
            0 => OPEN,
            1 => dice.pick(&[OPEN, OPEN, OPEN, WORD, TOP_LEVEL]),
            2 => [OPEN, TOP_LEVEL][i % 2],
            _ => dice.pick(&[NEWLINE, NEWLINE, NEWLINE, OPEN, WORD, NEWLINE_AFTER]),
        };
        tokens.push(Token::new(kind, dice.pick(&FITTING[kind as usize][..1])));
        if dice.one_in(12) {
            tokens.push(Token::new(WHITESPACE, " "));
        }
    }
    let closes = dice.pick(&[0, 1, depth / 2, depth, depth + 1]);
    tokens.extend((0..closes).map(|_| Token::new(CLOSE, ")")));
    tokens
}

pub fn options(dice: &mut Dice, size: Size) -> Options {
    if dice.one_in(5) {
        return Options::default();
    }
    const LIMITS: &[u32] = &[NONE, NONE, NONE, 0, 0, 1, 3, 5, 10, 20, 50, 5000, NONE - 1];
    let wide = size == Size::Any;
    Options {
        indent: match dice.below(12) {
            0 if wide => 255,
            0 | 1 => 256,
            2..6 => 2,
            _ => dice.below(9) as u32,
        },
        case: dice.below(3) as u32,
        inline: u32::from(dice.one_in(6)),
        lines: if wide && dice.one_in(20) { 255 } else { dice.below(4) as u32 },
        block: dice.pick(&[0, 0, 1, 2, 3, 5, 10, 20, 50, 50, 5000, NONE]),
        arguments: dice.pick(LIMITS),
        top_level: dice.pick(LIMITS),
    }
}

pub fn params(dice: &mut Dice, wanted: bool, most: usize) -> (u32, Vec<Param>) {
    const VALUES: &[&str] = &["7", "12", "'x y'", "", ",", " 3 ", ";", "a\nb", "?"];
    let mode = if wanted { 1 + dice.below(2) } else { dice.below(3) } as u32;
    let count = if mode == MODE_NONE { 0 } else { dice.below(most) };
    let params = (0..count).map(|_| {
        let name = if mode == MODE_NAMED { dice.pick(NAMES) } else { "" };
        Param { name: name.into(), value: dice.pick(VALUES).into() }
    });
    (mode, params.collect())
}

/// Keep words: mostly raw values of tokens that are there, or those with their white joined.
pub fn keep(dice: &mut Dice, tokens: &[Token], most: usize) -> Vec<Vec<u8>> {
    if dice.one_in(2) {
        return Vec::new();
    }
    let count = dice.below(most + 1);
    let mut words = Vec::new();
    for _ in 0..count {
        let raw = match tokens.is_empty() {
            true => Vec::new(),
            false => tokens[dice.below(tokens.len())].value.clone(),
        };
        words.push(match dice.below(6) {
            0 => raw.split(u8::is_ascii_whitespace).collect::<Vec<_>>().join(&b' '),
            1 => raw.to_ascii_uppercase(),
            2 => dice.pick(ODD).into(),
            _ => raw,
        });
    }
    words
}
