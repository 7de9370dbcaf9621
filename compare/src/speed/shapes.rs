//! Sheets of the usual kind: queries alone, and queries that are filled in and cased.

use crate::random::Dice;
use crate::random::query::sized;
use crate::sheet::*;

pub type Maker = fn(&mut Dice, usize) -> Sheet;

pub const SHAPES: [(&str, Maker); 5] = [
    ("realistic", |dice, size| plain(sized::usual(dice, size))),
    ("deep", |dice, size| plain(sized::deep(dice, size))),
    ("indexed", indexed),
    ("named", named),
    ("cased", cased),
];

const NAMES: [&str; 12] = [
    "call_id",
    "line",
    "caller",
    "call_time",
    "desk",
    "station",
    "screener",
    "topic",
    "call_note",
    "region",
    "host_name",
    "line_number",
];
const KEEPS: [&str; 12] =
    ["select", "from", "where", "and", "or", "in", "on", "set", "as", "union all", "case", "end"];

fn plain(tokens: Vec<Token>) -> Sheet {
    Sheet { tokens, ..Sheet::default() }
}

/// Every number and string is a placeholder instead, as `fill` has it.
fn filled(mut tokens: Vec<Token>, mut fill: impl FnMut() -> Token) -> Vec<Token> {
    for token in &mut tokens {
        if [NUMBER, STRING, PLACEHOLDER].contains(&token.kind) {
            *token = fill();
        }
    }
    tokens
}

fn entries() -> Vec<Param> {
    let param = |(i, name): (usize, &&str)| Param {
        name: name.as_bytes().to_vec(),
        value: (48213 + 7 * i).to_string().into(),
    };
    NAMES.iter().enumerate().map(param).collect()
}

/// A quarter of the placeholders have a number, the others take the next entry.
fn indexed(dice: &mut Dice, size: usize) -> Sheet {
    let tokens = sized::usual(dice, size);
    let tokens = filled(tokens, || {
        let key = if dice.one_in(4) {
            Key::OneIndexed(1 + dice.below(NAMES.len()) as u32)
        } else {
            Key::None
        };
        Token { key, ..Token::new(PLACEHOLDER, "?") }
    });
    Sheet { mode: MODE_INDEXED, tokens, params: entries(), ..Sheet::default() }
}

/// One name in thirteen has no entry.
fn named(dice: &mut Dice, size: usize) -> Sheet {
    let tokens = sized::usual(dice, size);
    let tokens = filled(tokens, || {
        let name = NAMES.get(dice.below(NAMES.len() + 1)).unwrap_or(&"unknown");
        let key = Key::Named(name.as_bytes().to_vec());
        Token { key, ..Token::new(PLACEHOLDER, &format!(":{name}")) }
    });
    Sheet { mode: MODE_NAMED, tokens, params: entries(), ..Sheet::default() }
}

/// Words in lower case asked for in upper case, and twelve that stay.
fn cased(dice: &mut Dice, size: usize) -> Sheet {
    let mut tokens = sized::usual(dice, size);
    for token in &mut tokens {
        token.value.make_ascii_lowercase();
    }
    let keep = KEEPS.iter().map(|word| word.as_bytes().to_vec()).collect();
    let options = Options { case: 1, ..Options::default() };
    Sheet { options, tokens, keep, ..Sheet::default() }
}
