//! Document 02, Wish 14: pairs of sheets that read the same but for their parameters' values. What is left of
//! both texts without the entries' stretches must be the same, and so must the rows' tokens and entries.

use std::fs;

use crate::check::Tally;
use crate::model::{self, Answer, Row, Trial};
use crate::oracle;
use crate::random::{self, Dice, Inline, Maker, Size, white::is_white};
use crate::sheet::*;
use crate::show;

const MAKERS: &[Maker] = &[
    Maker::Values,
    Maker::Values,
    Maker::Values,
    Maker::Placeholders,
    Maker::Placeholders,
    Maker::Switch,
    Maker::Query,
    Maker::Query,
    Maker::Comments,
    Maker::Folds,
    Maker::Brackets,
    Maker::Soup,
    Maker::White,
    Maker::Tabs,
];

/// No white byte first or last, and none is empty.
const VALUES: &[&str] = &[
    "7",
    "48213",
    ";",
    ",",
    ".",
    ":",
    "--",
    "-- c",
    "-- fmt: off",
    "/* c\n   d */",
    "(",
    ")",
    "END",
    "SELECT",
    "AND",
    "is  null",
    "'x\ny'",
    "a\nb",
    "a\n\n\nb",
    "a\tb",
    "a;b",
    "a,\tb;\n-- c",
    "x\r\n\u{b}\u{c}y",
    "\0",
    "\u{7f}",
    "?",
    ":line",
];

/// What the wish asks of the values. A run without one of these shows whether it is needed, and that the comparison
/// finds differences.
#[derive(Clone, Copy, PartialEq, Eq)]
pub enum Premise {
    NotEmpty,
    NoWhiteFirst,
    NoWhiteLast,
}

pub fn premise(name: &str) -> Option<Premise> {
    match name {
        "empty" => Some(Premise::NotEmpty),
        "first" => Some(Premise::NoWhiteFirst),
        "last" => Some(Premise::NoWhiteLast),
        _ => None,
    }
}

fn trimmed(value: &[u8]) -> Option<Vec<u8>> {
    let solid = |byte: &u8| !is_white(&[*byte]);
    let (start, end) = (value.iter().position(solid)?, value.iter().rposition(solid)?);
    Some(value[start..=end].to_vec())
}

/// One of the above, what a token shows of its own, or a long note.
fn value(dice: &mut Dice, tokens: &[Token]) -> Vec<u8> {
    match dice.below(8) {
        0 => tokens.get(dice.below(tokens.len())).and_then(|token| trimmed(&token.value)),
        1 => Some(b"a".repeat(1 + dice.below(90))),
        2 => {
            let parts: Vec<&str> = (0..2 + dice.below(12)).map(|_| dice.pick(VALUES)).collect();
            Some(parts.join(dice.pick(&["", " ", "\n", "\t"])).into())
        }
        _ => None,
    }
    .unwrap_or_else(|| dice.pick(VALUES).into())
}

fn without(dice: &mut Dice, dropped: Option<Premise>, value: Vec<u8>) -> Vec<u8> {
    const WHITE: [&[u8]; 6] = [b" ", b"\n", b"\t", b" \n", b"\r\n", b"\x0b\x0c"];
    let white = dice.pick(&WHITE);
    match dropped.filter(|_| dice.one_in(2)) {
        None => value,
        Some(Premise::NotEmpty) => Vec::new(),
        Some(Premise::NoWhiteFirst) => [white, &value].concat(),
        Some(Premise::NoWhiteLast) => [&value, white].concat(),
    }
}

/// A sheet with entries, and with placeholders for some of its tokens.
fn sheet(dice: &mut Dice) -> Sheet {
    let maker = if dice.one_in(200) { Maker::Deep } else { dice.pick(MAKERS) };
    let made = random::make_with(dice, maker, Size::Any, Inline::Any);
    let mut sheet = made.sheet.expect("these makers make whole sheets");
    sheet.options.inline = dice.pick(&[INLINE_OFF, INLINE_OFF, INLINE_COMMENTS]);
    if sheet.mode == MODE_NONE {
        sheet.mode = dice.pick(&[MODE_INDEXED, MODE_NAMED]);
    }
    for token in &mut sheet.tokens {
        if dice.one_in(6) {
            token.kind = PLACEHOLDER;
        }
        // Refusal 5 would be met by both.
        if token.key == Key::OneIndexed(0) && !dice.one_in(20) {
            token.key = Key::OneIndexed(1);
        }
    }
    for _ in sheet.params.len()..1 + dice.below(6) {
        let name = sheet.tokens.get(dice.below(2 * sheet.tokens.len()));
        let name = match name.map(|token| &token.key) {
            Some(Key::Named(name)) if sheet.mode == MODE_NAMED => name.clone(),
            _ => Vec::new(),
        };
        sheet.params.push(Param { name, value: Vec::new() });
    }
    sheet
}

/// Two of them, that differ in the values alone; the places of the bodies may lie otherwise too.
fn pair(dice: &mut Dice, dropped: Option<Premise>) -> [Vec<u8>; 2] {
    let sheet = sheet(dice);
    let mut valued = |dropped| {
        let mut sheet = sheet.clone();
        for param in &mut sheet.params {
            let value = value(dice, &sheet.tokens);
            param.value = without(dice, dropped, value);
        }
        random::encode(dice, &sheet)
    };
    [valued(dropped), valued(None)]
}

/// A text with its rows, from whichever engine.
struct Laid {
    text: Vec<u8>,
    rows: Vec<Row>,
}

impl Laid {
    /// What is left without the stretches that are listed with an entry.
    fn left(&self) -> Vec<u8> {
        let mut left = Vec::new();
        let mut from = 0;
        for row in self.rows.iter().filter(|row| row.entry.is_some()) {
            left.extend(&self.text[from..row.before]);
            from = row.before + row.survived;
        }
        left.extend(&self.text[from..]);
        left
    }

    fn sources(&self) -> impl Iterator<Item = (usize, Option<usize>)> {
        self.rows.iter().map(|row| (row.token, row.entry))
    }
}

fn alike(whose: &str, [one, other]: &[Laid; 2]) -> Result<(), String> {
    let left = [one.left(), other.left()];
    if left[0] != left[1] {
        let [one, other] = left.map(|left| show::quoted(&left));
        return Err(format!("{whose}: left {one} and {other}"));
    }
    let same = one.sources().eq(other.sources());
    same.then_some(()).ok_or_else(|| {
        let [one, other] = [one, other].map(|laid| show::rows(&laid.rows));
        format!("{whose}: rows {one} and {other}")
    })
}

fn by_model(trial: &Trial) -> Option<Laid> {
    match &trial.answer {
        Answer::Laid { text, .. } => Some(Laid { text: text.clone(), rows: trial.rows.clone() }),
        Answer::Refused(_) => None,
    }
}

/// Word 7 at 0 alone is the Rust's.
fn by_rust(bytes: &[u8]) -> Option<Laid> {
    let read = oracle::read(bytes).filter(|_| oracle::judges(bytes))?;
    Some(Laid { text: read.text().ok()?, rows: read.rows()? })
}

/// Both engines, each with its list, and both without one: the same text.
#[cfg(feature = "once")]
fn by_calls(bytes: &[u8], trial: &Trial) -> Result<[Laid; 2], String> {
    use crate::model::WORDS;
    use crate::{call, once::TABLE};
    let room = 2 * crate::check::peak(&trial.heights) + 64;
    let words = WORDS * trial.placeholders;
    let table = TABLE * bytes[..4].iter().rev().fold(0, |n, &byte| 256 * n + usize::from(byte));
    let listed = [call::listed(bytes, room, words)?, call::listed_once(bytes, room, words, table)?];
    let plain = [call::answer(bytes, room)?, call::once(bytes, room, table)?];
    let laid = |(listed, plain): (model::Listed, Answer)| match (&listed.answer, &plain) {
        (Answer::Laid { text, .. }, _) if listed.answer == plain => {
            let rows = listed.list.chunks_exact(WORDS).map(|row| Row {
                token: row[0] as usize,
                entry: (row[1] != u32::MAX).then_some(row[1] as usize),
                before: row[2] as usize + ((row[3] as usize) << 32),
                survived: row[4] as usize,
            });
            Ok(Laid { text: text.clone(), rows: rows.collect() })
        }
        _ => {
            Err(format!("the calls: {} and {}", show::answer(&listed.answer), show::answer(&plain)))
        }
    };
    let ([one, two], [plain, once]) = (listed, plain);
    Ok([laid((one, plain))?, laid((two, once))?])
}

/// The model, the Rust and the calls, one after another.
fn compared(tally: &mut Tally, pair: &[Vec<u8>; 2], trials: &[Trial; 2]) -> Result<(), String> {
    let [Some(one), Some(other)] = trials.each_ref().map(by_model) else {
        let refused = trials.each_ref().map(|trial| crate::check::outcome(&trial.answer));
        tally.add("0 not laid out", refused.join(", "));
        return Ok(());
    };
    let laid = [one, other];
    note(tally, pair, &laid);
    alike("model", &laid)?;
    if let [Some(one), Some(other)] = pair.each_ref().map(|bytes| by_rust(bytes)) {
        tally.add("2 held to", "the Rust too");
        alike("Rust", &[one, other])?;
    }
    #[cfg(feature = "once")]
    {
        let [one, other] = [0, 1].map(|i| by_calls(&pair[i], &trials[i]));
        let ([plain, once], [other_plain, other_once]) = (one?, other?);
        tally.add("2 held to", "the four calls too");
        alike("the plain calls", &[plain, other_plain])?;
        alike("the calls that read ahead once", &[once, other_once])?;
    }
    Ok(())
}

fn note(tally: &mut Tally, pair: &[Vec<u8>; 2], laid: &[Laid; 2]) {
    let group = "1 both laid out";
    let mut add = |met: bool, what: &str| {
        if met {
            tally.add(group, what);
        }
    };
    let [one, other] = laid;
    let entries = one.rows.iter().filter(|row| row.entry.is_some()).count();
    let feeds = |laid: &Laid| laid.text.iter().filter(|&&byte| byte == b'\n').count();
    let head = Reader::new(&pair[0]).map(|reader| reader.head);
    let mode = head.as_ref().map(|head| head.mode);
    let inline = head.map(|head| head.options.inline);
    add(true, "pairs");
    add(entries > 0, "with an entry in the rows");
    add(entries > 1, "with several");
    add(one.rows.len() > entries, "with a row of a token's own value");
    add(one.text != other.text, "with other texts");
    add(one.text.len() != other.text.len(), "with texts of other lengths");
    add(feeds(one) != feeds(other), "with another number of lines");
    add(mode == Some(MODE_INDEXED), "Indexed");
    add(mode == Some(MODE_NAMED), "Named");
    add(entries > 0 && mode == Some(MODE_NAMED), "Named, with an entry in the rows");
    add(inline == Some(INLINE_OFF), "word 7 at 0");
    add(inline == Some(INLINE_COMMENTS), "word 7 at 2");
}

/// Stops at the first pair that differs. With a premise dropped it goes on and counts them, and it fails if there is none.
pub fn run(n: u64, seed: u64, dropped: Option<Premise>) -> bool {
    let mut tally = Tally::default();
    let mut differ = 0;
    for turn in 0..n {
        let pair = pair(&mut Dice::new(seed, turn), dropped);
        let trials = pair.each_ref().map(|bytes| model::trial(bytes, model::AMPLE));
        if let Err(said) = compared(&mut tally, &pair, &trials) {
            differ += 1;
            if differ == 1 {
                report(seed, turn, &pair, &trials, &said);
            }
            if dropped.is_none() {
                return false;
            }
        }
        if (turn + 1) % (n / 10).max(1) == 0 {
            eprintln!("{} of {n} pairs", turn + 1);
        }
    }
    tally.print();
    match dropped {
        None => println!("{n} pairs, seed {seed}: no difference"),
        Some(_) => println!("{n} pairs, seed {seed}, a premise dropped: {differ} differ"),
    }
    dropped.is_none() || differ > 0
}

fn report(seed: u64, turn: u64, pair: &[Vec<u8>; 2], trials: &[Trial; 2], said: &str) {
    println!("DIFFERENCE, pair {turn} of seed {seed}, {said}");
    for (i, (bytes, trial)) in pair.iter().zip(trials).enumerate() {
        print!("{}", show::sheet(bytes));
        println!("model: {}\nrows: {}", show::answer(&trial.answer), show::rows(&trial.rows));
        let file = format!("difference-{seed}-{turn}-{i}.sheet");
        match fs::write(&file, bytes) {
            Ok(()) => println!("saved as {file}"),
            Err(error) => println!("{file} could not be saved: {error}"),
        }
    }
}
