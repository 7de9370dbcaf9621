//! Random sheets with their answers, for others to hold a port against.

use std::io::{self, BufWriter, Write};

use crate::check::{measured, peak, room};
use crate::model::{self, Answer, Refusal};
use crate::oracle;
use crate::random::{self, Dice, Inline, Made, Maker, Size};
use crate::show::hex;

const CLAIM: usize = 25;
const LONGEST_SHEET: usize = 400;
const LONGEST_TEXT: usize = 300;

pub struct Row {
    pub bytes: Vec<u8>,
    pub room: usize,
    pub answer: Answer,
}

/// Texts come from the Rust itself, with word 7 at 2 from the model; refusals from the model, with word
/// 7 at 1 refusal 14.
pub fn judged(bytes: &[u8], room: usize) -> Answer {
    let answer = model::answer(bytes, room);
    if matches!(answer, Answer::Refused(_)) || !oracle::judges(bytes) {
        return answer;
    }
    let read = oracle::read(bytes).expect("laid out, so it passed checks 1 to 4");
    let text = read.text().expect("laid out, so the Rust does not panic");
    let (lines, width) = measured(&text);
    Answer::Laid { text, lines, width }
}

pub fn list(n: u64, seed: u64) -> bool {
    let mut out = BufWriter::new(io::stdout().lock());
    let done = (0..n).try_for_each(|turn| {
        let mut dice = Dice::new(seed, turn);
        let Made { bytes, .. } = random::make_any(&mut dice);
        let need = peak(&model::trial(&bytes, model::AMPLE).heights);
        let room = room(&mut dice, need);
        let answer = match judged(&bytes, room) {
            Answer::Laid { text, lines, width } => format!("ok {} {lines} {width}", hex_or(&text)),
            Answer::Refused(Refusal { number, place }) => format!("refused {number} {place}"),
        };
        writeln!(out, "{} {room} {answer}", hex_or(&bytes))
    });
    done.and_then(|()| out.flush()).is_ok()
}

fn hex_or(bytes: &[u8]) -> String {
    if bytes.is_empty() { "-".into() } else { hex(bytes) }
}

/// What a row of the table is to show.
#[derive(Clone, Copy)]
enum Wanted {
    Text,
    Full,
    Nought,
    Below,
    Damaged,
}

/// Twenty rows: 60, 15, 10 and 15 in the hundred.
const MIXTURE: [(Wanted, usize); 5] = [
    (Wanted::Text, 12),
    (Wanted::Full, 3),
    (Wanted::Nought, 1),
    (Wanted::Below, 1),
    (Wanted::Damaged, 3),
];

pub fn row(dice: &mut Dice) -> Row {
    let shares = MIXTURE.iter().flat_map(|&(wanted, share)| vec![wanted; share]);
    let shares: Vec<Wanted> = shares.collect();
    let wanted = dice.pick(&shares);
    until_some(|| attempt(dice, wanted, Inline::Rusts))
}

/// Word 7 at 2, mostly around line comments. Refusal 8 is never given there.
pub fn row_at_two(dice: &mut Dice) -> Row {
    use Wanted::*;
    let wanted = dice.pick(&[Text, Text, Text, Text, Text, Text, Full, Full, Nought, Damaged]);
    until_some(|| attempt(dice, wanted, Inline::Comments))
}

/// A text, most with tabs.
fn row_with_tabs(dice: &mut Dice) -> Row {
    until_some(|| made(dice, Maker::Tabs, Wanted::Text, Inline::Rusts))
}

fn until_some<T>(mut attempt: impl FnMut() -> Option<T>) -> T {
    loop {
        if let Some(made) = attempt() {
            return made;
        }
    }
}

fn attempt(dice: &mut Dice, wanted: Wanted, inline: Inline) -> Option<Row> {
    use Maker::*;
    let at_two = inline == Inline::Comments;
    let maker = match wanted {
        Wanted::Text | Wanted::Full if at_two && !dice.one_in(4) => Comments,
        Wanted::Text => {
            dice.pick(&[Soup, Soup, Brackets, Switch, Placeholders, Folds, Query, Query])
        }
        Wanted::Full => dice.pick(&[Soup, Brackets, Placeholders, Folds, Query]),
        Wanted::Nought => Placeholders,
        Wanted::Below => Folds,
        Wanted::Damaged => dice.pick(&[Damaged, Damaged, Damaged, Flipped]),
    };
    made(dice, maker, wanted, inline)
}

fn made(dice: &mut Dice, maker: Maker, wanted: Wanted, inline: Inline) -> Option<Row> {
    let Made { bytes, .. } = random::make_with(dice, maker, Size::Table, inline);
    let need = peak(&model::trial_with_on(&bytes, model::AMPLE).heights);
    let room = match wanted {
        Wanted::Full => match dice.below(3) {
            0 => dice.below(need),
            less => need.saturating_sub(less),
        },
        Wanted::Damaged => dice.below(64),
        _ => need + dice.pick(&[0, 0, 1, 7, 64]),
    };
    // Chosen as before word 7 at 1 was withdrawn, so that all other rows of the list stay.
    let sent = model::trial_with_on(&bytes, room).answer;
    let short = bytes.len() <= LONGEST_SHEET && need <= LONGEST_TEXT;
    let chosen = short && fits(dice, &sent, wanted);
    chosen.then(|| Row { answer: judged(&bytes, room), bytes, room })
}

fn fits(dice: &mut Dice, answer: &Answer, wanted: Wanted) -> bool {
    let number = match answer {
        Answer::Laid { text, .. } if text.is_empty() && !dice.one_in(8) => return false,
        Answer::Laid { .. } => 0,
        Answer::Refused(refusal) => refusal.number,
    };
    match wanted {
        Wanted::Text => number == 0,
        Wanted::Full => number == 9,
        Wanted::Nought => number == 5,
        Wanted::Below => number == 8,
        Wanted::Damaged => (1..=4).contains(&number),
    }
}

pub fn table(n: usize, seed: u64, first: usize) -> bool {
    let mut dice = Dice::new(seed, 0);
    let one = |i| match i % 6 {
        2 | 5 => row_at_two(&mut dice),
        3 => row_with_tabs(&mut dice),
        _ => row(&mut dice),
    };
    let rows: Vec<Row> = (0..n).map(one).collect();
    let mut out = BufWriter::new(io::stdout().lock());
    let done = opening(&mut out, n, seed).and_then(|()| {
        let mut claims = (first..).zip(rows.chunks(CLAIM));
        claims.try_for_each(|(number, rows)| claim(&mut out, number, rows))
    });
    done.and_then(|()| out.flush()).is_ok()
}

fn opening(out: &mut impl Write, n: usize, seed: u64) -> io::Result<()> {
    writeln!(
        out,
        "-- Random sheets with the Rust's answers, every third at word 7 = 2 with the model's, every sixth with \
         tabs: {n} rows, seed {seed}. Made by compare/; not kept.
use Rattle.std.specs.Prelude.{{◌≡◌, refl, List, [], ◌∷◌, map}}
use Rattle.rules.specs.Bytes.{{bytes}}
use Rattle.rules.specs.Answer.{{Answer, laid, refusal}}
use Rattle.rules.specs.Computed.{{Sample, row, given, wanted, computed}}"
    )
}

fn claim(out: &mut impl Write, number: usize, rows: &[Row]) -> io::Result<()> {
    write!(out, "\nabbrev rows-{number} : List Sample\nrows-{number} =\n    ")?;
    for Row { bytes, room, answer } in rows {
        write!(out, "row \"{}\" {room} ", escaped(bytes))?;
        match answer {
            Answer::Laid { text, lines, width } => {
                write!(out, "(laid (bytes \"{}\") {lines} {width})", escaped(text))?;
            }
            Answer::Refused(Refusal { number, place }) => {
                write!(out, "(refusal {number} {place})")?;
            }
        }
        write!(out, "\n    ∷ ")?;
    }
    writeln!(out, "[]\n\nagree-{number} : map given rows-{number} ≡ map wanted rows-{number}")?;
    writeln!(out, "unfolding computed\nagree-{number} = refl")
}

fn escaped(bytes: &[u8]) -> String {
    let one = |byte: &u8| match byte {
        b'"' => "\\\"".to_owned(),
        b'\\' => "\\\\".to_owned(),
        32..=126 => char::from(*byte).to_string(),
        _ => format!("\\u{{{byte:x}}}"),
    };
    bytes.iter().map(one).collect()
}
