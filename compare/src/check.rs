//! The model held against the Rust, sheet by sheet.

use std::collections::BTreeMap;
use std::fs;

use crate::model::{self, Answer, Refusal, Row, Trial, WORDS};
use crate::oracle::{self, Panic, Read};
use crate::random::{self, Dice, Made, noise, white};
use crate::sheet::{INLINE_COMMENTS, INLINE_ON, NAMES, Reader, Sheet};
use crate::watched;
use crate::{compacted, converted, judged, mended, once, pointed, roomed};
use crate::{show, watched::Height};

#[derive(Default)]
pub struct Tally {
    counts: BTreeMap<(&'static str, String), u64>,
}

impl Tally {
    pub fn add(&mut self, group: &'static str, name: impl Into<String>) {
        self.add_many(group, name, 1);
    }

    fn add_many(&mut self, group: &'static str, name: impl Into<String>, count: u64) {
        *self.counts.entry((group, name.into())).or_default() += count;
    }

    pub fn print(&self) {
        let mut last = "";
        for ((group, name), count) in &self.counts {
            if *group != last {
                println!("{group}:");
                last = group;
            }
            println!("  {name:44} {count}");
        }
    }
}

/// One sheet in so many is cut and drawn out to every length, or tried with every buffer.
const EVERY: u64 = 128;

pub fn run(n: u64, seed: u64) -> bool {
    #[cfg(feature = "call")]
    if let Err(difference) = crate::call::heads_are_right() {
        println!("DIFFERENCE: {difference}");
        return false;
    }
    let mut tally = Tally::default();
    let mut lengths = [0; noise::LONGEST + 1];
    let mut other_text = Vec::new();
    for turn in 0..n {
        let mut dice = Dice::new(seed, turn);
        let made = random::make_any(&mut dice);
        let ample = model::trial(&made.bytes, model::AMPLE);
        let room = room(&mut dice, peak(&ample.heights));
        let compared = tried(&mut tally, &mut dice, &made, &ample, room).and_then(|how| {
            tally.add("h converted", converted::judged(&made.bytes, &ample)?);
            converted::call(&made.bytes)?;
            if turn % EVERY == 0 {
                every_room(&mut tally, &made.bytes, &ample)?;
                every_list(&mut tally, &made.bytes, &ample, room)?;
                every_report(&mut tally, &made.bytes)?;
                every_length(&mut tally, &made)?;
                every_prefix(&mut tally, &made.bytes)?;
            }
            if let Some(twin) = converted::twin(&made, &ample) {
                let how = laid_as_two(&mut tally, &mut dice, &twin)?;
                tally.add("i converted, then compared", how);
            }
            foreign(&mut tally, &mut dice, &made.bytes, &ample, &mut other_text)?;
            Ok(how)
        });
        match compared {
            Ok(how) => note(&mut tally, &made, &ample, &model::answer(&made.bytes, room), how),
            Err(difference) => {
                report(&made, room, seed, turn, &difference);
                return false;
            }
        }
        lengths.get_mut(made.bytes.len()).into_iter().for_each(|met| *met += 1);
        if (turn + 1) % (n / 10).max(1) == 0 {
            eprintln!("{} of {n} sheets", turn + 1);
        }
    }
    tally.print();
    println!("each length from 0 to {} is met {} times or more", noise::LONGEST, least(&lengths));
    let with = [
        (cfg!(feature = "judge"), ", every call too"),
        (cfg!(feature = "convert"), ", every call but the judge of a text too"),
        (cfg!(feature = "mend"), ", every call but the converter too"),
        (cfg!(feature = "room"), ", every call but the mender too"),
        (cfg!(feature = "once"), ", both calls on both engines and the compacting too"),
        (cfg!(feature = "compact"), ", both calls and the compacting too"),
        (cfg!(feature = "rows"), ", both calls too"),
        (cfg!(feature = "call"), ", the call too"),
        (true, ""),
    ];
    let with = with.iter().find(|(linked, _)| *linked).map_or("", |(_, said)| said);
    println!("{n} sheets, seed {seed}{with}: no difference");
    true
}

/// Everything but the converter, on one sheet; says what was compared with the Rust.
fn tried(
    tally: &mut Tally,
    dice: &mut Dice,
    made: &Made,
    ample: &Trial,
    room: usize,
) -> Result<&'static str, String> {
    let (bytes, how) = (&made.bytes, compare(made, ample)?);
    let expected = at_room(ample, room);
    if model::answer(bytes, room) != expected {
        return Err(format!("at {room}, by the heights: {expected:?}"));
    }
    call(bytes, ample, room)?;
    tally.add("a rows judged by", pointed::judged(bytes, ample)?);
    pointed::call(bytes, ample, room)?;
    once::call(bytes, ample, room)?;
    once::call(bytes, ample, peak(&ample.heights))?;
    tally.add("d compacted", compacted::judged(bytes, ample, room)?);
    compacted::call(dice, bytes)?;
    tally.add("e room for the sum", roomed::judged(bytes, ample)?);
    roomed::call(bytes, ample)?;
    let mended = mended::judged(bytes, ample)?;
    tally.add("f mended", mended.how);
    mended.changed.iter().for_each(|word| tally.add("g changed", *word));
    mended::call(bytes)?;
    Ok(how)
}

/// A converted sheet: all that is asked of a sheet with word 7 at 2.
fn laid_as_two(tally: &mut Tally, dice: &mut Dice, twin: &Made) -> Result<&'static str, String> {
    let ample = model::trial(&twin.bytes, model::AMPLE);
    let room = room(dice, peak(&ample.heights));
    tried(tally, dice, twin, &ample, room).map_err(|said| format!("converted: {said}"))
}

/// Texts of another formatter for this sheet, which layout may refuse.
fn foreign(
    tally: &mut Tally,
    dice: &mut Dice,
    bytes: &[u8],
    ample: &Trial,
    other: &mut Vec<u8>,
) -> Result<(), String> {
    for judged::Told { text, verdict } in judged::judged(dice, bytes, other)? {
        tally.add("j texts judged", format!("{text}: {verdict}"));
        tally.add("k judged where layout gives", format!("{}: {verdict}", outcome(&ample.answer)));
        tally.add("l verdicts", verdict);
    }
    Ok(())
}

fn least(counts: &[u64]) -> u64 {
    counts.iter().copied().min().unwrap_or(0)
}

pub fn peak(heights: &[Height]) -> usize {
    heights.iter().map(|height| height.peak).max().unwrap_or(0)
}

/// A buffer around the need, or far from it.
pub fn room(dice: &mut Dice, need: usize) -> usize {
    match dice.below(12) {
        0..3 => need,
        3 | 4 => need.saturating_sub(1),
        5 => need + 1,
        6 => dice.below(3),
        7 => dice.below(need),
        8 => need.saturating_sub(dice.below(8)),
        _ => 65536,
    }
}

/// Holds the model's answer at an ample buffer against the Rust; says what was compared.
fn compare(made: &Made, ample: &Trial) -> Result<&'static str, String> {
    if let Some(expected) = made.expected {
        let same = ample.answer == Answer::Refused(expected);
        return same.then_some("refusal put in").ok_or(format!("put in: {expected:?}"));
    }
    if let Answer::Refused(Refusal { number: 1..=4, .. }) = ample.answer {
        let chance = made.sheet.is_none();
        return chance.then_some("none: by chance").ok_or("a whole sheet is refused".into());
    }
    if made.sheet.is_some() && made.sheet != Sheet::decode(&made.bytes) {
        return Err("decoded otherwise than encoded".into());
    }
    match oracle::inline(&made.bytes) {
        Some(INLINE_ON) if ample.answer == converted::WITHDRAWN => Ok("none: word 7 at 1"),
        Some(INLINE_ON) => Err("word 7 is 1, and it is not refused".into()),
        Some(INLINE_COMMENTS) => beside_on(&made.bytes, ample),
        _ => against_rust(&made.bytes, ample),
    }
}

fn against_rust(bytes: &[u8], ample: &Trial) -> Result<&'static str, String> {
    let read = oracle::read(bytes).ok_or("cannot be read")?;
    match &ample.answer {
        Answer::Laid { text, lines, width } => {
            let rust = read.text().map_err(|panic| format!("Rust: {panic:?}"))?;
            if rust != *text || measured(&rust) != (*lines, *width) {
                return Err(format!("the texts, the lines or the widths: {:?}", measured(&rust)));
            }
            heights(&read, &ample.heights).map(|()| "text and heights")
        }
        Answer::Refused(Refusal { number: 5, place }) => {
            panics(&read, Panic::OneIndexedNought, *place, &ample.heights)
        }
        Answer::Refused(Refusal { number: 8, place }) => {
            panics(&read, Panic::IndentBelowNought, *place, &ample.heights)
        }
        Answer::Refused(Refusal { place, .. }) => before_refusal(&read, *place, &ample.heights),
    }
}

/// Word 7 at 2 is not the Rust's, but inline on is. Only white bytes may differ, and none where no line
/// comment is laid out; refusals do not, at an ample buffer.
fn beside_on(bytes: &[u8], two: &Trial) -> Result<&'static str, String> {
    let mut bytes = bytes.to_vec();
    bytes[28..32].copy_from_slice(&INLINE_ON.to_le_bytes());
    let on = model::trial_with_on(&bytes, model::AMPLE);
    against_rust(&bytes, &on).map_err(|said| format!("inline on for 2: {said}"))?;
    watched_rows(&bytes, &on).map_err(|said| format!("inline on for 2: {said}"))?;
    let told = |how: &'static str, same: bool| {
        same.then_some(how).ok_or(format!("with inline on it is {}", show::answer(&on.answer)))
    };
    if !two.handlers.contains(&"line comment") {
        let same = two.answer == on.answer && two.heights == on.heights && two.rows == on.rows;
        return told("the Rust's inline on: all", same);
    }
    match (&on.answer, &two.answer) {
        (Answer::Laid { text: on, .. }, Answer::Laid { text: two, .. }) => {
            told("the Rust's inline on: all but white", solid(on).eq(solid(two)))
        }
        (on, two) => told("the Rust's inline on: refusal", on == two),
    }
}

/// The rows of a text that is laid out with inline on.
fn watched_rows(bytes: &[u8], on: &Trial) -> Result<(), String> {
    if !matches!(on.answer, Answer::Laid { .. }) {
        return Ok(());
    }
    let rows = oracle::read(bytes).and_then(|read| read.rows());
    let same = rows.as_ref() == Some(&on.rows);
    same.then_some(()).ok_or_else(|| format!("rows, watched Rust {rows:?}"))
}

fn solid(text: &[u8]) -> impl Iterator<Item = &u8> {
    text.iter().filter(|&byte| !white::is_white(std::slice::from_ref(byte)))
}

/// Lines and width read off the Rust's text by other means than the model's.
pub fn measured(text: &[u8]) -> (usize, usize) {
    if text.is_empty() {
        return (0, 0);
    }
    let widths: Vec<usize> = text.split(|&b| b == b'\n').map(columns).collect();
    (widths.len(), widths.into_iter().max().unwrap_or(0))
}

/// Each cell but the last ends at a stop, so it starts at one and fills whole stops.
pub fn columns(line: &[u8]) -> usize {
    let cells: Vec<usize> = line.split(|&b| b == b'\t').map(<[u8]>::len).collect();
    let stopped: usize = cells[..cells.len() - 1].iter().map(|cell| cell - cell % 8 + 8).sum();
    stopped + cells[cells.len() - 1]
}

fn heights(read: &Read, model: &[Height]) -> Result<(), String> {
    let rust = read.heights().map_err(|panic| format!("watched Rust: {panic:?}"))?;
    if rust == model {
        return Ok(());
    }
    let at = rust.iter().zip(model).position(|(r, m)| r != m);
    Err(format!("heights: {:?}", at.map(|i| ("Rust", rust[i], "model", model[i]))))
}

fn panics(
    read: &Read,
    panic: Panic,
    place: usize,
    model: &[Height],
) -> Result<&'static str, String> {
    let plain = read.text().err();
    let watched = read.heights().err();
    if plain.as_ref() != Some(&panic) || watched != plain {
        return Err(format!("Rust should panic by {panic:?}: {plain:?}, watched {watched:?}"));
    }
    if watched::token() != place {
        return Err(format!("the Rust panics at token {}", watched::token()));
    }
    before(&watched::left(), model).map(|()| "panic, its token, heights before it")
}

/// Refusal 6 is not the Rust's; what was laid out before it is, and a panic that the
/// Rust has for another token must come later.
fn before_refusal(read: &Read, place: usize, model: &[Height]) -> Result<&'static str, String> {
    match read.heights() {
        Ok(rust) => before(&rust, model).map(|()| "heights before 6"),
        Err(panic) if matches!(panic, Panic::Other(_)) || watched::token() <= place => {
            Err(format!("the Rust panics at token {} by {panic:?}", watched::token()))
        }
        Err(_) => before(&watched::left(), model).map(|()| "heights before 6, a panic later"),
    }
}

/// The heights of all tokens but the refused one, which is the model's last.
fn before(rust: &[Height], model: &[Height]) -> Result<(), String> {
    let before = model.len() - 1;
    let same = rust.get(..before) == model.get(..before);
    same.then_some(()).ok_or("heights before the refusal".into())
}

/// The answer at this buffer, worked out again from the heights at an ample one.
pub fn at_room(ample: &Trial, room: usize) -> Answer {
    match ample.heights.iter().find(|height| height.peak > room) {
        Some(height) => Answer::Refused(Refusal { number: 9, place: height.token }),
        None => ample.answer.clone(),
    }
}

/// The proved call at one buffer; the model alone where it is not linked.
pub fn call_at(bytes: &[u8], ample: &Trial, room: usize) -> Result<(), String> {
    #[cfg(feature = "call")]
    let (whose, got) = ("call", crate::call::answer(bytes, room)?);
    #[cfg(not(feature = "call"))]
    let (whose, got) = ("model", model::answer(bytes, room));
    let same = got == at_room(ample, room);
    same.then_some(()).ok_or_else(|| format!("the {whose} at {room}: {}", show::answer(&got)))
}

/// At this buffer and at those around the need.
fn call(bytes: &[u8], ample: &Trial, room: usize) -> Result<(), String> {
    let need = peak(&ample.heights);
    let rooms = [room, need, need.saturating_sub(1), need + 1];
    rooms.into_iter().try_for_each(|room| call_at(bytes, ample, room))
}

/// Buffers of every length from 0 up, where the need is small.
fn every_room(tally: &mut Tally, bytes: &[u8], ample: &Trial) -> Result<(), String> {
    let rooms = peak(&ample.heights) + 8;
    if rooms > 400 {
        return Ok(());
    }
    tally.add("7 tried throughout", "sheets with every buffer");
    tally.add_many("7 tried throughout", "buffers", rooms as u64 + 1);
    let words = WORDS * ample.placeholders;
    (0..=rooms).try_for_each(|room| {
        call_at(bytes, ample, room)?;
        pointed::call_at(bytes, ample, room, words)
    })
}

/// Lists of every length from 0 up, where few words are needed.
fn every_list(tally: &mut Tally, bytes: &[u8], ample: &Trial, room: usize) -> Result<(), String> {
    let most = WORDS * ample.placeholders + 8;
    if most > 200 {
        return Ok(());
    }
    tally.add("7 tried throughout", "sheets with every list");
    tally.add_many("7 tried throughout", "lists", most as u64 + 1);
    (0..=most).try_for_each(|words| pointed::call_at(bytes, ample, room, words))
}

/// Reports of every length from 0 up, where few words are needed.
fn every_report(tally: &mut Tally, bytes: &[u8]) -> Result<(), String> {
    let most = mended::need(bytes) + 8;
    if most > 200 {
        return Ok(());
    }
    tally.add("7 tried throughout", "sheets with every report");
    tally.add_many("7 tried throughout", "reports", most as u64 + 1);
    (0..=most).try_for_each(|words| mended::call_at(bytes, words))
}

/// A whole sheet cut to every length, and drawn out: by document 01 its size is then wrong.
fn every_length(tally: &mut Tally, made: &Made) -> Result<(), String> {
    let (whole, longest) = (made.bytes.len(), made.bytes.len() + 64);
    if made.sheet.is_none() || whole > 4000 {
        return Ok(());
    }
    tally.add("7 tried throughout", "sheets of every length");
    tally.add_many("7 tried throughout", "lengths", longest as u64);
    let bytes: Vec<u8> = made.bytes.iter().copied().cycle().take(longest).collect();
    let refused = Trial::refused(Refusal { number: 1, place: 0 });
    let mut others = (0..=longest).filter(|&length| length != whole);
    others.try_for_each(|length| {
        let cut = &bytes[..length];
        if model::answer(cut, 0) != refused.answer {
            return Err(format!("the model, cut to {length}"));
        }
        let told = |said| format!("cut to {length}: {said}");
        call_at(cut, &refused, length % 70).map_err(told)?;
        pointed::call_at(cut, &refused, length % 70, length % 12).map_err(told)?;
        mended::call_at(cut, length % 12).map_err(told)?;
        judged::call(cut, &bytes[..length % 12]).map_err(told)
    })
}

/// The Rust laid out with growing prefixes of the tokens, where they are few.
fn every_prefix(tally: &mut Tally, bytes: &[u8]) -> Result<(), String> {
    let few = Reader::new(bytes).is_some_and(|reader| reader.head.tokens <= 200);
    if !few || model::check(bytes).is_err() {
        return Ok(());
    }
    let prefixes = judged::by_prefixes(bytes)?;
    tally.add("7 tried throughout", "sheets with every prefix");
    tally.add_many("7 tried throughout", "prefixes", prefixes as u64);
    Ok(())
}

fn note(tally: &mut Tally, made: &Made, ample: &Trial, answer: &Answer, how: &'static str) {
    tally.add("0 word 7", word_7(&made.bytes, &ample.answer));
    tally.add("1 makers", made.maker);
    tally.add("2 compared with the Rust", how);
    tally.add("3 answers at an ample buffer", outcome(&ample.answer));
    tally.add("4 answers at the buffer tried", outcome(answer));
    for handler in &ample.handlers {
        tally.add("5 handlers", *handler);
    }
    if let Some(sheet) = &made.sheet {
        for token in &sheet.tokens {
            let kind = NAMES[token.kind as usize];
            tally.add("6 kinds", kind);
            match token.value.as_slice() {
                [] => tally.add("8 empty values", kind),
                value if white::is_white(value) => tally.add("9 all white values", kind),
                _ => {}
            }
        }
        ample.rows.iter().for_each(|row| note_row(tally, sheet, row));
    }
    if let Answer::Laid { text, width, .. } = &ample.answer {
        note_tabs(tally, text, *width);
    }
}

fn note_tabs(tally: &mut Tally, text: &[u8], width: usize) {
    let lines = || text.split(|&b| b == b'\n');
    let longest = lines().map(<[u8]>::len).max().unwrap_or(0);
    let mut add = |met: bool, what: &'static str| {
        if met {
            tally.add("c tabs", what);
        }
    };
    let stops =
        |at: usize| move |line: &[u8]| line.get(at) == Some(&b'\t') && !line[..at].contains(&b'\t');
    add(text.contains(&b'\t'), "texts with a tab");
    add(width > longest, "wider than the longest line in bytes");
    add(
        lines().any(|line| columns(line) > line.len() && columns(line) < width),
        "a line with a tab, not the widest",
    );
    add(
        lines().any(|line| line.ends_with(b"\t") && columns(line) == width),
        "a tab at the end of the widest line",
    );
    add(lines().any(stops(7)), "a first tab at column 7");
    add(lines().any(stops(8)), "a first tab at column 8");
}

fn note_row(tally: &mut Tally, sheet: &Sheet, row: &Row) {
    let mut add = |met: bool, what: &'static str| {
        if met {
            tally.add("b rows", what);
        }
    };
    let own = &sheet.tokens[row.token].value;
    let value = row.entry.map_or(own, |entry| &sheet.params[entry].value);
    add(true, "rows");
    add(row.entry.is_none(), "of the token's own value");
    add(row.entry.is_some() && value == own, "of an entry that equals it");
    add(value.is_empty(), "of an empty value");
    add(!value.is_empty() && white::is_white(value), "of a white value");
    add(row.survived == 0 && !value.is_empty(), "of which nothing is left");
    add(row.survived > 0 && row.survived < value.len(), "of which some is left");
    add(*row == Row { token: 0, entry: Some(0), before: 0, survived: 0 }, "of five zero words");
}

/// Its value, where the sheet passes checks 1 to 4.
fn word_7(bytes: &[u8], ample: &Answer) -> String {
    match (ample, Reader::new(bytes)) {
        (Answer::Refused(Refusal { number: 1..=4, .. }), _) | (_, None) => "refused".into(),
        (_, Some(reader)) => format!("at {}", reader.head.options.inline),
    }
}

pub fn outcome(answer: &Answer) -> String {
    match answer {
        Answer::Laid { .. } => "text".into(),
        Answer::Refused(refusal) => format!("refusal {}", refusal.number),
    }
}

fn report(made: &Made, room: usize, seed: u64, turn: u64, difference: &str) {
    println!("DIFFERENCE, sheet {turn} of seed {seed} ({}): {difference}", made.maker);
    print!("{}", show::sheet(&made.bytes));
    for room in [room, model::AMPLE] {
        println!("model at {room}: {}", show::answer(&model::answer(&made.bytes, room)));
    }
    println!("Rust: {}", show::rust(&made.bytes));
    let file = format!("difference-{seed}-{turn}.sheet");
    match fs::write(&file, &made.bytes) {
        Ok(()) => println!("saved as {file}"),
        Err(error) => println!("{file} could not be saved: {error}"),
    }
}
