//! Rows: the model's held to itself and to the Rust, and the second call held to the model's.

use crate::check::{at_room, peak};
use crate::model::{self, Answer, Listed, Refusal, Row, Trial, WORDS};
use crate::oracle;
use crate::random::white::is_white;
use crate::sheet::{PLACEHOLDER, Reader, Sheet, in_turn};
use crate::show;

/// Holds the rows of a text to all that can be said of them; says who judged.
pub fn judged(bytes: &[u8], ample: &Trial) -> Result<&'static str, String> {
    let Answer::Laid { text, .. } = &ample.answer else {
        return Ok("no text");
    };
    let told = |what: &str| format!("rows, {what}: {}", show::rows(&ample.rows));
    in_order(bytes, ample).map_err(told)?;
    let stretches = ample.stretches.iter().map(|stretch| (stretch.start, stretch.end));
    let rows = ample.rows.iter().map(|row| (row.before, row.before + row.survived));
    if !stretches.eq(rows) {
        return Err(told(&format!("by clipping {:?}", ample.stretches)));
    }
    let rust = oracle::judges(bytes);
    if rust {
        let watched = oracle::read(bytes).and_then(|read| read.rows());
        if watched.as_ref() != Some(&ample.rows) {
            let watched = watched.map(|rows| show::rows(&rows));
            return Err(told(&format!("watched Rust {watched:?}")));
        }
    }
    let lettered = by_letters(bytes, &ample.rows, text).map_err(|said| told(&said))?;
    Ok(match (ample.rows.is_empty(), rust, lettered) {
        (true, ..) => "no rows",
        (_, true, true) => "the watched Rust, the Rust with letters",
        (_, true, false) => "the watched Rust",
        (_, false, true) => "word 7 at 2: the model with letters",
        (_, false, false) => "word 7 at 2: the model alone",
    })
}

/// A row for each placeholder laid out, the tokens rising; by token 0 a host counts the rows.
fn in_order(bytes: &[u8], ample: &Trial) -> Result<(), &'static str> {
    let rows = &ample.rows;
    if rows.len() != ample.placeholders {
        return Err("another number than the switch gives");
    }
    if rows.windows(2).any(|two| two[0].token >= two[1].token) {
        return Err("tokens that do not rise");
    }
    let first = Reader::new(bytes).filter(|reader| reader.head.tokens > 0);
    let kind = first.and_then(|mut reader| reader.token()).map(|token| token.kind);
    let from_nought = rows.first().is_some_and(|row| row.token == 0);
    let same = from_nought == (kind == Some(PLACEHOLDER));
    same.then_some(()).ok_or("token 0 and the first row")
}

/// Lays the sheet out again with letters for the parameters: each entry's bytes that are not white
/// become one letter that the text has not, and so do the values that tokens show of their own. What
/// changes in the text must be what the rows name. `false` if there is no letter, or no such sheet.
fn by_letters(bytes: &[u8], rows: &[Row], text: &[u8]) -> Result<bool, String> {
    let letters = (0..128).filter(|byte| !is_white(&[*byte]) && !text.contains(byte));
    let letters: Vec<u8> = letters.collect();
    let mut sources: Vec<Option<usize>> = rows.iter().map(|row| row.entry).collect();
    sources.sort();
    sources.dedup();
    for some in sources.chunks(letters.len().max(1)) {
        let letter = |source| some.iter().position(|&s| s == source).and_then(|i| letters.get(i));
        let sheet = Sheet::decode(bytes).ok_or("cannot be read")?;
        let (changed, wanted) = lettered(sheet, rows, text, |source| letter(source).copied());
        let Some(got) = laid(&changed) else {
            return Ok(false);
        };
        if got != wanted {
            let [got, wanted] = [got, wanted].map(|text| show::quoted(&text));
            return Err(format!("lettered {got}, by the rows {wanted}"));
        }
    }
    Ok(!letters.is_empty())
}

/// The sheet with letters, and the text that the rows say it has.
fn lettered(
    mut sheet: Sheet,
    rows: &[Row],
    text: &[u8],
    letter: impl Fn(Option<usize>) -> Option<u8>,
) -> (Sheet, Vec<u8>) {
    let mut wanted = text.to_vec();
    for row in rows {
        let own = &mut sheet.tokens[row.token].value;
        // These two are read by other tokens too.
        let read = row.entry.is_none() && (own == b"," || own == b";");
        let Some(letter) = letter(row.entry).filter(|_| !read) else {
            continue;
        };
        let value = row.entry.map_or(own, |entry| &mut sheet.params[entry].value);
        for byte in value.iter_mut().chain(&mut wanted[row.before..row.before + row.survived]) {
            *byte = if is_white(&[*byte]) { *byte } else { letter };
        }
    }
    (sheet, wanted)
}

/// By the Rust, or with word 7 at 2 by the model; `None` if the bodies are too long for a sheet.
fn laid(sheet: &Sheet) -> Option<Vec<u8>> {
    let bytes = sheet.encode(&mut in_turn);
    if oracle::judges(&bytes) {
        return oracle::read(&bytes)?.text().ok();
    }
    match model::answer(&bytes, model::AMPLE) {
        Answer::Laid { text, .. } => Some(text),
        Answer::Refused(_) => None,
    }
}

/// What the second call gives at this buffer and list, worked out from the ample trial.
pub fn expected(ample: &Trial, room: usize, words: usize) -> Listed {
    let short = !ample.answer.is_of_checks() && words < WORDS * ample.placeholders;
    let answer = match short {
        true => Answer::Refused(Refusal { number: 10, place: 0 }),
        false => at_room(ample, room),
    };
    let laid = matches!(answer, Answer::Laid { .. });
    let list = model::list(if laid { &ample.rows } else { &[] }, words);
    Listed { answer, list }
}

/// The second call at one buffer and list; the model alone where it is not linked.
pub fn call_at(bytes: &[u8], ample: &Trial, room: usize, words: usize) -> Result<(), String> {
    #[cfg(feature = "rows")]
    let (whose, got) = ("second call", crate::call::listed(bytes, room, words)?);
    #[cfg(not(feature = "rows"))]
    let (whose, got) = ("model", model::listed(bytes, room, words));
    let wanted = expected(ample, room, words);
    let told = || {
        let list = &got.list;
        format!("the {whose} at {room}, {words} words: {}, {list:?}", show::answer(&got.answer))
    };
    (got == wanted).then_some(()).ok_or_else(|| format!("{}, wanted {:?}", told(), wanted.list))
}

/// At this buffer with lists around the need, and at buffers around the need with lists that just
/// serve or just do not: 10 comes before 9.
pub fn call(bytes: &[u8], ample: &Trial, room: usize) -> Result<(), String> {
    let need = WORDS * ample.placeholders;
    let short = need.saturating_sub(1);
    let lists: &[usize] =
        if cfg!(feature = "rows") { &[0, short, need, need + 1, need + 7] } else { &[short, need] };
    lists.iter().try_for_each(|&words| call_at(bytes, ample, room, words))?;
    if cfg!(feature = "rows") {
        let high = peak(&ample.heights);
        for room in [high, high.saturating_sub(1)] {
            call_at(bytes, ample, room, need)?;
            call_at(bytes, ample, room, short)?;
        }
    }
    Ok(())
}
