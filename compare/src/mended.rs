//! Mending: the model's mended sheet and its report held to what document 02 says of them, and the
//! call held to the model.

use crate::check::{call_at as laid_by_call, peak};
use crate::model::{self, Answer, CHANGE, Change, Refusal, Trial};
use crate::sheet::Sheet;
use crate::show;

/// A sheet with more changes is not mended a second time by its refusals, one by one.
const MANY: usize = 500;

/// What was mended: how much, and which word each change was in.
pub struct Judged {
    pub how: &'static str,
    pub changed: Vec<&'static str>,
}

/// Holds the mended sheet and the report to all that is said of them.
pub fn judged(bytes: &[u8], ample: &Trial) -> Result<Judged, String> {
    let wrong_size = ample.answer == Answer::Refused(Refusal { number: 1, place: 0 });
    let (new, changes) = match model::mended(bytes, usize::MAX) {
        Ok(mended) => mended,
        Err(refusal) => {
            let same = wrong_size && ample.answer == Answer::Refused(refusal);
            let judged = Judged { how: "refused", changed: Vec::new() };
            return same.then_some(judged).ok_or(format!("mending gives {refusal:?}"));
        }
    };
    let told = |what: &str| format!("mended, {what}: {changes:?}\n{}", show::sheet(&new));
    let sound = !refused_1_to_4(&ample.answer);
    if wrong_size || sound != changes.is_empty() || sound && new != bytes {
        return Err(told("a sound sheet with a change, or another without one"));
    }
    if model::mended(&new, 0) != Ok((new.clone(), Vec::new())) {
        return Err(told("mended again it is another"));
    }
    if undone(&new, &changes).as_deref() != Some(bytes) {
        return Err(told("undoing the report does not give the sheet"));
    }
    if changes.windows(2).any(|two| two[0][0] >= two[1][0]) {
        return Err(told("not in file order"));
    }
    if changes.len() <= MANY && by_refusals(bytes).as_ref() != Some(&new) {
        return Err(told("by its refusals, one by one, it is another"));
    }
    laid_out(&new, sound).map_err(|said| told(&said))?;
    let changed: Option<Vec<_>> = changes.iter().map(|change| rightly(bytes, change)).collect();
    let how = match changes.len() {
        0 => "the sheet itself",
        1 => "1 change",
        2..10 => "2 to 9 changes",
        10..1000 => "10 to 999 changes",
        _ => "1000 changes and more",
    };
    Ok(Judged { how, changed: changed.ok_or_else(|| told("a change that may not be"))? })
}

fn refused_1_to_4(answer: &Answer) -> bool {
    matches!(answer, Answer::Refused(Refusal { number: 1..=4, .. }))
}

/// It passes checks 1 to 4, reads as a sheet by a reader that has no part in the model, has the bodies
/// in ASCII, and the layout call takes it too. A sound sheet has been laid out before.
fn laid_out(new: &[u8], sound: bool) -> Result<(), String> {
    if sound {
        return Ok(());
    }
    let trial = model::trial(new, model::AMPLE);
    let body = new.len() - word(new, 12) as usize;
    if refused_1_to_4(&trial.answer) || Sheet::decode(new).is_none() || !new[body..].is_ascii() {
        return Err(format!("it is {}", show::answer(&trial.answer)));
    }
    laid_by_call(new, &trial, peak(&trial.heights))
}

fn word(sheet: &[u8], at: usize) -> u32 {
    u32::from_le_bytes([sheet[at], sheet[at + 1], sheet[at + 2], sheet[at + 3]])
}

fn put(sheet: &mut [u8], at: usize, number: u32) {
    sheet[at..at + 4].copy_from_slice(&number.to_le_bytes());
}

/// The name of the word or byte at an offset, and what it becomes if it is bad; `None` where nothing
/// can be bad: the counts, words 9 to 11, an offset within a word.
fn named(sheet: &[u8], at: usize) -> Option<(&'static str, u32)> {
    const TOKEN: [&str; 5] = ["packed word", "value start", "value length", "key a", "key b"];
    const PARAM: [&str; 4] = ["name start", "name length", "entry start", "entry length"];
    let [n, p] = [0, 4].map(|at| word(sheet, at) as usize);
    let body = sheet.len() - word(sheet, 12) as usize;
    let (params, keeps) = (48 + 20 * n, 48 + 20 * n + 16 * p);
    match at {
        16 => Some(("word 4", u32::from(p > 0))),
        20 => Some(("word 5", 2)),
        24 => Some(("word 6", 0)),
        28 => Some(("word 7", 0)),
        32 => Some(("word 8", 1)),
        _ if at < 48 || at < body && at % 4 > 0 => None,
        _ if at < params && (at - 48) % 20 == 0 => Some((TOKEN[0], 15)),
        _ if at < params => Some((TOKEN[(at - 48) % 20 / 4], 0)),
        _ if at < keeps => Some((PARAM[(at - params) % 16 / 4], 0)),
        _ if at < body => Some((["keep start", "keep length"][(at - keeps) % 8 / 4], 0)),
        _ => (at < sheet.len()).then_some(("body byte", u32::from(b'?'))),
    }
}

/// The name of what changed, if it was the old number, is another, and is what a bad one becomes.
fn rightly(sheet: &[u8], &[at, old, new]: &Change) -> Option<&'static str> {
    let at = at as usize;
    let (name, becomes) = named(sheet, at)?;
    let was = if name == "body byte" { u32::from(sheet[at]) } else { word(sheet, at) };
    (old == was && old != new && new == becomes).then_some(name)
}

/// The old numbers put back, the last change first.
fn undone(new: &[u8], changes: &[Change]) -> Option<Vec<u8>> {
    let mut sheet = new.to_vec();
    for &[at, old, now] in changes.iter().rev() {
        let at = at as usize;
        match named(new, at)? {
            ("body byte", _) if u32::from(sheet[at]) == now => {
                sheet[at] = u8::try_from(old).ok()?
            }
            ("body byte", _) => return None,
            _ if word(&sheet, at) == now => put(&mut sheet, at, old),
            _ => return None,
        }
    }
    Some(sheet)
}

/// The sheet mended by what the checks say of it: the first offence is put right, then the next, until
/// there is none. The checks are document 01's, and know nothing of mending.
fn by_refusals(bytes: &[u8]) -> Option<Vec<u8>> {
    let mut sheet = bytes.to_vec();
    for _ in 0..=MANY {
        let Err(Refusal { number, place }) = model::check(&sheet) else {
            return Some(sheet);
        };
        let (_, becomes) = named(&sheet, place)?;
        match number {
            2 => put(&mut sheet, place, becomes),
            3 => [place, place + 4].into_iter().for_each(|at| put(&mut sheet, at, 0)),
            _ => sheet[place] = becomes as u8,
        }
    }
    None
}

/// The call with a report of so many words; the model alone where it is not linked.
pub fn call_at(bytes: &[u8], words: usize) -> Result<(), String> {
    #[cfg(feature = "mend")]
    let (whose, got) = ("call", crate::call::mended(bytes, words)?);
    #[cfg(not(feature = "mend"))]
    let (whose, got) = ("model", model::mended(bytes, words));
    let wanted = match model::mended(bytes, usize::MAX) {
        Ok((_, changes)) if words < CHANGE * changes.len() => Err(Refusal { number: 13, place: 0 }),
        other => other,
    };
    let told = || match &got {
        Ok((new, changes)) => format!("{changes:?}\n{}", show::sheet(new)),
        Err(refusal) => format!("{refusal:?}"),
    };
    let same = got == wanted;
    same.then_some(())
        .ok_or_else(|| format!("mended by the {whose} with {words} words: {}", told()))
}

/// The words that the report needs.
pub fn need(bytes: &[u8]) -> usize {
    model::mended(bytes, usize::MAX).map_or(0, |(_, changes)| CHANGE * changes.len())
}

/// With reports around the need.
pub fn call(bytes: &[u8]) -> Result<(), String> {
    let need = need(bytes);
    let words = [need, need.saturating_sub(1), need + 5, 0, need.saturating_sub(3)];
    words.into_iter().try_for_each(|words| call_at(bytes, words))
}
