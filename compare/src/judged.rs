//! Texts of another formatter: the model's verdict held to what the Rust shows of each token, and the
//! call held to the model.

use crate::model::{self, Refusal, Verdict};
use crate::oracle::{self, Panic};
use crate::random::{Dice, white::is_white};
use crate::sheet::{INLINE_OFF, INLINE_ON, Sheet, in_turn};
use crate::{show, watched};

/// What came out, for the counts.
pub struct Told {
    pub text: &'static str,
    pub verdict: String,
}

/// What the Rust shows of each token, white bytes taken out.
struct Due {
    tokens: usize,
    pieces: Vec<(usize, Vec<u8>)>,
}

/// A sheet and the texts that others are made from.
struct Source<'a> {
    bytes: &'a [u8],
    /// The Rust's own text, or another sheet's where there is none.
    text: Vec<u8>,
    pieces: Vec<Vec<u8>>,
    other: &'a [u8],
}

/// What a text must be, whatever the sheet is.
#[derive(Clone, Copy, PartialEq, Eq)]
enum Must {
    Yes,
    No,
    Any,
}

type Make = fn(&mut Dice, &Source) -> Option<Vec<u8>>;

/// `None` where the sheet has no such text.
const TEXTS: [(&str, Must, Make); 19] = [
    ("its own text", Must::Yes, |_, source| Some(source.text.clone())),
    ("blanks moved", Must::Yes, |dice, source| Some(spread(dice, &solid(&source.text)))),
    ("blanks added", Must::Yes, |dice, source| Some(spread(dice, &source.text))),
    ("no blanks", Must::Yes, |_, source| Some(solid(&source.text))),
    ("a byte changed", Must::No, byte_changed),
    ("a byte left out", Must::No, byte_left_out),
    ("a letter in the other case", Must::No, letter_turned),
    ("another case asked", Must::Any, cased_otherwise),
    ("two tokens exchanged", Must::Any, tokens_exchanged),
    ("a token left out", Must::Any, token_left_out),
    ("a token doubled", Must::Any, token_doubled),
    ("a token's own value", Must::Any, own_value),
    ("parameters exchanged", Must::Any, parameters_exchanged),
    ("cut short", Must::Any, |dice, source| {
        Some(source.text[..dice.below(source.text.len() + 1)].to_vec())
    }),
    ("extra bytes at the end", Must::No, extra_bytes),
    ("a byte of 128 or more", Must::Any, high_byte),
    ("no text", Must::Any, |_, _| Some(Vec::new())),
    ("white alone", Must::Any, |dice, _| Some(blanks(dice))),
    ("another sheet's text", Must::Any, |_, source| Some(source.other.to_vec())),
];

/// Of a sheet that is refused only so many of the last texts are tried.
const TRIED_ON_REFUSED: usize = 5;

const WHITE: [u8; 6] = [9, 10, 11, 12, 13, 32];

fn solid(text: &[u8]) -> Vec<u8> {
    text.iter().copied().filter(|&byte| !is_white(&[byte])).collect()
}

fn blanks(dice: &mut Dice) -> Vec<u8> {
    (0..1 + dice.below(4)).map(|_| dice.pick(&WHITE)).collect()
}

/// White put before, between and after the bytes, seldom or often.
fn spread(dice: &mut Dice, bytes: &[u8]) -> Vec<u8> {
    let seldom = dice.pick(&[1, 2, 10]);
    let mut text = Vec::new();
    for &byte in bytes {
        if dice.one_in(seldom) {
            text.extend(blanks(dice));
        }
        text.push(byte);
    }
    text.extend(blanks(dice));
    text
}

/// The place of a byte that passes, by chance.
fn any(dice: &mut Dice, text: &[u8], passes: impl Fn(u8) -> bool) -> Option<usize> {
    let places: Vec<usize> = (0..text.len()).filter(|&at| passes(text[at])).collect();
    (!places.is_empty()).then(|| dice.pick(&places))
}

fn byte_changed(dice: &mut Dice, source: &Source) -> Option<Vec<u8>> {
    let mut text = source.text.clone();
    let at = any(dice, &text, |byte| !is_white(&[byte]))?;
    let others = (0..128).filter(|byte| !is_white(&[*byte]) && *byte != text[at]);
    let others: Vec<u8> = others.collect();
    text[at] = dice.pick(&others);
    Some(text)
}

fn byte_left_out(dice: &mut Dice, source: &Source) -> Option<Vec<u8>> {
    let mut text = source.text.clone();
    text.remove(any(dice, &text, |byte| !is_white(&[byte]))?);
    Some(text)
}

fn letter_turned(dice: &mut Dice, source: &Source) -> Option<Vec<u8>> {
    let mut text = source.text.clone();
    text[any(dice, &source.text, |byte| byte.is_ascii_alphabetic())?] ^= 32;
    Some(text)
}

fn joined(dice: &mut Dice, pieces: &[Vec<u8>]) -> Vec<u8> {
    let blank = blanks(dice);
    pieces.join(blank.as_slice())
}

fn tokens_exchanged(dice: &mut Dice, source: &Source) -> Option<Vec<u8>> {
    let mut pieces = source.pieces.clone();
    let (one, other) = (dice.below(pieces.len()), dice.below(pieces.len()));
    if one == other {
        return None;
    }
    pieces.swap(one, other);
    Some(joined(dice, &pieces))
}

fn token_left_out(dice: &mut Dice, source: &Source) -> Option<Vec<u8>> {
    let mut pieces = source.pieces.clone();
    if pieces.is_empty() {
        return None;
    }
    pieces.remove(dice.below(pieces.len()));
    Some(joined(dice, &pieces))
}

fn token_doubled(dice: &mut Dice, source: &Source) -> Option<Vec<u8>> {
    let mut pieces = source.pieces.clone();
    let at = dice.below(pieces.len());
    pieces.insert(at, pieces.get(at)?.clone());
    Some(joined(dice, &pieces))
}

/// The bytes of a token as they stand in the sheet: not cased, no parameter, dropped ones too.
fn own_value(dice: &mut Dice, source: &Source) -> Option<Vec<u8>> {
    let sheet = Sheet::decode(source.bytes)?;
    let mut pieces = source.pieces.clone();
    let at = dice.below(pieces.len() + 1);
    pieces.insert(at, sheet.tokens.get(dice.below(sheet.tokens.len()))?.value.clone());
    if at + 1 < pieces.len() && !dice.one_in(3) {
        pieces.remove(at + 1);
    }
    Some(joined(dice, &pieces))
}

fn parameters_exchanged(dice: &mut Dice, source: &Source) -> Option<Vec<u8>> {
    let mut sheet = Sheet::decode(source.bytes)?;
    let (one, other) = (dice.below(sheet.params.len()), dice.below(sheet.params.len()));
    if one == other {
        return None;
    }
    let value = sheet.params[one].value.clone();
    sheet.params[one].value = std::mem::replace(&mut sheet.params[other].value, value);
    sheet.options.inline = INLINE_ON;
    oracle::read(&sheet.encode(&mut in_turn))?.text().ok()
}

fn cased_otherwise(dice: &mut Dice, source: &Source) -> Option<Vec<u8>> {
    let mut sheet = Sheet::decode(source.bytes)?;
    sheet.options.case = (sheet.options.case + 1 + dice.below(2) as u32) % 3;
    sheet.options.inline = INLINE_ON;
    if dice.one_in(3) {
        sheet.keep.clear();
    }
    oracle::read(&sheet.encode(&mut in_turn))?.text().ok()
}

fn extra_bytes(dice: &mut Dice, source: &Source) -> Option<Vec<u8>> {
    let extra: &[u8] = dice.pick(&[&b";"[..], b" ;", b"x", b"\0", b"\x7f", b"\n-- more\n", b"?"]);
    Some([&source.text, extra].concat())
}

/// One or two of them, in a text that is due or is not.
fn high_byte(dice: &mut Dice, source: &Source) -> Option<Vec<u8>> {
    let mut text = match dice.below(3) {
        0 => byte_changed(dice, source)?,
        1 => source.other.to_vec(),
        _ => source.text.clone(),
    };
    for _ in 0..1 + dice.below(2) {
        let byte = dice.pick(&[128, 129, 160, 0xc2, 255, 128 + b' ', 128 + b'a']);
        text.insert(dice.below(text.len() + 1), byte);
    }
    Some(text)
}

fn with_inline(bytes: &[u8], inline: u32) -> Vec<u8> {
    let mut bytes = bytes.to_vec();
    bytes[28..32].copy_from_slice(&inline.to_le_bytes());
    bytes
}

/// Of a sheet that passes checks 1 to 4, or the refusal. With inline on the Rust has no 8, and moves
/// white bytes alone.
fn due(bytes: &[u8]) -> Result<Result<Due, Refusal>, String> {
    if let Err(refusal) = model::check(bytes) {
        return Ok(Err(refusal));
    }
    let bytes = with_inline(bytes, INLINE_ON);
    let read = oracle::read(&bytes).ok_or("cannot be read")?;
    match read.pieces() {
        Ok(pieces) => {
            let text = read.text().map_err(|panic| format!("Rust: {panic:?}"))?;
            let whole: Vec<u8> = pieces.iter().flat_map(|(_, piece)| piece).copied().collect();
            let tokens = bytes[..4].iter().rev().fold(0, |n, &byte| 256 * n + usize::from(byte));
            let same = whole == solid(&text);
            same.then_some(Ok(Due { tokens, pieces })).ok_or("the watched Rust's bytes".into())
        }
        Err(Panic::OneIndexedNought) => Ok(Err(Refusal { number: 5, place: watched::token() })),
        Err(panic) => Err(format!("judged by the Rust: {panic:?}")),
    }
}

/// The same again from the unchanged Rust: the sheet with its first token alone, with the first two, and so on. A
/// prefix's text without white is what its tokens show.
pub fn by_prefixes(bytes: &[u8]) -> Result<usize, String> {
    let (Some(sheet), Ok(due)) = (Sheet::decode(bytes), due(bytes)?) else { return Ok(0) };
    for count in 0..=sheet.tokens.len() {
        let mut sheet = sheet.clone();
        sheet.tokens.truncate(count);
        sheet.options.inline = INLINE_ON;
        let bytes = sheet.encode(&mut in_turn);
        let text = oracle::read(&bytes).and_then(|read| read.text().ok()).ok_or("no text")?;
        let shown = due.pieces.iter().filter(|(token, _)| *token < count);
        if !shown.flat_map(|(_, piece)| piece).eq(&solid(&text)) {
            return Err(format!("the first {count} tokens show {}", show::quoted(&text)));
        }
    }
    Ok(sheet.tokens.len() + 1)
}

/// By the first byte that differs, and the token that has it in the Rust's text.
fn reckoned(due: &Result<Due, Refusal>, text: &[u8]) -> Result<Verdict, Refusal> {
    let due = due.as_ref().map_err(|refusal| *refusal)?;
    if let Some(place) = text.iter().position(|byte| !byte.is_ascii()) {
        return Err(Refusal { number: 15, place });
    }
    let text = solid(text);
    let whole = || due.pieces.iter().flat_map(|(_, piece)| piece);
    if whole().eq(&text) {
        return Ok(Verdict::Yes);
    }
    let same = whole().zip(&text).take_while(|(due, byte)| due == byte).count();
    let mut owners = due.pieces.iter().flat_map(|(token, piece)| piece.iter().map(move |_| *token));
    Ok(Verdict::No(owners.nth(same).unwrap_or(due.tokens)))
}

/// The verdict that what the Rust shows of the sheet gives.
pub fn by_rust(bytes: &[u8], text: &[u8]) -> Result<Result<Verdict, Refusal>, String> {
    Ok(reckoned(&due(bytes)?, text))
}

/// The call; the model alone where it is not linked.
pub fn call(bytes: &[u8], text: &[u8]) -> Result<(), String> {
    #[cfg(feature = "judge")]
    let (whose, got) = ("call", crate::call::verdict(bytes, text)?);
    #[cfg(not(feature = "judge"))]
    let (whose, got) = ("model", model::judge(bytes, text));
    let same = got == model::judge(bytes, text);
    same.then_some(()).ok_or_else(|| format!("judged by the {whose}: {got:?}"))
}

/// One text of each sort; `other` is the text of the sheet before, and becomes this one's.
pub fn judged(dice: &mut Dice, bytes: &[u8], other: &mut Vec<u8>) -> Result<Vec<Told>, String> {
    let due = due(bytes)?;
    let own = own_text(dice, bytes, &due)?;
    let refused = due.is_err();
    let pieces = due.as_ref().map_or(&[][..], |due| &due.pieces);
    let pieces: Vec<Vec<u8>> = pieces.iter().map(|(_, piece)| piece.clone()).collect();
    let text = own.clone().unwrap_or_else(|| other.clone());
    let source = Source { bytes, text, pieces, other };
    let from = if refused { TEXTS.len() - TRIED_ON_REFUSED } else { 0 };
    let mut told = Vec::new();
    for &(name, must, make) in &TEXTS[from..] {
        let Some(text) = make(dice, &source) else { continue };
        let must = if refused { Must::Any } else { must };
        let verdict = one(bytes, &due, &text, must)
            .map_err(|said| format!("{name}, {said}\nthe text {}", show::quoted(&text)))?;
        told.push(Told { text: name, verdict });
    }
    *other = own.unwrap_or_default();
    Ok(told)
}

/// The Rust's, on one line or on several: there it may have 8, and no text.
fn own_text(
    dice: &mut Dice,
    bytes: &[u8],
    due: &Result<Due, Refusal>,
) -> Result<Option<Vec<u8>>, String> {
    if due.is_err() {
        return Ok(None);
    }
    let laid = |inline| oracle::read(&with_inline(bytes, inline)).map(|read| read.text());
    let several = if dice.one_in(2) { laid(INLINE_OFF) } else { None };
    let text = several.and_then(Result::ok).or_else(|| laid(INLINE_ON)?.ok());
    text.map(Some).ok_or("the Rust has no text with inline on".into())
}

fn one(
    bytes: &[u8],
    due: &Result<Due, Refusal>,
    text: &[u8],
    must: Must,
) -> Result<String, String> {
    let (model, rust) = (model::judge(bytes, text), reckoned(due, text));
    if model != rust {
        return Err(format!("judged by the model {model:?}, by the Rust's bytes {rust:?}"));
    }
    let held = match must {
        Must::Yes => model == Ok(Verdict::Yes),
        Must::No => matches!(model, Ok(Verdict::No(_))),
        Must::Any => true,
    };
    if !held {
        return Err(format!("judged {model:?}"));
    }
    call(bytes, text)?;
    Ok(match model {
        Ok(Verdict::Yes) => "yes".into(),
        Ok(Verdict::No(at)) if due.as_ref().is_ok_and(|due| at == due.tokens) => {
            "no, extra bytes".into()
        }
        Ok(Verdict::No(_)) => "no, at a token".into(),
        Err(Refusal { number, .. }) => format!("refusal {number}"),
    })
}
