//! Converting: the model's converted sheet held to what document 02 says of it, and the call held to
//! the model.

use crate::model::{self, Answer, Refusal, Trial};
use crate::oracle;
use crate::random::Made;
use crate::sheet::{INLINE_COMMENTS, INLINE_ON, Sheet};
use crate::show;

/// Word 7 at 1 in a sheet that passes checks 1 to 4.
pub const WITHDRAWN: Answer = Answer::Refused(Refusal { number: 14, place: 28 });

/// Holds the new sheet to all that is said of one; says what it was.
pub fn judged(bytes: &[u8], ample: &Trial) -> Result<&'static str, String> {
    let new = match model::converted(bytes) {
        Ok(new) => new,
        Err(refusal) => {
            let same = refusal.number <= 4 && ample.answer == Answer::Refused(refusal);
            return same.then_some("refused").ok_or(format!("converting gives {refusal:?}"));
        }
    };
    let told = |what: &str| format!("converted, {what}:\n{}", show::sheet(&new));
    let was_one = oracle::inline(bytes) == Some(INLINE_ON);
    if (ample.answer == WITHDRAWN) != was_one {
        return Err(told("14 is given where word 7 is not 1, or not where it is"));
    }
    if read_as_two(bytes) != Sheet::decode(&new) {
        return Err(told("it reads otherwise"));
    }
    let mut others = (0..bytes.len()).filter(|&at| bytes.get(at) != new.get(at));
    if new.len() != bytes.len() || others.next().is_some() != was_one || others.next().is_some() {
        return Err(told("another byte, or none"));
    }
    if model::converted(&new).as_ref() != Ok(&new) {
        return Err(told("converted again it is another"));
    }
    let compacted = model::compacted(bytes, usize::MAX).and_then(|new| model::converted(&new));
    if compacted.is_err() || model::compacted(&new, usize::MAX) != compacted {
        return Err(told("compacted before and after it is not the same"));
    }
    if model::mended(bytes, 0) != Ok((bytes.to_vec(), Vec::new())) {
        return Err(told("the mender does not leave it"));
    }
    Ok(if was_one { "1 becomes 2" } else { "the sheet itself" })
}

/// By a reader that shares no code with the model, with 2 for 1.
fn read_as_two(bytes: &[u8]) -> Option<Sheet> {
    let mut sheet = Sheet::decode(bytes)?;
    if sheet.options.inline == INLINE_ON {
        sheet.options.inline = INLINE_COMMENTS;
    }
    Some(sheet)
}

/// The same sheet, converted, where layout gives 14.
pub fn twin(made: &Made, ample: &Trial) -> Option<Made> {
    let withdrawn = ample.answer == WITHDRAWN;
    let bytes = model::converted(&made.bytes).ok().filter(|_| withdrawn)?;
    let sheet = made.sheet.as_ref().and(Sheet::decode(&bytes));
    Some(Made { maker: made.maker, bytes, sheet, expected: None })
}

/// The call; the model alone where it is not linked.
pub fn call(bytes: &[u8]) -> Result<(), String> {
    #[cfg(feature = "convert")]
    let (whose, got) = ("call", crate::call::converted(bytes)?);
    #[cfg(not(feature = "convert"))]
    let (whose, got) = ("model", model::converted(bytes));
    let same = got == model::converted(bytes);
    same.then_some(()).ok_or_else(|| format!("converted by the {whose}: {got:?}"))
}
