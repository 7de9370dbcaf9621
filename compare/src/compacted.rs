//! Compacting: the model's new sheet held to what document 02 says of it, and the call held to the
//! model.

use crate::model::{self, Answer, Refusal, Trial, WORDS};
use crate::random::Dice;
use crate::sheet::Sheet;
use crate::show;

/// Holds the new sheet to all that is said of one; says what it was.
pub fn judged(bytes: &[u8], ample: &Trial, room: usize) -> Result<&'static str, String> {
    let new = match model::compacted(bytes, usize::MAX) {
        Ok(new) => new,
        Err(refusal) => {
            let same = ample.answer == Answer::Refused(refusal);
            return same.then_some("refused").ok_or(format!("compacting gives {refusal:?}"));
        }
    };
    let told = |what: &str| format!("compacted, {what}:\n{}", show::sheet(&new));
    if Sheet::decode(&new) != Sheet::decode(bytes) {
        return Err(told("it reads otherwise"));
    }
    let words = WORDS * ample.placeholders;
    for room in [room, model::AMPLE] {
        if model::listed(&new, room, words) != model::listed(bytes, room, words) {
            return Err(told("another answer"));
        }
    }
    if model::compacted(&new, new.len()).as_ref() != Ok(&new) {
        return Err(told("compacted again it is another"));
    }
    match new.len().cmp(&bytes.len()) {
        std::cmp::Ordering::Greater => Err(told("longer")),
        std::cmp::Ordering::Equal if new == bytes => Ok("the sheet itself"),
        std::cmp::Ordering::Equal => Ok("as long, empty places moved"),
        std::cmp::Ordering::Less => Ok("shorter"),
    }
}

/// The call at one buffer; the model alone where it is not linked.
fn call_at(bytes: &[u8], whole: &Result<Vec<u8>, Refusal>, room: usize) -> Result<(), String> {
    #[cfg(feature = "compact")]
    let (whose, got) = ("call", crate::call::compacted(bytes, room)?);
    #[cfg(not(feature = "compact"))]
    let (whose, got) = ("model", model::compacted(bytes, room));
    let wanted = match whole {
        Ok(new) if room < new.len() => Err(Refusal { number: 11, place: 0 }),
        other => other.clone(),
    };
    (got == wanted)
        .then_some(())
        .ok_or_else(|| format!("compacted by the {whose} at {room}: {got:?}"))
}

/// At buffers around the need, and at one by chance.
pub fn call(dice: &mut Dice, bytes: &[u8]) -> Result<(), String> {
    let whole = model::compacted(bytes, usize::MAX);
    let need = whole.as_ref().map_or(0, Vec::len);
    let chance = dice.below(need + 100);
    let rooms: &[usize] = if cfg!(feature = "compact") {
        &[0, need.saturating_sub(1), need, need + 1, chance, 65536]
    } else {
        &[need.saturating_sub(1), need, chance]
    };
    rooms.iter().try_for_each(|&room| call_at(bytes, &whole, room))
}
