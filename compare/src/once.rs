//! The calls that read ahead once, held to the plain ones: the same answer, the same list, and a table that
//! is zero afterwards.

use crate::check::at_room;
use crate::model::{Answer, Refusal, Trial};

/// Words of the table for each token, as `docs/ahead.md` has it.
pub const TABLE: usize = 6;

/// Refusal 12: fewer than six words for each token; after 4 and 14, before 10 and the tokens.
pub fn expected(bytes: &[u8], ample: &Trial, room: usize, table: usize) -> Answer {
    if !ample.answer.is_of_checks() && table < TABLE * tokens(bytes) {
        return Answer::Refused(Refusal { number: 12, place: 0 });
    }
    at_room(ample, room)
}

/// The head's first word, where there is one.
fn tokens(bytes: &[u8]) -> usize {
    bytes.first_chunk().map_or(0, |word| u32::from_le_bytes(*word) as usize)
}

/// At tables around the need, without a list and with one.
#[cfg(feature = "once")]
pub fn call(bytes: &[u8], ample: &Trial, room: usize) -> Result<(), String> {
    use crate::model::WORDS;
    use crate::{call, pointed, show};
    let need = TABLE * tokens(bytes).min(1024);
    let words = WORDS * ample.placeholders;
    for table in [need, need.saturating_sub(1), need + 5] {
        let wanted = expected(bytes, ample, room, table);
        let got = call::once(bytes, room, table)?;
        if got != wanted {
            return Err(format!("once, at {room}, a table of {table}: {}", show::answer(&got)));
        }
        let narrow = wanted == Answer::Refused(Refusal { number: 12, place: 0 });
        for words in [words, words.saturating_sub(1)] {
            let got = call::listed_once(bytes, room, words, table)?;
            let same = match narrow {
                true => got.answer == wanted && got.list.iter().all(|&word| word == 0),
                false => got == pointed::expected(ample, room, words),
            };
            if !same {
                let answer = show::answer(&got.answer);
                return Err(format!(
                    "once, at {room}, {words} words, a table of {table}: {answer}"
                ));
            }
        }
    }
    Ok(())
}

#[cfg(not(feature = "once"))]
pub fn call(bytes: &[u8], ample: &Trial, room: usize) -> Result<(), String> {
    // Without the calls there is nothing to hold: the engine is not the model's.
    let _ = expected(bytes, ample, room, 0);
    Ok(())
}
