//! Room known before the call: the model's sum held to the run's heights, and the call held to the
//! model.

use crate::check::peak;
use crate::model::{self, Answer, Trial};

/// A buffer that is lent for the sum, at most.
const LENT: u64 = 1 << 17;

/// No moment of the run is longer than the sum; says how near it came.
pub fn judged(bytes: &[u8], ample: &Trial) -> Result<&'static str, String> {
    let sum = match model::room(bytes) {
        Ok(sum) => sum,
        Err(refusal) => {
            let same = ample.answer == Answer::Refused(refusal);
            return same.then_some("refused").ok_or(format!("the sum gives {refusal:?}"));
        }
    };
    if ample.answer.is_of_checks() {
        return Err(format!("the sum is {sum} for a sheet that the checks refuse"));
    }
    match sum.checked_sub(peak(&ample.heights) as u64) {
        None => Err(format!("the sum is {sum}, and the text got {}", peak(&ample.heights))),
        Some(0) if sum > 0 => Ok("the text gets as long"),
        Some(1..8) => Ok("under 8 bytes more"),
        Some(_) => Ok("8 bytes more, or no text"),
    }
}

/// The call gives the sum, and at a buffer of so many bytes no layout call gives 9.
pub fn call(bytes: &[u8], ample: &Trial) -> Result<(), String> {
    let wanted = model::room(bytes);
    #[cfg(feature = "room")]
    if crate::call::room(bytes)? != wanted {
        return Err(format!("the sum of the call: {:?}", crate::call::room(bytes)));
    }
    match wanted {
        Ok(sum) if sum <= LENT => {
            crate::check::call_at(bytes, ample, sum as usize)?;
            crate::once::call(bytes, ample, sum as usize)
        }
        _ => Ok(()),
    }
}
