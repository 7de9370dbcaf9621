//! Reserved words with white in them, in blocks of 32 bytes and about their ends: the call goes a block at a time where it
//! is all white, or has none.

use super::{Case, ROOM, of, text};
use crate::sheet::*;

const WHITE: [&str; 3] = [" ", "\n", "\t"];
const LENGTHS: [usize; 7] = [1, 31, 32, 33, 63, 64, 65];

/// White, a word, white, a word and white, each as long as asked for: two words with one blank between.
fn joined([before, first, gap, second, after]: [usize; 5], white: &str, kind: u8) -> Case {
    let blanks = |n: usize| white.repeat(n);
    let value =
        blanks(before) + &"a".repeat(first) + &blanks(gap) + &"b".repeat(second) + &blanks(after);
    let mut sheet = of(&[(kind, &value)]);
    sheet.options.case = 1;
    let wanted = "A".repeat(first) + " " + &"B".repeat(second);
    Case { name: "a word of blocks", sheet, room: ROOM, wanted: text(&[&wanted]) }
}

pub fn sheets() -> Vec<Case> {
    let mut cases = Vec::new();
    for (at, first) in LENGTHS.into_iter().enumerate() {
        for gap in LENGTHS {
            for second in [1, 32, 70] {
                let white = WHITE[(at + gap) % 3];
                cases.push(joined([0, first, gap, second, 0], white, RESERVED));
                cases.push(joined([gap, first, 32, second, 33], white, RESERVED));
            }
        }
    }
    cases.extend(LENGTHS.map(|n| joined([32, 32, n, 32, 0], " ", NEWLINE)));
    cases
}
