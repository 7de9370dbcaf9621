//! The mender as sheets grow: the time for each byte of the sheet, with nothing bad in it, and with all.
//! Each turn puts the old sheet back first, and the copy is in the time.

use super::costly::Costly;
use super::least;
use crate::call;
use crate::model;
use crate::sheet::*;

pub const SIZES: [usize; 3] = [128, 512, 1024];
/// Words of a report that is never too short.
const LONGEST: usize = 117_135;

/// Every count in proportion, up to its bound; a name on each token.
pub fn sound(size: usize) -> Costly {
    let body = 32 * size;
    let place = |i: usize| (i * 37 % (body - 8)) as u32;
    let named = u32::from(PLACEHOLDER) | 1 << 5;
    Costly {
        mode: MODE_NAMED,
        tokens: (0..size).map(|i| [named, place(i), 8, place(i + 5), 8]).collect(),
        params: (0..size / 4).map(|i| [place(i), 8, place(i + 3), 8]).collect(),
        keeps: (0..size / 16).map(|i| [place(i), 8]).collect(),
        body: vec![b'a'; body],
        ..Costly::default()
    }
}

/// Every word that can be bad is.
fn bad_words(mut sheet: Costly) -> Costly {
    let [indent, case, inline, lines] = [u32::MAX; 4];
    sheet.options = Options { indent, case, inline, lines, ..sheet.options };
    sheet.mode = u32::MAX;
    sheet.tokens.fill([u32::MAX; 5]);
    sheet.params.fill([u32::MAX; 4]);
    sheet.keeps.fill([u32::MAX; 2]);
    sheet
}

fn bad_bytes(mut sheet: Costly) -> Costly {
    sheet.body.fill(u8::MAX);
    sheet
}

pub fn run(part: &str) {
    println!(
        "mending                       tokens  bytes of the sheet  changes       time  a byte"
    );
    for size in SIZES {
        let shapes = [
            ("mend, sound", sound(size), 0),
            ("mend, sound, longest report", sound(size), LONGEST),
            ("mend, every word bad", bad_words(sound(size)), 0),
            ("mend, every byte bad", bad_bytes(sound(size)), 0),
            ("mend, all bad", bad_words(bad_bytes(sound(size))), 0),
        ];
        for (name, sheet, words) in shapes.iter().filter(|shape| shape.0.contains(part)) {
            row(name, size, &sheet.encode(), *words);
        }
    }
}

/// With a report that just serves, or with so many words if they are more.
fn row(name: &str, size: usize, old: &[u8], words: usize) {
    let (_, changes) = model::mended(old, usize::MAX).expect("of the right size");
    let mut report = vec![0; words.max(3 * changes.len())];
    let mut sheet = old.to_vec();
    let mut run = || {
        sheet.copy_from_slice(old);
        let outcome = call::mend(&mut sheet, &mut report);
        assert_eq!((outcome.refusal, outcome.length), (0, changes.len() as u64), "{name}");
    };
    let [time] = least([&mut run]);
    let each = time / old.len() as f64;
    println!("{name:28} {size:7} {:19} {:8} {time:10.0} {each:7.2}", old.len(), changes.len());
}
