//! The fixed list that a port replays without the Rust: sheets with their answers, as bytes.

use std::fs;

use crate::check::{peak, room};
use crate::model::{self, Answer, Refusal};
use crate::oracle;
use crate::random::{self, Dice, Made};
use crate::sheet::INLINE_COMMENTS;
use crate::starred;
use crate::table::{self, Row};

/// A sheet longer than this is left out, so that the list stays small.
const LONGEST: usize = 6000;

/// Document 01's sheets, then N small ones and N of any make, with the Rust's answers. Then all that
/// have word 7 at 2, with the model's: those of `starred`, N small ones, and those among N of any make.
/// Last, those of the first part that have word 7 at 1, and what each gives once it is converted.
pub fn run(n: u64, seed: u64, file: &str) -> bool {
    let small = (0..n).map(|turn| table::row(&mut Dice::new(seed, turn)));
    let any = (0..n).filter_map(|turn| any_make(&mut Dice::new(seed + 1, turn), random::make));
    let two = (0..n).map(|turn| table::row_at_two(&mut Dice::new(seed + 2, turn)));
    let more =
        (0..n).filter_map(|turn| any_make(&mut Dice::new(seed + 3, turn), random::make_at_any));
    let more = more.filter(|row| oracle::inline(&row.bytes) == Some(INLINE_COMMENTS));
    let all = judged(starred::sheets()).chain(small).chain(any).chain(two).chain(more);
    let (rusts, others): (Vec<Row>, Vec<Row>) = all.partition(|row| oracle::judges(&row.bytes));
    let at_two = |row: &Row| oracle::inline(&row.bytes) == Some(INLINE_COMMENTS);
    let (two, one): (Vec<Row>, Vec<Row>) = others.into_iter().partition(at_two);
    let converted: Vec<Row> = one.iter().filter_map(once_converted).collect();
    let parts = [rusts, two, one, converted];
    let mut out = Vec::new();
    parts.iter().flatten().for_each(|row| put(&mut out, row));
    let [first, two, one, converted] = parts.map(|part| part.len());
    println!(
        "{} sheets, {} bytes: {first}, then {two} with word 7 at 2, as the model answers, \
         {one} with 1, and {converted} of these once they are converted",
        first + two + one + converted,
        out.len()
    );
    fs::write(file, out).is_ok()
}

/// What the model gives for it in the same buffer; none if 1 to 4 refuse it.
fn once_converted(row: &Row) -> Option<Row> {
    let bytes = model::converted(&row.bytes).ok()?;
    let answer = table::judged(&bytes, row.room);
    Some(Row { bytes, room: row.room, answer })
}

fn judged(sheets: Vec<(Vec<u8>, usize)>) -> impl Iterator<Item = Row> {
    sheets.into_iter().map(|(bytes, room)| {
        let answer = table::judged(&bytes, room);
        Row { bytes, room, answer }
    })
}

fn any_make(dice: &mut Dice, make: fn(&mut Dice) -> Made) -> Option<Row> {
    let bytes = make(dice).bytes;
    let need = peak(&model::trial_with_on(&bytes, model::AMPLE).heights);
    let room = room(dice, need);
    let answer = table::judged(&bytes, room);
    let short = bytes.len() <= LONGEST && need <= LONGEST;
    short.then_some(Row { bytes, room, answer })
}

/// Seven words, the lowest byte first: the sheet's length, the buffer's, the refusal's number and
/// place, the text's length, lines and width; then the sheet and the text.
fn put(out: &mut Vec<u8>, row: &Row) {
    let (number, place, text, lines, width) = match &row.answer {
        Answer::Laid { text, lines, width } => (0, 0, text.as_slice(), *lines, *width),
        Answer::Refused(Refusal { number, place }) => (*number, *place, &[][..], 0, 0),
    };
    let words = [row.bytes.len(), row.room, number as usize, place, text.len(), lines, width];
    for word in words {
        out.extend_from_slice(&u32::try_from(word).expect("fits a word").to_le_bytes());
    }
    out.extend_from_slice(&row.bytes);
    out.extend_from_slice(text);
}
