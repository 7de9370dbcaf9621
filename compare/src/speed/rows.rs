//! The second call beside the first, on sheets with parameters.

use super::costly::{Costly, token};
use super::shapes::SHAPES;
use super::{SHEETS, least, room, sheet};
use crate::call;
use crate::model::{self, WORDS};
use crate::sheet::{OPERATOR, PLACEHOLDER, TYPE_SPECIFIER};

const SIZES: [usize; 3] = [16, 128, 1024];

/// What a host lends that counts nothing: a row for each of the most tokens that there are.
const MOST: usize = WORDS * 1024;

pub fn run(seed: u64, part: &str) {
    println!(
        "the second call              tokens  rows      first     second  to first  {MOST} words  to first"
    );
    for (shape, make) in SHAPES.into_iter().filter(|shape| ["indexed", "named"].contains(&shape.0))
    {
        let name = format!("rows, {shape}");
        for size in SIZES.into_iter().filter(|_| name.contains(part)) {
            let sheets: Vec<_> = (0..SHEETS).map(|turn| sheet(make, seed, turn, size)).collect();
            row(&name, size, &sheets);
        }
    }
    for (name, bytes) in dense().iter().filter(|sheet| sheet.0.contains(part)) {
        row(name, 1024, std::slice::from_ref(bytes));
    }
}

/// A row for as many tokens as can be, and cuts that reach into each or into all of them.
fn dense() -> [(&'static str, Vec<u8>); 4] {
    let (shown, white) = (token(PLACEHOLDER, 0, 1), token(PLACEHOLDER, 2, 1));
    let (dot, typed) = (token(OPERATOR, 1, 1), token(TYPE_SPECIFIER, 0, 1));
    let of = |turn: &[[u32; 5]]| {
        let tokens = turn.iter().copied().cycle().take(1024).collect();
        Costly { tokens, body: b"?. ".to_vec(), ..Costly::default() }
    };
    let mut all_white = of(&[white]);
    all_white.tokens[1023] = typed;
    [
        ("rows, placeholders alone", of(&[shown]).encode()),
        ("rows, a dot after each", of(&[white, dot]).encode()),
        ("rows, a type after each", of(&[white, typed]).encode()),
        ("rows, all cut at once", all_white.encode()),
    ]
}

fn row(name: &str, size: usize, sheets: &[Vec<u8>]) {
    let trials: Vec<_> = sheets.iter().map(|bytes| model::trial(bytes, model::AMPLE)).collect();
    let needs: Vec<usize> = trials.iter().map(|trial| WORDS * trial.placeholders).collect();
    let rooms: Vec<usize> = sheets.iter().map(|bytes| room(bytes, 2 * bytes.len())).collect();
    let most = rooms.iter().copied().max().unwrap_or(0);
    let (mut text, mut one, mut other) = (vec![0; most], vec![0; most], vec![0; most]);
    let (mut list, mut long) = (vec![0; MOST], vec![0; MOST]);
    let all = || sheets.iter().zip(&rooms).zip(&needs);
    let mut first = || {
        for ((bytes, room), _) in all() {
            assert_eq!(call::layout(bytes, &mut text[..*room]).refusal, 0);
        }
    };
    let mut second = || {
        for ((bytes, room), need) in all() {
            let report = call::layout_rows(bytes, &mut one[..*room], &mut list[..*need]);
            assert_eq!(report.refusal, 0);
        }
    };
    let mut longer = || {
        for ((bytes, room), _) in all() {
            assert_eq!(call::layout_rows(bytes, &mut other[..*room], &mut long).refusal, 0);
        }
    };
    let times = least([&mut first, &mut second, &mut longer]);
    let [first, second, longer] = times.map(|time| time / sheets.len() as f64);
    let rows = needs.iter().sum::<usize>() as f64 / (WORDS * sheets.len()) as f64;
    let (to_first, long_to_first) = (second / first, longer / first);
    println!(
        "{name:28} {size:6} {rows:5.1} {first:10.0} {second:10.0} {to_first:9.2} {longer:11.0} {long_to_first:9.2}"
    );
}
