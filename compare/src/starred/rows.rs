//! Sheets whose rows are known, with lists that serve and lists that do not.

use super::{NOTE, ROOM, TYPED, indexed, key, named, of, refusal, text, with};
use crate::model::{self, Listed, WORDS};
use crate::pointed;
use crate::sheet::*;

const OWN: u32 = u32::MAX;

#[derive(Clone)]
struct Known {
    name: &'static str,
    sheet: Sheet,
    room: usize,
    words: usize,
    wanted: Listed,
}

/// A text and its rows, in a list that just serves, in one with a word more, and in a long one.
fn shown(name: &'static str, sheet: Sheet, lines: &[&str], rows: &[[u32; WORDS]]) -> Vec<Known> {
    let answer = text(if lines == [""] { &[] } else { lines });
    let least = WORDS * rows.len();
    let known = |words| {
        let mut list = rows.concat();
        list.resize(words, 0);
        let wanted = Listed { answer: answer.clone(), list };
        Known { name, sheet: sheet.clone(), room: ROOM, words, wanted }
    };
    [least, least + 1, least + 13].map(known).into()
}

fn refused(
    name: &'static str,
    sheet: &Sheet,
    room: usize,
    words: usize,
    number: u32,
    place: usize,
) -> Known {
    let wanted = Listed { answer: refusal(number, place), list: vec![0; words] };
    Known { name, sheet: sheet.clone(), room, words, wanted }
}

const MARK: (u8, &str) = (PLACEHOLDER, "?");
const A: (u8, &str) = (WORD, "a");

/// Which entry, or the token's own value; which tokens have a row.
fn sources() -> Vec<Known> {
    let (off, on) = ((LINE_COMMENT, "-- fmt: off"), (LINE_COMMENT, "-- fmt: on"));
    let feed = (WHITESPACE, "\n");
    let switched = of(&[off, feed, MARK, (WORD, "x"), on, feed, MARK]);
    let all_off = of(&[off, MARK, MARK, on, MARK]);
    let [number, other] = [Key::OneIndexed(0), Key::ZeroIndexed(2)].map(|k| key(of(&[MARK]), k));
    let two_empty = [("a", "1"), ("", "2"), ("", "3")];
    let line = key(of(&[(PLACEHOLDER, ":line")]), Key::Named("line".into()));
    let five = indexed(of(&[MARK; 3]), &["7", "12"]);
    let five_rows = [[0, 0, 0, 0, 1], [1, 1, 2, 0, 2], [2, OWN, 5, 0, 1]];
    let last = indexed(key(of(&[MARK, MARK]), Key::ZeroIndexed(1)), &["7", "12"]);
    [
        shown("sheet 5", five, &["7 12 ?"], &five_rows),
        shown("sheet 6", indexed(switched, &["7"]), &["?x7"], &[[6, 0, 2, 0, 1]]),
        shown("sheet 10", named(line, &[("line", "3"), ("line", "4")]), &["3"], &[[0, 0, 0, 0, 1]]),
        shown("all switched off", indexed(all_off, &["7"]), &["?"], &[]),
        shown("a number under Named", named(number, &two_empty), &["2"], &[[0, 1, 0, 0, 1]]),
        shown("another under Named", named(other, &two_empty), &["2"], &[[0, 1, 0, 0, 1]]),
        shown(
            "an entry of the same bytes",
            indexed(of(&[MARK]), &["?"]),
            &["?"],
            &[[0, 0, 0, 0, 1]],
        ),
        shown("no parameters", of(&[A, MARK]), &["a ?"], &[[1, OWN, 2, 0, 1]]),
        shown("a number", last, &["12 7"], &[[0, 1, 0, 0, 2], [1, 0, 3, 0, 1]]),
    ]
    .concat()
}

/// What is left of a value, and where it stands.
fn cut() -> Vec<Known> {
    let at = |name, tokens: &[_], values: &[_], lines: &[&str], rows: &[_]| {
        shown(name, indexed(of(tokens), values), lines, rows)
    };
    let [comma, dot, colon] = [",", ".", ":"].map(|value| (OPERATOR, value));
    let nothing = |token, before| [token, 0, before, 0, 0];
    let folding = [MARK, (TOP_LEVEL, ""), (OPEN, "("), A, (CLOSE, ")")];
    let folded = with(indexed(of(&folding), &["x \n"]), |o| (o.block, o.top_level) = (0, 0));
    let first = |survived| [0, 0, 0, 0, survived];
    let bracket = [(OPEN, "("), MARK, (CLOSE, ")")];
    let held = |inline| with(indexed(of(&[NOTE, MARK, TYPED]), &[" \n"]), |o| o.inline = inline);
    let two = [[0, 0, 0, 0, 0], [1, 1, 0, 0, 1]];
    let white = [[1, 0, 1, 0, 0], [2, 1, 1, 0, 0], [3, OWN, 1, 0, 0]];
    let own = (PLACEHOLDER, " ");
    [
        at("white, then x", &[MARK, MARK], &[" \n", "x"], &["x"], &two),
        at("a comma", &[MARK, comma, (WORD, "c")], &["ab\n "], &["ab", ",", "c"], &[first(3)]),
        at("a dot, nothing left", &[A, MARK, dot], &[" "], &["a."], &[nothing(1, 1)]),
        at("a colon", &[A, MARK, colon], &["b\t "], &["a b:"], &[[1, 0, 2, 0, 1]]),
        at("a close", &bracket, &["b "], &["(b)"], &[[1, 0, 1, 0, 1]]),
        at("a new line", &[MARK, (TOP_LEVEL, "T")], &["x \t"], &["x", "T"], &[first(1)]),
        at("a type specifier", &[MARK, TYPED], &["x\n "], &["x::t"], &[first(1)]),
        at("three in one cut", &[A, MARK, MARK, own, TYPED], &["\t", "\n"], &["a::t"], &white),
        shown("a fold", folded, &["x (", "  a", ")"], &[first(1)]),
        at(
            "a comment after a comma",
            &[A, comma, MARK, NOTE],
            &["\n"],
            &["a,  -- c"],
            &[nothing(2, 2)],
        ),
        at("a line feed inside", &[A, MARK], &["b\nc"], &["a b", "c"], &[[1, 0, 2, 0, 3]]),
        at("the trim at the end", &[MARK], &["x \n"], &["x"], &[first(1)]),
        at("the trim at the start", &[MARK, A], &["\n x"], &["x a"], &[first(1)]),
        at(
            "the trim moves the next",
            &[(TOP_LEVEL, "T"), MARK],
            &["x"],
            &["T", "  x"],
            &[[1, 0, 4, 0, 1]],
        ),
        at(
            "all of it trimmed",
            &[MARK, MARK],
            &[" ", "\n"],
            &[""],
            &[[0, 0, 0, 0, 0], [1, 1, 0, 0, 0]],
        ),
        at("five zero words", &[MARK], &[""], &[""], &[first(0)]),
        at("an empty one between", &[A, MARK, A], &[""], &["a  a"], &[nothing(1, 2)]),
        shown("a held line feed, word 7 at 0", held(0), &["-- c::t"], &[nothing(1, 4)]),
        shown("a held line feed, word 7 at 2", held(2), &["-- c", "::t"], &[nothing(1, 5)]),
    ]
    .concat()
}

/// 10 after 4 and before 5, and whatever is refused on the way.
fn short() -> Vec<Known> {
    let two = indexed(key(of(&[MARK, A, MARK]), Key::OneIndexed(0)), &["7"]);
    let bad = with(two.clone(), |o| o.case = 3);
    let plain = indexed(of(&[A, MARK]), &["7"]);
    let mut deep = indexed(of(&[&[(OPEN, "("); 129], &[MARK][..]].concat()), &["7"]);
    deep.options.block = 0;
    vec![
        refused("2 before 10", &bad, ROOM, 0, 2, 24),
        refused("10, one word short", &two, ROOM, 9, 10, 0),
        refused("10, no list", &two, ROOM, 0, 10, 0),
        refused("5 after 10", &two, ROOM, 10, 5, 0),
        refused("10 before 9", &plain, 0, 4, 10, 0),
        refused("9 after 10", &plain, 1, 5, 9, 0),
        refused("10 for a placeholder that 6 comes before", &deep, ROOM, 4, 10, 0),
        refused("6 after 10", &deep, ROOM, 5, 6, 128),
    ]
}

pub fn run() -> bool {
    let known = [sources(), cut(), short()].concat();
    let right = known.iter().filter(|known| is_right(known)).count();
    println!("rows: {right} of {} right", known.len());
    right == known.len()
}

fn is_right(known: &Known) -> bool {
    let Known { name, sheet, room, words, wanted } = known;
    let bytes = sheet.encode(&mut in_turn);
    let model = model::listed(&bytes, *room, *words);
    let judged = pointed::judged(&bytes, &model::trial(&bytes, model::AMPLE));
    let right = model == *wanted && judged.is_ok() && call_agrees(known, &bytes);
    if !right {
        println!("{name}, {words} words: wanted {wanted:?}\nmodel {model:?}\n{judged:?}");
    }
    right
}

/// The second call, where it is linked.
fn call_agrees(known: &Known, bytes: &[u8]) -> bool {
    #[cfg(feature = "rows")]
    let got = crate::call::listed(bytes, known.room, known.words);
    #[cfg(not(feature = "rows"))]
    let got = Ok::<_, String>(model::listed(bytes, known.room, known.words));
    let right = got.as_ref() == Ok(&known.wanted);
    if !right {
        println!("the second call: {got:?}");
    }
    right
}
