//! Sheets with texts of another formatter (document 02, Wish 13), and what is said of each.

use super::{indexed, named, of, refusal_at, with};
use crate::judged;
use crate::model::{self, Refusal, Verdict};
use crate::sheet::*;

type Wanted = Result<Verdict, Refusal>;

struct Known {
    name: &'static str,
    sheet: Vec<u8>,
    text: Vec<u8>,
    wanted: Wanted,
}

const YES: Wanted = Ok(Verdict::Yes);

fn no(token: usize) -> Wanted {
    Ok(Verdict::No(token))
}

fn refused(number: u32, place: usize) -> Wanted {
    Err(refusal_at(number, place))
}

fn at(name: &'static str, sheet: &Sheet, text: impl AsRef<[u8]>, wanted: Wanted) -> Known {
    Known { name, sheet: sheet.encode(&mut in_turn), text: text.as_ref().to_vec(), wanted }
}

fn keyed(mut sheet: Sheet, token: usize, key: Key) -> Sheet {
    sheet.tokens[token].key = key;
    sheet
}

fn kept(mut sheet: Sheet, words: &[&str]) -> Sheet {
    sheet.keep = words.iter().map(|word| (*word).into()).collect();
    sheet
}

const BLANK: (u8, &str) = (WHITESPACE, " ");
const MARK: (u8, &str) = (PLACEHOLDER, "?");
const A: (u8, &str) = (WORD, "a");
const B: (u8, &str) = (WORD, "b");
const OFF: (u8, &str) = (LINE_COMMENT, "-- fmt: off");
const ON: (u8, &str) = (LINE_COMMENT, "-- fmt: on");

/// The sheet that the wish's examples are about.
fn selected() -> Vec<Known> {
    let tokens = [(TOP_LEVEL, "select"), BLANK, (WORD, "id"), (OPERATOR, ","), B];
    let sheet = with(of(&tokens), |o| o.case = 1);
    let lower = with(sheet.clone(), |o| o.case = 2);
    let as_is = with(sheet.clone(), |o| o.case = 0);
    vec![
        at("white within a word", &sheet, "SEL ECT id , b", YES),
        at("every white byte", &sheet, "\tS\nE\u{b}L\u{c}E\rC T id,b ", YES),
        at("no white", &sheet, "SELECTid,b", YES),
        at("not in the asked case", &sheet, "select id, b", no(0)),
        at("its last byte alone", &sheet, "SELECt id, b", no(0)),
        at("a word in another case", &sheet, "SELECT ID, b", no(2)),
        at("ends early", &sheet, "SELECT id,", no(4)),
        at("ends within a token", &sheet, "SELECT i", no(2)),
        at("extra bytes", &sheet, "SELECT id, b;", no(5)),
        at("extra white", &sheet, "SELECT id, b \n\t", YES),
        at("empty", &sheet, "", no(0)),
        at("white alone", &sheet, " \n", no(0)),
        at("a comma for another", &sheet, "SELECT id; b", no(3)),
        at("lower", &lower, "select id, b", YES),
        at("lower, and upper found", &lower, "SELECT id, b", no(0)),
        at("as it is", &as_is, "select id,b", YES),
        at("a byte that is no white: 8", &sheet, "SELECT\u{8} id, b", no(2)),
        at("a byte that is no white: 14", &sheet, "SELECT\u{e} id, b", no(2)),
        at("a byte that is no white: 31", &sheet, "SELECT\u{1f} id, b", no(2)),
        at("a byte that is no white: 0", &sheet, "SELECT\0id, b", no(2)),
        at("127", &sheet, "SELECT id, b\u{7f}", no(5)),
    ]
}

/// Which tokens are kept, and as what.
fn switched() -> Vec<Known> {
    let off = of(&[A, OFF, BLANK, (RESERVED, "is"), BLANK, (WORD, "B c")]);
    let off = with(off, |o| o.case = 1);
    let dropped = of(&[ON, (WORD, "x"), (WORD, "y")]);
    let twice = of(&[OFF, OFF, ON, A, B]);
    let still_off = of(&[OFF, ON, A, B]);
    let copied = of(&[OFF, BLANK, (WHITESPACE, " z "), A]);
    let on_again = of(&[OFF, BLANK, (WHITESPACE, "z"), ON, BLANK, (WHITESPACE, "z"), A]);
    let comment = of(&[(BLOCK_COMMENT, "-- FMT:off then"), A, BLANK, B]);
    let word = of(&[(WORD, "-- fmt: off"), A]);
    let solid_white = of(&[A, (WHITESPACE, "z"), B]);
    vec![
        at("switched off it is not cased", &off, "a is B c", YES),
        at("switched off and cased", &off, "a IS B c", no(3)),
        at("the dropped one and its comment", &dropped, "y", YES),
        at("the dropped one found", &dropped, "x y", no(2)),
        at("the comment found", &dropped, "-- fmt: on y", no(2)),
        at("a dropped switch does nothing", &twice, "b", YES),
        at("a dropped switch, and what it would drop", &twice, "a b", no(4)),
        at("a dropped switch drops nothing", &still_off, "a b", YES),
        at("Whitespace copied", &copied, "za", YES),
        at("Whitespace copied, left out", &copied, "a", no(2)),
        at("Whitespace, on again", &on_again, "z a", YES),
        at("Whitespace, on again, found", &on_again, "z z a", no(6)),
        at("a block comment switches too", &comment, "b", YES),
        at("a word does not", &word, "-- fmt: off a", YES),
        at("Whitespace that is not white", &solid_white, "a b", YES),
        at("Whitespace that is not white, found", &solid_white, "a z b", no(2)),
    ]
}

/// Letter case and keep words.
fn cased() -> Vec<Known> {
    let kinds = [
        (TYPE_SPECIFIER, "t"),
        (STRING, "s"),
        (RESERVED, "r"),
        (TOP_LEVEL, "l"),
        (NO_INDENT, "i"),
        (NEWLINE, "n"),
        (NEWLINE_AFTER, "m"),
        (OPERATOR, "o"),
        (OPEN, "p"),
        (CLOSE, "q"),
        (LINE_COMMENT, "c"),
        (BLOCK_COMMENT, "d"),
        (NUMBER, "e"),
        (PLACEHOLDER, "h"),
        (WORD, "w"),
        (JOIN, "j"),
    ];
    let kinds = with(of(&kinds), |o| o.case = 1);
    let null = with(of(&[(RESERVED, "is  null")]), |o| o.case = 1);
    let (exact, joined) =
        (kept(null.clone(), &["x", "is  null"]), kept(null.clone(), &["is null"]));
    let entry = with(indexed(of(&[MARK, (RESERVED, "r")]), &["r"]), |o| o.case = 1);
    vec![
        at("the kinds that are cased", &kinds, "tsRLINMoPQcdehwj", YES),
        at("a join is not", &kinds, "tsRLINMoPQcdehwJ", no(15)),
        at("a bracket is", &kinds, "tsRLINMopQcdehwj", no(8)),
        at("a keep word", &exact, "is null", YES),
        at("a keep word cased", &exact, "IS NULL", no(0)),
        at("a keep word is compared with its blanks", &joined, "ISNULL", YES),
        at("without a keep word", &null, "IS\nNULL", YES),
        at("an entry is not cased", &entry, "r R", YES),
        at("an entry cased", &entry, "R R", no(0)),
    ]
}

/// Placeholders: the counter, numbers, names.
fn placeholders() -> Vec<Known> {
    let three = indexed(of(&[MARK, MARK, MARK]), &["7", "12"]);
    let calls =
        indexed(of(&[(WORD, "x"), (OPERATOR, "="), MARK, (NEWLINE, "AND"), MARK]), &["48213", "7"]);
    let off = indexed(of(&[OFF, BLANK, MARK, ON, BLANK, MARK]), &["7"]);
    let key = |key| keyed(indexed(of(&[MARK, MARK]), &["7", "12"]), 0, key);
    let name = |name: &str| Key::Named(name.into());
    let line = keyed(of(&[(PLACEHOLDER, ":line"), MARK]), 0, name("line"));
    let line = named(line, &[("other", "9"), ("line", "3"), ("line", "4")]);
    let empty = keyed(of(&[MARK]), 0, Key::OneIndexed(0));
    let empty = named(empty, &[("a", "1"), ("", "2"), ("", "3")]);
    let white = indexed(of(&[MARK, A]), &[" \n"]);
    let within = indexed(of(&[MARK, A]), &["x y\n"]);
    let run_on = indexed(of(&[MARK, MARK]), &["1", "23"]);
    vec![
        at("a numbered list", &three, "7 12 ?", YES),
        at("white within a value of another", &run_on, "12 3", YES),
        at("a shorter value before", &three, "7 1 2?", YES),
        at("past its end", &three, "7 12 7", no(2)),
        at("two exchanged", &calls, "x = 7 AND 48213", no(2)),
        at("the previous caller's line", &calls, "x = 48213 AND 8", no(4)),
        at("switched off it shows itself", &off, "? 7", YES),
        at("switched off it moves no count", &off, "? ?", no(5)),
        at("switched off it shows no entry", &off, "7 7", no(2)),
        at("ZeroIndexed 1", &key(Key::ZeroIndexed(1)), "12 7", YES),
        at("OneIndexed 1", &key(Key::OneIndexed(1)), "7 7", YES),
        at("OneIndexed past the end", &key(Key::OneIndexed(3)), "? 7", YES),
        at("a name in a numbered list", &key(name("line")), "? 7", YES),
        at("an empty name counts", &key(name("")), "7 12", YES),
        at("the first of two names", &line, "3 ?", YES),
        at("the second of two names", &line, "4 ?", no(0)),
        at("its own value for its entry", &line, ":line ?", no(0)),
        at("OneIndexed 0, Named", &empty, "2", YES),
        at("a white entry", &white, "a", YES),
        at("a white entry, its own found", &white, "? a", no(1)),
        at("white within an entry", &within, "x\ty a", YES),
    ]
}

/// Tokens without a byte that is not white, and sheets without tokens.
fn empty() -> Vec<Known> {
    let none = of(&[]);
    let white = of(&[(WORD, ""), (WORD, " \t"), (STRING, "\n")]);
    let last = of(&[A, (WORD, " "), (WORD, "")]);
    vec![
        at("no tokens, no text", &none, "", YES),
        at("no tokens, white", &none, " \n\t", YES),
        at("no tokens, a byte", &none, " a", no(0)),
        at("white tokens, no text", &white, "", YES),
        at("white tokens, white", &white, "\r\n", YES),
        at("white tokens, a byte", &white, "x", no(3)),
        at("white tokens after the end", &last, "a", YES),
        at("white tokens after extra bytes", &last, "ab", no(3)),
        at("white tokens, the first one missing", &last, "", no(0)),
    ]
}

/// What is given before what; and sheets that layout refuses.
fn refusals() -> Vec<Known> {
    let nought =
        |tokens: &[(u8, &str)], at| keyed(indexed(of(tokens), &["7"]), at, Key::OneIndexed(0));
    let late = nought(&[A, MARK], 1);
    let off = nought(&[OFF, BLANK, MARK, A], 2);
    let dropped = nought(&[ON, MARK, A], 1);
    let word = nought(&[A, B], 0);
    let none = Sheet { mode: MODE_NONE, params: Vec::new(), ..late.clone() };
    let two = keyed(nought(&[MARK, A, MARK], 0), 2, Key::OneIndexed(0));
    let ab = of(&[A, B]);
    let on = with(ab.clone(), |o| o.inline = INLINE_ON);
    let past = with(ab.clone(), |o| o.inline = 3);
    let on_nought = with(late.clone(), |o| o.inline = INLINE_ON);
    let deep = with(of(&[(OPEN, "("); 129]), |o| (o.block, o.indent) = (0, 0));
    let mut folded = of(&[(TOP_LEVEL, "CREATE"), (OPEN, "("), A, (CLOSE, ")")]);
    folded.tokens[0].create = true;
    let folded = with(folded, |o| (o.block, o.top_level) = (0, 0));
    let bytes = |sheet: &Sheet| sheet.encode(&mut in_turn);
    let raw = |name, sheet, text: &[u8], wanted| Known { name, sheet, text: text.into(), wanted };
    let mut place = bytes(&late);
    place[52..56].copy_from_slice(&9_u32.to_le_bytes());
    let mut high = bytes(&late);
    *high.last_mut().expect("a body") = 128;
    let longer = [bytes(&ab), b"a".to_vec()].concat();
    vec![
        at("5 at its token", &late, "a 7", refused(5, 1)),
        at("5 before a mismatch", &late, "x", refused(5, 1)),
        at("5 before 15", &late, [200, b'a'], refused(5, 1)),
        at("5 with no text", &late, "", refused(5, 1)),
        at("the first of two", &two, "a", refused(5, 0)),
        at("no 5 switched off", &off, "? a", YES),
        at("no 5 dropped", &dropped, "a", YES),
        at("no 5 on a word", &word, "a b", YES),
        at("no 5 without a list", &none, "a ?", YES),
        at("15 at its offset", &ab, [b'a', b' ', b'b', 128], refused(15, 3)),
        at("15 before a mismatch", &ab, [b'x', b' ', b'b', 255, 200], refused(15, 3)),
        at("15 at the start", &ab, [160, b'a', b'b'], refused(15, 0)),
        at("15 in two bytes of one letter", &ab, "a\u{e9}b", refused(15, 1)),
        at("15 and no tokens", &of(&[]), [128], refused(15, 0)),
        at("14 is not given", &on, "a b", YES),
        at("14 is not given: no", &on, "b a", no(0)),
        at("5 and not 14", &on_nought, "a 7", refused(5, 1)),
        at("word 7 at 3", &past, "a b", refused(2, 28)),
        at("6 is not given", &deep, "(".repeat(129), YES),
        at("6 is not given: no", &deep, "(".repeat(128), no(128)),
        at("6 is not given: extra bytes", &deep, "(".repeat(130), no(129)),
        at("8 is not given", &folded, "CREATE (a)", YES),
        at("8 is not given: no", &folded, "CREATE (a", no(3)),
        raw("1: no bytes", Vec::new(), b"a", refused(1, 0)),
        raw("1: no bytes, no text", Vec::new(), b"", refused(1, 0)),
        raw("1: a byte more", longer, &[200], refused(1, 0)),
        raw("3 before 5 and 15", place, &[200], refused(3, 52)),
        raw("4 before 5 and 15", high, &[200], refused(4, bytes(&late).len() - 1)),
    ]
}

pub fn run() -> bool {
    let parts = [selected(), switched(), cased(), placeholders(), empty(), refusals()];
    let known: Vec<Known> = parts.into_iter().flatten().collect();
    let right = known.iter().filter(|known| is_right(known)).count();
    println!("texts of another formatter: {right} of {} right", known.len());
    right == known.len()
}

fn is_right(Known { name, sheet, text, wanted }: &Known) -> bool {
    let (model, rust) = (model::judge(sheet, text), judged::by_rust(sheet, text));
    let call = judged::call(sheet, text);
    let right = model == *wanted && rust.as_ref() == Ok(wanted) && call.is_ok();
    if !right {
        println!("{name}: wanted {wanted:?}\nmodel {model:?}\nRust {rust:?}\ncall {call:?}");
    }
    right
}
