//! Document 01's fourteen sheets, each with every variant and buffer that it names; further ones;
//! those on word 7 at 2, which the Rust has not; those whose rows are known; those whose
//! compacted sheet is; those whose room is; damaged ones whose changes are; those around word 7 at 1,
//! which is withdrawn; and those with texts of another formatter.

mod compact;
mod convert;
mod judge;
mod lines;
mod mend;
mod room;
mod rows;
mod words;

use crate::check::{columns, measured};
use crate::converted::WITHDRAWN;
use crate::model::{self, Answer, Refusal};
use crate::oracle::{self, Panic};
use crate::random;
use crate::sheet::*;
use crate::show;

/// The buffer of the sheet program.
const ROOM: usize = 65536;

#[derive(Clone)]
struct Case {
    name: &'static str,
    sheet: Sheet,
    room: usize,
    wanted: Answer,
}

fn text(lines: &[&str]) -> Answer {
    let width = lines.iter().map(|line| columns(line.as_bytes())).max().unwrap_or(0);
    Answer::Laid { text: lines.join("\n").into(), lines: lines.len(), width }
}

fn refusal_at(number: u32, place: usize) -> Refusal {
    Refusal { number, place }
}

fn refusal(number: u32, place: usize) -> Answer {
    Answer::Refused(refusal_at(number, place))
}

fn of(tokens: &[(u8, &str)]) -> Sheet {
    let tokens = tokens.iter().map(|&(kind, value)| Token::new(kind, value)).collect();
    Sheet { tokens, ..Sheet::default() }
}

fn indexed(mut sheet: Sheet, values: &[&str]) -> Sheet {
    sheet.mode = MODE_INDEXED;
    let param = |value: &&str| Param { name: Vec::new(), value: (*value).into() };
    sheet.params = values.iter().map(param).collect();
    sheet
}

fn named(mut sheet: Sheet, entries: &[(&str, &str)]) -> Sheet {
    sheet.mode = MODE_NAMED;
    let param = |&(name, value): &(&str, &str)| Param { name: name.into(), value: value.into() };
    sheet.params = entries.iter().map(param).collect();
    sheet
}

fn with(mut sheet: Sheet, set: impl FnOnce(&mut Options)) -> Sheet {
    set(&mut sheet.options);
    sheet
}

fn key(mut sheet: Sheet, key: Key) -> Sheet {
    sheet.tokens[0].key = key;
    sheet
}

fn notes() -> Sheet {
    let blank = (WHITESPACE, " ");
    of(&[
        (TOP_LEVEL, "SELECT"),
        blank,
        (WORD, "id"),
        blank,
        (TOP_LEVEL, "FROM"),
        blank,
        (WORD, "calls"),
    ])
}

fn plain_sheets() -> Vec<Case> {
    let at = |name, sheet, room, wanted| Case { name, sheet, room, wanted };
    let word = || of(&[(WORD, "a")]);
    let whole = ["SELECT", "  id", "FROM", "  calls"];
    let top_level = |limit| with(notes(), |o| o.top_level = limit);
    vec![
        at("1 *", of(&[]), ROOM, text(&[])),
        at("1 * buffer 0", of(&[]), 0, text(&[])),
        at("2 *", word(), ROOM, text(&["a"])),
        at("2 * buffer 2", word(), 2, text(&["a"])),
        at("2 * buffer 1", word(), 1, refusal(9, 0)),
        at("3 *", notes(), ROOM, text(&whole)),
        at("3 * counts", notes(), ROOM, counted(&whole, 24, 4, 7)),
        at("3 * buffer 26", notes(), 26, text(&whole)),
        at("3 * buffer 25", notes(), 25, refusal(9, 6)),
        at("4 * top level 5", top_level(5), ROOM, text(&["SELECT id", "FROM", "  calls"])),
        at("4 * top level 6", top_level(6), ROOM, text(&["SELECT id", "FROM calls"])),
    ]
}

/// The numbers as the document writes them, not as they are worked out here.
fn counted(parts: &[&str], length: usize, lines: usize, width: usize) -> Answer {
    let text: Vec<u8> = parts.join("\n").into();
    assert_eq!(text.len(), length);
    Answer::Laid { text, lines, width }
}

fn placeholder_sheets() -> Vec<Case> {
    let at = |name, sheet, wanted| Case { name, sheet, room: ROOM, wanted };
    let mark = (PLACEHOLDER, "?");
    let (off, on) = ((LINE_COMMENT, "-- fmt: off"), (LINE_COMMENT, "-- fmt: on"));
    let feed = (WHITESPACE, "\n");
    let switched = of(&[off, feed, mark, (WORD, "x"), on, feed, mark]);
    let line = key(of(&[(PLACEHOLDER, ":line")]), Key::Named("line".into()));
    let nought = || key(of(&[mark]), Key::OneIndexed(0));
    let two_empty = [("a", "1"), ("", "2"), ("", "3")];
    vec![
        at("5 *", indexed(of(&[mark, mark, mark]), &["7", "12"]), text(&["7 12 ?"])),
        at("6 *", indexed(switched, &["7"]), text(&["?x7"])),
        at("7 *", of(&[on, (WORD, "x"), (WORD, "y")]), text(&["y"])),
        at("10 *", named(line, &[("line", "3"), ("line", "4")]), text(&["3"])),
        at("11 Indexed", indexed(nought(), &["7"]), refusal(5, 0)),
        at("11 Indexed, no entries", indexed(nought(), &[]), refusal(5, 0)),
        at("11 None", nought(), text(&["?"])),
        at("11 Named, none empty", named(nought(), &[("a", "1")]), text(&["?"])),
        at("11 Named", named(nought(), &two_empty), text(&["2"])),
    ]
}

fn bracket_sheets() -> Vec<Case> {
    let at = |name, sheet, wanted| Case { name, sheet, room: ROOM, wanted };
    let bracket = [(OPEN, "("), (WORD, "a"), (CLOSE, ")")];
    let block = |limit| with(of(&bracket), |o| o.block = limit);
    let after = |word: &str, create| {
        let mut sheet = of(&[&[(TOP_LEVEL, word)], &bracket[..]].concat());
        sheet.tokens[0].create = create;
        with(sheet, |o| (o.block, o.top_level) = (0, 0))
    };
    let opened = |count| with(of(&vec![(OPEN, "("); count]), |o| (o.block, o.indent) = (0, 0));
    vec![
        at("8 * block 3", block(3), text(&["(a)"])),
        at("8 * block 2", block(2), text(&["(", "  a", ")"])),
        at("9 * FROM", after("FROM", false), text(&["FROM (", "  a", ")"])),
        at("9 * CREATE", after("CREATE", true), refusal(8, 3)),
        at("12 128 brackets", opened(128), text(&["("; 128])),
        at("12 129 brackets", opened(129), refusal(6, 128)),
    ]
}

fn word_sheets() -> Vec<Case> {
    let at = |name, sheet, wanted| Case { name, sheet, room: ROOM, wanted };
    let reserved = || with(of(&[(RESERVED, "is  null")]), |o| o.case = 1);
    let mut kept = reserved();
    kept.keep.push("is  null".into());
    let mut joined = reserved();
    joined.keep.push("is null".into());
    let queries = || of(&[(WORD, "a"), (OPERATOR, ";"), (WORD, "b")]);
    vec![
        at("13 * upper", reserved(), text(&["IS NULL"])),
        at("13 * kept", kept, text(&["is null"])),
        at("13 keep word with joined blanks", joined, text(&["IS NULL"])),
        at("14", queries(), text(&["a;", "b"])),
        at("14 no lines between", with(queries(), |o| o.lines = 0), text(&["a;b"])),
    ]
}

/// Which refusal comes first where 6 and 9 meet in one token: no random run can judge this, as
/// the Rust knows neither. `full` is the length of the working text after 128 brackets.
fn deep_sheets() -> Vec<Case> {
    let at = |name, sheet, room, wanted| Case { name, sheet, room, wanted };
    let deep = |kind, value| {
        let mut tokens = vec![(OPEN, "("); 128];
        tokens.push((kind, value));
        with(of(&tokens), |o| (o.block, o.indent) = (0, 0))
    };
    let full = 256;
    let set = || deep(NEWLINE_AFTER, "SET");
    let top = |kind, value, top_level| {
        let mut sheet = deep(TOP_LEVEL, "T");
        sheet.tokens.push(Token::new(kind, value));
        with(sheet, |o| o.top_level = top_level)
    };
    // No blank after the dot, so that the line feed has no room.
    let mut no_blank = top(OPERATOR, ".", 9);
    no_blank.tokens.push(Token::new(NEWLINE, "AND"));
    // The dropped word is the one before the bracket, which gets a blank: the full buffer has no room for it.
    let mut switched = deep(LINE_COMMENT, "-- fmt: on");
    switched.tokens.extend([Token::new(RESERVED, "as"), Token::new(OPEN, "(")]);
    vec![
        at("6 before 9 at a bracket", deep(OPEN, "("), full, refusal(6, 128)),
        at("9 before 6, newline-after", set(), full + 2, refusal(9, 128)),
        at("6 after the word, newline-after", set(), full + 3, refusal(6, 128)),
        at("9 before 6, top level", top(WORD, "a", 0), full, refusal(9, 128)),
        at("6 after the word, top level", top(WORD, "a", 0), full + 1, refusal(6, 128)),
        at("6 before 9, newline", top(NEWLINE, "AND", 9), full + 2, refusal(6, 129)),
        at("6 before the new line, newline", no_blank, full + 2, refusal(6, 130)),
        at("6 before the blank of a bracket", switched, full, refusal(6, 130)),
    ]
}

/// What counts for 6, a bound that the Rust has not; inline brackets meet no bound of their own.
fn full_sheets() -> Vec<Case> {
    let at = |name, sheet, wanted| Case { name, sheet, room: ROOM, wanted };
    let inline = |count| with(of(&vec![(OPEN, "("); count]), |o| o.block = 40000);
    let mut tokens = [(TOP_LEVEL, "T"), (OPEN, "(")].repeat(64);
    tokens.extend([(TOP_LEVEL, "T"), (WORD, "a")]);
    let folded = with(of(&tokens), |o| (o.block, o.top_level, o.indent) = (0, 0, 0));
    let union = [(NO_INDENT, "UNION"), (WORD, "a")];
    let at_128 = |more: &[(u8, &str)]| {
        let tokens = [&[(OPEN, "("); 128], more].concat();
        with(of(&tokens), |o| (o.block, o.top_level, o.indent) = (0, 0, 0))
    };
    let after_128 = |more: &[&str]| text(&[&["("; 128], more].concat());
    vec![
        at("128 inline brackets", inline(128), text(&["(".repeat(128).as_str()])),
        at("129 inline brackets", inline(129), refusal(6, 128)),
        at("6 counts folded entries", folded, refusal(6, 128)),
        at("no 6 at a close", at_128(&[(CLOSE, ")")]), after_128(&[")"])),
        at("no 6 at a no-indent word", at_128(&union), after_128(&["UNION", "a"])),
    ]
}

/// The same for 5, 8 and 9, and two cases that document 01's sheets leave out.
fn further_sheets() -> Vec<Case> {
    let at = |name, sheet, room, wanted| Case { name, sheet, room, wanted };
    let word = [(TOP_LEVEL, "T"), (OPEN, "("), (WORD, "a"), (CLOSE, ")")];
    let folding = |sheet| with(sheet, |o| (o.block, o.top_level, o.indent) = (0, 0, 0));
    let mut below = folding(of(&word));
    below.tokens[0].create = true;
    // No blank after the dot, so that the close's line feed has no room.
    let mut no_blank = below.clone();
    no_blank.tokens[2] = Token::new(OPERATOR, ".");
    let switch = [(NO_INDENT, "UNION"), (LINE_COMMENT, "-- fmt: on")];
    let dropped = folding(of(&[&switch[..], &word[..]].concat()));
    let nought = indexed(key(of(&[(PLACEHOLDER, "?")]), Key::OneIndexed(0)), &[]);
    let white = || of(&[(RESERVED, " ")]);
    vec![
        at("8 before 9", below.clone(), 7, refusal(8, 3)),
        at("9 before the close", below, 6, refusal(9, 2)),
        at("8 before the new line of a close", no_blank, 6, refusal(8, 3)),
        at("8 without the alias, the word dropped", dropped, ROOM, refusal(8, 5)),
        at("5 before 9", nought, 0, refusal(5, 0)),
        at("9 in a text that is all white", white(), 0, refusal(9, 0)),
        at("a text that is all white", white(), 1, text(&[])),
    ]
}

/// The sheet at word 7 = 0, 1, 2. What is wanted at 1 is the Rust's: no call lays it out.
fn at_three(name: &'static str, sheet: Sheet, room: usize, wanted: [Answer; 3]) -> Vec<Case> {
    let one = |(inline, wanted)| {
        let sheet = with(sheet.clone(), |o| o.inline = inline);
        Case { name, sheet, room, wanted }
    };
    (0..).zip(wanted).map(one).collect()
}

/// The same text at 0 and 1, another at 2.
fn held(at_rusts: &[&str], at_two: &[&str]) -> [Answer; 3] {
    [text(at_rusts), text(at_rusts), text(at_two)]
}

const NOTE: (u8, &str) = (LINE_COMMENT, "-- c");
const TYPED: (u8, &str) = (TYPE_SPECIFIER, "::t");

/// What the new line that closes a line comment does, and the buffer that it needs.
fn closing_sheets() -> Vec<Case> {
    let at = |name, tokens: &[_], room, wanted| at_three(name, of(tokens), room, wanted);
    let (word, none) = ((WORD, "a"), (LINE_COMMENT, ""));
    let (full, fed) = (refusal(9, 0), [(LINE_COMMENT, "-- c\n")]);
    let from = [word, NOTE, (TOP_LEVEL, "FROM"), (WORD, "x")];
    let feed = (WHITESPACE, "\n");
    let broken = [word, feed, NOTE, feed, (WORD, "b")];
    let three = |zero: &[&str], one, two| [text(zero), text(&[one]), text(two)];
    let block = with(of(&[(OPEN, "("), NOTE, word, (CLOSE, ")")]), |o| o.block = 0);
    let in_block = three(&["(", "  -- c", "  a", ")"], "( -- c a )", &["( -- c", "a )"]);
    let top = three(&["a -- c", "FROM", "  x"], "a -- c FROM x", &["a -- c", " FROM x"]);
    let first = three(&["a", "-- c", "b"], "a -- c b", &["a -- c", "b"]);
    let blanks = [(LINE_COMMENT, "-- c \t"), word];
    let feeds = [(LINE_COMMENT, "-- c\n\n"), word];
    let fed_at = [&["-- c", "", "a"][..], &["-- c", "", " a"], &["-- c", "", "a"]];
    let same = |line| [text(&[line]), text(&[line]), text(&[line])];
    [
        at("a word after", &from, ROOM, top),
        at("the first new line is as at 1", &broken, ROOM, first),
        at("found in the value", &fed, 5, [text(&["-- c"]), full.clone(), text(&["-- c"])]),
        at("found in the value, buffer 4", &fed, 4, [full.clone(), full.clone(), full]),
        at("an empty comment first", &[none, word], 3, same("a")),
        at("blanks at its end", &blanks, ROOM, three(&["-- c", "a"], "-- c a", &["-- c", "a"])),
        at("two line feeds at its end", &feeds, ROOM, fed_at.map(text)),
        at("the trim cuts it", &[word, NOTE], 7, same("a -- c")),
        at("added, buffer 6", &[word, NOTE], 6, [1; 3].map(|at| refusal(9, at))),
        at_three("no indent", block, ROOM, in_block),
    ]
    .concat()
}

/// What would cut the line feed; what cuts as ever; what holds nothing.
fn held_sheets() -> Vec<Case> {
    let at = |name, tokens: &[_], wanted| at_three(name, of(tokens), ROOM, wanted);
    let narrow = |sheet| with(sheet, |o| (o.block, o.top_level) = (0, 0));
    let (word, comma, blank) = ((WORD, "a"), (OPERATOR, ","), (WHITESPACE, " "));
    let ended = [word, (OPERATOR, ";"), (LINE_COMMENT, ""), TYPED];
    let (off, on) = ((LINE_COMMENT, "-- fmt: off"), (LINE_COMMENT, "-- fmt: on"));
    let copied = [off, blank, (LINE_COMMENT, "-- x\n"), on, blank, TYPED];
    let two = [word, comma, NOTE, (LINE_COMMENT, "-- d")];
    let two_at = [&["a,", "-- c  -- d"][..], &["a, -- c  -- d"], &["a, -- c", "  -- d"]];
    let bracket = [(OPEN, "("), word, (CLOSE, ")")];
    let folded = narrow(of(&[&[NOTE, (TOP_LEVEL, "")], &bracket[..]].concat()));
    let folded_at = [&["-- c (", "  a", ")"][..], &["-- c ( a )"], &["-- c", " ( a )"]];
    let mut create = narrow(of(&[&[(TOP_LEVEL, "CREATE")], &bracket[..]].concat()));
    create.tokens[0].create = true;
    let created = [refusal(8, 3), text(&["CREATE ( a )"]), text(&["CREATE ( a )"])];
    let blanks = [word, NOTE, (WORD, "  "), comma];
    let blanks_at = [&["a -- c", ","][..], &["a -- c,"], &["a -- c", ","]];
    [
        at("a type specifier", &[word, NOTE, TYPED], held(&["a -- c::t"], &["a -- c", "::t"])),
        at("found after `;`", &ended, held(&["a;::t"], &["a;", "::t"])),
        at("a comma before the next", &two, two_at.map(text)),
        at_three("a fold", folded, ROOM, folded_at.map(text)),
        at("blanks after it", &blanks, blanks_at.map(text)),
        at("a block comment", &[(BLOCK_COMMENT, "/**/"), TYPED], held(&["/**/::t"], &["/**/::t"])),
        at("copied text", &copied, held(&["-- x::t"], &["-- x::t"])),
        at_three("8 at 0 alone", create, ROOM, created),
    ]
    .concat()
}

fn comment_sheets() -> Vec<Case> {
    let word = with(of(&[(WORD, "a")]), |o| o.inline = 3);
    let past = Case { name: "word 7 at 3", sheet: word, room: ROOM, wanted: refusal(2, 28) };
    [closing_sheets(), held_sheets(), vec![past]].concat()
}

/// Width by columns: tabs of values, of an entry, of comments and of the indent. The numbers are
/// written out, and not worked out here.
fn tab_sheets() -> Vec<Case> {
    let at = |name, sheet, wanted| Case { name, sheet, room: ROOM, wanted };
    let word = |value| of(&[(WORD, value)]);
    let tabs = |sheet| with(sheet, |o| o.indent = 256);
    let bracket = [(TOP_LEVEL, "FROM"), (WHITESPACE, " "), (OPEN, "("), (WORD, "a"), (CLOSE, ")")];
    let nested = with(tabs(of(&bracket)), |o| o.block = 0);
    let nested_at = ["FROM", "\t(", "\t\ta", "\t)"];
    let entry = indexed(of(&[(WORD, "abcdefg"), (PLACEHOLDER, "?")]), &["7\t8"]);
    let note = of(&[(LINE_COMMENT, "--\tc"), (WORD, "a")]);
    let block = of(&[(BLOCK_COMMENT, "/*\n\ta\tb */")]);
    let off =
        [(LINE_COMMENT, "-- fmt: off"), (WHITESPACE, " "), (WORD, "ab\t"), (WHITESPACE, "\tc")];
    vec![
        at("a tab", word("a\tb"), counted(&["a\tb"], 3, 1, 9)),
        at("seven letters and a tab", word("abcdefg\tb"), counted(&["abcdefg\tb"], 9, 1, 9)),
        at("eight letters and a tab", word("abcdefgh\tb"), counted(&["abcdefgh\tb"], 10, 1, 17)),
        at("several tabs", word("a\tb\t\tc"), counted(&["a\tb\t\tc"], 6, 1, 25)),
        at("at a line's end", word("a\t\nbcd"), counted(&["a\t", "bcd"], 6, 2, 8)),
        at(
            "at column 8 of a line's end",
            word("abcdefgh\t\nb"),
            counted(&["abcdefgh\t", "b"], 11, 2, 16),
        ),
        at("the column starts anew", word("abcdef\na\tb"), counted(&["abcdef", "a\tb"], 10, 2, 9)),
        at("a carriage return is a column", word("ab\r\tc\rd"), counted(&["ab\r\tc\rd"], 7, 1, 11)),
        at("cut at the end", word("a\t"), counted(&["a"], 1, 1, 1)),
        at("an indent", tabs(notes()), counted(&["SELECT", "\tid", "FROM", "\tcalls"], 22, 4, 13)),
        at("an indent of two", nested, counted(&nested_at, 14, 4, 17)),
        at("an entry", entry, counted(&["abcdefg 7\t8"], 11, 1, 17)),
        at("a line comment", note, counted(&["--\tc", "a"], 6, 2, 9)),
        at("a block comment", block, counted(&["/*", " a\tb */"], 10, 2, 12)),
        at("copied", of(&off), counted(&["ab\t\tc"], 5, 1, 17)),
    ]
}

/// Every sheet of this file with its buffer.
pub fn sheets() -> Vec<(Vec<u8>, usize)> {
    let parts = [plain_sheets(), placeholder_sheets(), bracket_sheets(), word_sheets()];
    let later = [comment_sheets(), tab_sheets()];
    let cases = parts.into_iter().chain(further_parts()).chain(later).flatten();
    cases.map(|case| (case.sheet.encode(&mut in_turn), case.room)).collect()
}

fn further_parts() -> [Vec<Case>; 3] {
    [deep_sheets(), full_sheets(), further_sheets()]
}

pub fn run() -> bool {
    let parts = [plain_sheets(), placeholder_sheets(), bracket_sheets(), word_sheets()];
    let sheets = count(parts.into_iter().flatten().collect(), "document 01's sheets");
    let further = count(further_parts().into_iter().flatten().collect(), "further sheets");
    let comments = count(comment_sheets(), "line comments at word 7 = 0, 1, 2");
    let tabs = count(tab_sheets(), "tabs") && count(lines::sheets(), "many lines");
    let long = count_by(&lines::long_sheets(), "long texts", &mut once);
    let words = count(words::sheets(), "words of blocks");
    let rows = rows::run();
    let compacted = compact::run();
    let room = room::run();
    let mended = mend::run();
    let converted = convert::run();
    let judged = judge::run();
    let later = rows && compacted && room && mended && converted && judged;
    sheets && further && comments && tabs && long && words && later && head()
}

/// The two heads of the library, where it is linked.
fn head() -> bool {
    #[cfg(feature = "call")]
    match crate::call::heads_are_right() {
        Ok(()) => println!("the heads: the Rust's, and with 60 in word 11"),
        Err(difference) => {
            println!("{difference}");
            return false;
        }
    }
    true
}

fn count(cases: Vec<Case>, what: &str) -> bool {
    count_by(&cases, what, &mut in_turn)
}

fn count_by(cases: &[Case], what: &str, lay: &mut Layer) -> bool {
    let right = cases.iter().filter(|case| is_right(case, lay)).count();
    println!("{what}: {right} of {} right", cases.len());
    right == cases.len()
}

/// A value that stands in the bodies already stands there once.
fn once(body: &mut Vec<u8>, value: &[u8]) -> u32 {
    random::shared(body, value).unwrap_or_else(|| in_turn(body, value))
}

fn is_right(case: &Case, lay: &mut Layer) -> bool {
    let bytes = case.sheet.encode(lay);
    let model = model::answer(&bytes, case.room);
    let on = model::trial_with_on(&bytes, case.room).answer;
    let models = model == asked(case) && on == case.wanted;
    let right = models && rust_agrees(case, &bytes) && call_agrees(case, &bytes);
    if !right {
        println!("sheet {}: wanted {}", case.name, show::answer(&case.wanted));
        println!("model {}\nRust {}", show::answer(&model), show::rust(&bytes));
    }
    right
}

/// What layout gives: the refusal, where word 7 is 1.
fn asked(case: &Case) -> Answer {
    if case.sheet.options.inline == INLINE_ON { WITHDRAWN } else { case.wanted.clone() }
}

/// The proved call, where it is linked.
fn call_agrees(case: &Case, bytes: &[u8]) -> bool {
    #[cfg(feature = "call")]
    let (whose, got) = ("call", crate::call::answer(bytes, case.room));
    #[cfg(not(feature = "call"))]
    let (whose, got) = ("model", Ok::<_, String>(model::answer(bytes, case.room)));
    let right = got.as_ref() == Ok(&asked(case));
    if !right {
        println!("the {whose}: {}", got.map_or_else(|said| said, |got| show::answer(&got)));
    }
    right
}

/// Refusals 6 and 9 are not the Rust's, nor is word 7 at 2.
fn rust_agrees(case: &Case, bytes: &[u8]) -> bool {
    if oracle::inline(bytes) == Some(INLINE_COMMENTS) {
        return true;
    }
    let Some(rust) = oracle::read(bytes).map(|read| read.text()) else {
        return false;
    };
    match &case.wanted {
        Answer::Laid { text, lines, width } => {
            rust.is_ok_and(|got| got == *text && measured(&got) == (*lines, *width))
        }
        Answer::Refused(Refusal { number: 5, .. }) => rust == Err(Panic::OneIndexedNought),
        Answer::Refused(Refusal { number: 8, .. }) => rust == Err(Panic::IndentBelowNought),
        Answer::Refused(_) => true,
    }
}
