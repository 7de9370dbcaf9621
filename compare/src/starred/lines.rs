//! Texts of many lines, and of many tabs, whose lines and width are known. The call counts 4,224 bytes at a time. What
//! cannot be the longest line it passes, looking at eight parts of 512 bytes together, and a tab that stands far on costs
//! its own line. Where tabs stand close it counts the columns of sixteen parts side by side, sixteen bytes at a time, of up
//! to 65,024 bytes; what is within sixteen bytes it looks at only until a line of 120 columns is known. Here the longest
//! line, or a tab, stands where such a stretch or part begins or ends, and is about as wide as that.

use super::{Case, ROOM, of};
use crate::model::Answer;
use crate::sheet::WORD;

/// One word, which is laid out as it is.
fn at(name: &'static str, value: String, lines: usize, width: usize) -> Case {
    let wanted = Answer::Laid { text: value.clone().into(), lines, width };
    Case { name, sheet: of(&[(WORD, &value)]), room: ROOM, wanted }
}

fn feeds(n: usize) -> String {
    "\n".repeat(n)
}

/// A line of `width` after `n` line feeds and before 80 more; the first line has `first` bytes.
fn after_feeds(first: usize, n: usize, width: usize) -> Case {
    let value = "a".repeat(first) + &feeds(n) + &"b".repeat(width) + &feeds(80) + "c";
    at("a longer line among line feeds", value, n + 81, width)
}

/// The same after `n` lines of `length`.
fn after_lines(length: usize, n: usize, width: usize) -> Case {
    let value = ("x".repeat(length) + "\n").repeat(n) + &"y".repeat(width) + &feeds(80) + "z";
    at("a longer line among short ones", value, n + 81, width)
}

/// `n` tabs after so many letters, and a letter after them.
fn after_tabs(letters: usize, n: usize, width: usize) -> Case {
    at("a run of tabs", "x".repeat(letters) + &"\t".repeat(n) + "y", 1, width)
}

/// Short lines up to byte 4,194, and so many letters, which go on in the next stretch.
fn into_the_next(letters: usize, rest: &str, lines: usize, width: usize) -> Case {
    let value = "ab\n".repeat(1398) + &"y".repeat(letters) + rest;
    at("a line in two stretches", value, 1398 + lines, width)
}

/// A line of `known` bytes, and one that is longer by a byte, starting so many bytes on, among line feeds.
fn in_a_part(known: usize, on: usize) -> Case {
    let feed = feeds(on - known);
    let value = "a".repeat(known) + &feed + &"b".repeat(known + 1) + &feeds(9000 - on) + "c";
    at("a longer line in a part", value, on - known + 9001 - on, known + 1)
}

/// About where one of the eight parts of the second stretch begins.
fn parts() -> Vec<Case> {
    let about = |known: usize| {
        let begins = (0..=8).map(|part| 4224 + 512 * part);
        begins.flat_map(move |at| {
            [0, 1, known / 2, known, known + 1].map(|less| in_a_part(known, at - less))
        })
    };
    [1, 6, 16, 63, 100, 127].into_iter().flat_map(about).collect()
}

/// So many lines of three bytes, a tab's line, and as many again; `widest` is one line more at the end.
fn far_tab(count: usize, line: &str, widest: usize, width: usize) -> Case {
    let short = "abc\n".repeat(count);
    let value = short.clone() + line + "\n" + &short + &"z".repeat(widest);
    at("a tab far on", value, 2 * count + 2, width)
}

fn far_tabs() -> Vec<Case> {
    let counts = [16, 30, 31, 32, 33, 34, 300, 1054, 1055, 1056, 1057, 1100];
    let about = |count| {
        [
            far_tab(count, "xy\tz", 5, 9),
            far_tab(count, "xy\tz", 10, 10),
            far_tab(count, "\t", 3, 8),
            far_tab(count, &("x".repeat(130) + "\ty"), 3, 137),
            far_tab(count, &("\t".to_owned() + &"x".repeat(130) + "\ty"), 3, 145),
        ]
    };
    counts.into_iter().flat_map(about).collect()
}

/// A line of 18 columns so many bytes on, among lines of 8 with a tab each: 1,056 bytes, sixteen parts of 64.
fn among_tabs(on: usize) -> Case {
    let filler = |n: usize| "ab\t\n".repeat(n / 4) + &feeds(n % 4);
    let value = filler(on) + "xxxxx\tyyy\tzz\n" + &filler(1056 - on - 13) + "c";
    let lines = 1 + value.matches('\n').count();
    at("a wider line among tabs", value, lines, 18)
}

/// One line of letters and tabs in turn, a tab after nine letters so many bytes on; then line feeds and a last letter.
fn in_turn(on: usize, rest: usize, feed: usize) -> Case {
    let value = "a\t".repeat(on) + "bbbbbbbbb\t" + &"a\t".repeat(rest) + "c" + &feeds(feed) + "d";
    let width = 8 * on + 16 + 8 * rest + 1 + usize::from(feed == 0);
    at("letters and tabs in turn, and nine letters", value, feed + 1, width)
}

/// A tab after so many letters, again and again in one line: the parts begin at every column.
fn every_column(letters: usize) -> Case {
    let count = 1100 / (letters + 1);
    let value = ("a".repeat(letters) + "\t").repeat(count) + "b";
    at("a tab after so many letters", value, 1, (letters / 8 + 1) * 8 * count + 1)
}

/// The same in lines of `count` tabs, and one line of a column more at the end.
fn tabbed_lines(letters: usize, count: usize) -> Case {
    let line = ("a".repeat(letters) + "\t").repeat(count);
    let lines = 4400 / (line.len() + 1);
    let value = (line.clone() + "\n").repeat(lines) + &line + "b";
    at("lines with tabs", value, lines + 1, (letters / 8 + 1) * 8 * count + 1)
}

/// Lines of 8 columns with a tab each.
fn tabbed(bytes: usize) -> String {
    "ab\t\n".repeat(bytes / 4) + &feeds(bytes % 4)
}

fn counted(name: &'static str, value: String, width: usize) -> Case {
    let lines = 1 + value.matches('\n').count();
    at(name, value, lines, width)
}

/// A line of so many tabs, so many bytes after the first stretch, where sixteen parts of 304 bytes begin. A line of `known`
/// columns stands before.
fn after_known(known: usize, tabs: usize, on: usize) -> Case {
    let before = "x".repeat(known) + "\n" + &tabbed(4223 - known) + &tabbed(on);
    let value = before + &"\t".repeat(tabs) + "\n" + &tabbed(4899 - on - tabs) + "c";
    counted("a line of tabs, and one that is known", value, known.max(8 * tabs))
}

/// A wide line so many bytes on, in sixteen parts of 256 bytes.
fn one_wide(line: &str, width: usize, on: usize) -> Case {
    let value = tabbed(on) + line + "\n" + &tabbed(4097 - on - line.len()) + "c";
    counted("one wide line among tabs", value, width)
}

fn wide_lines() -> Vec<Case> {
    let shifts = |begin: usize| [0, 1, 7, 8, 9, 15, 16, 17].map(|more| begin + more);
    let begins = [0, 304, 8 * 304 - 16, 15 * 304 - 8].into_iter().flat_map(shifts);
    let known = |on: usize| {
        let pairs =
            [111, 112, 119, 120, 121].into_iter().flat_map(|n| [13, 14, 15, 16].map(|t| (n, t)));
        pairs.map(move |(known, tabs)| after_known(known, tabs, on))
    };
    let widths = [118, 119, 120, 121, 127, 128, 129, 135, 136, 247, 248, 249, 255, 256, 257, 384];
    let wide = widths.into_iter().flat_map(|width| {
        let (letters, tabs) = ("y".repeat(width), "\t".repeat(width / 8) + &"y".repeat(width % 8));
        let places = [0, 40, 200, 256, 1000, 2040, 3700].into_iter();
        places.flat_map(move |on| [one_wide(&letters, width, on), one_wide(&tabs, width, on + 4)])
    });
    begins.flat_map(known).chain(wide).collect()
}

/// The same value three times, a wide line so many bytes on, and the value again and again: a text of more than 65,024 bytes
/// after the first stretch. The value begins with a line of `known` columns.
fn in_long(known: usize, line: &str, width: usize, on: usize) -> Case {
    let value = "x".repeat(known) + "\n" + &tabbed(on / 3 - known - 3) + "c";
    let wide = feeds(1 + on % 3) + line + "\nc";
    let mut values = vec![value.as_str(); 4 + 75_000 / value.len()];
    values.insert(3, &wide);
    let text = values.join(" ");
    let lines = 1 + text.matches('\n').count();
    let tokens: Vec<_> = values.iter().map(|value| (WORD, *value)).collect();
    let wanted = Answer::Laid { text: text.into(), lines, width };
    Case { name: "a wide line in a long text", sheet: of(&tokens), room: 1 << 18, wanted }
}

/// Their values share places.
pub fn long_sheets() -> Vec<Case> {
    let begins = [0, 1, 7, 15, 16].map(|part| 4224 + 4064 * part).into_iter();
    let places = begins.flat_map(|at| [130, 17, 16, 8, 1, 0].map(|less| at - less));
    let about = |on: usize| {
        let line = |width: usize| "y".repeat(width);
        let short = [119, 120, 121, 300].map(|width| in_long(7, &line(width), width, on));
        let known = [133, 300].map(|width| in_long(130, &line(width), width, on));
        let tabs = [in_long(130, &"\t".repeat(17), 136, on), in_long(7, &"\t".repeat(14), 112, on)];
        short.into_iter().chain(known).chain(tabs)
    };
    places.flat_map(about).collect()
}

fn side_by_side() -> Vec<Case> {
    let begins = (1..16).map(|part| 64 * part);
    let about = begins.flat_map(|at| [13, 12, 8, 6, 5, 1, 0].map(|less| among_tabs(at - less)));
    let turns = (20..=44).chain([255, 256, 257, 263, 264, 265]);
    let turns = turns.flat_map(|on| [in_turn(on, 520 - on, 0), in_turn(on, 2200 - on, 600)]);
    let lines = [1, 2, 6, 7, 8, 9, 30].into_iter();
    let lines = lines.flat_map(|n| [1, 2, 5, 15, 16, 17, 40].map(|count| tabbed_lines(n, count)));
    let runs = [520, 600, 4300].map(|n| after_tabs(1, n, 8 * n + 1));
    about.chain(turns).chain((1..=40).map(every_column)).chain(lines).chain(runs).collect()
}

/// The longest line, or the last but one, ends about where a stretch does.
fn about_the_end(first: usize) -> [Case; 3] {
    let line = |byte: &str, n: usize| byte.repeat(n) + "\n";
    [
        at("a line of a stretch", line("x", first) + "y", 2, first),
        at("a longer one after it", line("x", first) + &line("y", first + 1) + "z", 3, first + 1),
        at("and a tab", line("x", first) + &line("\ty", 1) + &"z".repeat(first - 1), 3, first),
    ]
}

fn stretches() -> Vec<Case> {
    let mut cases = vec![
        into_the_next(100, "\nz", 2, 100),
        into_the_next(30, "\nz", 2, 30),
        into_the_next(10, "\tyyy\nz", 2, 19),
        into_the_next(60, "\ty\nz", 2, 65),
        into_the_next(60, &("\n".to_owned() + &"z".repeat(59) + "\ta"), 2, 65),
        into_the_next(31, &("\n".to_owned() + &"z".repeat(40)), 2, 40),
        into_the_next(0, &("\t\n".to_owned() + &"z".repeat(8000)), 2, 8000),
        at("a line in three stretches", "y".repeat(9000) + "\n" + &"z".repeat(8999), 2, 9000),
        at("the same after a tab", "x\t".to_owned() + &"y".repeat(9000) + "\nz", 2, 9008),
        at("one that ends with a tab", "x".to_owned() + &"y".repeat(9000) + "\tz", 1, 9009),
        at("no line feed but the last", "y".repeat(8448) + "\nz", 2, 8448),
    ];
    cases.extend((4221..=4226).chain(8446..=8450).flat_map(about_the_end));
    cases
}

pub fn sheets() -> Vec<Case> {
    let mut cases = vec![
        at("line feeds alone", "a".to_owned() + &feeds(100) + "b", 101, 1),
        at("as long as the first", "ab".to_owned() + &feeds(100) + "cd", 101, 2),
        at("one byte, and two at the end", "a\n".repeat(50) + "bc", 51, 2),
        at("each as long as the first", ("x".repeat(20) + "\n").repeat(10) + "y", 11, 20),
        at(
            "each one longer",
            (1..=30).map(|n| "x".repeat(n) + "\n").collect::<String>() + "y",
            31,
            30,
        ),
        at(
            "each one shorter",
            (1..=30).rev().map(|n| "x".repeat(n) + "\n").collect::<String>() + "y",
            31,
            30,
        ),
        after_tabs(1, 40, 321),
        after_tabs(8, 24, 201),
        after_tabs(15, 17, 145),
        after_tabs(16, 16, 145),
        at("tabs and line feeds in turn", "a".to_owned() + &"\t\n".repeat(100) + "b", 101, 8),
        at("letters and tabs in turn", "a\t".repeat(100) + "b", 1, 801),
    ];
    let lengths = || 1..=17;
    cases.extend((60..=72).flat_map(|n| [after_feeds(1, n, 2), after_feeds(2, n, 3)]));
    cases.extend(lengths().flat_map(|n| [20, 64, 70].map(|feeds| after_feeds(n, feeds, n + 1))));
    cases.extend(lengths().flat_map(|n| [3, 8, 20].map(|count| after_lines(n, count, n + 1))));
    cases.extend([31, 32, 33, 63, 64, 65].map(|n| after_lines(n, 3, n + 1)));
    cases.extend(stretches());
    cases.extend(parts());
    cases.extend(far_tabs());
    cases.extend(side_by_side());
    cases.extend(wide_lines());
    cases
}
