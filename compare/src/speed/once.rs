//! Both engines and the Rust in the same rounds: the time of a token as sheets grow, and a plot of it.

use std::fmt::Write;
use std::fs;
use std::hint::black_box;

use super::{SHEETS, least, read, room};
use crate::call;
use crate::once::TABLE;
use crate::random::Dice;
use crate::random::query::sized;
use crate::sheet::*;

const SIZES: [usize; 3] = [128, 512, 1024];

type Shape = fn(&mut Dice, usize) -> Sheet;

const SHAPES: [(&str, Shape); 10] = [
    ("realistic", |dice, size| of(sized::usual(dice, size), 50)),
    ("40 deep", |_, size| of(nested(40, size, &[WORD_A, COMMA, SELECT, WORD_A]), 0)),
    ("120 deep", |_, size| of(nested(120, size, &[WORD_A, COMMA, SELECT, WORD_A]), 0)),
    ("top-level words, 40 deep", |_, size| of(nested(40, size, &[SELECT]), 0)),
    ("top-level words, 120 deep", |_, size| of(groups(size), 0)),
    ("one nest of 120", |_, size| of(nested(120, size, &[SELECT]), 0)),
    ("one nest, eight words", |_, size| of(words_first(size), 0)),
    ("unmatched brackets", |_, size| of(unmatched(size), 0)),
    ("switched off", |_, size| of(switched_off(size), 0)),
    ("longest inline block", |_, size| of(nested(40, size, &[WORD_A, COMMA]), u32::MAX)),
];

type Piece = (u8, &'static str);

const SELECT: Piece = (TOP_LEVEL, "SELECT");
const WORD_A: Piece = (WORD, "a");
const COMMA: Piece = (OPERATOR, ",");

fn of(tokens: Vec<Token>, block: u32) -> Sheet {
    let options = Options { block, top_level: 20, ..Options::default() };
    Sheet { options, tokens, ..Sheet::default() }
}

fn tokens(pieces: impl Iterator<Item = Piece>) -> Vec<Token> {
    pieces.map(|(kind, value)| Token::new(kind, value)).collect()
}

/// So many brackets, `turn` again and again inside them, and as many closing ones as there is room for.
fn nested(depth: usize, size: usize, turn: &[Piece]) -> Vec<Token> {
    let close = depth.min(size - depth);
    let inside = turn.iter().copied().cycle().take(size - depth - close);
    let open = [(OPEN, "(")].into_iter().cycle().take(depth);
    tokens(open.chain(inside).chain([(CLOSE, ")")].into_iter().cycle().take(close)))
}

/// 120 brackets, sixteen top-level words inside them, and the closing ones, again and again: of 128 tokens the first half of it, so that
/// each size has the same share of words.
fn groups(size: usize) -> Vec<Token> {
    tokens((0..size).map(|i| match i % 256 {
        0..120 => (OPEN, "("),
        120..136 => SELECT,
        _ => (CLOSE, ")"),
    }))
}

/// One nest of 120 that has top-level words at each size: eight of 128 tokens, and closing brackets only where there is room after them.
fn words_first(size: usize) -> Vec<Token> {
    tokens((0..size).map(|i| match i {
        0..120 => (OPEN, "("),
        120..904 => SELECT,
        _ => (CLOSE, ")"),
    }))
}

/// Closing brackets that close nothing, then fourteen that are never closed, eight tokens apart.
fn unmatched(size: usize) -> Vec<Token> {
    let piece = |i: usize| match i {
        0..8 => (CLOSE, ")"),
        _ if i % 8 == 0 && i <= 8 * 14 => (OPEN, "("),
        _ => [WORD_A, COMMA, SELECT][i % 3],
    };
    tokens((0..size).map(piece))
}

fn switched_off(size: usize) -> Vec<Token> {
    let mut tokens = nested(40, size, &[WORD_A, COMMA, SELECT, WORD_A]);
    tokens[0] = Token::new(LINE_COMMENT, "-- fmt: off");
    tokens
}

struct Row {
    shape: &'static str,
    size: usize,
    plain: f64,
    once: f64,
    rust: f64,
}

/// Prints a table, and writes the plot to a file if one is named.
pub fn run(seed: u64, part: &str, plot: Option<&str>) -> bool {
    println!(
        "read ahead once               tokens      plain       once       Rust  to plain  a token, plain   once"
    );
    let mut rows = Vec::new();
    for (shape, make) in
        SHAPES.into_iter().filter(|shape| format!("once, {}", shape.0).contains(part))
    {
        for size in SIZES {
            let count = if shape == "realistic" { SHEETS } else { 1 };
            let made = (0..count).map(|turn| make(&mut Dice::new(seed, turn), size));
            let sheets: Vec<Vec<u8>> = made.map(|sheet| sheet.encode(&mut in_turn)).collect();
            rows.push(row(shape, size, &sheets));
        }
        let [first, .., last] = &rows[rows.len() - SIZES.len()..] else { continue };
        let grows = |time: fn(&Row) -> f64| {
            (time(last) / last.size as f64) / (time(first) / first.size as f64)
        };
        let (plain, once) = (grows(|row| row.plain), grows(|row| row.once));
        println!("    a token at 1024 to one at 128: plain {plain:.2}, once {once:.2}");
    }
    plot.is_none_or(|file| fs::write(file, drawn(&rows)).is_ok())
}

fn row(shape: &'static str, size: usize, sheets: &[Vec<u8>]) -> Row {
    let rooms: Vec<usize> = sheets.iter().map(|bytes| room(bytes, 2 * bytes.len())).collect();
    let most = rooms.iter().copied().max().unwrap_or(0);
    let (mut one, mut other) = (vec![0; most], vec![0; most]);
    let mut table = vec![0; TABLE * size];
    let mut plain = || {
        for (bytes, room) in sheets.iter().zip(&rooms) {
            assert_eq!(call::layout(bytes, &mut one[..*room]).refusal, 0, "{shape}");
        }
    };
    let mut once = || {
        for (bytes, room) in sheets.iter().zip(&rooms) {
            let report = call::layout_once(bytes, &mut other[..*room], &mut table);
            assert_eq!(report.refusal, 0, "{shape}");
        }
    };
    let mut rust = || sheets.iter().for_each(|bytes| drop(black_box(read(bytes).format())));
    let times = least([&mut plain, &mut once, &mut rust]);
    let [plain, once, rust] = times.map(|time| time / sheets.len() as f64);
    let token = |time: f64| time / size as f64;
    println!(
        "{shape:28} {size:7} {plain:10.0} {once:10.0} {rust:10.0} {:9.2} {:15.1} {:6.1}",
        once / plain,
        token(plain),
        token(once)
    );
    Row { shape, size, plain, once, rust }
}

const COLOURS: [(&str, fn(&Row) -> f64); 3] =
    [("#b04030", |row| row.plain), ("#2060a0", |row| row.once), ("#909090", |row| row.rust)];

/// A small plot for each shape: nanoseconds a token at each size, plain, once and the Rust.
fn drawn(rows: &[Row]) -> String {
    let shapes: Vec<&[Row]> = rows.chunks(SIZES.len()).collect();
    let (width, height) = (200, 150);
    let (across, down) = (4 * width, shapes.len().div_ceil(4) * height + 30);
    let mut svg = format!(
        "<svg xmlns=\"http://www.w3.org/2000/svg\" width=\"{across}\" height=\"{down}\" font-family=\"sans-serif\" font-size=\"10\">\n"
    );
    let legend = ["plain", "once", "Rust"].iter().zip(COLOURS).enumerate();
    for (i, (name, (colour, _))) in legend {
        let _ =
            writeln!(svg, "<text x=\"{}\" y=\"14\" fill=\"{colour}\">{name}</text>", 10 + 60 * i);
    }
    let _ = writeln!(
        svg,
        "<text x=\"200\" y=\"14\">nanoseconds a token, by tokens of the sheet</text>"
    );
    for (i, rows) in shapes.iter().enumerate() {
        let (left, top) = ((i % 4) * width, (i / 4) * height + 24);
        let each = |row: &Row, time: fn(&Row) -> f64| time(row) / row.size as f64;
        let times = rows.iter().flat_map(|row| COLOURS.map(|(_, time)| each(row, time)));
        let most = times.fold(0.0, f64::max);
        let at = |row: &Row, time: fn(&Row) -> f64| {
            let x = left as f64 + 20.0 + row.size as f64 / 1024.0 * (width as f64 - 40.0);
            let y = top as f64 + 20.0 + (1.0 - each(row, time) / most) * (height as f64 - 50.0);
            format!("{x:.1},{y:.1}")
        };
        let shape = rows.first().map_or("", |row| row.shape);
        let _ = writeln!(
            svg,
            "<text x=\"{}\" y=\"{}\">{shape}: to {most:.0}</text>",
            left + 20,
            top + 12
        );
        for (colour, time) in COLOURS {
            let points: Vec<String> = rows.iter().map(|row| at(row, time)).collect();
            let points = points.join(" ");
            let _ = writeln!(
                svg,
                "<polyline points=\"{points}\" fill=\"none\" stroke=\"{colour}\" stroke-width=\"1.5\"/>"
            );
        }
        let base = top + height - 30;
        let _ = writeln!(
            svg,
            "<line x1=\"{}\" y1=\"{base}\" x2=\"{}\" y2=\"{base}\" stroke=\"#404040\"/>",
            left + 20,
            left + width - 20
        );
        for row in *rows {
            let x = left as f64 + 20.0 + row.size as f64 / 1024.0 * (width as f64 - 40.0);
            let _ = writeln!(
                svg,
                "<text x=\"{:.0}\" y=\"{}\">{}</text>",
                x - 10.0,
                base + 12,
                row.size
            );
        }
    }
    svg + "</svg>\n"
}
