//! Sound sheets that a hostile host would make: each has the call do as much as it can of one thing.

use crate::random::Dice;
use crate::sheet::*;

/// The longest value of which there are two at different places.
pub const LONG: u32 = 32767;

/// Records and bodies as they stand in a sheet: places may be shared.
#[derive(Clone, Default)]
pub struct Costly {
    pub options: Options,
    pub mode: u32,
    /// Kind and key class, value, key.
    pub tokens: Vec<[u32; 5]>,
    pub params: Vec<[u32; 4]>,
    pub keeps: Vec<[u32; 2]>,
    pub body: Vec<u8>,
}

impl Costly {
    pub fn encode(&self) -> Vec<u8> {
        let Options { indent, case, inline, lines, block, arguments, top_level } = self.options;
        let counts = [self.tokens.len(), self.params.len(), self.keeps.len(), self.body.len()];
        let [n, p, k, b] = counts.map(|count| count as u32);
        let head =
            [n, p, k, b, self.mode, indent, case, inline, lines, block, arguments, top_level];
        let words = head.iter().chain(self.tokens.as_flattened());
        let words = words.chain(self.params.as_flattened()).chain(self.keeps.as_flattened());
        words.flat_map(|word| word.to_le_bytes()).chain(self.body.iter().copied()).collect()
    }
}

pub fn token(kind: u8, start: u32, length: u32) -> [u32; 5] {
    [kind.into(), start, length, 0, 0]
}

/// `most` bytes of `fill`, the one at `odd` another.
fn body(most: u32, fill: u8, odd: u32, other: u8) -> Vec<u8> {
    let mut body = vec![fill; most as usize];
    body[odd as usize] = other;
    body
}

/// 1,024 placeholders and 256 entries, no name the same: they differ at `odd` first.
pub fn names(length: u32, odd: u32) -> Costly {
    Costly {
        mode: MODE_NAMED,
        tokens: vec![[u32::from(PLACEHOLDER) | 1 << 5, 0, 1, 0, length]; 1024],
        params: vec![[1, length, 0, 1]; 256],
        body: body(length + 1, b'a', odd + 1, b'b'),
        ..Costly::default()
    }
}

/// 1,024 white reserved words and 64 keep words, none the same.
pub fn keep_words(length: u32, odd: u32) -> Costly {
    Costly {
        options: Options { case: 1, ..Options::default() },
        tokens: vec![token(RESERVED, 0, length); 1024],
        keeps: vec![[1, length]; 64],
        body: body(length + 1, b' ', odd + 1, b'\t'),
        ..Costly::default()
    }
}

/// Each token as long as can be; there is room for 128 opening brackets.
fn long_values(kind: u8, fill: u8, case: u32) -> Costly {
    Costly {
        options: Options { case, ..Options::default() },
        tokens: vec![token(kind, 0, LONG); if kind == OPEN { 128 } else { 1024 }],
        body: vec![fill; LONG as usize],
        ..Costly::default()
    }
}

/// The tokens of `turn` again and again, places in the bodies `text` and then a long run of `fill`.
fn turns(options: Options, turn: &[[u32; 5]], count: usize, text: &str, fill: u8) -> Costly {
    let tokens = turn.iter().copied().cycle().take(count).collect();
    let mut body = text.as_bytes().to_vec();
    body.resize(LONG as usize, fill);
    Costly { options, tokens, body, ..Costly::default() }
}

fn run_of(kind: u8, text: u32) -> [u32; 5] {
    token(kind, text, LONG - text)
}

/// So deep in brackets, `turn` again and again, then as many closing brackets.
fn at_depth(options: Options, depth: usize, turn: &[[u32; 5]], text: &str, fill: u8) -> Costly {
    let mut costly = turns(options, turn, 1024 - 2 * depth, text, fill);
    let (open, close) = (token(OPEN, 0, 1), token(CLOSE, 1, 1));
    costly.tokens.splice(0..0, vec![open; depth]);
    costly.tokens.extend(vec![close; depth]);
    costly
}

/// Lines of any length up to `most`, in no order.
fn any_lines(dice: &mut Dice, most: usize) -> Vec<u8> {
    let mut body = Vec::new();
    while body.len() < LONG as usize {
        body.resize(body.len() + dice.below(most + 1), b'a');
        body.push(b'\n');
    }
    body
}

pub fn sheets() -> Vec<(String, Costly)> {
    let plain = Options::default();
    let wide = Options { indent: 255, block: 0, ..plain };
    let tabbed = Options { indent: 256, ..wide };
    let flat = Options { block: u32::MAX, ..plain };
    let mut sheets = vec![
        ("names, last byte".into(), names(LONG, LONG - 1)),
        ("names, near the end".into(), names(LONG, LONG - 10)),
    ];
    for length in [6, 15, 31, 63, 255, 600] {
        sheets.push((format!("names of {length}"), names(length, length / 2)));
    }
    sheets.push(("keep words, last byte".into(), keep_words(LONG, LONG - 1)));
    sheets.push(("keep words, near the end".into(), keep_words(LONG, LONG - 10)));
    sheets.push(("keep words of 15".into(), keep_words(15, 7)));
    let long = [
        ("words of letters", WORD, b'a', 0),
        ("words of blanks", WORD, b' ', 0),
        ("words of line feeds", WORD, b'\n', 0),
        ("reserved words of letters", RESERVED, b'a', 1),
        ("reserved words of blanks", RESERVED, b' ', 1),
        ("top words of letters", TOP_LEVEL, b'a', 2),
        ("newline words of letters", NEWLINE, b'a', 1),
        ("brackets of letters", OPEN, b'a', 1),
        ("types of line feeds", TYPE_SPECIFIER, b'\n', 0),
        ("placeholders of letters", PLACEHOLDER, b'a', 0),
        ("line comments of letters", LINE_COMMENT, b'a', 0),
        ("block comments of letters", BLOCK_COMMENT, b'a', 0),
        ("block comments of blanks", BLOCK_COMMENT, b' ', 0),
        ("block comments of line feeds", BLOCK_COMMENT, b'\n', 0),
    ];
    for (name, kind, fill, case) in long {
        sheets.push((name.into(), long_values(kind, fill, case)));
    }
    let comment = token(LINE_COMMENT, 2, 3);
    let (comma, word) = (token(OPERATOR, 5, 1), token(WORD, 6, 1));
    let text = "()--x,a;--";
    sheets.extend([
        (
            "comments after blanks".into(),
            turns(plain, &[run_of(WHITESPACE, 10), comment], 1024, text, b' '),
        ),
        (
            "comments after letters".into(),
            turns(plain, &[run_of(STRING, 10), comment, token(WHITESPACE, 0, 0)], 1024, text, b'y'),
        ),
        ("commas after blanks".into(), turns(plain, &[run_of(WORD, 10), comma], 1024, text, b' ')),
        (
            "types after blanks".into(),
            turns(plain, &[run_of(WORD, 10), token(TYPE_SPECIFIER, 6, 1)], 1024, text, b' '),
        ),
        ("blanks switched".into(), turns(plain, &[run_of(LINE_COMMENT, 8)], 1024, text, b' ')),
        (
            "separators".into(),
            turns(Options { lines: 255, ..plain }, &[token(OPERATOR, 7, 1)], 1024, text, b' '),
        ),
        ("lists at depth".into(), at_depth(wide, 128, &[word, comma], text, b' ')),
        ("lists at depth, by tabs".into(), at_depth(tabbed, 128, &[word, comma], text, b' ')),
        ("comments at depth".into(), at_depth(wide, 128, &[comment], text, b' ')),
        ("words at depth".into(), at_depth(wide, 127, &[token(NEWLINE, 6, 1)], text, b' ')),
        (
            "top words at depth".into(),
            at_depth(wide, 100, &[token(TOP_LEVEL, 6, 1), word], text, b' '),
        ),
        (
            "brackets at depth".into(),
            at_depth(wide, 127, &[token(OPEN, 0, 1), token(CLOSE, 1, 1)], text, b' '),
        ),
        (
            "brackets inline".into(),
            at_depth(flat, 127, &[token(OPEN, 0, 1), token(CLOSE, 1, 1)], text, b' '),
        ),
        (
            "brackets not inline".into(),
            at_depth(
                Options { block: 600, ..plain },
                120,
                &[token(OPEN, 0, 1), word, word, token(CLOSE, 1, 1)],
                text,
                b' ',
            ),
        ),
        (
            "brackets in turn at depth".into(),
            at_depth(
                Options { indent: 0, ..wide },
                120,
                &[token(CLOSE, 1, 1), token(OPEN, 0, 1)],
                text,
                b' ',
            ),
        ),
        ("open brackets alone".into(), turns(flat, &[token(OPEN, 0, 1)], 128, text, b' ')),
        ("white tokens".into(), turns(plain, &[token(WHITESPACE, 9, 1)], 1024, "         ", b' ')),
        (
            "white before each".into(),
            turns(plain, &[token(WHITESPACE, 10, 1), token(NEWLINE, 6, 1)], 1024, text, b' '),
        ),
    ]);
    let after = [token(WORD, 6, 1), run_of(WORD, 10)];
    let filled = |byte: &dyn Fn(usize) -> u8| {
        let mut costly = turns(plain, &after, 1023, text, b'\n');
        costly.body[10..].iter_mut().enumerate().for_each(|(at, old)| *old = byte(at));
        costly
    };
    sheets.push(("line feeds after words".into(), filled(&|_| b'\n')));
    sheets.push(("lines of one byte".into(), filled(&|at| if at % 2 == 0 { b'a' } else { b'\n' })));
    sheets
        .push(("lines of five bytes".into(), filled(&|at| if at % 6 < 5 { b'a' } else { b'\n' })));
    let ends = |at: usize| at.wrapping_mul(2_654_435_761) >> 7 & 15 == 0;
    sheets
        .push(("lines of 4, 13 and 18".into(), filled(&|at| if ends(at) { b'\n' } else { b'a' })));
    let mut dice = Dice::new(1, 0);
    for most in [2, 12, 30, 100, 300] {
        let any = any_lines(&mut dice, most);
        sheets.push((format!("lines of up to {most}"), filled(&|at| any[at])));
    }
    sheets.push(("tabs after words".into(), filled(&|_| b'\t')));
    sheets.push((
        "tabs and letters in turn".into(),
        filled(&|at| if at % 2 == 0 { b'\t' } else { b'a' }),
    ));
    sheets.push((
        "a tab and nine letters".into(),
        filled(&|at| if at % 10 == 0 { b'\t' } else { b'a' }),
    ));
    let any: Vec<u8> = (0..LONG).map(|_| dice.pick(b"\taaaa\n")).collect();
    sheets.push(("tabs, letters and line feeds".into(), filled(&|at| any[at])));
    sheets.push((
        "line feeds and a few tabs".into(),
        filled(&|at| if at % 8000 == 0 { b'\t' } else { b'\n' }),
    ));
    let any = any_lines(&mut dice, 60);
    for (name, each) in [("short lines, a few tabs", 8000), ("short lines, a tab in 100", 100)] {
        sheets.push((name.into(), filled(&|at| if at % each == 0 { b'\t' } else { any[at] })));
    }
    let ends = |at: usize| at % 40 == 39;
    let tab = |at: usize| if at % 10 == 0 { b'\t' } else { b'a' };
    sheets.push((
        "lines of 40 with tabs".into(),
        filled(&|at| if ends(at) { b'\n' } else { tab(at) }),
    ));
    // Texts of 2 MB, which the Rust copies within the cache.
    let mut some = |name: &str, bytes: &[u8]| {
        let any: Vec<u8> = (0..LONG).map(|_| dice.pick(bytes)).collect();
        let mut costly = filled(&|at| any[at]);
        costly.tokens.truncate(128);
        sheets.push((name.into(), costly));
    };
    some("64 words of lines", b"aaaaaaaaaaaa\n");
    some("64 words of tabs and letters", b"\ta");
    some("64 words of lines with tabs", b"\taaaaaaaaaaaaaaaaaaaaaaaaaaaaaaaaaaaaaaaaaaaaaaa\n");
    let lines = Costly {
        body: b"\n x".iter().copied().cycle().take(LONG as usize).collect(),
        tokens: vec![token(BLOCK_COMMENT, 0, LONG); 64],
        ..Costly::default()
    };
    sheets.push(("block comments of lines".into(), lines.clone()));
    let mut deep = at_depth(plain, 100, &[token(BLOCK_COMMENT, 2, 3000)], "()", b' ');
    deep.body[2..].iter_mut().zip(b"\n x".iter().cycle()).for_each(|(b, c)| *b = *c);
    deep.tokens.drain(120..deep.tokens.len() - 100);
    sheets.push(("block comments at depth".into(), deep));
    sheets
}
