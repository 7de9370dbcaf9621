//! Samples for a newcomer: sheets, what the sheet program prints for each, and a page of both.

use std::path::Path;
use std::{fs, io};

use crate::model::{self, Answer, Change, Refusal, Verdict};
use crate::sheet::*;
use crate::table;

/// The buffer of the sheet program.
const ROOM: usize = 65536;

type Piece = (u8, &'static str);

const T: u8 = TOP_LEVEL;
const R: u8 = RESERVED;
const N: u8 = NEWLINE;
const O: u8 = OPERATOR;
const W: u8 = WORD;
const P: u8 = PLACEHOLDER;
const BLANK: Piece = (WHITESPACE, " ");
const FEED: Piece = (WHITESPACE, "\n");

struct Sample {
    name: &'static str,
    about: &'static str,
    sheet: Sheet,
}

#[rustfmt::skip]
const JOINED: &[Piece] = &[
    (T, "SELECT"), BLANK, (W, "n"), (O, "."), (W, "note"), (O, ","), BLANK,
    (W, "c"), (O, "."), (W, "line"), BLANK,
    (T, "FROM"), BLANK, (W, "notes"), BLANK, (W, "n"), BLANK,
    (N, "JOIN"), BLANK, (W, "calls"), BLANK, (W, "c"), BLANK,
    (R, "ON"), BLANK, (W, "n"), (O, "."), (W, "call_id"), BLANK, (O, "="), BLANK,
    (W, "c"), (O, "."), (W, "id"), BLANK,
    (T, "ORDER BY"), BLANK, (W, "n"), (O, "."), (W, "taken"), BLANK, (R, "DESC"),
];

#[rustfmt::skip]
const FOLD: &[Piece] = &[
    (T, "SELECT"), BLANK, (W, "note"), BLANK,
    (T, "FROM"), BLANK, (OPEN, "("),
    (T, "SELECT"), BLANK, (W, "note"), BLANK, (T, "FROM"), BLANK, (W, "notes"), BLANK,
    (T, "WHERE"), BLANK, (W, "call_id"), BLANK, (O, "="), BLANK, (NUMBER, "48213"), BLANK,
    (N, "AND"), BLANK, (W, "line"), BLANK, (O, "="), BLANK, (NUMBER, "7"), (CLOSE, ")"), BLANK,
    (T, "ORDER BY"), BLANK, (W, "taken"),
];

#[rustfmt::skip]
const INDEXED: &[Piece] = &[
    (T, "SELECT"), BLANK, (W, "note"), BLANK, (T, "FROM"), BLANK, (W, "notes"), BLANK,
    (T, "WHERE"), BLANK, (W, "call_id"), BLANK, (O, "="), BLANK, (P, "?"), BLANK,
    (N, "AND"), BLANK, (W, "line"), BLANK, (O, "="), BLANK, (P, "?"), BLANK,
    (N, "AND"), BLANK, (W, "desk"), BLANK, (O, "="), BLANK, (P, "?"),
];

#[rustfmt::skip]
const NAMED: &[Piece] = &[
    (T, "select"), BLANK, (W, "note"), BLANK, (T, "from"), BLANK, (W, "notes"), BLANK,
    (T, "where"), BLANK, (W, "call_id"), BLANK, (O, "="), BLANK, (P, ":call"), BLANK,
    (N, "and"), BLANK, (W, "line"), BLANK, (O, "="), BLANK, (P, ":line"), BLANK,
    (N, "and"), BLANK, (W, "desk"), BLANK, (O, "="), BLANK, (P, ":desk"),
];

#[rustfmt::skip]
const NUMBERED: &[Piece] = &[
    (T, "SELECT"), BLANK, (W, "note"), BLANK, (T, "FROM"), BLANK, (W, "notes"), BLANK,
    (T, "WHERE"), BLANK, (W, "line"), BLANK, (O, "="), BLANK, (P, "$2"), BLANK,
    (N, "AND"), BLANK, (W, "call_id"), BLANK, (R, "IN"), BLANK,
    (OPEN, "("), (P, "$1"), (O, ","), BLANK, (P, "?0"), (O, ","), BLANK, (P, "$3"), (CLOSE, ")"),
];

#[rustfmt::skip]
const SWITCH: &[Piece] = &[
    (T, "SELECT"), BLANK, (W, "note"), BLANK, (T, "FROM"), BLANK, (W, "notes"), BLANK,
    (T, "WHERE"), FEED,
    (LINE_COMMENT, "-- fmt: off"), FEED,
    (W, "call_id"), (O, "="), (P, "?"), (WHITESPACE, "   "),
    (N, "OR"), (WHITESPACE, "   "), (W, "line"), (O, "="), (P, "?"), FEED,
    (LINE_COMMENT, "-- fmt: on"), FEED,
    (N, "AND"), BLANK, (W, "desk"), (O, "="), (P, "?"),
];

#[rustfmt::skip]
const CONSOLE: &[Piece] = &[
    (T, "SELECT"), BLANK, (W, "note"), (O, ","), BLANK, (W, "taken"), BLANK, (LINE_COMMENT, "-- in station time"), FEED,
    (T, "FROM"), BLANK, (W, "notes"), FEED,
    (T, "WHERE"), BLANK, (W, "call_id"), BLANK, (O, "="), BLANK, (P, "?"), FEED,
    (N, "AND"), BLANK, (W, "line"), BLANK, (O, "="), BLANK, (P, "?"),
];

#[rustfmt::skip]
const TABBED: &[Piece] = &[
    (T, "SELECT"), BLANK, (W, "note"), BLANK, (LINE_COMMENT, "--\tthe text"), FEED,
    (T, "FROM"), BLANK, (W, "notes"), BLANK,
    (T, "WHERE"), BLANK, (W, "call_id"), BLANK, (O, "="), BLANK, (P, "?"),
];

#[rustfmt::skip]
const ACCENT: &[Piece] = &[
    (T, "SELECT"), BLANK, (STRING, "'Zoë'"), BLANK, (R, "AS"), BLANK, (W, "caller"),
];

#[rustfmt::skip]
const SHORT: &[Piece] = &[
    (T, "SELECT"), BLANK, (W, "note"), BLANK, (T, "FROM"), BLANK, (W, "notes"),
];

const LIST: &[(&str, &str)] = &[("", "48213"), ("", "7")];
const NAMES: &[(&str, &str)] = &[("call", "48213"), ("line", "7")];

/// As the source's lexer reads a placeholder's key.
fn key(value: &str) -> Key {
    let (mark, rest) = value.split_at(1);
    match (mark, rest.parse()) {
        ("?", Ok(number)) => Key::ZeroIndexed(number),
        ("$", Ok(number)) => Key::OneIndexed(number),
        ("@" | ":" | "$", _) => Key::Named(rest.into()),
        _ => Key::None,
    }
}

fn of(pieces: &[Piece]) -> Sheet {
    let token = |&(kind, value): &Piece| {
        let key = if kind == PLACEHOLDER { key(value) } else { Key::None };
        Token { key, ..Token::new(kind, value) }
    };
    let tokens = pieces.iter().map(token).collect();
    Sheet { tokens, options: usual(), ..Sheet::default() }
}

/// The default head's: word 11 is 60 (document 02, Wish 8).
fn usual() -> Options {
    Options { top_level: 60, ..Options::default() }
}

fn filled(mut sheet: Sheet, mode: u32, entries: &[(&str, &str)]) -> Sheet {
    let param = |&(name, value): &(&str, &str)| Param { name: name.into(), value: value.into() };
    sheet.mode = mode;
    sheet.params = entries.iter().map(param).collect();
    sheet
}

fn with(mut sheet: Sheet, set: impl FnOnce(&mut Options)) -> Sheet {
    set(&mut sheet.options);
    sheet
}

fn samples() -> Vec<Sample> {
    let sample = |name, about, sheet| Sample { name, about, sheet };
    let mut samples = vec![
        sample("join", "A join.", of(JOINED)),
        sample(
            "rust",
            "The same under the Rust's head, which has no `max_inline_top_level`.",
            with(of(JOINED), |o| o.top_level = NONE),
        ),
        sample(
            "fold",
            "With `max_inline_top_level` given, the bracket stays on the line of its word, and what is \
             inside stands one level in, not two.",
            with(of(FOLD), |o| o.top_level = 15),
        ),
    ];
    samples.extend(placeholders());
    samples.push(sample(
        "tabs",
        "Tabs for an indent, and one in the comment. The width counts columns, and a tab goes to the next \
         multiple of 8: the second line has 17 bytes and is 24 wide.",
        with(filled(of(TABBED), MODE_INDEXED, LIST), |o| {
            (o.indent, o.top_level) = (256, NONE);
        }),
    ));
    samples.push(sample(
        "console",
        "For the console: one line, but a line comment ends its own, so all of it runs. With the Rust's inline \
         nothing after the `--` would run.",
        with(filled(of(CONSOLE), MODE_INDEXED, LIST), |o| o.inline = INLINE_COMMENTS),
    ));
    samples.push(sample(
        STORED,
        "The same as it was stored before `inline` 1 was withdrawn: layout refuses it. \
         `crates/convert_sheet/out/convert_sheet < samples/stored.sheet` writes it with `inline` 2 (`stored.converted`), and that \
         is the sheet above.",
        with(filled(of(CONSOLE), MODE_INDEXED, LIST), |o| o.inline = INLINE_ON),
    ));
    samples.push(sample(
        EDITED,
        "As a station's tool leaves it: the parameters were edited, and their old values stand in the bodies \
         still. `crates/compact_sheet/out/compact_sheet < samples/edited.sheet` writes it without them \
         (`edited.compact`), and the new sheet gives the same text.",
        filled(of(INDEXED), MODE_INDEXED, LIST),
    ));
    samples.push(sample(
        DAMAGED,
        "As a failing tool leaves it, with a stray bit in each of three places: the case, the packed word of `FROM`, \
         and the first letter of `notes`. Options and SQL are shown as they were before. \
         `crates/mend_sheet/out/mend_sheet < samples/damaged.sheet` writes the mended sheet (`damaged.mended`) to standard \
         output and a line for each change (`damaged.report`) to standard error. What was bad is not guessed at: \
         `FROM` is now a Word like any other, and the letter a `?`.",
        filled(of(INDEXED), MODE_INDEXED, LIST),
    ));
    samples.push(sample(
        PASTED,
        "With two texts that stations' own tools made of the query. \
         `crates/judge_sheet/out/judge_sheet samples/pasted.sheet < samples/pasted.same` says of each whether it shows what is \
         due, wherever its blanks and lines are; in `pasted.other` the two values are exchanged.",
        with(filled(of(NAMED), MODE_NAMED, NAMES), |o| o.case = 1),
    ));
    samples.extend(refused());
    samples
}

/// The sample with texts of another formatter.
const PASTED: &str = "pasted";

const PASTES: [(&str, &str); 2] = [
    ("same", "SELECT note FROM notes\nWHERE  call_id=48213\n  AND  line=7\n  AND  desk=:desk\n"),
    ("other", "SELECT note FROM notes\nWHERE  call_id=7\n  AND  line=48213\n  AND  desk=:desk\n"),
];

/// The sample with the `inline` that is withdrawn.
const STORED: &str = "stored";

/// The sample with old text in its bodies.
const EDITED: &str = "edited";

/// The sample with stray bits.
const DAMAGED: &str = "damaged";

/// One value after another; in the edited sample each parameter's comes after a former one.
fn encoded(sample: &Sample) -> Vec<u8> {
    let old: &[(&[u8], &[u8])] = &[(b"48213", b"48197" as &[u8]), (b"7", b"12")];
    let mut bytes = sample.sheet.encode(&mut |body: &mut Vec<u8>, value: &[u8]| {
        let former = old.iter().filter(|(new, _)| sample.name == EDITED && value == *new);
        former.for_each(|(_, old)| body.extend_from_slice(old));
        in_turn(body, value)
    });
    if sample.name == DAMAGED {
        stray_bits(&mut bytes);
    }
    bytes
}

/// Word 6, the packed word of the fifth token, and the first byte of the seventh token's value.
fn stray_bits(sheet: &mut [u8]) {
    let word = |at: usize| sheet[at..at + 4].iter().rev().fold(0, |n, &b| n << 8 | usize::from(b));
    let letter = sheet.len() - word(12) + word(48 + 20 * 6 + 4);
    for (at, bit) in [(24, 2), (48 + 20 * 4 + 1, 0), (letter, 7)] {
        sheet[at] ^= 1 << bit;
    }
}

fn placeholders() -> [Sample; 4] {
    let sample = |name, about, sheet| Sample { name, about, sheet };
    let named = with(filled(of(NAMED), MODE_NAMED, NAMES), |o| o.case = 1);
    [
        sample(
            "indexed",
            "Each `?` takes the next entry; one that finds none stays as it is.",
            filled(of(INDEXED), MODE_INDEXED, LIST),
        ),
        sample(
            "named",
            "By name, and reserved words in upper case; a name that is not listed stays as it is.",
            named,
        ),
        sample(
            "numbered",
            "By number: `$1` counts from one and `?0` from nought, so both are the first entry.",
            filled(of(NUMBERED), MODE_INDEXED, LIST),
        ),
        sample(
            "switch",
            "Between the two comments everything stays as it was, placeholders too, and no entry is \
             taken. Each comment is dropped, and so is the token after it, here a line feed.",
            filled(of(SWITCH), MODE_INDEXED, LIST),
        ),
    ]
}

fn refused() -> [Sample; 3] {
    let sample = |name, about, sheet| Sample { name, about, sheet };
    let brackets = with(of(&[(OPEN, "("); 40]), |o| (o.block, o.indent) = (0, 255));
    [
        sample(
            "refusal",
            "Case is 0, 1 or 2. The place is the word's offset in the sheet.",
            with(of(SHORT), |o| o.case = 3),
        ),
        sample(
            "accent",
            "Bodies are ASCII. The place is the byte's offset in the sheet.",
            of(ACCENT),
        ),
        sample(
            "room",
            "40 brackets, each 255 spaces further in: more than the program's buffer of 65,536 bytes. \
             The place is the token's number.",
            brackets,
        ),
    ]
}

/// What the sheet program prints.
fn printed(answer: &Answer) -> String {
    match answer {
        Answer::Laid { text, lines, width } => {
            let length = text.len();
            format!("ok {length} {lines} {width}\n{}\n", String::from_utf8_lossy(text))
        }
        Answer::Refused(Refusal { number, place }) => format!("refused {number} at {place}\n"),
    }
}

/// What the mending program prints on standard error.
fn reported(changes: &[Change]) -> String {
    changes.iter().map(|[at, old, new]| format!("{at}: {old} becomes {new}\n")).collect()
}

/// What the judging program prints.
fn said(sheet: &Sheet, text: &str) -> String {
    match model::judge(&sheet.encode(&mut in_turn), text.as_bytes()) {
        Ok(Verdict::Yes) => "yes\n".into(),
        Ok(Verdict::No(token)) => match sheet.tokens.get(token) {
            Some(found) => {
                format!("no at token {token}: {}\n", String::from_utf8_lossy(&found.value))
            }
            None => "no: the text has more than the sheet\n".into(),
        },
        Err(Refusal { number, place }) => format!("refused {number} at {place}\n"),
    }
}

fn listed(items: impl Iterator<Item = String>) -> String {
    items.collect::<Vec<_>>().join(", ")
}

/// The head's words that are not the default head's, and the parameters.
fn settings(sheet: &Sheet) -> String {
    let words = |o: &Options| {
        [
            ("indent", o.indent),
            ("case", o.case),
            ("inline", o.inline),
            ("max_inline_block", o.block),
            ("max_inline_top_level", o.top_level),
        ]
    };
    let usual = words(&usual());
    let changed = words(&sheet.options).into_iter().filter(|word| !usual.contains(word));
    let shown = |word: u32| if word == NONE { "None".to_owned() } else { word.to_string() };
    let changed = listed(changed.map(|(name, word)| format!("`{name}` {}", shown(word))));
    let options = if changed.is_empty() { "as by default".into() } else { changed };
    let text = |bytes: &[u8]| String::from_utf8_lossy(bytes).into_owned();
    let entries = listed(sheet.params.iter().map(|param| match sheet.mode {
        MODE_NAMED => format!("`{}` = `{}`", text(&param.name), text(&param.value)),
        _ => format!("`{}`", text(&param.value)),
    }));
    let mode = ["None", "Indexed", "Named"][sheet.mode as usize];
    let space = if entries.is_empty() { "" } else { ": " };
    format!("Options: {options}. Parameters: {mode}{space}{entries}.")
}

fn block(text: &str) -> String {
    text.lines().map(|line| format!("    {line}").trim_end().to_owned() + "\n").collect()
}

const OPENING: &str = "# Samples

Each sheet, the SQL that its tokens make one after another, and what the sheet program prints for it (the file NAME.text). On x86-64 Linux, from the
repository's root, after `(cd crates/sheet && rt run < stdin)`:

    crates/sheet/out/sheet < samples/join.sheet
    for s in samples/*.sheet; do crates/sheet/out/sheet < $s | cmp - ${s%sheet}text && echo $s; done

The program ends with 0 on a refusal too: the first word says which it is. The other programs are built in their folders in the same way (`README.md`).

Made by `compare/target/release/compare samples samples` (`docs/comparison.md`) from `compare/src/samples.rs`, where the tokens stand with their kinds. The
texts are the Rust's own, but for `inline` 2, which the Rust has not; that one and the refusals are the model's.
";

fn section(sample: &Sample, text: &str) -> String {
    let sql: Vec<u8> = sample.sheet.tokens.iter().flat_map(|token| token.value.clone()).collect();
    let Sample { name, about, sheet } = sample;
    let (sql, settings) = (block(&String::from_utf8_lossy(&sql)), settings(sheet));
    format!("\n## {name}\n\n{about}\n{settings}\n\n{sql}\ngives\n\n{}", block(text))
}

fn mending(report: &str, text: &str) -> String {
    let (report, text) = (block(report), block(text));
    format!("\nThe changes are\n\n{report}\nand the mended sheet gives\n\n{text}")
}

fn write(folder: &Path) -> io::Result<()> {
    fs::create_dir_all(folder)?;
    let mut page = OPENING.to_owned();
    for sample in samples() {
        let bytes = encoded(&sample);
        let text = printed(&table::judged(&bytes, ROOM));
        page += &section(&sample, &text);
        if sample.name == EDITED {
            let new = model::compacted(&bytes, ROOM).expect("a sound sheet");
            fs::write(folder.join(sample.name).with_extension("compact"), new)?;
        }
        if sample.name == STORED {
            let new = model::converted(&bytes).expect("a sound sheet");
            let text = printed(&table::judged(&new, ROOM));
            page += &format!("\nand, converted,\n\n{}", block(&text));
            fs::write(folder.join(sample.name).with_extension("converted"), new)?;
        }
        if sample.name == DAMAGED {
            let (new, changes) = model::mended(&bytes, ROOM).expect("a sheet of the right size");
            let report = reported(&changes);
            page += &mending(&report, &printed(&table::judged(&new, ROOM)));
            fs::write(folder.join(sample.name).with_extension("mended"), new)?;
            fs::write(folder.join(sample.name).with_extension("report"), report)?;
        }
        for (name, paste) in PASTES.into_iter().filter(|_| sample.name == PASTED) {
            let verdict = block(&said(&sample.sheet, paste));
            page += &format!("\n`pasted.{name}`\n\n{}\nis judged\n\n{verdict}", block(paste));
            fs::write(folder.join(sample.name).with_extension(name), paste)?;
        }
        fs::write(folder.join(sample.name).with_extension("sheet"), bytes)?;
        fs::write(folder.join(sample.name).with_extension("text"), text)?;
    }
    fs::write(folder.join("README.md"), page)
}

pub fn run(folder: &str) -> bool {
    let done = write(Path::new(folder));
    if let Err(error) = &done {
        eprintln!("{folder}: {error}");
    }
    done.is_ok()
}
