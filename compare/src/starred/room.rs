//! Sheets whose sum is worked out by hand (document 02, Wish 9).

use crate::model::{self, Refusal};
use crate::sheet::*;

struct Known {
    name: &'static str,
    sheet: Vec<u8>,
    wanted: Result<u64, Refusal>,
}

type Piece = (u8, &'static str, Key);

fn piece(kind: u8, value: &'static str) -> Piece {
    (kind, value, Key::None)
}

/// Under the Rust's head but for the indent, with entries without a name.
fn of(indent: u32, mode: u32, entries: &[&str], pieces: &[Piece]) -> Sheet {
    let token = |(kind, value, key): &Piece| Token { key: key.clone(), ..Token::new(*kind, value) };
    let param = |value: &&str| Param { name: Vec::new(), value: (*value).into() };
    Sheet {
        options: Options { indent, ..Options::default() },
        mode,
        tokens: pieces.iter().map(token).collect(),
        params: entries.iter().map(param).collect(),
        keep: Vec::new(),
    }
}

fn sum(name: &'static str, sheet: &Sheet, sum: u64) -> Known {
    Known { name, sheet: sheet.encode(&mut in_turn), wanted: Ok(sum) }
}

fn plain(indent: u32, pieces: &[(u8, &'static str)]) -> Sheet {
    let pieces: Vec<_> = pieces.iter().map(|&(kind, value)| piece(kind, value)).collect();
    of(indent, 0, &[], &pieces)
}

fn with(mut sheet: Sheet, set: impl FnOnce(&mut Options)) -> Sheet {
    set(&mut sheet.options);
    sheet
}

fn known() -> Vec<Known> {
    const BLANK: (u8, &str) = (WHITESPACE, " ");
    let from_one = |n| (PLACEHOLDER, "", Key::OneIndexed(n));
    let mark = || piece(PLACEHOLDER, "?");
    let query = [
        (TOP_LEVEL, "SELECT"),
        BLANK,
        (WORD, "id"),
        BLANK,
        (TOP_LEVEL, "FROM"),
        BLANK,
        (WORD, "calls"),
    ];
    let switched = [
        (LINE_COMMENT, "--fmt:off"),
        (WORD, "gone"),
        (WORD, "as it is"),
        (LINE_COMMENT, "--fmt:on"),
        BLANK,
    ];
    let mut bad = plain(2, &[(WORD, "a")]);
    bad.options.case = 3;
    let bad = bad.encode(&mut in_turn);
    vec![
        sum("no tokens", &plain(2, &[]), 0),
        sum("one word", &plain(2, &[(WORD, "a")]), 516),
        sum("with tabs", &plain(256, &[(WORD, "a")]), 260),
        sum("indent 0", &plain(0, &[(WORD, "a")]), 4),
        sum("indent 255", &plain(255, &[(WORD, "a")]), 65284),
        sum("document 01's third sheet", &plain(2, &query), 2077),
        sum("a block comment of two lines", &plain(2, &[(BLOCK_COMMENT, "/*\n*/")]), 777),
        sum("feeds in a word count too", &plain(0, &[(WORD, "\na\n")]), 8),
        sum("carriage returns do not", &plain(0, &[(WORD, "\ra\r")]), 6),
        sum("a semicolon of any kind", &with(plain(0, &[(WORD, ";")]), |o| o.lines = 255), 259),
        sum("two are none", &with(plain(0, &[(OPERATOR, ";;")]), |o| o.lines = 255), 5),
        sum("white counts nothing", &plain(2, &[BLANK, (WHITESPACE, "\n;\n")]), 0),
        sum("copied, without a 3; the comments and what follows them not", &plain(2, &switched), 8),
        sum("copied white counts", &plain(2, &[(LINE_COMMENT, "--fmt:off"), BLANK, BLANK]), 1),
        sum("no entry: its own", &of(0, MODE_INDEXED, &[], &[mark()]), 4),
        sum(
            "Indexed: one-based 0 counts its own value",
            &of(0, MODE_INDEXED, &["long value"], &[from_one(0), mark(), piece(WORD, "a")]),
            20,
        ),
        sum(
            "Named: it shows the first empty name",
            &of(0, MODE_NAMED, &["aaa"], &[from_one(0)]),
            6,
        ),
        sum("an entry's feeds", &of(0, MODE_INDEXED, &["a\nb\n"], &[mark()]), 9),
        sum(
            "an entry that is a semicolon",
            &with(of(0, MODE_INDEXED, &[";"], &[mark()]), |o| o.lines = 7),
            11,
        ),
        sum(
            "a switched-off one takes no entry",
            &of(
                0,
                MODE_INDEXED,
                &["ab", "cde"],
                &[
                    piece(LINE_COMMENT, "--fmt:off"),
                    mark(),
                    mark(),
                    piece(LINE_COMMENT, "--fmt:on"),
                    mark(),
                    mark(),
                ],
            ),
            6,
        ),
        Known { name: "case 3", sheet: bad, wanted: Err(Refusal { number: 2, place: 24 }) },
        Known { name: "no bytes", sheet: Vec::new(), wanted: Err(Refusal { number: 1, place: 0 }) },
    ]
}

pub fn run() -> bool {
    let known = known();
    let right = known.iter().filter(|known| is_right(known)).count();
    println!("room: {right} of {} right", known.len());
    right == known.len()
}

fn is_right(known: &Known) -> bool {
    let Known { name, sheet, wanted } = known;
    let model = model::room(sheet);
    #[cfg(feature = "room")]
    let call = crate::call::room(sheet);
    #[cfg(not(feature = "room"))]
    let call = Ok::<_, String>(model);
    let right = model == *wanted && call.as_ref() == Ok(wanted);
    if !right {
        println!("{name}: wanted {wanted:?}\nmodel {model:?}\ncall {call:?}");
    }
    right
}
