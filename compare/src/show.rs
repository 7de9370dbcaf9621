//! Sheets and answers for a reader.

use std::fs;

use crate::model::{self, Answer, Refusal, Row};
use crate::oracle;
use crate::sheet::{INLINE_COMMENTS, INLINE_ON, Key, NAMES, Sheet};

pub fn run(file: &str, room: usize) -> bool {
    let bytes = match fs::read(file) {
        Ok(bytes) => bytes,
        Err(error) => {
            eprintln!("{file}: {error}");
            return false;
        }
    };
    print!("{}", sheet(&bytes));
    let trial = model::trial(&bytes, room);
    println!("model at {room}: {}", answer(&trial.answer));
    println!("rows: {}", rows(&trial.rows));
    println!("Rust: {}", rust(&bytes));
    true
}

/// The Rust's answer, if the sheet can be read at all.
pub fn rust(bytes: &[u8]) -> String {
    if refused_before_layout(bytes) {
        return "not run".into();
    }
    match oracle::inline(bytes) {
        Some(INLINE_ON) => return "not run: word 7 is 1, which is withdrawn".into(),
        Some(INLINE_COMMENTS) => {
            return "not run: word 7 is 2, which the Rust has not; the model judges".into();
        }
        _ => {}
    }
    match oracle::read(bytes).map(|read| read.text()) {
        None => "not run".into(),
        Some(Ok(text)) => format!("{} bytes {}", text.len(), quoted(&text)),
        Some(Err(panic)) => format!("panic {panic:?}"),
    }
}

fn refused_before_layout(bytes: &[u8]) -> bool {
    model::check(bytes).is_err()
}

pub fn answer(answer: &Answer) -> String {
    match answer {
        Answer::Laid { text, lines, width } => {
            let length = text.len();
            format!("ok, length {length}, lines {lines}, width {width}, {}", quoted(text))
        }
        Answer::Refused(Refusal { number, place }) => format!("refused {number} at {place}"),
    }
}

/// Token, entry, bytes before, bytes that survived.
pub fn rows(rows: &[Row]) -> String {
    let row = |row: &Row| {
        let entry = row.entry.map_or("own".into(), |entry| entry.to_string());
        format!("({}, {entry}, {}, {})", row.token, row.before, row.survived)
    };
    let rows: Vec<String> = rows.iter().map(row).collect();
    if rows.is_empty() { "none".into() } else { rows.join(" ") }
}

pub fn quoted(bytes: &[u8]) -> String {
    format!("{:?}", String::from_utf8_lossy(bytes))
}

pub fn sheet(bytes: &[u8]) -> String {
    let readable = !refused_before_layout(bytes);
    match Sheet::decode(bytes).filter(|_| readable) {
        Some(sheet) => whole(&sheet),
        None => damaged(bytes),
    }
}

fn whole(sheet: &Sheet) -> String {
    let mut out = format!("{:?}\nmode {}\n", sheet.options, sheet.mode);
    for (i, token) in sheet.tokens.iter().enumerate() {
        let (name, value) = (NAMES[token.kind as usize], quoted(&token.value));
        let key = match &token.key {
            Key::None => String::new(),
            Key::Named(name) => format!(" key {}", quoted(name)),
            key => format!(" key {key:?}"),
        };
        let create = if token.create { " CREATE" } else { "" };
        out += &format!("{i:4} {name} {value}{key}{create}\n");
    }
    for (i, param) in sheet.params.iter().enumerate() {
        out += &format!("parameter {i} {} = {}\n", quoted(&param.name), quoted(&param.value));
    }
    for word in &sheet.keep {
        out += &format!("keep {}\n", quoted(word));
    }
    out
}

fn damaged(bytes: &[u8]) -> String {
    let mut out = format!("{} bytes that are no whole sheet\n", bytes.len());
    for (row, part) in bytes.chunks(20).enumerate() {
        let words: Vec<String> = part.chunks(4).map(hex).collect();
        out += &format!("{:5} {}\n", 20 * row, words.join(" "));
    }
    out
}

pub fn hex(bytes: &[u8]) -> String {
    bytes.iter().map(|byte| format!("{byte:02x}")).collect()
}
