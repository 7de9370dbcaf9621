//! The judge of a text: long texts, and sheets that have it look up as much as can be. Each text is a yes, so that
//! it is read to its end.

use super::costly::{Costly, LONG, keep_words, names, token};
use super::{least, shapes::SHAPES, sheet};
use crate::call;
use crate::oracle;
use crate::sheet::*;

const SIZES: [usize; 3] = [128, 512, 1024];
/// Bytes of a long text.
const LONGEST: usize = 100_000_000;

/// So many words of letters, each of so many bytes.
fn words(count: usize, length: u32) -> Vec<u8> {
    let tokens = vec![token(WORD, 0, length); count];
    Costly { tokens, body: vec![b'a'; LONG as usize], ..Costly::default() }.encode()
}

/// So many letters with as much white after each as makes it a long text.
fn long_text(letters: usize) -> Vec<u8> {
    let each = LONGEST / letters;
    let mut text = [b"a".to_vec(), b" \n".repeat(each / 2)].concat();
    text.truncate(each);
    let mut text = text.repeat(letters);
    text.resize(LONGEST, b' ');
    text
}

/// The Rust's own text.
fn laid_out(sheet: &[u8]) -> Vec<u8> {
    oracle::read(sheet).expect("a whole sheet").format().into_bytes()
}

fn own(sheet: Vec<u8>) -> (Vec<u8>, Vec<u8>) {
    let text = laid_out(&sheet);
    (sheet, text)
}

pub fn run(seed: u64, part: &str) {
    println!(
        "judging                       tokens  bytes of the sheet  of the text         time  a byte"
    );
    let wanted = |name: &str| name.contains(part);
    for size in SIZES.into_iter().filter(|_| wanted("judge, a query")) {
        let (_, make) = SHAPES[0];
        let (sheet, text) = own(sheet(make, seed, 0, size));
        row("judge, a query", size, &sheet, &text);
    }
    type Shape = (&'static str, usize, fn() -> (Vec<u8>, Vec<u8>));
    let shapes: [Shape; 8] = [
        ("judge, 1 word, white", 1, || (words(1, 1), long_text(1))),
        ("judge, 1,024 words, white", 1024, || (words(1024, 32), long_text(1024 * 32))),
        ("judge, 1,024 long words", 1024, || (words(1024, LONG), long_text(1024 * LONG as usize))),
        ("judge, names of 6", 1024, || own(names(6, 5).encode())),
        ("judge, names, last byte", 1024, || own(names(LONG, LONG - 1).encode())),
        ("judge, names, near the end", 1024, || own(names(LONG, LONG - 10).encode())),
        ("judge, keep words, last byte", 1024, || own(keep_words(LONG, LONG - 1).encode())),
        ("judge, keep words, near", 1024, || own(keep_words(LONG, LONG - 10).encode())),
    ];
    for (name, size, make) in shapes.into_iter().filter(|shape| wanted(shape.0)) {
        let (sheet, text) = make();
        row(name, size, &sheet, &text);
    }
}

fn row(name: &str, size: usize, sheet: &[u8], text: &[u8]) {
    let mut run = || {
        let judged = call::judge(sheet, text);
        assert_eq!((judged.refusal, judged.matches), (0, 1), "{name}: {judged:?}");
    };
    let [time] = least([&mut run]);
    let (n, length) = (sheet.len(), text.len());
    let each = time / (n + length) as f64;
    println!("{name:28} {size:7} {n:19} {length:12} {time:12.0} {each:7.2}");
}
