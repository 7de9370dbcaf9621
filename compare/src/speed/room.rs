//! The call that says how much to lend, as sheets grow.

use super::costly::{Costly, token};
use super::least;
use crate::call;
use crate::sheet::*;

const SIZES: [usize; 3] = [128, 512, 1024];

/// Words of so many bytes, all from the same place on; or placeholders with as long an entry.
fn sheet(kind: u8, size: usize, length: u32, byte: u8) -> Vec<u8> {
    let mode = if kind == PLACEHOLDER { MODE_INDEXED } else { 0 };
    let params = if mode == 0 { Vec::new() } else { vec![[0, 0, 0, length]; 256] };
    let tokens = (0..size).map(|_| token(kind, 0, length)).collect();
    Costly { mode, tokens, params, body: vec![byte; 32767], ..Costly::default() }.encode()
}

pub fn run(part: &str) {
    println!("room                          tokens   bytes shown       time  a token");
    for size in SIZES {
        let shapes = [
            ("room, words of 8", sheet(WORD, size, 8, b'a')),
            ("room, words of 32767", sheet(WORD, size, 32767, b'a')),
            ("room, feeds of 32767", sheet(WORD, size, 32767, b'\n')),
            ("room, entries of 32767", sheet(PLACEHOLDER, size, 32767, b'a')),
        ];
        for (name, bytes) in shapes.iter().filter(|shape| shape.0.contains(part)) {
            let mut run = || assert!(call::room(bytes).is_ok_and(|sum| sum.is_ok()), "{name}");
            let [time] = least([&mut run]);
            let shown = if name.contains("of 8") { 8 } else { 32767 } * size;
            println!("{name:28} {size:7} {shown:13} {time:10.0} {:8.1}", time / size as f64);
        }
    }
}
