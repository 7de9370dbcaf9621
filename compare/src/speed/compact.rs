//! The compacting call as sheets grow: the time for each byte of the sheet, with short places, and with places
//! as long as can be.

use super::costly::{Costly, token};
use super::least;
use crate::call;
use crate::sheet::*;

const SIZES: [usize; 3] = [128, 512, 1024];

/// Every count in proportion, up to its bound; all places of so many bytes, each from another byte on.
fn sheet(size: usize, length: usize) -> Vec<u8> {
    let body = 32 * size;
    let place = |i: usize| (i * 37 % (body - length + 1)) as u32;
    let length = length as u32;
    let named = u32::from(PLACEHOLDER) | 1 << 5;
    let keyed = |i: usize| [named, place(i), length, place(i + 5), length];
    Costly {
        mode: MODE_NAMED,
        tokens: (0..size).map(keyed).collect(),
        params: (0..size / 4).map(|i| [place(i), length, place(i + 3), length]).collect(),
        keeps: (0..size / 16).map(|i| [place(i), length]).collect(),
        body: vec![b'a'; body],
        ..Costly::default()
    }
    .encode()
}

/// Words without keys, one after another with gaps, as a tool's edits leave them.
fn edited(size: usize) -> Vec<u8> {
    let tokens = (0..size).map(|i| token(WORD, 32 * i as u32, 8)).collect();
    Costly { tokens, body: vec![b'a'; 32 * size], ..Costly::default() }.encode()
}

pub fn run(part: &str) {
    println!("compacting                    tokens  bytes of the sheet       time  a byte");
    for size in SIZES {
        let shapes = [
            ("compact, words and gaps", edited(size)),
            ("compact, places of 1", sheet(size, 1)),
            ("compact, places of 40", sheet(size, 40)),
            ("compact, longest places", sheet(size, 32 * size - 1)),
        ];
        for (name, bytes) in shapes.iter().filter(|shape| shape.0.contains(part)) {
            let mut out = vec![0; bytes.len()];
            let mut run = || assert_eq!(call::compact(bytes, &mut out).refusal, 0, "{name}");
            let [time] = least([&mut run]);
            let each = time / bytes.len() as f64;
            println!("{name:28} {size:7} {:19} {time:10.0} {each:7.2}", bytes.len());
        }
    }
}
