//! The converter as sheets grow: the time for each byte of the sheet, of which it changes one. Each turn
//! puts that byte back first.

use super::least;
use super::mend::{SIZES, sound};
use crate::call;
use crate::sheet::INLINE_ON;

pub fn run(part: &str) {
    println!("converting                    tokens  bytes of the sheet       time  a byte");
    let name = "convert";
    for size in SIZES.into_iter().filter(|_| name.contains(part)) {
        let mut sheet = sound(size).encode();
        let mut run = || {
            sheet[28] = INLINE_ON as u8;
            let outcome = call::convert(&mut sheet);
            assert_eq!((outcome.refusal, outcome.length), (0, 1), "{name}");
        };
        let [time] = least([&mut run]);
        let length = sheet.len();
        println!("{name:28} {size:7} {length:19} {time:10.0} {:7.2}", time / length as f64);
    }
}
