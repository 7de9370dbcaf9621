//! A search by cost: random sheets whose every part may be as long and as deep as the bounds let it be.

use std::time::Instant;

use super::costly::{Costly, LONG, token};
use super::{read, room};
use crate::call;
use crate::random::Dice;
use crate::sheet::*;

const TEXT: &str = "(),;.:[]--*/x limit case end SELECT is  null-- fmt: off-- fmt: on\n \tas";
const SHOWN: usize = 8;
/// What the long run of the bodies is made of: one byte, or some in no order.
const FILLS: [&[u8]; 14] = [
    b"a",
    b"A",
    b" ",
    b"\n",
    b"\t",
    b"-",
    b"\ta",
    b"\taaaaaaaaa",
    b"\n\t",
    b"a \n\t",
    b"\taaaa\n",
    b"aaaaaaaaaaaa\n",
    b"\taaaaaaaaaaaaaaaaaaaaaaaa\n",
    b"\taaaaaaaaaaaaaaaaaaaaaaaaaaaaaaaaaaaaaaaaaaaaaaa\n",
];

struct Found {
    turn: u64,
    call: f64,
    rust: f64,
    about: String,
}

/// The sheets of N that take longest, and those that are slowest beside the Rust.
pub fn run(n: u64, seed: u64) -> bool {
    let mut found: Vec<Found> = (0..n).filter_map(|turn| tried(seed, turn)).collect();
    println!("{} of {n} sheets have a text", found.len());
    found.sort_by(|a, b| b.call.total_cmp(&a.call));
    show("the longest", &found);
    found.sort_by(|a, b| (b.call / b.rust).total_cmp(&(a.call / a.rust)));
    show("the slowest beside the Rust", &found);
    true
}

fn show(what: &str, found: &[Found]) {
    println!(
        "{what}: turn, microseconds of the call, of the Rust from bytes, the one to the other"
    );
    for Found { turn, call, rust, about } in found.iter().take(SHOWN) {
        println!("{turn:6} {call:10.1} {rust:10.1} {:6.2}  {about}", call / rust);
    }
}

/// Sheets that `search 500 2` found slow beside the Rust, by their turn.
const FOUND: [(&str, u64); 3] =
    [("slowest of the search", 360), ("closing brackets at depth", 472), ("types at depth", 200)];

pub fn found() -> Vec<(String, Costly)> {
    FOUND.map(|(name, turn)| (name.into(), sheet(&mut Dice::new(2, turn)).0)).into()
}

fn tried(seed: u64, turn: u64) -> Option<Found> {
    let (costly, about) = sheet(&mut Dice::new(seed, turn));
    let bytes = costly.encode();
    // A host's buffer has a bound too.
    let mut buffer = vec![0; 1 << 26];
    let report = call::layout(&bytes, &mut buffer);
    if report.refusal != 0 {
        return None;
    }
    let room = room(&bytes, 2 * report.length as usize).min(buffer.len());
    let call = least(|| assert_eq!(call::layout(&bytes, &mut buffer[..room]).refusal, 0));
    let rust = least(|| drop(std::hint::black_box(read(&bytes).format())));
    Some(Found { turn, call, rust, about })
}

/// Microseconds of the shortest of some turns.
fn least(mut run: impl FnMut()) -> f64 {
    let started = Instant::now();
    let mut best = f64::INFINITY;
    for turn in 0..200 {
        if turn >= 3 && started.elapsed().as_millis() >= 20 {
            break;
        }
        let turn = Instant::now();
        run();
        best = best.min(turn.elapsed().as_nanos() as f64 / 1000.0);
    }
    best
}

/// A place in the short text, or one in the long run.
fn place(dice: &mut Dice) -> [u32; 2] {
    let short = TEXT.len() as u32;
    let below = |dice: &mut Dice, n: u32| dice.below(n as usize) as u32;
    match dice.below(4) {
        0 => [short + below(dice, 2), LONG - short - 1],
        1 => [short, [7, 15, 31, 63, 255, 2000][dice.below(6)]],
        _ => {
            let start = below(dice, short - 1);
            [start, 1 + below(dice, (short - start).min(6))]
        }
    }
}

fn sheet(dice: &mut Dice) -> (Costly, String) {
    let limit = |dice: &mut Dice| dice.pick(&[0, 5, 1000, NONE]);
    let options = Options {
        indent: dice.pick(&[0, 2, 255, 256]),
        case: dice.below(3) as u32,
        inline: INLINE_OFF,
        lines: dice.pick(&[0, 1, 255]),
        block: dice.pick(&[0, 50, 1000, u32::MAX]),
        arguments: limit(dice),
        top_level: limit(dice),
    };
    let mut body = TEXT.as_bytes().to_vec();
    let fill = dice.pick(&FILLS);
    body.resize_with(LONG as usize, || dice.pick(fill));
    let (odd, other) = (TEXT.len() + dice.below(LONG as usize - TEXT.len()), dice.pick(b"b \n"));
    body[odd] = other;
    let turn: Vec<[u32; 5]> = (0..1 + dice.below(6)).map(|_| any_token(dice)).collect();
    let depth = dice.pick(&[0, 0, 1, 40, 120]);
    let count = dice.pick(&[64, 1024 - 2 * depth]);
    let mut tokens = vec![token(OPEN, 0, 1); depth];
    tokens.extend(turn.iter().cycle().take(count));
    tokens.extend(vec![token(CLOSE, 1, 1); depth]);
    let mode = dice.below(3) as u32;
    let entries = if mode == MODE_NONE { 0 } else { dice.pick(&[1, 16, 256]) };
    let name = if mode == MODE_NAMED { place(dice) } else { [0, 0] };
    let value = place(dice);
    let params = vec![[name[0], name[1], value[0], value[1]]; entries];
    let keeps = vec![place(dice); dice.pick(&[0, 1, 64])];
    let kinds: Vec<_> = turn.iter().map(|t| (NAMES[(t[0] & 31) as usize], t[2])).collect();
    let about = format!(
        "{kinds:?} {depth} deep, {count} tokens, {entries} entries, {} keeps, of {:?}",
        keeps.len(),
        String::from_utf8_lossy(fill)
    );
    (Costly { options, mode, tokens, params, keeps, body }, about)
}

fn any_token(dice: &mut Dice) -> [u32; 5] {
    let kind = dice.below(17) as u8;
    let [start, length] = place(dice);
    let named = kind == PLACEHOLDER && !dice.one_in(3);
    let [a, b] = if named { place(dice) } else { [0, 0] };
    [u32::from(kind) | u32::from(named) << 5, start, length, a, b]
}
