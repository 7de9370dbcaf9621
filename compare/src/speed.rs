//! The proved call and the Rust on the same sheets: the time of each, and ratios.

use std::hint::black_box;
use std::panic;
use std::time::{Duration, Instant};

use crate::call;
use crate::model;
use crate::oracle::{self, Read};
use crate::random::Dice;
use crate::sheet::{Sheet, in_turn};
use shapes::{Maker, SHAPES};

#[cfg(feature = "compact")]
mod compact;
#[cfg(feature = "convert")]
mod convert;
mod costly;
#[cfg(feature = "judge")]
mod judge;
#[cfg(feature = "mend")]
mod mend;
#[cfg(feature = "once")]
pub mod once;
#[cfg(feature = "room")]
mod room;
#[cfg(feature = "rows")]
mod rows;
pub mod search;
mod shapes;

const SIZES: [usize; 4] = [16, 128, 512, 1024];
/// Sheets of each shape and size.
const SHEETS: u64 = 32;
const ROUNDS: usize = 300;
const ROUND: Duration = Duration::from_millis(2);
/// The time for a row whose turns are long: it has fewer rounds, but five at least.
const ROW: Duration = Duration::from_secs(2);

/// Only the rows whose name has `part` in it.
pub fn run(seed: u64, part: &str) -> bool {
    if checks_overflow() {
        eprintln!("build with --profile speed: this build checks every sum of the Rust");
        return false;
    }
    println!("nanoseconds a sheet, the least of {ROUNDS} rounds over {SHEETS} sheets, seed {seed}");
    println!(
        "shape                            tokens       call  Rust from bytes  format alone  to bytes  to format   a token  with counts  to that"
    );
    for (shape, make) in SHAPES.into_iter().filter(|shape| shape.0.contains(part)) {
        for size in SIZES {
            let sheets: Vec<_> = (0..SHEETS).map(|turn| sheet(make, seed, turn, size)).collect();
            row(shape, size, &sheets);
        }
    }
    let costly = costly::sheets().into_iter().chain(search::found());
    for (name, costly) in costly.filter(|sheet| sheet.0.contains(part)) {
        row(&name, costly.tokens.len(), &[costly.encode()]);
    }
    clearing();
    #[cfg(feature = "rows")]
    rows::run(seed, part);
    #[cfg(feature = "compact")]
    compact::run(part);
    #[cfg(feature = "once")]
    once::run(seed, part, None);
    #[cfg(feature = "room")]
    room::run(part);
    #[cfg(feature = "mend")]
    mend::run(part);
    #[cfg(feature = "convert")]
    convert::run(part);
    #[cfg(feature = "judge")]
    judge::run(seed, part);
    true
}

/// Refusals 5 and 8 want such a build; the desk does not run one.
fn checks_overflow() -> bool {
    panic::catch_unwind(|| black_box(u8::MAX) + black_box(1)).is_err()
}

fn sheet(make: Maker, seed: u64, turn: u64, size: usize) -> Vec<u8> {
    make(&mut Dice::new(seed, turn), size).encode(&mut in_turn)
}

fn read(bytes: &[u8]) -> Read<'_> {
    oracle::read(bytes).expect("a whole sheet")
}

fn row(shape: &str, size: usize, sheets: &[Vec<u8>]) {
    let reads: Vec<Read> = sheets.iter().map(|bytes| read(bytes)).collect();
    let lengths: Vec<usize> = reads.iter().map(|read| read.format().len()).collect();
    let rooms: Vec<usize> = sheets.iter().zip(&lengths).map(|(s, n)| room(s, 2 * n)).collect();
    let mut buffer = vec![0; rooms.iter().copied().max().unwrap_or(0)];
    let mut call = || {
        for ((bytes, length), room) in sheets.iter().zip(&lengths).zip(&rooms) {
            let report = call::layout(bytes, &mut buffer[..*room]);
            assert_eq!((report.refusal, report.length), (0, *length as u64));
        }
    };
    let mut whole = || sheets.iter().for_each(|bytes| drop(black_box(read(bytes).format())));
    let mut alone = || reads.iter().for_each(|read| drop(black_box(read.format())));
    // The two numbers that a report has and the Rust does not give.
    let mut counted = || {
        for bytes in sheets {
            let text = read(bytes).format();
            black_box(model::lines_width(text.as_bytes()));
        }
    };
    let times = least([&mut call, &mut whole, &mut alone, &mut counted]);
    let [call, whole, alone, counted] = times.map(|time| time / sheets.len() as f64);
    let (to_whole, to_alone, token) = (call / whole, call / alone, call / size as f64);
    println!(
        "{shape:32} {size:6} {call:10.0} {whole:16.0} {alone:13.0} {to_whole:9.2} {to_alone:10.2} {token:9.1} {counted:12.0} {:8.2}",
        call / counted
    );
}

/// A buffer of twice the text's length, or a longer one where white that is cut later does not fit. The call clears it all.
fn room(sheet: &[u8], least: usize) -> usize {
    let mut room = least;
    while call::layout(sheet, &mut vec![0; room]).refusal == 9 {
        room = 2 * room + 1024;
    }
    room
}

/// What an empty sheet costs, and what a long buffer adds to it.
fn clearing() {
    let empty = Sheet::default().encode(&mut in_turn);
    let mut buffer = vec![1; 65536];
    for room in [0, 65536] {
        let mut call = || {
            black_box(call::layout(&empty, &mut buffer[..room]));
        };
        let [call] = least([&mut call]);
        println!("no tokens, a buffer of {room}: {call:.0}");
    }
}

/// The least time of a turn of each, in nanoseconds. The rounds are short and go in turn, so that each has some that nothing else on the machine disturbs.
fn least<const N: usize>(mut runs: [&mut dyn FnMut(); N]) -> [f64; N] {
    let turns = runs.each_mut().map(|run| {
        let started = Instant::now();
        let turns = (1..).find(|_| {
            run();
            started.elapsed() >= ROUND
        });
        turns.unwrap_or(1)
    });
    let mut best = [f64::INFINITY; N];
    let started = Instant::now();
    for round in 0..ROUNDS {
        if round >= 5 && started.elapsed() >= ROW {
            break;
        }
        for i in 0..N {
            let started = Instant::now();
            (0..turns[i]).for_each(|_| runs[i]());
            best[i] = best[i].min(started.elapsed().as_nanos() as f64 / f64::from(turns[i]));
        }
    }
    best
}
