//! A sheet as a failing tool leaves it: stray bits and bad numbers in its words and its bodies, one
//! or several at once. Only the counts stay.

use super::Dice;

/// What can be bent, by its offset.
#[derive(Clone, Copy)]
enum Spot {
    Mode,
    /// An option, and the most that it may be.
    Option(usize, u32),
    Packed(usize),
    /// Two words that are a place, or would be in another mode or with another key class.
    Pair(usize),
    Byte(usize),
}

/// The mode, the options, each record, and the bytes of the bodies.
fn parts(sheet: &[u8]) -> Vec<Vec<Spot>> {
    use Spot::*;
    let [n, p, k] = [0, 4, 8].map(|at| word(sheet, at) as usize);
    let (params, keeps) = (48 + 20 * n, 48 + 20 * n + 16 * p);
    let body = keeps + 8 * k;
    let bounded = [(20, 256), (24, 2), (28, 2), (32, 255)];
    let free = [36, 40, 44].map(|at| (at, u32::MAX));
    let options = bounded.into_iter().chain(free).map(|(at, most)| Option(at, most));
    let mut parts = vec![vec![Mode], options.collect()];
    let tokens = (0..n).map(|i| 48 + 20 * i);
    parts.extend(tokens.map(|at| vec![Packed(at), Pair(at + 4), Pair(at + 12)]));
    parts.extend((0..p).map(|i| params + 16 * i).map(|at| vec![Pair(at), Pair(at + 8)]));
    parts.extend((0..k).map(|i| vec![Pair(keeps + 8 * i)]));
    parts.push((body..sheet.len()).map(Byte).collect());
    parts.retain(|part| !part.is_empty());
    parts
}

pub fn bent(dice: &mut Dice, mut sheet: Vec<u8>) -> Vec<u8> {
    let parts = parts(&sheet);
    let spots: Vec<Spot> = match dice.below(16) {
        0 => parts.concat(),
        1 => parts[parts.len() - 1].clone(),
        2 | 3 => part(dice, &parts).clone(),
        4..9 => (0..2 + dice.below(8)).map(|_| spot(dice, &parts)).collect(),
        _ => vec![spot(dice, &parts)],
    };
    spots.into_iter().for_each(|spot| bend(dice, &mut sheet, spot));
    sheet
}

/// Among many records the head and the bodies would seldom be met.
fn part<'p>(dice: &mut Dice, parts: &'p [Vec<Spot>]) -> &'p Vec<Spot> {
    let ends = [0, 1, parts.len() - 1];
    let any = dice.below(parts.len());
    &parts[if dice.one_in(3) { dice.pick(&ends) } else { any }]
}

fn spot(dice: &mut Dice, parts: &[Vec<Spot>]) -> Spot {
    let part = part(dice, parts);
    dice.pick(part)
}

fn bend(dice: &mut Dice, sheet: &mut [u8], spot: Spot) {
    let stray = 1 << dice.below(32);
    match spot {
        // 1 and 2 are sound, but may forbid names, or let them stand.
        Spot::Mode => {
            let mode = word(sheet, 16);
            put(sheet, 16, dice.pick(&[0, 1, 2, 3, 4, 258, u32::MAX, mode ^ stray]));
        }
        Spot::Option(at, most) => {
            let (old, over) = (word(sheet, at), most.saturating_add(1));
            put(sheet, at, dice.pick(&[most, over, over, 65536, u32::MAX, old ^ stray]));
        }
        Spot::Packed(at) => {
            let packed = word(sheet, at);
            let kind = 17 + dice.below(15) as u32;
            let high = 1 << (8 + dice.below(24));
            let class = (dice.below(4) as u32) << 5;
            let unknown = packed & !31 | kind;
            let other = packed & !96 | class;
            put(
                sheet,
                at,
                dice.pick(&[unknown, packed | high, unknown | high, other, packed ^ stray]),
            );
        }
        Spot::Pair(at) => bend_pair(dice, sheet, at),
        Spot::Byte(at) => sheet[at] = dice.pick(&[128, 129, 194, 255, sheet[at] | 128]),
    }
}

/// As a place: right at the end or one past it, far past it, or past 2^32 where a sum of 32 bits would
/// come round. As numbers: any that a class or a mode may forbid.
fn bend_pair(dice: &mut Dice, sheet: &mut [u8], at: usize) {
    let (start, length, b) = (word(sheet, at), word(sheet, at + 4), word(sheet, 12));
    let stray = 1 << dice.below(32);
    let (start, length) = match dice.below(16) {
        0 => (b, 0),
        1 => (b + 1, 0),
        2 => (0, b + 1),
        3 => (b, 1),
        4 => (u32::MAX, 1 + length % (b + 1)),
        5 => (1 + start % (b + 1), u32::MAX),
        6 => (u32::MAX, 0),
        7 => (0, u32::MAX),
        8 => (1, 0),
        9 => (0, 1),
        10 => (dice.below(b as usize + 2) as u32, dice.below(4) as u32),
        11 | 12 => (start, length ^ stray),
        13 | 14 => (start ^ stray, length),
        _ => (u32::MAX, u32::MAX),
    };
    put(sheet, at, start);
    put(sheet, at + 4, length);
}

fn word(sheet: &[u8], at: usize) -> u32 {
    u32::from_le_bytes([sheet[at], sheet[at + 1], sheet[at + 2], sheet[at + 3]])
}

fn put(sheet: &mut [u8], at: usize, number: u32) {
    sheet[at..at + 4].copy_from_slice(&number.to_le_bytes());
}
