//! Random sheets from a seed: the same seed gives the same sheets.

mod bent;
mod brim;
mod comments;
mod damage;
mod edited;
mod lines;
pub mod noise;
pub mod query;
mod soup;
mod tabs;
mod values;
pub mod white;

use crate::model::Refusal;
use crate::sheet::*;

/// splitmix64.
pub struct Dice(u64);

impl Dice {
    /// Each sheet of a run has dice of its own, so that one can be made again alone.
    pub fn new(seed: u64, turn: u64) -> Self {
        let mut dice = Dice(seed.wrapping_mul(0x9E37_79B9_7F4A_7C15));
        dice.0 = dice.next() ^ turn.wrapping_mul(0xD1B5_4A32_D192_ED03);
        dice
    }

    fn next(&mut self) -> u64 {
        self.0 = self.0.wrapping_add(0x9E37_79B9_7F4A_7C15);
        let mut z = self.0;
        z = (z ^ z >> 30).wrapping_mul(0xBF58_476D_1CE4_E5B9);
        z = (z ^ z >> 27).wrapping_mul(0x94D0_49BB_1331_11EB);
        z ^ z >> 31
    }

    /// A number under `bound`, or 0.
    pub fn below(&mut self, bound: usize) -> usize {
        (self.next() % bound.max(1) as u64) as usize
    }

    pub fn one_in(&mut self, n: usize) -> bool {
        self.below(n) == 0
    }

    pub fn pick<T: Copy>(&mut self, from: &[T]) -> T {
        from[self.below(from.len())]
    }
}

pub struct Made {
    pub maker: &'static str,
    pub bytes: Vec<u8>,
    /// What was encoded, if the bytes were left whole.
    pub sheet: Option<Sheet>,
    /// The refusal that was put in by hand.
    pub expected: Option<Refusal>,
}

#[derive(Clone, Copy, PartialEq, Eq)]
pub enum Size {
    Any,
    /// At most 10 tokens, few body bytes, short indents.
    Table,
}

/// What word 7 may be.
#[derive(Clone, Copy, PartialEq, Eq)]
pub enum Inline {
    /// 0 and 1.
    Rusts,
    Any,
    /// 2 alone.
    Comments,
}

impl Inline {
    fn set(self, dice: &mut Dice, options: &mut Options) {
        match self {
            Inline::Rusts => {}
            Inline::Any => options.inline = dice.pick(&[0, 0, 0, 1, 2, 2]),
            Inline::Comments => options.inline = INLINE_COMMENTS,
        }
    }
}

#[derive(Clone, Copy, PartialEq, Eq)]
pub enum Maker {
    Soup,
    Brackets,
    Switch,
    Placeholders,
    Folds,
    Query,
    Long,
    Deep,
    Bounds,
    Damaged,
    Flipped,
    Brim,
    White,
    Noise,
    Comments,
    Values,
    Tabs,
    Lines,
    Edited,
    Bent,
}

const USUAL: [Maker; 16] = [
    Maker::Soup,
    Maker::Soup,
    Maker::Soup,
    Maker::Brackets,
    Maker::Brackets,
    Maker::Brackets,
    Maker::Switch,
    Maker::Placeholders,
    Maker::Placeholders,
    Maker::Folds,
    Maker::Query,
    Maker::Query,
    Maker::Query,
    Maker::Damaged,
    Maker::Damaged,
    Maker::Flipped,
];

/// Every maker, and word 7 at any value: what `check` and `list` run.
pub fn make_any(dice: &mut Dice) -> Made {
    if dice.one_in(8) {
        return make_with(dice, Maker::Values, Size::Any, Inline::Any);
    }
    if dice.one_in(12) {
        return make_with(dice, Maker::Tabs, Size::Any, Inline::Any);
    }
    if dice.one_in(16) {
        return make_with(dice, Maker::Lines, Size::Any, Inline::Any);
    }
    if dice.one_in(12) {
        return make_with(dice, Maker::Edited, Size::Any, Inline::Any);
    }
    if dice.one_in(12) {
        return make_with(dice, Maker::Bent, Size::Any, Inline::Any);
    }
    make_at_any(dice)
}

/// The makers that the fixed list was made with where word 7 may be 2.
pub fn make_at_any(dice: &mut Dice) -> Made {
    let maker = match dice.below(1000) {
        0..8 => Maker::Deep,
        8..20 => Maker::Brim,
        20..60 => Maker::White,
        60..90 => Maker::Noise,
        90..240 => Maker::Comments,
        _ => usual(dice),
    };
    make_with(dice, maker, Size::Any, Inline::Any)
}

/// The makers that the fixed list was made with: another mixture here would be another list.
pub fn make(dice: &mut Dice) -> Made {
    let maker = usual(dice);
    make_with(dice, maker, Size::Any, Inline::Rusts)
}

fn usual(dice: &mut Dice) -> Maker {
    match dice.below(2000) {
        0..5 => Maker::Deep,
        5..15 => Maker::Long,
        15 => Maker::Bounds,
        _ => dice.pick(&USUAL),
    }
}

pub fn make_with(dice: &mut Dice, maker: Maker, size: Size, inline: Inline) -> Made {
    match maker {
        Maker::Bounds => return bounds(dice, inline),
        Maker::Noise => {
            let (bytes, expected) = noise::bytes(dice);
            return Made { maker: "noise", bytes, sheet: None, expected };
        }
        Maker::Bent if dice.one_in(300) => {
            let whole = bounds(dice, inline).bytes;
            return bent(dice, whole);
        }
        _ => {}
    }
    let whole = match maker {
        Maker::White if dice.one_in(4) => Maker::Comments,
        Maker::Tabs if dice.one_in(4) => dice.pick(&[Maker::Comments, Maker::Values]),
        Maker::Bent if dice.one_in(3) => dice.pick(&[Maker::Placeholders, Maker::Values]),
        Maker::Damaged
        | Maker::Flipped
        | Maker::White
        | Maker::Tabs
        | Maker::Lines
        | Maker::Edited
        | Maker::Bent => dice.pick(&USUAL[..13]),
        other => other,
    };
    let mut sheet = sheet(dice, whole, size);
    inline.set(dice, &mut sheet.options);
    if maker == Maker::White {
        sheet = white::whitened(dice, sheet);
    }
    if maker == Maker::Tabs {
        sheet = tabs::tabbed(dice, sheet);
    }
    if maker == Maker::Lines {
        sheet = lines::lined(dice, sheet);
    }
    let bytes = encode(dice, &sheet);
    match maker {
        Maker::Damaged => {
            let (bytes, refusal) = damage::known(dice, bytes);
            Made { maker: "damaged", bytes, sheet: None, expected: Some(refusal) }
        }
        Maker::Flipped => {
            let bytes = damage::flipped(dice, bytes);
            Made { maker: "flipped", bytes, sheet: None, expected: None }
        }
        Maker::Edited => {
            let bytes = edited::edited(dice, bytes);
            let sheet = Sheet::decode(&bytes);
            Made { maker: "edited", bytes, sheet, expected: None }
        }
        Maker::Bent => bent(dice, bytes),
        _ => Made { maker: name(maker), bytes, sheet: Some(sheet), expected: None },
    }
}

fn bent(dice: &mut Dice, bytes: Vec<u8>) -> Made {
    let bytes = bent::bent(dice, bytes);
    Made { maker: name(Maker::Bent), bytes, sheet: None, expected: None }
}

fn name(maker: Maker) -> &'static str {
    match maker {
        Maker::Soup => "soup",
        Maker::Brackets => "brackets",
        Maker::Switch => "switch",
        Maker::Placeholders => "placeholders",
        Maker::Folds => "folds",
        Maker::Query => "query",
        Maker::Long => "long",
        Maker::Deep => "deep",
        Maker::Bounds => "bounds",
        Maker::Damaged => "damaged",
        Maker::Flipped => "flipped",
        Maker::Brim => "brim",
        Maker::White => "white",
        Maker::Noise => "noise",
        Maker::Comments => "comments",
        Maker::Values => "values",
        Maker::Tabs => "tabs",
        Maker::Lines => "lines",
        Maker::Edited => "edited",
        Maker::Bent => "bent",
    }
}

fn sheet(dice: &mut Dice, maker: Maker, size: Size) -> Sheet {
    let count = match size {
        _ if maker == Maker::Long => 30 + dice.below(170),
        Size::Any if dice.one_in(8) => dice.below(40),
        Size::Any => dice.below(15),
        Size::Table => dice.below(11),
    };
    let mut options = soup::options(dice, size);
    let tokens = match maker {
        Maker::Brackets => soup::brackets(dice, count),
        Maker::Switch => soup::switches(dice, count),
        Maker::Placeholders => soup::placeholders(dice, count),
        Maker::Folds => soup::folds(dice, &mut options, size),
        Maker::Query => query::tokens(dice, size),
        Maker::Deep => soup::deep(dice, &mut options),
        Maker::Brim => brim::tokens(dice, &mut options),
        Maker::Comments => comments::tokens(dice, &mut options, size),
        Maker::Values => values::tokens(dice, &mut options, size),
        _ => soup::tokens(dice, count),
    };
    let most = if size == Size::Table { 3 } else { 5 };
    let wanted = matches!(maker, Maker::Placeholders | Maker::Switch);
    let (mode, params) = match maker {
        Maker::Values => values::params(dice, &tokens, most),
        _ => soup::params(dice, wanted, most),
    };
    let keep = soup::keep(dice, &tokens, most - 1);
    Sheet { options, mode, tokens, params, keep }
}

/// Every count at its bound, or one of them one over.
fn bounds(dice: &mut Dice, inline: Inline) -> Made {
    let over = dice.below(8);
    let mut counts = [1024, 256, 64, 32768];
    if let Some(count) = counts.get_mut(over) {
        *count += 1;
    }
    let [n, p, k, b] = counts;
    let (tokens, mode) = (soup::tokens(dice, n), dice.pick(&[MODE_INDEXED, MODE_NAMED]));
    let entry = |i: usize| if mode == MODE_NAMED { format!("n{i}") } else { String::new() };
    let params = (0..p).map(|i| Param { name: entry(i).into(), value: i.to_string().into() });
    let keep = (0..k).map(|i| tokens[i].value.clone()).collect();
    let mut options = Options { indent: dice.below(3) as u32, ..soup::options(dice, Size::Table) };
    inline.set(dice, &mut options);
    let sheet = Sheet { options, mode, params: params.collect(), keep, tokens };
    let mut bytes = encode(dice, &sheet);
    let records = 48 + 20 * n + 16 * p + 8 * k;
    bytes.resize(records + b, b'~');
    bytes[12..16].copy_from_slice(&(b as u32).to_le_bytes());
    let refused = over < counts.len();
    let expected = refused.then_some(Refusal { number: 1, place: 0 });
    Made { maker: "bounds", bytes, sheet: (!refused).then_some(sheet), expected }
}

/// Places one after another, shared, overlapping or with gaps, or each by chance.
pub fn encode(dice: &mut Dice, sheet: &Sheet) -> Vec<u8> {
    let manner = dice.below(5);
    sheet.encode(&mut |body: &mut Vec<u8>, value: &[u8]| {
        let manner = if manner == 4 { dice.below(4) } else { manner };
        if value.is_empty() {
            return dice.below(body.len() + 1) as u32;
        }
        match manner {
            0 => in_turn(body, value),
            1 => shared(body, value).unwrap_or_else(|| in_turn(body, value)),
            2 => shared(body, value).unwrap_or_else(|| overlapping(body, value)),
            _ => {
                for _ in 0..dice.below(4) {
                    body.push(dice.pick(b" x;\n\0\x7f("));
                }
                in_turn(body, value)
            }
        }
    })
}

pub fn shared(body: &[u8], value: &[u8]) -> Option<u32> {
    body.windows(value.len()).position(|part| part == value).map(|start| start as u32)
}

fn overlapping(body: &mut Vec<u8>, value: &[u8]) -> u32 {
    let most = value.len().min(body.len());
    let common = (0..=most).rev().find(|&n| body.ends_with(&value[..n])).unwrap_or(0);
    let start = body.len() - common;
    body.extend_from_slice(&value[common..]);
    start as u32
}
