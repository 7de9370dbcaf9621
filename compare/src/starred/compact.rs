//! Sheets whose new sheet is written out.

use crate::model::{self, Refusal};

/// Words 5 to 11 of a head: the Rust's defaults.
const OPTIONS: [u32; 7] = [2, 0, 0, 1, 50, u32::MAX, u32::MAX];

struct Known {
    name: &'static str,
    old: Vec<u8>,
    room: usize,
    wanted: Result<Vec<u8>, Refusal>,
}

/// Words 0 to 4 but for the body bytes, the records, and the bodies.
fn sheet([n, p, k, mode]: [u32; 4], records: &[u32], body: &str) -> Vec<u8> {
    let head = [n, p, k, body.len() as u32, mode];
    let words = head.iter().chain(&OPTIONS).chain(records);
    words.flat_map(|word| word.to_le_bytes()).chain(body.bytes()).collect()
}

/// Records and bodies, before and after.
fn becomes(
    name: &'static str,
    counts: [u32; 4],
    (old, new): (&[u32], &[u32]),
    [body, left]: [&str; 2],
) -> Known {
    let (old, new) = (sheet(counts, old, body), sheet(counts, new, left));
    Known { name, old, room: new.len(), wanted: Ok(new) }
}

/// A Word's record.
fn word(start: u32, length: u32) -> [u32; 5] {
    [15, start, length, 0, 0]
}

/// Two of them.
fn words(one: (u32, u32), two: (u32, u32)) -> Vec<u32> {
    [word(one.0, one.1), word(two.0, two.1)].concat()
}

/// A record with a value of one byte and a key.
fn keyed(packed: u32, start: u32, a: u32, b: u32) -> [u32; 5] {
    [packed, start, 1, a, b]
}

fn known() -> Vec<Known> {
    let (one, two) = ([1, 0, 0, 0], [2, 0, 0, 0]);
    let overlap = words((0, 3), (2, 3));
    let [named, zero, from_one] = [15 | 1 << 5, 14 | 2 << 5, 14 | 3 << 5];
    vec![
        becomes("a gap on both sides", one, (&word(1, 1), &word(0, 1)), ["zbz", "b"]),
        becomes("the last byte alone", one, (&word(2, 1), &word(0, 1)), ["zby", "y"]),
        becomes("an overlap stays", two, (&overlap, &overlap), ["abcdef", "abcde"]),
        becomes(
            "an empty place starts at 0",
            two,
            (&words((0, 3), (3, 0)), &words((0, 3), (0, 0))),
            ["abc", "abc"],
        ),
        becomes(
            "an empty place covers nothing",
            two,
            (&words((1, 1), (3, 0)), &words((0, 1), (0, 0))),
            ["zbzz", "b"],
        ),
        becomes(
            "the later place comes first",
            two,
            (&words((4, 2), (1, 2)), &words((2, 2), (0, 2))),
            ["_ab_cd", "abcd"],
        ),
        becomes("no tokens", [0, 0, 0, 0], (&[], &[]), ["abc", ""]),
        becomes(
            "a name on a word",
            one,
            (&keyed(named, 3, 1, 1), &keyed(named, 1, 0, 1)),
            ["_n_v", "nv"],
        ),
        becomes(
            "a number is no place",
            one,
            (&keyed(zero, 2, 1, 0), &keyed(zero, 0, 1, 0)),
            ["__v", "v"],
        ),
        becomes(
            "a number from one is none",
            one,
            (&keyed(from_one, 2, 2, 0), &keyed(from_one, 0, 2, 0)),
            ["__v", "v"],
        ),
        becomes(
            "Named entries and a keep word",
            [0, 2, 1, 2],
            (&[1, 1, 3, 1, 2, 0, 5, 1, 4, 1], &[0, 1, 1, 1, 0, 0, 3, 1, 2, 1]),
            ["_n_vkw", "nvkw"],
        ),
        becomes("Indexed entries", [0, 1, 0, 1], (&[0, 0, 2, 1], &[0, 0, 0, 1]), ["__v", "v"]),
    ]
}

/// 11 exactly if the buffer is shorter than the new sheet; 1 to 4 first.
fn short() -> Vec<Known> {
    let old = sheet([1, 0, 0, 0], &word(1, 1), "zbz");
    let new = sheet([1, 0, 0, 0], &word(0, 1), "b");
    let past = sheet([1, 0, 0, 0], &word(1, 3), "zbz");
    let mut high = old.clone();
    high[70] = 128;
    let refused = |number, place| Err(Refusal { number, place });
    let at = |name, old: &[u8], room, wanted| Known { name, old: old.to_vec(), room, wanted };
    vec![
        at("just enough", &old, 69, Ok(new.clone())),
        at("one byte short", &old, 68, refused(11, 0)),
        at("no buffer", &old, 0, refused(11, 0)),
        at("3 before 11", &past, 0, refused(3, 52)),
        at("4 of a byte that no place covers", &high, 0, refused(4, 70)),
        at("1 before 11", &old[..47], 0, refused(1, 0)),
    ]
}

pub fn run() -> bool {
    let known: Vec<Known> = known().into_iter().chain(short()).collect();
    let right = known.iter().filter(|known| is_right(known)).count();
    println!("compacted: {right} of {} right", known.len());
    right == known.len()
}

fn is_right(known: &Known) -> bool {
    let Known { name, old, room, wanted } = known;
    let model = model::compacted(old, *room);
    #[cfg(feature = "compact")]
    let call = crate::call::compacted(old, *room);
    #[cfg(not(feature = "compact"))]
    let call = Ok::<_, String>(model.clone());
    let right = model == *wanted && call.as_ref() == Ok(wanted);
    if !right {
        println!("{name}, at {room}: wanted {wanted:?}\nmodel {model:?}\ncall {call:?}");
    }
    right
}
