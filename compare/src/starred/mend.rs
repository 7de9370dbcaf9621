//! Damaged sheets whose changes are written out (document 02, Wish 10).

use crate::model::{self, Change, Refusal};

/// Words 5 to 11 of a head: the Rust's defaults.
const OPTIONS: [u32; 7] = [2, 0, 0, 1, 50, NONE, NONE];
const NONE: u32 = u32::MAX;

struct Known {
    name: &'static str,
    old: Vec<u8>,
    words: usize,
    wanted: Result<Vec<Change>, Refusal>,
}

/// The three counts and the mode, the options, the records, and the bodies.
fn with_options(counts: [u32; 4], options: [u32; 7], records: &[u32], body: &[u8]) -> Vec<u8> {
    let [n, p, k, mode] = counts;
    let head = [n, p, k, body.len() as u32, mode];
    let words = head.iter().chain(&options).chain(records);
    words.flat_map(|word| word.to_le_bytes()).chain(body.iter().copied()).collect()
}

/// With a report that just serves.
fn known(name: &'static str, old: Vec<u8>, changes: &[Change]) -> Known {
    Known { name, old, words: 3 * changes.len(), wanted: Ok(changes.to_vec()) }
}

/// A head alone with these options.
fn options(name: &'static str, options: [u32; 7], changes: &[Change]) -> Known {
    known(name, with_options([0; 4], options, &[], b""), changes)
}

/// One token, whose words stand at 48, 52, 56, 60 and 64.
fn token(name: &'static str, words: [u32; 5], body: &str, changes: &[Change]) -> Known {
    known(name, with_options([1, 0, 0, 0], OPTIONS, &words, body.as_bytes()), changes)
}

/// One parameter, whose words stand at 48, 52, 56 and 60.
fn param(name: &'static str, mode: u32, words: [u32; 4], body: &str, changes: &[Change]) -> Known {
    known(name, with_options([0, 1, 0, mode], OPTIONS, &words, body.as_bytes()), changes)
}

/// No record.
fn mode(name: &'static str, mode: u32, changes: &[Change]) -> Known {
    known(name, with_options([0, 0, 0, mode], OPTIONS, &[], b""), changes)
}

fn heads() -> Vec<Known> {
    let with = |at: usize, word: u32| {
        let mut options = OPTIONS;
        options[at - 5] = word;
        options
    };
    vec![
        options("257 spaces", with(5, 257), &[[20, 257, 2]]),
        options("case 3", with(6, 3), &[[24, 3, 0]]),
        options("inline 3", with(7, 3), &[[28, 3, 0]]),
        options("256 lines", with(8, 256), &[[32, 256, 1]]),
        options("a stray bit in the case upper", with(6, 65537), &[[24, 65537, 0]]),
        options("every option at its most", [256, 2, 2, 255, NONE, NONE, NONE], &[]),
        options("inline 1", with(7, 1), &[]),
        options("limits of 0", [0, 0, 0, 0, 0, 0, 0], &[]),
        options("the limits may be anything", [2, 0, 0, 1, 1 << 31, 1 << 30, 1 << 29], &[]),
        options(
            "every option bad",
            [NONE; 7],
            &[[20, NONE, 2], [24, NONE, 0], [28, NONE, 0], [32, NONE, 1]],
        ),
        mode("Indexed without parameters", 1, &[]),
        mode("Named without parameters", 2, &[]),
        mode("mode 3 without parameters", 3, &[[16, 3, 0]]),
        mode("Named with a stray bit, without parameters", 258, &[[16, 258, 0]]),
    ]
}

fn params() -> Vec<Known> {
    let bad = |mode| [[16, mode, 1], [48, 1, 0], [52, 1, 0]];
    let names = [[48, 1, 0], [52, 1, 0]];
    vec![
        param("mode 3 with parameters", 3, [0, 0, 0, 1], "v", &bad(3)[..1]),
        param("mode 0 with parameters", 0, [0, 0, 0, 1], "v", &bad(0)[..1]),
        param("mode 0 and a name", 0, [1, 9, 0, 0], "", &[[16, 0, 1], [48, 1, 0], [52, 9, 0]]),
        param("a name is judged by the new mode", 3, [1, 1, 0, 1], "vn", &bad(3)),
        param("Named with a stray bit is Indexed", 258, [1, 1, 0, 1], "vn", &bad(258)),
        param("a name in mode Indexed", 1, [1, 1, 0, 1], "vn", &names),
        param("its start alone", 1, [1, 0, 0, 1], "vn", &names[..1]),
        param("its length alone", 1, [0, 1, 0, 1], "vn", &names[1..]),
        param("a name in mode Named", 2, [1, 1, 0, 1], "vn", &[]),
        param("a name that ends past the bodies", 2, [2, 1, 0, 1], "vn", &[[48, 2, 0], [52, 1, 0]]),
        param("one that starts at 0", 2, [0, 3, 0, 1], "vn", &[[52, 3, 0]]),
        param("one past the end, of length 0", 2, [3, 0, 0, 1], "vn", &[[48, 3, 0]]),
        param("an empty name at the end", 2, [2, 0, 0, 1], "vn", &[]),
        param("an entry past the bodies", 1, [0, 0, 1, 2], "vn", &[[56, 1, 0], [60, 2, 0]]),
        param(
            "all four words",
            2,
            [2, 1, NONE, 1],
            "vn",
            &[[48, 2, 0], [52, 1, 0], [56, NONE, 0], [60, 1, 0]],
        ),
    ]
}

fn packed() -> Vec<Known> {
    let bad = |packed, a, b| [[48, packed, 15], [60, a, 0], [64, b, 0]];
    let keys = [[60, 1, 0], [64, 2, 0]];
    let [numbered, from_one, highest] = [14 | 2 << 5, 14 | 3 << 5, 15 | 1 << 31];
    vec![
        token("kind 17", [17, 0, 1, 0, 0], "a", &[[48, 17, 15]]),
        token("kind 31", [31, 0, 1, 0, 0], "a", &[[48, 31, 15]]),
        token("kind 16", [16, 0, 1, 0, 0], "a", &[]),
        token("an alias on a word", [143, 0, 1, 0, 0], "a", &[]),
        token("260 becomes 15, not 4", [260, 0, 1, 0, 0], "a", &[[48, 260, 15]]),
        token("260 with keys", [260, 0, 1, 2, 3], "a", &bad(260, 2, 3)),
        token("177: kind 17, a name and the alias", [177, 0, 0, 1, 2], "", &bad(177, 1, 2)),
        token("a sound name, a bad kind", [49, 0, 1, 0, 1], "a", &[[48, 49, 15], [64, 1, 0]]),
        token("the number of a bad word", [334, 0, 0, 7, 0], "", &bad(334, 7, 0)[..2]),
        token("the highest bit", [highest, 0, 1, 0, 0], "a", &[[48, 2147483663, 15]]),
        token("keys without a class", [15, 0, 1, 1, 2], "a", &keys),
        token("key a without a class", [15, 0, 1, 1, 0], "a", &keys[..1]),
        token("key b without a class", [15, 0, 1, 0, 2], "a", &keys[1..]),
        token("ZeroIndexed 5 with key b 6", [numbered, 0, 0, 5, 6], "", &[[64, 6, 0]]),
        token("OneIndexed 0 with key b 1", [from_one, 0, 0, 0, 1], "", &[[64, 1, 0]]),
        token("OneIndexed 0", [from_one, 0, 0, 0, 0], "", &[]),
        token("ZeroIndexed 4294967295", [numbered, 0, 0, NONE, 0], "", &[]),
        token(
            "all five words",
            [NONE; 5],
            "a",
            &[[48, NONE, 15], [52, NONE, 0], [56, NONE, 0], [60, NONE, 0], [64, NONE, 0]],
        ),
    ]
}

fn places() -> Vec<Known> {
    let named = 15 | 1 << 5;
    let value = |name, start, length, changes: &[Change]| {
        token(name, [15, start, length, 0, 0], "abc", changes)
    };
    let key = |name, a, b, changes: &[Change]| token(name, [named, 0, 3, a, b], "abc", changes);
    let keep = with_options([0, 0, 1, 0], OPTIONS, &[1, 3], b"abc");
    vec![
        token("length 2 over one byte", [15, 0, 2, 0, 0], "a", &[[56, 2, 0]]),
        value("right at the end, of length 0", 3, 0, &[]),
        value("one past it, of length 0", 4, 0, &[[52, 4, 0]]),
        value("up to the end", 1, 2, &[]),
        value("one byte past it", 1, 3, &[[52, 1, 0], [56, 3, 0]]),
        value("a sum of 2^32", NONE, 1, &[[52, NONE, 0], [56, 1, 0]]),
        value("a sum of 2^32 + 2", 3, NONE, &[[52, 3, 0], [56, NONE, 0]]),
        value("as long as can be", 0, NONE, &[[56, NONE, 0]]),
        key("a name on a word", 1, 2, &[]),
        key("a name at the end, of length 0", 3, 0, &[]),
        key("a name one byte past it", 1, 3, &[[60, 1, 0], [64, 3, 0]]),
        key("a name from 0 past it", 0, 4, &[[64, 4, 0]]),
        key("a name one past it, of length 0", 4, 0, &[[60, 4, 0]]),
        known("a keep word", keep, &[[48, 1, 0], [52, 3, 0]]),
    ]
}

fn bytes() -> Vec<Known> {
    let over = |name, body: &[u8], changes: &[Change]| {
        known(name, with_options([1, 0, 0, 0], OPTIONS, &[15, 0, 1, 0, 0], body), changes)
    };
    let everywhere = with_options(
        [2, 1, 1, 7],
        [2, 0, 0, 1 << 20, 50, NONE, NONE],
        &[15, 9, 1, 0, 0, 77 << 8, 0, 9, 0, 1, 1, 0, 0, 2, 2, 1],
        &[97, 200],
    );
    vec![
        over("128", &[128], &[[68, 128, 63]]),
        over("255", &[255], &[[68, 255, 63]]),
        over("127", &[127], &[]),
        over("bytes that no place covers", &[97, 191, 98, 128], &[[69, 191, 63], [71, 128, 63]]),
        known(
            "in every part, in file order",
            everywhere,
            &[
                [16, 7, 1],
                [32, 1 << 20, 1],
                [52, 9, 0],
                [56, 1, 0],
                [68, 19712, 15],
                [76, 9, 0],
                [84, 1, 0],
                [88, 1, 0],
                [104, 2, 0],
                [108, 1, 0],
                [113, 200, 63],
            ],
        ),
    ]
}

/// 13 exactly if the report has fewer than three words for each change; 1 first.
fn short() -> Vec<Known> {
    let one = with_options([1, 0, 0, 0], OPTIONS, &[15, 0, 2, 0, 0], b"a");
    let two = with_options([1, 0, 0, 3], OPTIONS, &[15, 0, 1, 0, 0], &[225]);
    let sound = with_options([1, 0, 0, 0], OPTIONS, &[15, 0, 1, 0, 0], b"a");
    let length = [56, 2, 0];
    let mode_and_byte = vec![[16, 3, 0], [68, 225, 63]];
    let mut many = with_options([0, 0, 65, 0], OPTIONS, &[9; 130], b"");
    let longer = [one.as_slice(), b"a"].concat();
    many[16] = 9;
    let refused = |number| Err(Refusal { number, place: 0 });
    let at = |name, old: &[u8], words, wanted| Known { name, old: old.to_vec(), words, wanted };
    vec![
        at("one change, two words", &one, 2, refused(13)),
        at("one change, no words", &one, 0, refused(13)),
        at("one change, eight words", &one, 8, Ok(vec![length])),
        at("two changes, five words", &two, 5, refused(13)),
        at("two changes, three words", &two, 3, refused(13)),
        at("two changes, six words", &two, 6, Ok(mode_and_byte)),
        at("a sound sheet, no words", &sound, 0, Ok(Vec::new())),
        at("a sound sheet, five words", &sound, 5, Ok(Vec::new())),
        at("47 bytes", &sound[..47], 9, refused(1)),
        at("a byte less", &one[..68], 0, refused(1)),
        at("a byte more", &longer, 9, refused(1)),
        at("65 keep words", &many, 0, refused(1)),
        at("no bytes", &[], 0, refused(1)),
    ]
}

pub fn run() -> bool {
    let parts = [heads(), params(), packed(), places(), bytes(), short()];
    let known: Vec<Known> = parts.into_iter().flatten().collect();
    let right = known.iter().filter(|known| is_right(known)).count();
    println!("mended: {right} of {} right", known.len());
    right == known.len()
}

/// The sheet with the new numbers put in: a byte in the bodies, else a word.
fn changed(old: &[u8], changes: &[Change]) -> Vec<u8> {
    let mut new = old.to_vec();
    let body = old.len() - old.get(12).map_or(0, |&bytes| usize::from(bytes));
    for &[at, _, number] in changes {
        let at = at as usize;
        let length = if at < body { 4 } else { 1 };
        new[at..at + length].copy_from_slice(&number.to_le_bytes()[..length]);
    }
    new
}

fn is_right(known: &Known) -> bool {
    let Known { name, old, words, wanted } = known;
    let wanted = wanted.as_ref().map(|changes| (changed(old, changes), changes.clone()));
    let wanted = wanted.map_err(|refusal| *refusal);
    let model = model::mended(old, *words);
    #[cfg(feature = "mend")]
    let call = crate::call::mended(old, *words);
    #[cfg(not(feature = "mend"))]
    let call = Ok::<_, String>(model.clone());
    let right = model == wanted && call.as_ref() == Ok(&wanted);
    if !right {
        println!("{name}, with {words} words: wanted {wanted:?}\nmodel {model:?}\ncall {call:?}");
    }
    right
}
