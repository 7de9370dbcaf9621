//! Sheets around word 7 at 1 (document 02, Wish 12): what becomes of them, and where 14 stands among
//! the other refusals.

use crate::model::{self, Answer, Refusal, WORDS};
use crate::{once, pointed};

/// One token over one body byte, under the Rust's head but for word 7: `[inline, kind, start]`.
fn token([inline, packed, start]: [u32; 3], body: &[u8]) -> Vec<u8> {
    let head = [1, 0, 0, body.len() as u32, 0, 2, 0, inline, 1, 50, u32::MAX, u32::MAX];
    let words = head.into_iter().chain([packed, start, 1, 0, 0]);
    words.flat_map(u32::to_le_bytes).chain(body.iter().copied()).collect()
}

const WORD: u32 = 15;
const PLACEHOLDER: u32 = 14;
/// A placeholder with a number that counts from one: key a is 0.
const FROM_ONE: u32 = PLACEHOLDER | 3 << 5;

fn word(inline: u32) -> Vec<u8> {
    token([inline, WORD, 0], b"a")
}

/// The mode made Indexed, without entries.
fn indexed(mut sheet: Vec<u8>) -> Vec<u8> {
    sheet[16] = 1;
    sheet
}

fn refusal(number: u32, place: usize) -> Refusal {
    Refusal { number, place }
}

struct Known {
    name: &'static str,
    old: Vec<u8>,
    wanted: Result<Vec<u8>, Refusal>,
}

/// A head without records.
fn no_token(inline: u32) -> Vec<u8> {
    let words = [0, 0, 0, 0, 0, 2, 0, inline, 1, 50, 9, 9];
    words.into_iter().flat_map(u32::to_le_bytes).collect()
}

fn changed() -> Vec<Known> {
    let becomes = |name, old, new| Known { name, old, wanted: Ok(new) };
    let named = |inline| token([inline, PLACEHOLDER | 1 << 5, 3], b"_ab_\n\0\x7f");
    let nought = |inline| indexed(token([inline, FROM_ONE, 0], b"a"));
    vec![
        becomes("0 stays", word(0), word(0)),
        becomes("1 becomes 2", word(1), word(2)),
        becomes("2 stays", word(2), word(2)),
        becomes("with a name and a gap", named(1), named(2)),
        becomes("no tokens", no_token(1), no_token(2)),
        becomes("OneIndexed 0", nought(1), nought(2)),
    ]
}

fn left() -> Vec<Known> {
    let refused = |name, old: &[u8], number, place| {
        let wanted = Err(refusal(number, place));
        Known { name, old: old.to_vec(), wanted }
    };
    let longer = [word(1).as_slice(), b"a"].concat();
    vec![
        refused("3", &word(3), 2, 28),
        refused("257", &word(257), 2, 28),
        refused("1 in its third byte", &word(1 << 16), 2, 28),
        refused("1 in its highest byte too", &word(1 | 1 << 24), 2, 28),
        refused("a bad place", &token([1, WORD, 1], b"a"), 3, 52),
        refused("a body byte of 128", &token([1, WORD, 0], &[128]), 4, 68),
        refused("kind 17", &token([1, 17, 0], b"a"), 2, 48),
        refused("a byte less", &word(1)[..68], 1, 0),
        refused("a byte more", &longer, 1, 0),
        refused("47 bytes", &no_token(1)[..47], 1, 0),
        refused("29 bytes", &no_token(1)[..29], 1, 0),
        refused("no bytes", &[], 1, 0),
    ]
}

/// A sheet in a buffer, with a list and with a table of so many words.
struct Meeting {
    name: &'static str,
    sheet: Vec<u8>,
    lent: [usize; 3],
    /// Without and with a list, and the same by a table.
    wanted: [Answer; 4],
}

/// 14 after 1 to 4, and before 12, 10 and whatever is refused at a token.
fn meetings() -> Vec<Meeting> {
    let at = |name, sheet, lent, wanted: [(u32, usize); 4]| {
        let wanted = wanted.map(|(number, place)| Answer::Refused(refusal(number, place)));
        Meeting { name, sheet, lent, wanted }
    };
    let everywhere = |name, sheet, lent, number, place| at(name, sheet, lent, [(number, place); 4]);
    let mark = |inline| indexed(token([inline, PLACEHOLDER, 0], b"?"));
    let nought = |inline| indexed(token([inline, FROM_ONE, 0], b"?"));
    let ample = [65536, WORDS, once::TABLE];
    vec![
        everywhere("word 7 at 1", word(1), ample, 14, 28),
        everywhere("14 before 9", word(1), [0, 0, once::TABLE], 14, 28),
        everywhere("14 before 10", mark(1), [65536, 0, once::TABLE], 14, 28),
        everywhere("14 before 12", word(1), [65536, 0, once::TABLE - 1], 14, 28),
        everywhere("14 before all three", mark(1), [0, 0, 0], 14, 28),
        everywhere("14 before 5", nought(1), ample, 14, 28),
        everywhere("3 before 14", token([1, WORD, 1], b"a"), [0, 0, 0], 3, 52),
        everywhere("4 before 14", token([1, WORD, 0], &[200]), [0, 0, 0], 4, 68),
        everywhere("2 before 14", token([1, 17, 0], b"a"), [0, 0, 0], 2, 48),
        everywhere("2 for word 7 above 2", word(3), ample, 2, 28),
        everywhere("1 before 14", word(1)[..68].to_vec(), [0, 0, 0], 1, 0),
        at("2: 12 before 10 before 9", mark(2), [0, 0, 0], [(9, 0), (10, 0), (12, 0), (12, 0)]),
        at("2: 10 before 9", mark(2), [0, 4, once::TABLE], [(9, 0), (10, 0), (9, 0), (10, 0)]),
        everywhere("2: 5", nought(2), ample, 5, 0),
        everywhere("2: 9", word(2), [1, 0, once::TABLE], 9, 0),
    ]
}

/// What the other calls make of it.
fn others() -> Vec<(&'static str, bool)> {
    let gap = |inline| token([inline, WORD, 1], b"_a");
    let closed = |inline| token([inline, WORD, 0], b"a");
    let mut bad_case = gap(1);
    bad_case[24] = 3;
    let mended = (gap(1), vec![[24, 3, 0]]);
    let mut bad_inline = gap(1);
    bad_inline[30] = 1;
    let plain = (gap(0), vec![[28, 1 | 1 << 16, 0]]);
    vec![
        ("its room", room(&word(1)) == Ok(Err(refusal(14, 28)))),
        ("the room of 2", room(&word(2)) == Ok(Ok(516))),
        ("its room, with a bad place", room(&token([1, WORD, 1], b"a")) == Ok(Err(refusal(3, 52)))),
        ("compacted it keeps its 1", compacted(&gap(1), 69) == Ok(Ok(closed(1)))),
        ("11 and not 14", compacted(&gap(1), 68) == Ok(Err(refusal(11, 0)))),
        ("the mender leaves it", mended_by(&gap(1), 0) == Ok(Ok((gap(1), Vec::new())))),
        ("a bad word beside it is mended", mended_by(&bad_case, 3) == Ok(Ok(mended))),
        ("a stray bit above it", mended_by(&bad_inline, 3) == Ok(Ok(plain))),
    ]
}

/// The call where it is linked, if it gives what the model gives.
fn agreed<T: PartialEq + std::fmt::Debug>(model: T, call: Result<T, String>) -> Result<T, String> {
    let same = call.as_ref() == Ok(&model);
    same.then_some(model).ok_or_else(|| format!("{call:?}"))
}

fn room(sheet: &[u8]) -> Result<Result<u64, Refusal>, String> {
    let model = model::room(sheet);
    #[cfg(feature = "room")]
    return agreed(model, crate::call::room(sheet));
    #[cfg(not(feature = "room"))]
    agreed(model, Ok(model))
}

fn compacted(sheet: &[u8], room: usize) -> Result<Result<Vec<u8>, Refusal>, String> {
    let model = model::compacted(sheet, room);
    #[cfg(feature = "compact")]
    return agreed(model, crate::call::compacted(sheet, room));
    #[cfg(not(feature = "compact"))]
    agreed(model.clone(), Ok(model))
}

type Mended = Result<(Vec<u8>, Vec<model::Change>), Refusal>;

fn mended_by(sheet: &[u8], words: usize) -> Result<Mended, String> {
    let model = model::mended(sheet, words);
    #[cfg(feature = "mend")]
    return agreed(model, crate::call::mended(sheet, words));
    #[cfg(not(feature = "mend"))]
    agreed(model.clone(), Ok(model))
}

pub fn run() -> bool {
    let known: Vec<Known> = changed().into_iter().chain(left()).collect();
    let (meetings, others) = (meetings(), others());
    let right = known.iter().filter(|known| is_right(known)).count();
    println!("converted: {right} of {} right", known.len());
    let met = meetings.iter().filter(|meeting| is_met(meeting)).count();
    println!("word 7 at 1, and where 14 stands: {met} of {} right", meetings.len());
    let held = others.iter().filter(|(_, right)| *right).count();
    println!("word 7 at 1 in the other calls: {held} of {} right", others.len());
    others.iter().filter(|(_, right)| !right).for_each(|(name, _)| println!("{name}: not so"));
    right == known.len() && met == meetings.len() && held == others.len()
}

fn is_right(known: &Known) -> bool {
    let Known { name, old, wanted } = known;
    let model = model::converted(old);
    #[cfg(feature = "convert")]
    let call = crate::call::converted(old);
    #[cfg(not(feature = "convert"))]
    let call = Ok::<_, String>(model.clone());
    let right = model == *wanted && call.as_ref() == Ok(wanted);
    if !right {
        println!("{name}: wanted {wanted:?}\nmodel {model:?}\ncall {call:?}");
    }
    right
}

fn is_met(meeting: &Meeting) -> bool {
    let Meeting { name, sheet, lent: [room, words, table], wanted } = meeting;
    let ample = model::trial(sheet, model::AMPLE);
    let by_table = once::expected(sheet, &ample, *room, *table);
    let narrow = by_table == Answer::Refused(refusal(12, 0));
    let listed = pointed::expected(&ample, *room, *words).answer;
    let listed_by_table = if narrow { by_table.clone() } else { listed };
    let listed = model::listed(sheet, *room, *words).answer;
    let model = [model::answer(sheet, *room), listed, by_table, listed_by_table];
    let right = model == *wanted && calls_give(sheet, &meeting.lent, wanted);
    if !right {
        println!("{name}: wanted {wanted:?}\nmodel {model:?}");
    }
    right
}

/// The four layout calls, where they are linked.
#[cfg(feature = "once")]
fn calls_give(sheet: &[u8], &[room, words, table]: &[usize; 3], wanted: &[Answer; 4]) -> bool {
    use crate::call;
    let listed = call::listed(sheet, room, words).map(|listed| (listed.answer, listed.list));
    let once = call::listed_once(sheet, room, words, table).map(|l| (l.answer, l.list));
    let zero = |listed: &Result<(Answer, Vec<u32>), String>| {
        listed.as_ref().is_ok_and(|(_, list)| list.iter().all(|&word| word == 0))
    };
    let zeros = zero(&listed) && zero(&once);
    let given = [
        call::answer(sheet, room),
        listed.map(|(answer, _)| answer),
        call::once(sheet, room, table),
        once.map(|(answer, _)| answer),
    ];
    let same = given.iter().zip(wanted).all(|(given, wanted)| given.as_ref() == Ok(wanted));
    if !same || !zeros {
        println!("the calls {given:?}");
    }
    same && zeros
}

#[cfg(not(feature = "once"))]
fn calls_give(_: &[u8], _: &[usize; 3], _: &[Answer; 4]) -> bool {
    true
}
