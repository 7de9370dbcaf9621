//! The proved calls, linked from the static library.

#[cfg(feature = "rows")]
use crate::model::Listed;
#[cfg(feature = "judge")]
use crate::model::Verdict;
use crate::model::{Answer, Refusal};
use crate::sheet::NONE;
use crate::{FormatOptions, Indent};

/// As `host/twigmantle.h` declares it.
#[repr(C)]
#[derive(Debug, Clone, Copy, PartialEq, Eq)]
pub struct Report {
    pub refusal: u32,
    pub place: u64,
    pub length: u64,
    pub lines: u64,
    pub width: u64,
}

/// The same, of a call that lays nothing out.
#[cfg(feature = "compact")]
#[repr(C)]
#[derive(Debug, Clone, Copy, PartialEq, Eq)]
pub struct Outcome {
    pub refusal: u32,
    pub place: u64,
    pub length: u64,
}

/// The verdict on a text.
#[cfg(feature = "judge")]
#[repr(C)]
#[derive(Debug, Clone, Copy, PartialEq, Eq)]
pub struct Judged {
    pub refusal: u32,
    pub place: u64,
    pub matches: u32,
    pub token: u64,
}

mod linked {
    unsafe extern "C" {
        pub fn twigmantle_layout(
            sheet: *const u8,
            n: usize,
            text: *mut u8,
            room: usize,
        ) -> super::Report;
        pub fn twigmantle_default_head(out: *mut u8, n: usize) -> usize;
        pub fn twigmantle_rust_head(out: *mut u8, n: usize) -> usize;
        #[cfg(feature = "rows")]
        pub fn twigmantle_layout_rows(
            sheet: *const u8,
            n: usize,
            text: *mut u8,
            room: usize,
            rows: *mut u32,
            words: usize,
        ) -> super::Report;
        #[cfg(feature = "once")]
        pub fn twigmantle_layout_once(
            sheet: *const u8,
            n: usize,
            text: *mut u8,
            room: usize,
            table: *mut u32,
            width: usize,
        ) -> super::Report;
        #[cfg(feature = "once")]
        pub fn twigmantle_layout_rows_once(
            sheet: *const u8,
            n: usize,
            text: *mut u8,
            room: usize,
            rows: *mut u32,
            words: usize,
            table: *mut u32,
            width: usize,
        ) -> super::Report;
        #[cfg(feature = "compact")]
        pub fn twigmantle_compact(
            sheet: *const u8,
            n: usize,
            out: *mut u8,
            room: usize,
        ) -> super::Outcome;
        #[cfg(feature = "room")]
        pub fn twigmantle_room(sheet: *const u8, n: usize) -> super::Outcome;
        #[cfg(feature = "mend")]
        pub fn twigmantle_mend(
            sheet: *mut u8,
            n: usize,
            report: *mut u32,
            words: usize,
        ) -> super::Outcome;
        #[cfg(feature = "convert")]
        pub fn twigmantle_convert(sheet: *mut u8, n: usize) -> super::Outcome;
        #[cfg(feature = "judge")]
        pub fn twigmantle_judge(
            sheet: *const u8,
            n: usize,
            text: *const u8,
            length: usize,
        ) -> super::Judged;
    }
}

pub fn layout(sheet: &[u8], text: &mut [u8]) -> Report {
    // Safe: both slices are as long as is said, and the text is lent to this call alone.
    unsafe { linked::twigmantle_layout(sheet.as_ptr(), sheet.len(), text.as_mut_ptr(), text.len()) }
}

#[cfg(feature = "rows")]
pub fn layout_rows(sheet: &[u8], text: &mut [u8], rows: &mut [u32]) -> Report {
    let (n, room, words) = (sheet.len(), text.len(), rows.len());
    // Safe: all three slices are as long as is said, and two are lent to this call alone.
    unsafe {
        linked::twigmantle_layout_rows(
            sheet.as_ptr(),
            n,
            text.as_mut_ptr(),
            room,
            rows.as_mut_ptr(),
            words,
        )
    }
}

#[cfg(feature = "once")]
pub fn layout_once(sheet: &[u8], text: &mut [u8], table: &mut [u32]) -> Report {
    let (n, room, width) = (sheet.len(), text.len(), table.len());
    // Safe: all three slices are as long as is said, and two are lent to this call alone.
    unsafe {
        linked::twigmantle_layout_once(
            sheet.as_ptr(),
            n,
            text.as_mut_ptr(),
            room,
            table.as_mut_ptr(),
            width,
        )
    }
}

#[cfg(feature = "once")]
fn layout_rows_once(sheet: &[u8], text: &mut [u8], rows: &mut [u32], table: &mut [u32]) -> Report {
    let (n, room, words, width) = (sheet.len(), text.len(), rows.len(), table.len());
    // Safe: all four slices are as long as is said, and three are lent to this call alone.
    unsafe {
        linked::twigmantle_layout_rows_once(
            sheet.as_ptr(),
            n,
            text.as_mut_ptr(),
            room,
            rows.as_mut_ptr(),
            words,
            table.as_mut_ptr(),
            width,
        )
    }
}

/// A lent list of words with painted ones on both sides.
#[cfg(feature = "rows")]
struct Lent {
    words: Vec<u32>,
    length: usize,
}

#[cfg(feature = "rows")]
impl Lent {
    const BESIDE: usize = 8;
    const PAINT: u32 = 0xa5a5_5a5a;

    fn new(length: usize) -> Self {
        Lent { words: vec![Self::PAINT; Self::BESIDE + length + Self::BESIDE], length }
    }

    fn lent(&mut self) -> &mut [u32] {
        &mut self.words[Self::BESIDE..Self::BESIDE + self.length]
    }

    /// What is in it, if the words beside it stayed.
    fn left(mut self, whose: &str) -> Result<Vec<u32>, String> {
        let left = self.lent().to_vec();
        self.lent().fill(Self::PAINT);
        let stayed = self.words.iter().all(|&word| word == Self::PAINT);
        stayed.then_some(left).ok_or(format!("a word beside {whose} of {}", self.length))
    }
}

/// What the call gives that reads ahead once; its table must be zero afterwards.
#[cfg(feature = "once")]
pub fn once(sheet: &[u8], room: usize, table: usize) -> Result<Answer, String> {
    let mut buffer = vec![PAINT; room + 1];
    let mut table = Lent::new(table);
    let report = layout_once(sheet, &mut buffer[..room], table.lent());
    zero(table)?;
    read(report, &buffer, room)
}

/// The same with a list.
#[cfg(feature = "once")]
pub fn listed_once(
    sheet: &[u8],
    room: usize,
    words: usize,
    table: usize,
) -> Result<Listed, String> {
    let mut buffer = vec![PAINT; room + 1];
    let (mut list, mut table) = (Lent::new(words), Lent::new(table));
    let report = layout_rows_once(sheet, &mut buffer[..room], list.lent(), table.lent());
    zero(table)?;
    Ok(Listed { answer: read(report, &buffer, room)?, list: list.left("the list")? })
}

#[cfg(feature = "once")]
fn zero(table: Lent) -> Result<(), String> {
    let left = table.left("the table")?;
    left.iter().all(|&word| word == 0).then_some(()).ok_or("a table that is not zero".into())
}

#[cfg(feature = "compact")]
pub fn compact(sheet: &[u8], out: &mut [u8]) -> Outcome {
    // Safe: both slices are as long as is said, and one is lent to this call alone.
    unsafe { linked::twigmantle_compact(sheet.as_ptr(), sheet.len(), out.as_mut_ptr(), out.len()) }
}

/// The sum; an error if the numbers do not go together.
#[cfg(feature = "room")]
pub fn room(sheet: &[u8]) -> Result<Result<u64, Refusal>, String> {
    // Safe: the slice is as long as is said.
    let outcome = unsafe { linked::twigmantle_room(sheet.as_ptr(), sheet.len()) };
    match (outcome.refusal, outcome.place, outcome.length) {
        (0, 0, sum) => Ok(Ok(sum)),
        (number @ 1.., place, 0) => Ok(Err(Refusal { number, place: place as usize })),
        _ => Err(format!("the numbers of the room do not go together: {outcome:?}")),
    }
}

#[cfg(feature = "mend")]
pub fn mend(sheet: &mut [u8], report: &mut [u32]) -> Outcome {
    let (n, words) = (sheet.len(), report.len());
    // Safe: both slices are as long as is said, and are lent to this call alone.
    unsafe { linked::twigmantle_mend(sheet.as_mut_ptr(), n, report.as_mut_ptr(), words) }
}

/// The mended sheet and the changes in the report; an error if the call left a byte or a word that it
/// may not leave, in the sheet, in the report or beside them.
#[cfg(feature = "mend")]
pub fn mended(
    old: &[u8],
    words: usize,
) -> Result<Result<(Vec<u8>, Vec<[u32; 3]>), Refusal>, String> {
    let mut report = Lent::new(words);
    let (outcome, new) = in_place(old, |sheet| mend(sheet, report.lent()))?;
    let report = report.left("the report")?;
    let rows =
        (outcome.length as usize).checked_mul(3).and_then(|rows| report.split_at_checked(rows));
    let (rows, rest) = rows.ok_or(format!("more changes than the report holds: {outcome:?}"))?;
    if rest.iter().any(|&word| word != 0) {
        return Err(format!("a word after the changes that is not zero: {outcome:?}"));
    }
    match (outcome.refusal, outcome.place, outcome.length) {
        (0, 0, _) => {
            let rows = rows.chunks_exact(3).map(|row| [row[0], row[1], row[2]]);
            Ok(Ok((new, rows.collect())))
        }
        (number @ 1.., place, 0) if new == old => {
            Ok(Err(Refusal { number, place: place as usize }))
        }
        (1.., _, 0) => Err(format!("refused, and the sheet is another: {outcome:?}")),
        _ => Err(format!("the mender's numbers do not go together: {outcome:?}")),
    }
}

/// What a call makes of a sheet where it lies; an error if it wrote beside it.
#[cfg(feature = "mend")]
fn in_place(
    old: &[u8],
    call: impl FnOnce(&mut [u8]) -> Outcome,
) -> Result<(Outcome, Vec<u8>), String> {
    const BESIDE: usize = 8;
    let beside = [PAINT; BESIDE];
    let mut bytes = [&beside, old, &beside].concat();
    let outcome = call(&mut bytes[BESIDE..BESIDE + old.len()]);
    let (new, after) = bytes[BESIDE..].split_at(old.len());
    if bytes[..BESIDE] != beside || *after != beside {
        return Err(format!("a byte beside the sheet of {}", old.len()));
    }
    Ok((outcome, new.to_vec()))
}

#[cfg(feature = "convert")]
pub fn convert(sheet: &mut [u8]) -> Outcome {
    // Safe: the slice is as long as is said, and lent to this call alone.
    unsafe { linked::twigmantle_convert(sheet.as_mut_ptr(), sheet.len()) }
}

/// The converted sheet; an error if the call left a byte that it may not leave, or did not count those
/// that it changed.
#[cfg(feature = "convert")]
pub fn converted(old: &[u8]) -> Result<Result<Vec<u8>, Refusal>, String> {
    let (outcome, new) = in_place(old, convert)?;
    let changed = old.iter().zip(&new).filter(|(old, new)| old != new).count();
    match (outcome.refusal, outcome.place, outcome.length) {
        (0, 0, length) if length == changed as u64 => Ok(Ok(new)),
        (number @ 1.., place, 0) if changed == 0 => {
            Ok(Err(Refusal { number, place: place as usize }))
        }
        _ => Err(format!("converted, {changed} bytes are others: {outcome:?}")),
    }
}

#[cfg(feature = "judge")]
pub fn judge(sheet: &[u8], text: &[u8]) -> Judged {
    // Safe: both slices are as long as is said.
    unsafe { linked::twigmantle_judge(sheet.as_ptr(), sheet.len(), text.as_ptr(), text.len()) }
}

/// The verdict; an error if the numbers do not go together.
#[cfg(feature = "judge")]
pub fn verdict(sheet: &[u8], text: &[u8]) -> Result<Result<Verdict, Refusal>, String> {
    let judged = judge(sheet, text);
    match (judged.refusal, judged.place, judged.matches, judged.token) {
        (0, 0, 1, 0) => Ok(Ok(Verdict::Yes)),
        (0, 0, 0, token) => Ok(Ok(Verdict::No(token as usize))),
        (number @ 1.., place, 0, 0) => Ok(Err(Refusal { number, place: place as usize })),
        _ => Err(format!("the numbers of the verdict do not go together: {judged:?}")),
    }
}

const PAINT: u8 = 0xa5;

/// The new sheet that the call gives at this room; an error if it left a byte or a count that it may
/// not leave.
#[cfg(feature = "compact")]
pub fn compacted(sheet: &[u8], room: usize) -> Result<Result<Vec<u8>, Refusal>, String> {
    let mut buffer = vec![PAINT; room + 1];
    let Outcome { refusal, place, length } = compact(sheet, &mut buffer[..room]);
    let report = Report { refusal, place, length, lines: 0, width: 0 };
    Ok(match read(report, &buffer, room)? {
        Answer::Laid { text, .. } => Ok(text),
        Answer::Refused(refusal) => Err(refusal),
    })
}

/// What the call gives at this room; an error if it left a byte or a count that it may not leave.
pub fn answer(sheet: &[u8], room: usize) -> Result<Answer, String> {
    let mut buffer = vec![PAINT; room + 1];
    let report = layout(sheet, &mut buffer[..room]);
    read(report, &buffer, room)
}

/// What the second call gives at this room and list. Unless it gives 10, its report and its buffer
/// must be the first call's; words beside the list must stay.
#[cfg(feature = "rows")]
pub fn listed(sheet: &[u8], room: usize, words: usize) -> Result<Listed, String> {
    let mut buffer = vec![PAINT; room + 1];
    let mut list = Lent::new(words);
    let report = layout_rows(sheet, &mut buffer[..room], list.lent());
    let list = list.left("the list")?;
    let mut first = vec![PAINT; room + 1];
    let same = layout(sheet, &mut first[..room]) == report && first == buffer;
    if report.refusal != 10 && !same {
        return Err(format!("the second call's report or buffer is not the first's: {report:?}"));
    }
    let answer = read(report, &buffer, room)?;
    Ok(Listed { answer, list })
}

/// The answer in a report and a painted buffer that is one byte longer than its room.
fn read(report: Report, buffer: &[u8], room: usize) -> Result<Answer, String> {
    let Report { refusal, place, length, lines, width } = report;
    let [place, length, lines, width] = [place, length, lines, width].map(|n| n as usize);
    let text = buffer.get(..length).filter(|_| length <= room);
    let text = text.ok_or(format!("the call is longer than its room: {report:?}"))?;
    if buffer[length..room].iter().any(|&byte| byte != 0) || buffer[room] != PAINT {
        return Err(format!("the call left a byte after its text: {report:?}"));
    }
    match (refusal, place, length | lines | width) {
        (0, 0, _) => Ok(Answer::Laid { text: text.to_vec(), lines, width }),
        (1.., _, 0) => Ok(Answer::Refused(Refusal { number: refusal, place })),
        _ => Err(format!("the call's numbers do not go together: {report:?}")),
    }
}

type WriteHead = unsafe extern "C" fn(*mut u8, usize) -> usize;

/// The head that the Rust's own default options make: no counts, no parameters, then words 5 to 11.
fn rust_head() -> Vec<u8> {
    let options = FormatOptions::default();
    let limit = |limit: Option<usize>| limit.map_or(NONE, |most| most as u32);
    let words = [
        match options.indent {
            Indent::Spaces(spaces) => u32::from(spaces),
            Indent::Tabs => 256,
        },
        match options.uppercase {
            None => 0,
            Some(upper) => 2 - u32::from(upper),
        },
        u32::from(options.inline),
        u32::from(options.lines_between_queries),
        options.max_inline_block as u32,
        limit(options.max_inline_arguments),
        limit(options.max_inline_top_level),
    ];
    assert!(options.ignore_case_convert.is_none(), "the Rust keeps no words by default");
    [0; 5].iter().chain(&words).flat_map(|word| word.to_le_bytes()).collect()
}

/// Document 02, Wish 8: the default head carries 60 in word 11, the head under the Rust's name what
/// the Rust's own defaults are.
pub fn heads_are_right() -> Result<(), String> {
    let rust = rust_head();
    let mut usual = rust.clone();
    usual[44..].copy_from_slice(&60_u32.to_le_bytes());
    head_is("the default head", linked::twigmantle_default_head, &usual)?;
    head_is("the Rust's head", linked::twigmantle_rust_head, &rust)
}

/// A head in slices of every length to 200: its bytes, zero after them; zero alone in a slice that
/// is too short.
fn head_is(name: &str, write: WriteHead, head: &[u8]) -> Result<(), String> {
    for room in 0..=200 {
        let mut out = vec![PAINT; room + 1];
        // Safe: the slice is as long as is said, and lent to this call alone.
        let given = unsafe { write(out.as_mut_ptr(), room) };
        let wanted = if room < head.len() { &[][..] } else { head };
        let zero = out[wanted.len()..room].iter().all(|&byte| byte == 0);
        if given != wanted.len() || !out.starts_with(wanted) || !zero || out[room] != PAINT {
            return Err(format!("{name} at {room}: {given}, {out:?}"));
        }
    }
    Ok(())
}
