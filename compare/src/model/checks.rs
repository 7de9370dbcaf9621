//! Checks 1 to 4, each over the whole sheet, each giving its first offence in file order.

use super::Refusal;

const HEAD: usize = 48;
const MOST: [usize; 4] = [1024, 256, 64, 32768];

/// The counts, and where each part of the sheet starts.
pub struct Head {
    pub n: usize,
    pub p: usize,
    pub k: usize,
    pub b: usize,
    pub tokens: usize,
    pub params: usize,
    pub keeps: usize,
    pub body: usize,
}

pub fn word(sheet: &[u8], at: usize) -> u32 {
    (0..4).map(|i| u32::from(sheet[at + i]) << (8 * i)).sum()
}

pub fn key_class(packed: u32) -> u32 {
    packed >> 5 & 3
}

pub fn check(sheet: &[u8]) -> Result<Head, Refusal> {
    let head = head(sheet).ok_or(Refusal { number: 1, place: 0 })?;
    let offences = [bad_word(sheet, &head), bad_place(sheet, &head), bad_byte(sheet, &head)];
    for (number, offence) in (2..).zip(offences) {
        if let Some(place) = offence {
            return Err(Refusal { number, place });
        }
    }
    Ok(head)
}

/// What layout and the room ask (document 02, Wish 12): 14, after 4, if word 7 is 1.
pub fn check_for_layout(sheet: &[u8]) -> Result<Head, Refusal> {
    let head = check(sheet)?;
    if word(sheet, 28) == 1 {
        return Err(Refusal { number: 14, place: 28 });
    }
    Ok(head)
}

/// Check 1; `None` is its refusal.
pub fn head(sheet: &[u8]) -> Option<Head> {
    if sheet.len() < HEAD {
        return None;
    }
    let counts = [0, 4, 8, 12].map(|at| word(sheet, at) as usize);
    if counts.iter().zip(MOST).any(|(&count, most)| count > most) {
        return None;
    }
    let [n, p, k, b] = counts;
    let params = HEAD + 20 * n;
    let keeps = params + 16 * p;
    let body = keeps + 8 * k;
    let fits = sheet.len() == body + b;
    fits.then_some(Head { n, p, k, b, tokens: HEAD, params, keeps, body })
}

/// Refusal 2: a word that the sheet's form does not allow.
fn bad_word(sheet: &[u8], head: &Head) -> Option<usize> {
    let mode = word(sheet, 16);
    if mode > 2 || mode == 0 && head.p > 0 {
        return Some(16);
    }
    for (at, most) in [(20, 256), (24, 2), (28, 2), (32, 255)] {
        if word(sheet, at) > most {
            return Some(at);
        }
    }
    for i in 0..head.n {
        let offence = bad_token_word(sheet, head.tokens + 20 * i);
        if offence.is_some() {
            return offence;
        }
    }
    if mode == 2 {
        return None;
    }
    let names = (0..head.p).map(|i| head.params + 16 * i).flat_map(|at| [at, at + 4]);
    names.into_iter().find(|&at| word(sheet, at) != 0)
}

fn bad_token_word(sheet: &[u8], at: usize) -> Option<usize> {
    let packed = word(sheet, at);
    if packed & 31 > 16 || packed >> 8 != 0 {
        return Some(at);
    }
    let class = key_class(packed);
    if class == 0 && word(sheet, at + 12) != 0 {
        return Some(at + 12);
    }
    (class != 1 && word(sheet, at + 16) != 0).then_some(at + 16)
}

/// Refusal 3: a place that ends past the bodies, added up as whole numbers.
fn bad_place(sheet: &[u8], head: &Head) -> Option<usize> {
    let mut starts = Vec::new();
    for i in 0..head.n {
        let at = head.tokens + 20 * i;
        starts.push(at + 4);
        if key_class(word(sheet, at)) == 1 {
            starts.push(at + 12);
        }
    }
    starts.extend((0..2 * head.p).map(|i| head.params + 8 * i));
    starts.extend((0..head.k).map(|i| head.keeps + 8 * i));
    let past = |at: usize| u64::from(word(sheet, at)) + u64::from(word(sheet, at + 4));
    starts.into_iter().find(|&at| past(at) > head.b as u64)
}

/// Refusal 4: a body byte of 128 or more.
fn bad_byte(sheet: &[u8], head: &Head) -> Option<usize> {
    (head.body..sheet.len()).find(|&at| sheet[at] >= 128)
}
