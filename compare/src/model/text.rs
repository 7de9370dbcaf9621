//! The working text against the buffer: refusal 9 and the cuts.

use std::ops::Range;

use super::Refusal;
use crate::watched::{Height, Stretch};

pub struct Text {
    pub bytes: Vec<u8>,
    /// Each byte's number among all that were ever appended.
    numbers: Vec<usize>,
    appended: usize,
    /// The same placeholders by other means: stretches that each cut clips.
    pub stretches: Vec<Stretch>,
    room: usize,
    token: usize,
    /// No cut goes below this length; the trim at the end alone does.
    floor: usize,
    pub heights: Vec<Height>,
}

pub fn is_white(byte: u8) -> bool {
    (9..=13).contains(&byte) || byte == 32
}

pub fn is_blank(byte: u8) -> bool {
    byte == b' ' || byte == b'\t'
}

impl Text {
    pub fn new(room: usize) -> Self {
        Text {
            bytes: Vec::new(),
            numbers: Vec::new(),
            appended: 0,
            stretches: Vec::new(),
            room,
            token: 0,
            floor: 0,
            heights: Vec::new(),
        }
    }

    /// Appends from here on belong to this token.
    pub fn at(&mut self, token: usize) {
        self.token = token;
        let end = self.bytes.len();
        self.heights.push(Height { token, peak: end, end });
    }

    pub fn append(&mut self, bytes: &[u8]) -> Result<(), Refusal> {
        if self.bytes.len() + bytes.len() > self.room {
            return Err(Refusal { number: 9, place: self.token });
        }
        self.bytes.extend_from_slice(bytes);
        self.numbers.extend(self.appended..self.appended + bytes.len());
        self.appended += bytes.len();
        self.note();
        Ok(())
    }

    /// What a placeholder shows: the numbers that its bytes get.
    pub fn show(&mut self, value: &[u8]) -> Result<Range<usize>, Refusal> {
        let first = self.appended;
        self.append(value)?;
        let end = self.bytes.len();
        self.stretches.push(Stretch { start: end - value.len(), end });
        Ok(first..self.appended)
    }

    pub fn cut_blanks(&mut self) {
        self.cut(is_blank);
    }

    /// Says if the floor kept a byte that this would have cut.
    pub fn cut_white(&mut self) -> bool {
        self.cut(is_white);
        self.bytes.last().is_some_and(|&b| is_white(b))
    }

    /// All that stands here now stays.
    pub fn hold(&mut self) {
        self.floor = self.bytes.len();
    }

    pub fn ends_with_feed(&self) -> bool {
        self.bytes.last() == Some(&b'\n')
    }

    /// The end: white trimmed at both ends. Nothing is refused here.
    pub fn trim(&mut self) {
        let solid = |bytes: &[u8]| bytes.iter().rposition(|&b| !is_white(b)).map_or(0, |at| at + 1);
        let end = solid(&self.bytes);
        let start = self.bytes[..end].iter().position(|&b| !is_white(b)).unwrap_or(end);
        self.bytes = self.bytes[start..end].to_vec();
        self.numbers = self.numbers[start..end].to_vec();
        for stretch in &mut self.stretches {
            stretch.trim(start, end);
        }
    }

    /// How many bytes of the text were appended before the one with this number.
    pub fn before(&self, number: usize) -> usize {
        // Bytes are appended and cut at the end alone, so the numbers rise.
        self.numbers.partition_point(|&other| other < number)
    }

    fn cut(&mut self, goes: fn(u8) -> bool) {
        while self.bytes.len() > self.floor && self.bytes.last().is_some_and(|&b| goes(b)) {
            self.bytes.pop();
            self.numbers.pop();
        }
        let end = self.bytes.len();
        self.stretches.iter_mut().for_each(|stretch| stretch.clip(end));
        self.note();
    }

    fn note(&mut self) {
        let end = self.bytes.len();
        if let Some(height) = self.heights.last_mut() {
            height.peak = height.peak.max(end);
            height.end = end;
        }
    }
}
