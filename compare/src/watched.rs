//! A text that remembers its heights, and where it showed a parameter: what the second copy of the
//! formatter writes into.

use std::cell::{Cell, RefCell};
use std::mem;
use std::ops::Deref;
use std::thread;

thread_local! {
    static TOKEN: Cell<usize> = const { Cell::new(0) };
    static LEFT: RefCell<Vec<Height>> = const { RefCell::new(Vec::new()) };
}

/// The token that the Rust was last at: after a panic, the place of the refusal.
pub fn token() -> usize {
    TOKEN.get()
}

/// The heights that the last panic left.
pub fn left() -> Vec<Height> {
    LEFT.take()
}

/// How long the working text got while one token was laid out, and how long it was left.
#[derive(Debug, Clone, Copy, PartialEq, Eq)]
pub struct Height {
    pub token: usize,
    pub peak: usize,
    pub end: usize,
}

/// Where a placeholder's value stands in the text.
#[derive(Debug, Clone, Copy, PartialEq, Eq)]
pub struct Stretch {
    pub start: usize,
    pub end: usize,
}

impl Stretch {
    /// The text is cut to this length.
    pub fn clip(&mut self, length: usize) {
        self.start = self.start.min(length);
        self.end = self.end.min(length);
    }

    /// Only what stood from `start` to `end` is left of the text.
    pub fn trim(&mut self, start: usize, end: usize) {
        self.clip(end);
        self.start = self.start.saturating_sub(start);
        self.end = self.end.saturating_sub(start);
    }
}

/// What `params.rs` handed out at a placeholder: the address tells an entry from a value that equals it.
#[derive(Debug, Clone, Copy)]
pub struct Shown {
    pub token: usize,
    pub address: *const u8,
    pub stretch: Stretch,
}

/// Stands in for the standard `String`; has just what the formatter calls.
#[derive(Default)]
pub struct String {
    text: std::string::String,
    pub heights: Vec<Height>,
    pub shown: Vec<Shown>,
    /// The bytes that are not white.
    solid: usize,
    /// How many there were before each token.
    pub solids: Vec<(usize, usize)>,
}

pub struct Trimmed<'a>(&'a String);

impl String {
    pub fn new() -> Self {
        Self::default()
    }

    pub fn with_capacity(_: usize) -> Self {
        Self::default()
    }

    pub fn reserve(&mut self, _: usize) {}

    pub fn at(&mut self, token: usize) {
        TOKEN.set(token);
        let end = self.text.len();
        self.heights.push(Height { token, peak: end, end });
        self.solids.push((token, self.solid));
    }

    pub fn push(&mut self, c: char) {
        self.text.push(c);
        self.solid += usize::from(!c.is_whitespace());
        self.note();
    }

    pub fn push_str(&mut self, s: &str) {
        self.text.push_str(s);
        self.solid += solid(s);
        self.note();
    }

    /// `push_str`, where it is a placeholder's value.
    pub fn show(&mut self, value: &str) {
        let (start, address) = (self.text.len(), value.as_ptr());
        self.push_str(value);
        let stretch = Stretch { start, end: self.text.len() };
        self.shown.push(Shown { token: TOKEN.get(), address, stretch });
    }

    pub fn truncate(&mut self, length: usize) {
        self.solid -= solid(&self.text[length..]);
        self.text.truncate(length);
        self.shown.iter_mut().for_each(|shown| shown.stretch.clip(length));
        self.note();
    }

    pub fn trim(&self) -> Trimmed<'_> {
        Trimmed(self)
    }

    fn note(&mut self) {
        let end = self.text.len();
        if let Some(height) = self.heights.last_mut() {
            height.peak = height.peak.max(end);
            height.end = end;
        }
    }
}

impl Trimmed<'_> {
    pub fn to_string(&self) -> String {
        let (worked, text) = (&self.0.text, self.0.text.trim().to_owned());
        let end = worked.trim_end().len();
        let mut shown = self.0.shown.clone();
        shown.iter_mut().for_each(|shown| shown.stretch.trim(end - text.len(), end));
        let (heights, solids) = (self.0.heights.clone(), self.0.solids.clone());
        String { text, heights, shown, solid: self.0.solid, solids }
    }
}

fn solid(s: &str) -> usize {
    s.chars().filter(|c| !c.is_whitespace()).count()
}

impl Deref for String {
    type Target = str;

    fn deref(&self) -> &str {
        &self.text
    }
}

impl Drop for String {
    fn drop(&mut self) {
        if thread::panicking() && !self.heights.is_empty() {
            LEFT.set(mem::take(&mut self.heights));
        }
    }
}
