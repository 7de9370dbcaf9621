//! Runs the Rust on a decoded sheet: the judge of the layout.

use std::cell::RefCell;
use std::panic::{self, AssertUnwindSafe};

use crate::model::Row;
use crate::sheet::{self, Head, Key, Reader};
use crate::tokenizer::{PlaceholderKind, Token, TokenKind};
use crate::watched::{Height, Shown};
use crate::{Dialect, FormatOptions, Indent, QueryParams};

/// Where the Rust panicked, told apart by the file: the key's number or the indent.
#[derive(Debug, Clone, PartialEq, Eq)]
pub enum Panic {
    OneIndexedNought,
    IndentBelowNought,
    Other(String),
}

const KINDS: [TokenKind; 17] = [
    TokenKind::TypeSpecifier,
    TokenKind::Whitespace,
    TokenKind::String,
    TokenKind::Reserved,
    TokenKind::ReservedTopLevel,
    TokenKind::ReservedTopLevelNoIndent,
    TokenKind::ReservedNewline,
    TokenKind::ReservedNewlineAfter,
    TokenKind::Operator,
    TokenKind::OpenParen,
    TokenKind::CloseParen,
    TokenKind::LineComment,
    TokenKind::BlockComment,
    TokenKind::Number,
    TokenKind::Placeholder,
    TokenKind::Word,
    TokenKind::Join,
];

thread_local! {
    static LAST: RefCell<String> = const { RefCell::new(String::new()) };
}

/// Panics of the Rust are answers here: they are noted, not printed.
pub fn silence_panics() {
    panic::set_hook(Box::new(|info| {
        let said = info.to_string();
        LAST.with(|last| *last.borrow_mut() = said);
    }));
}

/// What the last panic said.
pub fn last_panic() -> String {
    LAST.with(|last| last.borrow().clone())
}

/// A sheet as the Rust takes it.
pub struct Read<'a> {
    tokens: Vec<Token<'a>>,
    params: QueryParams,
    options: FormatOptions<'a>,
}

impl Read<'_> {
    /// The text the unchanged Rust gives.
    pub fn format(&self) -> String {
        crate::formatter::format(&self.tokens, &self.params, &self.options)
    }

    pub fn text(&self) -> Result<Vec<u8>, Panic> {
        caught(|| self.format().into_bytes())
    }

    /// The heights of the Rust's working text, from the watched copy.
    pub fn heights(&self) -> Result<Vec<Height>, Panic> {
        let (tokens, params, options) = (&self.tokens, &self.params, &self.options);
        caught(|| crate::watched_formatter::format(tokens, params, options).heights.clone())
    }

    /// Which parameter stands where, from the watched copy; `None` if a value came from elsewhere.
    pub fn rows(&self) -> Option<Vec<Row>> {
        let (tokens, params, options) = (&self.tokens, &self.params, &self.options);
        let shown =
            caught(|| crate::watched_formatter::format(tokens, params, options).shown.clone());
        shown.ok()?.iter().map(|shown| self.row(shown)).collect()
    }

    /// What the text has of each token, white bytes taken out, from the watched copy.
    pub fn pieces(&self) -> Result<Vec<(usize, Vec<u8>)>, Panic> {
        let (tokens, params, options) = (&self.tokens, &self.params, &self.options);
        caught(|| {
            let text = crate::watched_formatter::format(tokens, params, options);
            let solid: String = text.chars().filter(|c| !c.is_whitespace()).collect();
            let ends = text.solids.iter().skip(1).map(|&(_, end)| end).chain([solid.len()]);
            let piece = |(&(token, start), end): (&(usize, usize), usize)| {
                (token, solid.as_bytes()[start..end].to_vec())
            };
            text.solids.iter().zip(ends).map(piece).collect()
        })
    }

    fn row(&self, &Shown { token, address, stretch }: &Shown) -> Option<Row> {
        let own = address == self.tokens[token].value.as_ptr();
        let entry = match &self.params {
            QueryParams::None => None,
            QueryParams::Indexed(all) => all.iter().position(|value| value.as_ptr() == address),
            QueryParams::Named(all) => all.iter().position(|entry| entry.1.as_ptr() == address),
        };
        let (before, survived) = (stretch.start, stretch.end - stretch.start);
        (own != entry.is_some()).then_some(Row { token, entry, before, survived })
    }
}

fn caught<T>(run: impl FnOnce() -> T) -> Result<T, Panic> {
    panic::catch_unwind(AssertUnwindSafe(run)).map_err(|_| {
        let said = last_panic();
        let below = said.contains("attempt to subtract with overflow");
        if below && said.contains("tokenizer.rs") {
            Panic::OneIndexedNought
        } else if below && said.contains("indentation.rs") {
            Panic::IndentBelowNought
        } else {
            Panic::Other(said)
        }
    })
}

/// Word 7, where there is one.
pub fn inline(sheet: &[u8]) -> Option<u32> {
    Reader::new(sheet).map(|reader| reader.head.options.inline)
}

/// Whether the Rust judges all of this sheet's answer: word 7 at 2 is not the Rust's, and at 1 it is
/// withdrawn.
pub fn judges(sheet: &[u8]) -> bool {
    !matches!(inline(sheet), Some(sheet::INLINE_ON | sheet::INLINE_COMMENTS))
}

/// Only for sheets that pass checks 1 to 4 and have word 7 at 0 or 1; any other may give `None` or
/// nonsense.
pub fn read(sheet: &[u8]) -> Option<Read<'_>> {
    let mut reader = Reader::new(sheet)?;
    let Head { tokens: n, params: p, keeps: k, mode, options: words } = reader.head;
    let tokens = (0..n).map(|_| token(reader.token()?)).collect::<Option<_>>()?;
    let entries = (0..p).map(|_| reader.param()).collect::<Option<Vec<_>>>()?;
    let keeps = (0..k).map(|_| as_str(reader.place()?)).collect::<Option<Vec<_>>>()?;
    let ignore_case_convert = (!keeps.is_empty()).then_some(keeps);
    let options = FormatOptions { ignore_case_convert, ..options(&words) };
    Some(Read { tokens, params: params(mode, &entries)?, options })
}

fn as_str(bytes: &[u8]) -> Option<&str> {
    std::str::from_utf8(bytes).ok()
}

fn token(token: sheet::Token<&[u8]>) -> Option<Token<'_>> {
    let key = match token.key {
        Key::None => None,
        Key::Named(name) => Some(PlaceholderKind::Named(as_str(name)?.into())),
        Key::ZeroIndexed(number) => Some(PlaceholderKind::ZeroIndexed(number as usize)),
        Key::OneIndexed(number) => Some(PlaceholderKind::OneIndexed(number as usize)),
    };
    let alias = if token.create { "CREATE" } else { "" };
    Some(Token { kind: KINDS[token.kind as usize], value: as_str(token.value)?, key, alias })
}

fn params(mode: u32, entries: &[sheet::Param<&[u8]>]) -> Option<QueryParams> {
    let own = |bytes: &[u8]| as_str(bytes).map(placed);
    let entries = entries.iter();
    Some(match mode {
        sheet::MODE_NONE => QueryParams::None,
        sheet::MODE_INDEXED => {
            QueryParams::Indexed(entries.map(|p| own(p.value)).collect::<Option<_>>()?)
        }
        _ => {
            let named = |p: &sheet::Param<&[u8]>| Some((own(p.name)?, own(p.value)?));
            QueryParams::Named(entries.map(named).collect::<Option<_>>()?)
        }
    })
}

/// With an address of its own, even if it is empty.
fn placed(value: &str) -> String {
    let mut own = String::with_capacity(value.len() + 1);
    own.push_str(value);
    own
}

fn options(words: &sheet::Options) -> FormatOptions<'static> {
    let limit = |word: u32| (word != sheet::NONE).then_some(word as usize);
    FormatOptions {
        indent: match words.indent {
            256 => Indent::Tabs,
            spaces => Indent::Spaces(spaces as u8),
        },
        uppercase: [None, Some(true), Some(false)][words.case as usize],
        lines_between_queries: words.lines as u8,
        ignore_case_convert: None,
        inline: words.inline == sheet::INLINE_ON,
        max_inline_block: words.block as usize,
        max_inline_arguments: limit(words.arguments),
        max_inline_top_level: limit(words.top_level),
        joins_as_top_level: false,
        dialect: Dialect::Generic,
    }
}
