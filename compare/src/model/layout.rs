//! How the layout goes, token by token.

use super::ahead;
use super::checks::{Head, key_class, word};
use super::rows::Shown;
use super::text::{Text, is_blank, is_white};
use super::{Refusal, rows};
use crate::sheet::*;

const DEEPEST: usize = 128;

type Step = Result<(), Refusal>;

#[derive(Clone, Copy)]
pub struct Token<'s> {
    pub kind: u8,
    pub value: &'s [u8],
    key: TokenKey<'s>,
    create: bool,
}

#[derive(Clone, Copy)]
enum TokenKey<'s> {
    None,
    Named(&'s [u8]),
    ZeroIndexed(u32),
    OneIndexed(u32),
}

/// An entry on the indent stack; a top-level one carries its full span.
#[derive(Clone, Copy)]
enum Entry {
    Top(usize),
    Block,
    Folded,
}

#[derive(Clone, Copy)]
struct Span {
    full: usize,
    blocks: usize,
    arguments: usize,
    newline_before: bool,
    newline_after: bool,
}

/// The previous words of one level: the span of the top-level one, the place of the other.
#[derive(Clone, Copy, Default)]
struct Previous {
    top: Option<Span>,
    word: Option<usize>,
}

pub struct Layout<'s> {
    tokens: Vec<Token<'s>>,
    params: Vec<(&'s [u8], &'s [u8])>,
    keep: Vec<&'s [u8]>,
    mode: u32,
    options: Options,
    pub text: Text,
    pub shown: Vec<Shown>,
    pub handlers: Vec<&'static str>,
    at: usize,
    open_level: usize,
    counter: usize,
    entries: Vec<Entry>,
    previous: Vec<Previous>,
    /// The lengths of the open inline blocks.
    inline: Vec<usize>,
}

fn limit(word: u32) -> Option<usize> {
    (word != NONE).then_some(word as usize)
}

/// `Some(true)` switches on. By prefix, letter case aside; byte 32 alone may stand between.
pub fn switch(value: &[u8]) -> Option<bool> {
    fn after<'v>(value: &'v [u8], start: &[u8]) -> Option<&'v [u8]> {
        let head = value.get(..start.len())?;
        head.eq_ignore_ascii_case(start).then_some(&value[start.len()..])
    }
    fn past_blanks(value: &[u8]) -> &[u8] {
        let from = value.iter().position(|&b| b != 32).unwrap_or(value.len());
        &value[from..]
    }
    let value = past_blanks(after(value, b"--")?);
    let value = past_blanks(after(value, b"fmt")?);
    let value = past_blanks(after(value, b":")?);
    let on = after(value, b"on").map(|_| true);
    on.or(after(value, b"off").map(|_| false))
}

/// Runs of white become one blank, none at either end.
fn joined(value: &[u8]) -> Vec<u8> {
    let words = value.split(|&b| is_white(b)).filter(|w| !w.is_empty());
    words.collect::<Vec<_>>().join(&b' ')
}

impl<'s> Layout<'s> {
    pub fn new(sheet: &'s [u8], head: &Head, room: usize) -> Self {
        let place = |at: usize| {
            let start = head.body + word(sheet, at) as usize;
            &sheet[start..start + word(sheet, at + 4) as usize]
        };
        let token = |at: usize| {
            let packed = word(sheet, at);
            let key = match key_class(packed) {
                0 => TokenKey::None,
                1 => TokenKey::Named(place(at + 12)),
                2 => TokenKey::ZeroIndexed(word(sheet, at + 12)),
                _ => TokenKey::OneIndexed(word(sheet, at + 12)),
            };
            let (kind, create) = ((packed & 31) as u8, packed & 128 != 0);
            Token { kind, value: place(at + 4), key, create }
        };
        let [indent, case, inline, lines, block, arguments, top_level] =
            [20, 24, 28, 32, 36, 40, 44].map(|at| word(sheet, at));
        let params = (0..head.p).map(|i| head.params + 16 * i);
        Layout {
            tokens: (0..head.n).map(|i| token(head.tokens + 20 * i)).collect(),
            params: params.map(|at| (place(at), place(at + 8))).collect(),
            keep: (0..head.k).map(|i| place(head.keeps + 8 * i)).collect(),
            mode: word(sheet, 16),
            options: Options { indent, case, inline, lines, block, arguments, top_level },
            text: Text::new(room),
            shown: Vec::new(),
            handlers: Vec::new(),
            at: 0,
            open_level: 0,
            counter: 0,
            entries: Vec::new(),
            previous: Vec::new(),
            inline: Vec::new(),
        }
    }

    /// The placeholders to be laid out, whatever is refused on the way.
    pub fn placeholders(&self) -> usize {
        rows::placeholders(self.tokens.iter().map(|token| (token.kind, token.value)))
    }

    pub fn lay_out(&mut self) -> Step {
        let mut on = true;
        let mut drop_next = false;
        for at in 0..self.tokens.len() {
            let token = self.tokens[at];
            if std::mem::take(&mut drop_next) {
                self.handlers.push("dropped");
                continue;
            }
            let comment = token.kind == LINE_COMMENT || token.kind == BLOCK_COMMENT;
            if let Some(now) = switch(token.value).filter(|_| comment) {
                self.handlers.push(if now { "switch on" } else { "switch off" });
                (on, drop_next) = (now, true);
                continue;
            }
            self.at = at;
            self.text.at(at);
            if on {
                self.step(token)?;
            } else {
                self.handlers.push("switched off");
                self.text.append(token.value)?;
            }
        }
        self.text.trim();
        Ok(())
    }

    fn step(&mut self, token: Token) -> Step {
        let (name, handler): (_, fn(&mut Self, Token) -> Step) = match (token.kind, token.value) {
            (WHITESPACE, _) => ("whitespace", |_, _| Ok(())),
            (LINE_COMMENT, _) => ("line comment", Self::line_comment),
            (BLOCK_COMMENT, _) => ("block comment", Self::block_comment),
            (TOP_LEVEL, _) => ("top level", Self::top_level),
            (NO_INDENT, _) => ("top level no indent", Self::top_level),
            (NEWLINE_AFTER, _) => ("newline after", Self::newline_after),
            (NEWLINE, _) => ("newline", Self::newline),
            (RESERVED, _) => ("reserved", Self::reserved),
            (OPEN, _) => ("opening bracket", Self::open),
            (CLOSE, _) => ("closing bracket", Self::close),
            (PLACEHOLDER, _) => ("placeholder", Self::placeholder),
            (TYPE_SPECIFIER, _) => ("type specifier", Self::type_specifier),
            (_, b",") => ("comma", Self::comma),
            (_, b":") => ("space after", Self::space_after),
            (_, b".") => ("without spaces", Self::without_spaces),
            (_, b";") => ("query separator", Self::separator),
            _ => ("with spaces", Self::with_spaces),
        };
        self.handlers.push(name);
        handler(self, token)
    }

    // Comments, specifiers and the plain kinds.

    fn line_comment(&mut self, token: Token) -> Step {
        let after_feed = self.back(1).is_some_and(|t| t.value.contains(&b'\n'));
        let white_next = self.ahead(1).is_some_and(|t| t.kind == WHITESPACE)
            && self.ahead(2).is_some_and(|t| t.kind != OPERATOR);
        if after_feed && white_next {
            self.new_line()?;
        } else if self.back(2).is_some_and(|t| t.value == b",") {
            self.handlers.push("- comment after comma");
            self.cut_white("- held from a comma");
            self.text.append(b"  ")?;
        }
        self.text.append(token.value)?;
        self.close_line_comment()
    }

    fn block_comment(&mut self, token: Token) -> Step {
        self.new_line()?;
        for (i, line) in token.value.split(|&b| b == b'\n').enumerate() {
            if i > 0 {
                self.text.append(b"\n")?;
            }
            if i > 0 && line.first().is_some_and(|&b| is_blank(b)) {
                let indent = self.indent(self.unfolded());
                let from = line.iter().position(|&b| !is_blank(b)).unwrap_or(line.len());
                self.text.append(&indent)?;
                self.text.append(b" ")?;
                self.text.append(&line[from..])?;
            } else {
                self.text.append(line)?;
            }
        }
        self.new_line()
    }

    /// The new line after a line comment. Inline at 2: a line feed, with no indent, that only the
    /// trim at the end may cut, added or found there.
    fn close_line_comment(&mut self) -> Step {
        if self.options.inline != INLINE_COMMENTS {
            return self.new_line();
        }
        self.text.cut_blanks();
        if self.text.ends_with_feed() {
            self.handlers.push("- closed at 2, a feed found");
        } else {
            self.handlers.push("- closed at 2, a feed added");
            self.text.append(b"\n")?;
        }
        self.text.hold();
        Ok(())
    }

    fn cut_white(&mut self, held: &'static str) {
        let kept = self.text.cut_white();
        self.note_if(kept, held);
    }

    fn type_specifier(&mut self, token: Token) -> Step {
        self.cut_white("- held from a type specifier");
        self.text.append(token.value)?;
        let next = self.tokens[self.at + 1..].iter().find(|t| t.kind != WHITESPACE);
        if next.is_some_and(|t| [RESERVED, NEWLINE, NEWLINE_AFTER].contains(&t.kind)) {
            self.text.append(b" ")?;
        }
        Ok(())
    }

    fn with_spaces(&mut self, token: Token) -> Step {
        self.text.append(token.value)?;
        self.text.append(b" ")
    }

    fn space_after(&mut self, token: Token) -> Step {
        self.text.cut_blanks();
        self.with_spaces(token)
    }

    fn without_spaces(&mut self, token: Token) -> Step {
        self.text.cut_blanks();
        self.text.append(token.value)
    }

    fn separator(&mut self, token: Token) -> Step {
        self.entries.clear();
        self.previous.clear();
        self.without_spaces(token)?;
        self.text.append(&vec![b'\n'; self.options.lines as usize])
    }

    fn comma(&mut self, token: Token) -> Step {
        self.space_after(token)?;
        if !self.inline.is_empty() {
            return Ok(());
        }
        let previous = self.previous.last().copied().unwrap_or_default();
        let word = previous.word.map(|at| self.tokens[at].value);
        if word.is_some_and(|value| value.eq_ignore_ascii_case(b"limit")) {
            self.handlers.push("- comma under limit");
            return Ok(());
        }
        let arguments = limit(self.options.arguments).unwrap_or(0);
        if previous.top.is_some_and(|span| arguments >= span.full) {
            self.handlers.push("- comma that fits");
            return Ok(());
        }
        self.new_line()
    }

    fn placeholder(&mut self, token: Token) -> Step {
        let entry = self.entry(token)?;
        let value = entry.map_or(token.value, |number| self.params[number].1);
        let numbers = self.text.show(value)?;
        self.shown.push(Shown { token: self.at, entry, numbers });
        self.text.append(b" ")
    }

    /// The number of the entry that is shown; `None` if it is the token's own value.
    fn entry(&mut self, token: Token) -> Result<Option<usize>, Refusal> {
        if self.mode == MODE_NAMED {
            let name = match token.key {
                TokenKey::None => return Ok(None),
                TokenKey::Named(name) => name,
                TokenKey::ZeroIndexed(_) | TokenKey::OneIndexed(_) => b"",
            };
            return Ok(self.params.iter().position(|entry| entry.0 == name));
        }
        if self.mode == MODE_NONE {
            return Ok(None);
        }
        let number = match token.key {
            TokenKey::Named(name) if !name.is_empty() => return Ok(None),
            TokenKey::ZeroIndexed(number) => number as usize,
            TokenKey::OneIndexed(0) => return Err(Refusal { number: 5, place: self.at }),
            TokenKey::OneIndexed(number) => number as usize - 1,
            TokenKey::None | TokenKey::Named(_) => {
                self.handlers.push("- counted");
                self.counter += 1;
                self.counter - 1
            }
        };
        Ok((number < self.params.len()).then_some(number))
    }

    // The five kinds named Reserved.

    fn top_level(&mut self, token: Token) -> Step {
        let span = self.span();
        if span.newline_before {
            self.drop_top();
            self.new_line()?;
        }
        self.reserved_word(token)?;
        let create = token.kind == TOP_LEVEL && token.create;
        if span.newline_after && !create {
            if token.kind == TOP_LEVEL {
                self.push(Entry::Top(span.full))?;
            }
            self.new_line()?;
        } else {
            self.text.append(b" ")?;
        }
        self.note_top_level(span);
        Ok(())
    }

    fn newline_after(&mut self, token: Token) -> Step {
        let span = self.span();
        let fits = match (limit(self.options.top_level), self.previous_span()) {
            (Some(limit), Some(span)) => limit >= span.full + token.value.len(),
            _ => false,
        };
        if fits {
            self.handlers.push("- newline-after that fits");
            self.text.cut_blanks();
            self.text.append(b" ")?;
        } else {
            self.drop_top();
            self.new_line()?;
        }
        self.reserved_word(token)?;
        self.push(Entry::Top(span.full))?;
        self.new_line()?;
        self.note_top_level(span);
        Ok(())
    }

    fn newline(&mut self, token: Token) -> Step {
        let after_comment = self.before().is_some_and(|t| t.kind == LINE_COMMENT);
        let arguments = limit(self.options.arguments);
        let too_long = arguments.is_none_or(|limit| limit < self.innermost_span());
        if after_comment || self.inline.is_empty() && too_long {
            if let Some(span) = self.previous_span().filter(|span| !span.newline_after) {
                self.handlers.push("- indents what was inlined");
                self.push(Entry::Top(span.full))?;
            }
            self.new_line()?;
        } else {
            self.text.cut_blanks();
            self.text.append(b" ")?;
        }
        self.reserved(token)
    }

    fn reserved(&mut self, token: Token) -> Step {
        self.reserved_word(token)?;
        self.text.append(b" ")?;
        match self.previous.last_mut() {
            Some(previous) => previous.word = Some(self.at),
            None => self.previous.push(Previous { top: None, word: Some(self.at) }),
        }
        Ok(())
    }

    fn reserved_word(&mut self, token: Token) -> Step {
        let word = joined(&self.cased(token.value));
        self.text.append(&word)
    }

    fn note_top_level(&mut self, span: Span) {
        match self.previous.last_mut() {
            Some(previous) => previous.top = Some(span),
            None => self.previous.push(Previous { top: Some(span), word: Some(self.at) }),
        }
    }

    // Brackets.

    fn open(&mut self, token: Token) -> Step {
        self.open_level += 1;
        self.refuse_if(self.entries.len() == DEEPEST, 6)?;
        let block = ahead::block(&self.tokens, self.at);
        let inlined = !self.inline.is_empty() || self.may_stand_inline(&block);
        let folds = !inlined && self.folds();
        if inlined {
            self.handlers.push("- inline block");
            self.inline.push(block.length);
            // Document 02, Wish 11: no sheet opens a 129th, since 6 comes first.
            assert!(self.inline.len() <= DEEPEST, "a 129th open inline block");
            self.note_if(self.inline.len() == DEEPEST, "- 128th inline block");
        }
        self.before_bracket(token)?;
        if folds {
            self.handlers.push("- folded block");
            self.cut_white("- held from a fold");
            self.text.append(b" ")?;
        }
        self.push(if folds { Entry::Folded } else { Entry::Block })?;
        self.previous.push(Previous::default());
        self.note_if(self.previous.len() == DEEPEST + 1, "- 129th previous word");
        let value = self.cased(token.value);
        self.text.append(&value)?;
        if !inlined {
            self.new_line()
        } else if token.value.eq_ignore_ascii_case(b"case") {
            self.text.append(b" ")
        } else {
            Ok(())
        }
    }

    fn may_stand_inline(&self, block: &ahead::Block) -> bool {
        let arguments = limit(self.options.arguments).unwrap_or(0);
        let top_level = limit(self.options.top_level).unwrap_or(0);
        !block.forbidden
            && block.length <= self.options.block as usize
            && block.top_level_span <= top_level
            && (!block.newline_words || block.length <= arguments)
    }

    fn folds(&self) -> bool {
        limit(self.options.top_level).is_some()
            && self.before().is_some_and(|t| t.kind == TOP_LEVEL)
            && self
                .previous_span()
                .is_some_and(|span| span.blocks <= 2 && span.newline_after && span.arguments == 1)
    }

    /// The blank before an opening bracket goes, stays or is made.
    fn before_bracket(&mut self, token: Token) -> Step {
        let array = token.value == b"[";
        let kind = self.before().map(|t| t.kind);
        let kept = self.back(1).map(|t| t.kind);
        let keeps = matches!(kept, Some(WHITESPACE | OPEN | LINE_COMMENT));
        if !keeps || array && matches!(kind, Some(CLOSE | WORD | RESERVED)) {
            self.text.cut_blanks();
        }
        if !array && matches!(kind, Some(CLOSE | RESERVED)) {
            self.text.cut_blanks();
            self.text.append(b" ")?;
        }
        Ok(())
    }

    fn close(&mut self, token: Token) -> Step {
        self.open_level = self.open_level.saturating_sub(1);
        let value = self.cased(token.value);
        let folded = self.pop_block();
        let inlined = !self.inline.is_empty();
        if inlined {
            self.inline.pop();
            self.text.cut_blanks();
            if value.eq_ignore_ascii_case(b"end") {
                self.text.append(b" ")?;
            }
        } else {
            let below = folded && self.options.inline == INLINE_OFF && self.unfolded() == 0;
            self.refuse_if(below, 8)?;
            self.new_line_at(self.unfolded().saturating_sub(usize::from(folded)))?;
        }
        self.text.append(&value)?;
        self.text.append(b" ")
    }

    /// Takes entries off down to the block's own; says if it was folded.
    fn pop_block(&mut self) -> bool {
        while let Some(entry) = self.entries.pop() {
            self.previous.pop();
            match entry {
                Entry::Top(_) => {}
                Entry::Block => return false,
                Entry::Folded => {
                    self.handlers.push("- folded close");
                    return true;
                }
            }
        }
        false
    }

    // The stacks.

    fn push(&mut self, entry: Entry) -> Step {
        self.refuse_if(self.entries.len() == DEEPEST, 6)?;
        self.entries.push(entry);
        self.note_if(self.entries.len() == DEEPEST, "- 128th entry");
        Ok(())
    }

    fn note_if(&mut self, met: bool, what: &'static str) {
        if met {
            self.handlers.push(what);
        }
    }

    fn drop_top(&mut self) {
        if let Some(Entry::Top(_)) = self.entries.last() {
            self.entries.pop();
            self.previous.pop();
        }
    }

    fn unfolded(&self) -> usize {
        self.entries.iter().filter(|entry| !matches!(entry, Entry::Folded)).count()
    }

    fn innermost_span(&self) -> usize {
        let spans = self.entries.iter().rev().filter_map(|entry| match entry {
            Entry::Top(span) => Some(*span),
            Entry::Block | Entry::Folded => None,
        });
        spans.into_iter().next().unwrap_or(0)
    }

    fn previous_span(&self) -> Option<Span> {
        self.previous.last().and_then(|previous| previous.top)
    }

    fn refuse_if(&self, offence: bool, number: u32) -> Step {
        let refusal = Refusal { number, place: self.at };
        if offence { Err(refusal) } else { Ok(()) }
    }

    // Reading around.

    fn back(&self, by: usize) -> Option<Token<'s>> {
        self.at.checked_sub(by).map(|at| self.tokens[at])
    }

    fn ahead(&self, by: usize) -> Option<Token<'s>> {
        self.tokens.get(self.at + by).copied()
    }

    /// The token before this one, Whitespace aside.
    fn before(&self) -> Option<Token<'s>> {
        self.tokens[..self.at].iter().rev().find(|t| t.kind != WHITESPACE).copied()
    }

    fn span(&self) -> Span {
        let ahead::Reading { full, blocks, arguments } =
            ahead::span(&self.tokens, self.at, self.open_level);
        let top_level = limit(self.options.top_level).unwrap_or(0);
        let block = self.inline.last().copied().unwrap_or(0);
        let room = match limit(self.options.arguments).unwrap_or(0) {
            limit if arguments > 1 && limit != 0 => limit.min(top_level),
            _ => top_level,
        };
        let newline_before = block == 0 || top_level < block;
        Span { full, blocks, arguments, newline_before, newline_after: room < full }
    }

    // Letter case and new lines.

    fn cased(&self, value: &[u8]) -> Vec<u8> {
        match self.options.case {
            _ if self.keep.contains(&value) => value.to_vec(),
            1 => value.to_ascii_uppercase(),
            2 => value.to_ascii_lowercase(),
            _ => value.to_vec(),
        }
    }

    fn indent(&self, level: usize) -> Vec<u8> {
        match self.options.indent {
            256 => vec![b'\t'; level],
            spaces => vec![b' '; spaces as usize * level],
        }
    }

    fn new_line(&mut self) -> Step {
        self.new_line_at(self.unfolded())
    }

    fn new_line_at(&mut self, level: usize) -> Step {
        self.text.cut_blanks();
        if self.options.inline != INLINE_OFF {
            return self.text.append(b" ");
        }
        if !self.text.ends_with_feed() {
            self.text.append(b"\n")?;
        }
        let indent = self.indent(level);
        self.text.append(&indent)
    }
}
