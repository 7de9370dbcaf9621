//! A sheet as document 01 sets it out, taken apart and put together.

pub const NAMES: [&str; 17] = [
    "TypeSpecifier",
    "Whitespace",
    "String",
    "Reserved",
    "ReservedTopLevel",
    "ReservedTopLevelNoIndent",
    "ReservedNewline",
    "ReservedNewlineAfter",
    "Operator",
    "OpenParen",
    "CloseParen",
    "LineComment",
    "BlockComment",
    "Number",
    "Placeholder",
    "Word",
    "Join",
];

pub const TYPE_SPECIFIER: u8 = 0;
pub const WHITESPACE: u8 = 1;
pub const STRING: u8 = 2;
pub const RESERVED: u8 = 3;
pub const TOP_LEVEL: u8 = 4;
pub const NO_INDENT: u8 = 5;
pub const NEWLINE: u8 = 6;
pub const NEWLINE_AFTER: u8 = 7;
pub const OPERATOR: u8 = 8;
pub const OPEN: u8 = 9;
pub const CLOSE: u8 = 10;
pub const LINE_COMMENT: u8 = 11;
pub const BLOCK_COMMENT: u8 = 12;
pub const NUMBER: u8 = 13;
pub const PLACEHOLDER: u8 = 14;
pub const WORD: u8 = 15;
pub const JOIN: u8 = 16;

/// In words 10 and 11 alone.
pub const NONE: u32 = u32::MAX;

pub const MODE_NONE: u32 = 0;
pub const MODE_INDEXED: u32 = 1;
pub const MODE_NAMED: u32 = 2;

/// Head word 7. At the last one lines end after line comments alone, and the Rust has no such value.
pub const INLINE_OFF: u32 = 0;
pub const INLINE_ON: u32 = 1;
pub const INLINE_COMMENTS: u32 = 2;

/// Head words 5 to 11.
#[derive(Debug, Clone, Copy, PartialEq, Eq)]
pub struct Options {
    pub indent: u32,
    pub case: u32,
    pub inline: u32,
    pub lines: u32,
    pub block: u32,
    pub arguments: u32,
    pub top_level: u32,
}

/// The Rust's defaults: document 01's sheets and the comparison take them.
impl Default for Options {
    fn default() -> Self {
        let (block, arguments, top_level) = (50, NONE, NONE);
        Options { indent: 2, case: 0, inline: 0, lines: 1, block, arguments, top_level }
    }
}

#[derive(Debug, Clone, PartialEq, Eq)]
pub enum Key<B = Vec<u8>> {
    None,
    Named(B),
    ZeroIndexed(u32),
    OneIndexed(u32),
}

#[derive(Debug, Clone, PartialEq, Eq)]
pub struct Token<B = Vec<u8>> {
    pub kind: u8,
    pub value: B,
    pub key: Key<B>,
    pub create: bool,
}

impl Token {
    pub fn new(kind: u8, value: &str) -> Self {
        Token { kind, value: value.into(), key: Key::None, create: false }
    }
}

impl Token<&[u8]> {
    fn owned(self) -> Token {
        let key = match self.key {
            Key::None => Key::None,
            Key::Named(name) => Key::Named(name.to_vec()),
            Key::ZeroIndexed(number) => Key::ZeroIndexed(number),
            Key::OneIndexed(number) => Key::OneIndexed(number),
        };
        Token { kind: self.kind, value: self.value.to_vec(), key, create: self.create }
    }
}

#[derive(Debug, Clone, PartialEq, Eq)]
pub struct Param<B = Vec<u8>> {
    pub name: B,
    pub value: B,
}

impl Param<&[u8]> {
    fn owned(self) -> Param {
        Param { name: self.name.to_vec(), value: self.value.to_vec() }
    }
}

#[derive(Debug, Clone, PartialEq, Eq, Default)]
pub struct Sheet {
    pub options: Options,
    pub mode: u32,
    pub tokens: Vec<Token>,
    pub params: Vec<Param>,
    pub keep: Vec<Vec<u8>>,
}

/// Puts a value somewhere in the bodies so far and says where it starts.
pub type Layer<'a> = dyn FnMut(&mut Vec<u8>, &[u8]) -> u32 + 'a;

/// The plain layer: one value after another.
pub fn in_turn(body: &mut Vec<u8>, value: &[u8]) -> u32 {
    let start = body.len() as u32;
    body.extend_from_slice(value);
    start
}

impl Sheet {
    pub fn encode(&self, lay: &mut Layer) -> Vec<u8> {
        let mut body = Vec::new();
        let mut words = Vec::new();
        let mut place = |value: &[u8]| [lay(&mut body, value), value.len() as u32];
        for token in &self.tokens {
            words.push(packed(token));
            words.extend(place(&token.value));
            words.extend(match &token.key {
                Key::None => [0, 0],
                Key::Named(name) => place(name),
                Key::ZeroIndexed(number) | Key::OneIndexed(number) => [*number, 0],
            });
        }
        for param in &self.params {
            let named = self.mode == MODE_NAMED;
            words.extend(if named { place(&param.name) } else { [0, 0] });
            words.extend(place(&param.value));
        }
        for word in &self.keep {
            words.extend(place(word));
        }
        let head = self.head(body.len());
        let mut bytes: Vec<u8> = head.iter().chain(&words).flat_map(|w| w.to_le_bytes()).collect();
        bytes.extend(body);
        bytes
    }

    fn head(&self, body: usize) -> [u32; 12] {
        let Options { indent, case, inline, lines, block, arguments, top_level } = self.options;
        let (n, p, k) = (self.tokens.len(), self.params.len(), self.keep.len());
        let [n, p, k, b] = [n, p, k, body].map(|count| count as u32);
        [n, p, k, b, self.mode, indent, case, inline, lines, block, arguments, top_level]
    }

    /// Only for sheets that pass checks 1 to 3; any other may give `None` or nonsense.
    pub fn decode(bytes: &[u8]) -> Option<Sheet> {
        let mut reader = Reader::new(bytes)?;
        let Head { tokens: n, params: p, keeps: k, mode, options } = reader.head;
        Some(Sheet {
            options,
            mode,
            tokens: (0..n).map(|_| Some(reader.token()?.owned())).collect::<Option<_>>()?,
            params: (0..p).map(|_| Some(reader.param()?.owned())).collect::<Option<_>>()?,
            keep: (0..k).map(|_| Some(reader.place()?.to_vec())).collect::<Option<_>>()?,
        })
    }
}

fn packed(token: &Token) -> u32 {
    let class = match token.key {
        Key::None => 0,
        Key::Named(_) => 1,
        Key::ZeroIndexed(_) => 2,
        Key::OneIndexed(_) => 3,
    };
    u32::from(token.kind) | class << 5 | u32::from(token.create) << 7
}

#[derive(Clone, Copy)]
pub struct Head {
    pub tokens: u32,
    pub params: u32,
    pub keeps: u32,
    pub mode: u32,
    pub options: Options,
}

/// Reads a sheet's records in turn, without a copy of their bytes.
pub struct Reader<'a> {
    pub head: Head,
    bytes: &'a [u8],
    at: usize,
    body: usize,
}

impl<'a> Reader<'a> {
    pub fn new(bytes: &'a [u8]) -> Option<Self> {
        let [
            tokens,
            params,
            keeps,
            _,
            mode,
            indent,
            case,
            inline,
            lines,
            block,
            arguments,
            top_level,
        ] = words(bytes, 0)?;
        let options = Options { indent, case, inline, lines, block, arguments, top_level };
        let head = Head { tokens, params, keeps, mode, options };
        let body = 48 + 20 * tokens as usize + 16 * params as usize + 8 * keeps as usize;
        Some(Reader { head, bytes, at: 48, body })
    }

    fn words<const N: usize>(&mut self) -> Option<[u32; N]> {
        let words = words(self.bytes, self.at)?;
        self.at += 4 * N;
        Some(words)
    }

    fn bytes_at(&self, start: u32, length: u32) -> Option<&'a [u8]> {
        let from = self.body + start as usize;
        self.bytes.get(from..from + length as usize)
    }

    pub fn place(&mut self) -> Option<&'a [u8]> {
        let [start, length] = self.words()?;
        self.bytes_at(start, length)
    }

    pub fn token(&mut self) -> Option<Token<&'a [u8]>> {
        let [packed, start, length, a, b] = self.words()?;
        let key = match packed >> 5 & 3 {
            0 => Key::None,
            1 => Key::Named(self.bytes_at(a, b)?),
            2 => Key::ZeroIndexed(a),
            _ => Key::OneIndexed(a),
        };
        let (kind, create) = ((packed & 31) as u8, packed >> 7 & 1 == 1);
        Some(Token { kind, value: self.bytes_at(start, length)?, key, create })
    }

    pub fn param(&mut self) -> Option<Param<&'a [u8]>> {
        Some(Param { name: self.place()?, value: self.place()? })
    }
}

fn words<const N: usize>(bytes: &[u8], at: usize) -> Option<[u32; N]> {
    let mut words = [0; N];
    for (word, four) in words.iter_mut().zip(bytes.get(at..at + 4 * N)?.chunks_exact(4)) {
        *word = u32::from_le_bytes(four.try_into().ok()?);
    }
    Some(words)
}
