//! Token streams as the desk's lexer sends them for queries of the usual shape.

#[cfg(feature = "call")]
pub mod sized;

use super::{Dice, Size};
use crate::sheet::*;

struct Stream<'d> {
    dice: &'d mut Dice,
    tokens: Vec<Token>,
    upper: bool,
    most: usize,
    /// Some comments switch the layout off and on.
    switches: bool,
}

pub fn tokens(dice: &mut Dice, size: Size) -> Vec<Token> {
    let most = if size == Size::Table { 10 } else { 20 + dice.below(120) };
    let upper = dice.one_in(2);
    let mut stream = Stream { dice, tokens: Vec::new(), upper, most, switches: true };
    for _ in 0..1 + stream.dice.below(2) {
        stream.statement(0);
        if stream.dice.one_in(2) {
            stream.put(OPERATOR, ";");
            stream.gap();
        }
    }
    stream.tokens.truncate(most);
    stream.tokens
}

impl Stream<'_> {
    fn put(&mut self, kind: u8, value: &str) {
        let reserved = (RESERVED..=NEWLINE_AFTER).contains(&kind);
        let lower = reserved && !self.upper;
        let value = if lower { value.to_lowercase() } else { value.to_owned() };
        self.tokens.push(Token::new(kind, &value));
    }

    fn gap(&mut self) {
        let white = self.dice.pick(&[" ", " ", " ", " ", "\n", "\n  ", "  "]);
        if !self.dice.one_in(12) {
            self.put(WHITESPACE, white);
        }
        if self.dice.one_in(25) {
            let comments = ["-- note", "-- fmt: off", "-- fmt: on", "--x"];
            let comment = self.dice.pick(&comments);
            self.put(LINE_COMMENT, if self.switches { comment } else { comments[0] });
            self.put(WHITESPACE, "\n");
        } else if self.dice.one_in(40) {
            self.put(BLOCK_COMMENT, "/* one\n   two */");
        }
    }

    fn word(&mut self, kind: u8, value: &str) {
        self.put(kind, value);
        self.gap();
    }

    fn full(&self) -> bool {
        self.tokens.len() >= self.most
    }

    fn statement(&mut self, depth: usize) {
        match self.dice.below(6) {
            0 => self.insert(),
            1 => self.update(depth),
            2 => self.create(),
            3 => {
                self.word(NO_INDENT, "WITH");
                self.word(WORD, "c");
                self.word(RESERVED, "AS");
                self.subquery(depth);
                self.gap();
                self.select(depth);
            }
            _ => self.select(depth),
        }
    }

    fn select(&mut self, depth: usize) {
        self.word(TOP_LEVEL, "SELECT");
        self.list(depth);
        self.word(TOP_LEVEL, "FROM");
        match self.dice.one_in(4) {
            true => self.subquery(depth),
            false => self.word(WORD, "calls"),
        }
        while self.dice.one_in(3) && !self.full() {
            let join = self.dice.pick(&["LEFT JOIN", "JOIN", "INNER  JOIN"]);
            self.word(NEWLINE, join);
            self.word(WORD, "notes");
            self.word(RESERVED, "ON");
            self.condition(depth);
        }
        if self.dice.one_in(2) {
            self.word(TOP_LEVEL, "WHERE");
            self.condition(depth);
        }
        if self.dice.one_in(3) {
            self.word(TOP_LEVEL, "ORDER BY");
            self.list(depth);
        }
        if self.dice.one_in(3) {
            self.word(TOP_LEVEL, "LIMIT");
            self.put(NUMBER, "10");
            self.word(OPERATOR, ",");
            self.word(NUMBER, "20");
        }
        if self.dice.one_in(6) && !self.full() {
            self.word(NO_INDENT, "UNION ALL");
            self.select(depth);
        }
    }

    fn insert(&mut self) {
        self.word(TOP_LEVEL, "INSERT INTO");
        self.word(WORD, "notes");
        self.put(OPEN, "(");
        self.list(3);
        self.word(CLOSE, ")");
        self.word(TOP_LEVEL, "VALUES");
        self.put(OPEN, "(");
        self.list(3);
        self.word(CLOSE, ")");
        if self.dice.one_in(3) {
            self.word(NEWLINE_AFTER, "RETURNING");
            self.list(3);
        }
    }

    fn update(&mut self, depth: usize) {
        self.word(TOP_LEVEL, "UPDATE");
        self.word(WORD, "calls");
        self.word(NEWLINE_AFTER, "SET");
        self.list(depth);
        self.word(TOP_LEVEL, "WHERE");
        self.condition(depth);
    }

    fn create(&mut self) {
        self.put(TOP_LEVEL, "CREATE TABLE");
        if let Some(token) = self.tokens.last_mut() {
            token.create = true;
        }
        self.gap();
        self.word(WORD, "calls");
        self.put(OPEN, "(");
        for _ in 0..1 + self.dice.below(3) {
            self.word(WORD, "id");
            self.word(RESERVED, "INT");
            self.word(OPERATOR, ",");
        }
        self.word(CLOSE, ")");
    }

    fn list(&mut self, depth: usize) {
        self.expression(depth);
        while self.dice.one_in(2) && !self.full() {
            self.word(OPERATOR, ",");
            self.expression(depth);
        }
    }

    fn condition(&mut self, depth: usize) {
        self.expression(depth);
        self.word(OPERATOR, "=");
        self.expression(depth);
        while self.dice.one_in(2) && !self.full() {
            let word = self.dice.pick(&["AND", "OR"]);
            self.word(NEWLINE, word);
            self.expression(depth);
            self.word(RESERVED, "IN");
            self.put(OPEN, "(");
            self.list(depth + 1);
            self.word(CLOSE, ")");
        }
    }

    fn subquery(&mut self, depth: usize) {
        self.put(OPEN, "(");
        if depth < 3 && !self.full() {
            self.select(depth + 1);
        }
        self.put(CLOSE, ")");
        self.gap();
    }

    fn expression(&mut self, depth: usize) {
        match self.dice.below(if depth < 3 && !self.full() { 9 } else { 5 }) {
            0 => self.word(NUMBER, "42"),
            1 => self.word(STRING, "'on air'"),
            2 => self.placeholder(),
            3 => self.word(WORD, "line_number"),
            4 => {
                self.put(WORD, "c");
                self.put(OPERATOR, ".");
                self.word(WORD, "id");
            }
            5 => {
                self.put(WORD, "count");
                self.put(OPEN, "(");
                self.list(depth + 1);
                self.word(CLOSE, ")");
            }
            6 => self.case(depth),
            7 => self.subquery(depth),
            _ => {
                self.put(WORD, "at");
                self.word(TYPE_SPECIFIER, "::date");
            }
        }
    }

    fn placeholder(&mut self) {
        let (value, key) = match self.dice.below(4) {
            0 => ("?", Key::None),
            1 => (":line", Key::Named(b"line".to_vec())),
            2 => ("$1", Key::OneIndexed(1)),
            _ => ("$2", Key::OneIndexed(2)),
        };
        self.put(PLACEHOLDER, value);
        if let Some(token) = self.tokens.last_mut() {
            token.key = key;
        }
        self.gap();
    }

    fn case(&mut self, depth: usize) {
        self.word(OPEN, "CASE");
        self.word(NEWLINE, "WHEN");
        self.expression(depth + 1);
        self.word(RESERVED, "THEN");
        self.expression(depth + 1);
        self.word(NEWLINE, "ELSE");
        self.expression(depth + 1);
        self.word(CLOSE, "END");
    }
}
