//! Compares document 01's rules (`docs/sheet.md`), and any port's answers, with the Rust that the
//! desk runs.

mod answers;
#[cfg(feature = "call")]
mod call;
mod check;
mod compacted;
mod converted;
mod judged;
mod mended;
mod model;
mod once;
mod oracle;
mod pairs;
mod pointed;
mod random;
mod roomed;
mod samples;
mod sheet;
mod show;
#[cfg(feature = "call")]
mod speed;
mod starred;
mod table;
mod tight;
mod tokenizer;
mod watched;

include!(concat!(env!("OUT_DIR"), "/oracle_modules.rs"));

use std::process::ExitCode;

// What the source's `lib.rs` declares: its other half, the lexer, is not built here.

#[allow(dead_code)]
#[derive(Debug, Clone, Copy)]
pub(crate) enum Dialect {
    Generic,
}

#[allow(dead_code)]
#[derive(Debug, Clone)]
pub(crate) struct FormatOptions<'a> {
    pub indent: Indent,
    pub uppercase: Option<bool>,
    pub lines_between_queries: u8,
    pub ignore_case_convert: Option<Vec<&'a str>>,
    pub inline: bool,
    pub max_inline_block: usize,
    pub max_inline_arguments: Option<usize>,
    pub max_inline_top_level: Option<usize>,
    pub joins_as_top_level: bool,
    pub dialect: Dialect,
}

#[derive(Debug, Clone, Copy)]
pub(crate) enum Indent {
    Spaces(u8),
    Tabs,
}

#[derive(Debug, Clone)]
pub(crate) enum QueryParams {
    Named(Vec<(String, String)>),
    Indexed(Vec<String>),
    None,
}

#[derive(Default, Debug, Clone)]
pub(crate) struct SpanInfo {
    pub full_span: usize,
    pub blocks: usize,
    pub newline_before: bool,
    pub newline_after: bool,
    pub arguments: usize,
}

const USAGE: &str = "compare check N SEED
compare pairs N SEED [empty | first | last]
compare table N SEED FIRST
compare list N SEED
compare show FILE [ROOM]
compare starred
compare tight N SEED
compare answers N SEED FILE
compare samples FOLDER
compare speed SEED [PART] (built with --profile speed --features call)
compare plot SEED FILE (the same, with --features once)
compare search N SEED (the same)";

fn main() -> ExitCode {
    oracle::silence_panics();
    let arguments: Vec<String> = std::env::args().skip(1).collect();
    let words: Vec<&str> = arguments.iter().map(String::as_str).collect();
    // The hook is silent, so a panic of the harness itself must be told here.
    let result = std::panic::catch_unwind(|| run(&words));
    match result {
        Err(_) => {
            eprintln!("{}", oracle::last_panic());
            ExitCode::from(101)
        }
        Ok(Some(true)) => ExitCode::SUCCESS,
        Ok(Some(false)) => ExitCode::FAILURE,
        Ok(None) => {
            eprintln!("{USAGE}");
            ExitCode::from(2)
        }
    }
}

/// `None` if the words are no command.
fn run(words: &[&str]) -> Option<bool> {
    match words {
        ["check", n, seed] => Some(check::run(n.parse().ok()?, seed.parse().ok()?)),
        ["pairs", n, seed] => Some(pairs::run(n.parse().ok()?, seed.parse().ok()?, None)),
        ["pairs", n, seed, dropped] => {
            let dropped = Some(pairs::premise(dropped)?);
            Some(pairs::run(n.parse().ok()?, seed.parse().ok()?, dropped))
        }
        ["table", n, seed, first] => {
            Some(table::table(n.parse().ok()?, seed.parse().ok()?, first.parse().ok()?))
        }
        ["list", n, seed] => Some(table::list(n.parse().ok()?, seed.parse().ok()?)),
        ["show", file] => Some(show::run(file, 65536)),
        ["show", file, room] => Some(show::run(file, room.parse().ok()?)),
        #[cfg(feature = "call")]
        ["speed", seed] => Some(speed::run(seed.parse().ok()?, "")),
        #[cfg(feature = "call")]
        ["speed", seed, part] => Some(speed::run(seed.parse().ok()?, part)),
        #[cfg(feature = "once")]
        ["plot", seed, file] => Some(speed::once::run(seed.parse().ok()?, "", Some(file))),
        #[cfg(feature = "call")]
        ["search", n, seed] => Some(speed::search::run(n.parse().ok()?, seed.parse().ok()?)),
        ["starred"] => Some(starred::run()),
        ["tight", n, seed] => Some(tight::run(n.parse().ok()?, seed.parse().ok()?)),
        ["answers", n, seed, file] => Some(answers::run(n.parse().ok()?, seed.parse().ok()?, file)),
        ["samples", folder] => Some(samples::run(folder)),
        _ => None,
    }
}
