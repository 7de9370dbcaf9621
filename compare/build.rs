//! Points the crate root at the Rust that judges the layout, wherever that folder lies.

use std::path::{Path, PathBuf};
use std::{env, fs};

const PARTS: [&str; 4] = ["formatter", "indentation", "inline_block", "params"];
const DEFAULTS: &str = "impl<'a> Default for FormatOptions<'a> {";
const NEXT_TOKEN: &str = "formatter.index = index;";
const SHOWN: &str = "query.push_str(self.params.get(token));";

fn main() {
    let home = PathBuf::from(env::var_os("CARGO_MANIFEST_DIR").expect("set by cargo"));
    let out = PathBuf::from(env::var_os("OUT_DIR").expect("set by cargo"));
    let given = env::var_os("TWIGMANTLE_RUST").unwrap_or("../../shared/docs/src/src".into());
    let source = fs::canonicalize(home.join(&given))
        .unwrap_or_else(|e| panic!("no Rust source at {given:?} ({e}): set TWIGMANTLE_RUST"));
    println!("cargo:rerun-if-env-changed=TWIGMANTLE_RUST");
    println!("cargo:rerun-if-changed=build.rs");
    println!("cargo:rerun-if-env-changed=TWIGMANTLE_LIB");
    if env::var_os("CARGO_FEATURE_CALL").is_some() {
        let given = env::var_os("TWIGMANTLE_LIB").unwrap_or("../target/staticlib".into());
        link(&home.join(given));
    }

    let mut root = defaults(&source.join("lib.rs"));
    for part in PARTS {
        let file = source.join(part).with_extension("rs");
        println!("cargo:rerun-if-changed={}", file.display());
        root += &module(part, &file);
    }
    let watched = out.join("watched_formatter.rs");
    fs::write(&watched, watch(&source.join("formatter.rs"))).expect("OUT_DIR can be written");
    root += &module("watched_formatter", &watched);
    fs::write(out.join("oracle_modules.rs"), root).expect("OUT_DIR can be written");
}

/// The proved call, as `tools/staticlib` left it.
fn link(folder: &Path) {
    let library = folder.join("libtwigmantle.a");
    assert!(library.exists(), "no {library:?}: run tools/staticlib first");
    println!("cargo:rustc-link-search=native={}", folder.display());
    println!("cargo:rustc-link-lib=static=twigmantle");
    println!("cargo:rerun-if-changed={}", library.display());
}

/// The Rust's own default options, as its `lib.rs` writes them.
fn defaults(file: &Path) -> String {
    println!("cargo:rerun-if-changed={}", file.display());
    let text = fs::read_to_string(file).expect("lib.rs can be read");
    let from = text.find(DEFAULTS).expect("lib.rs is not the known one");
    let length = text[from..].find("\n}\n").expect("lib.rs is not the known one") + 3;
    text[from..from + length].to_owned()
}

fn module(name: &str, file: &Path) -> String {
    format!("#[allow(dead_code)]\n#[path = {file:?}]\nmod {name};\n")
}

/// The unchanged formatter hides its working text. This second copy writes into a text that
/// keeps its heights, token by token, and the stretches of what placeholders show, so that refusal 9
/// and the rows can be held against the Rust too.
fn watch(file: &Path) -> String {
    let text = fs::read_to_string(file).expect("formatter.rs can be read");
    for known in [NEXT_TOKEN, SHOWN] {
        assert_eq!(text.matches(known).count(), 1, "formatter.rs is not the known one");
    }
    let text = text.replace(NEXT_TOKEN, &format!("{NEXT_TOKEN} formatted_query.at(index);"));
    let text = text.replace(SHOWN, &SHOWN.replace("push_str", "show"));
    format!("use crate::watched::String;\n{text}")
}
