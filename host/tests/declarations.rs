//! The C header, the Rust declarations and the exported functions have the same
//! types, and header and wrapper the same numbers. No compiler compares them: a
//! wrong one would only be seen in a call.

use std::collections::BTreeMap;
use std::fs;
use std::path::{Path, PathBuf};
use w83782d::Refusal;

/// Argument types and the type returned, as Rust writes them.
type Types = (Vec<String>, String);
type Functions = BTreeMap<String, Types>;

fn repository() -> PathBuf {
    Path::new(env!("CARGO_MANIFEST_DIR")).join("..")
}

fn text(path: &str) -> String {
    fs::read_to_string(repository().join(path)).expect(path)
}

/// On one line, with single spaces; `comment` starts a comment.
fn on_one_line(text: &str, comment: &str) -> String {
    let lines = text.lines().map(|line| line.split(comment).next().unwrap());
    let words: Vec<&str> = lines.flat_map(str::split_whitespace).collect();
    words.join(" ")
}

/// The arguments between the parentheses after a name.
fn arguments(list: &str) -> impl Iterator<Item = &str> {
    list.split(',').map(str::trim).filter(|one| !one.is_empty())
}

// ---- include/w83782d.h

/// What is before a function whose answer or value must not be ignored.
const MARK: &str = "W83782D_MUST_USE ";

/// The header's declarations, without comments and macros.
fn c_declarations() -> String {
    let header = text("include/w83782d.h");
    let code = without_c_comments(&header);
    on_one_line(&code, "#").replace("extern \"C\" {", "")
}

fn declared_in_c() -> Functions {
    let code = c_declarations().replace(MARK, "");
    code.split(';').filter_map(c_declaration).collect()
}

fn without_c_comments(text: &str) -> String {
    let mut parts = text.split("/*");
    let first = parts.next().unwrap_or_default().to_string();
    parts.fold(first, |code, part| {
        code + part.split_once("*/").expect("a comment ends").1
    })
}

fn c_declaration(text: &str) -> Option<(String, Types)> {
    let (head, list) = text.trim().strip_suffix(')')?.split_once('(')?;
    let (returned, name) = head.rsplit_once(' ')?;
    let arguments = arguments(list).map(|one| rust_type(c_type(one)));
    Some((name.into(), (arguments.collect(), rust_type(returned))))
}

/// An argument without its name.
fn c_type(argument: &str) -> &str {
    let name = |c: char| c.is_alphanumeric() || c == '_';
    argument.trim_end_matches(name).trim()
}

fn rust_type(c: &str) -> String {
    match c {
        "uint8_t *" => "*mut u8",
        "const uint8_t *" => "*const u8",
        "uint8_t" => "u8",
        "uint16_t" => "u16",
        "uint32_t" => "u32",
        "uint64_t" => "u64",
        "int8_t" => "i8",
        "int16_t" => "i16",
        "int32_t" => "i32",
        "size_t" => "usize",
        _ => panic!("C type {c:?}"),
    }
    .into()
}

// ---- src/raw.rs, and the exports of crates/w83782d_c

/// Functions of a text, each after these words; a slice is two arguments.
fn functions_after(words: &str, text: &str) -> Functions {
    let code = on_one_line(text, "//");
    code.split(words).skip(1).map(rust_declaration).collect()
}

fn rust_declaration(text: &str) -> (String, Types) {
    let (name, rest) = text.split_once('(').expect("arguments");
    let (list, rest) = rest.split_once(") -> ").expect("a returned type");
    let returned = rest.split([' ', ';']).next().unwrap_or_default();
    let arguments = arguments(list).flat_map(|one| {
        let (_, written) = one.split_once(": ").expect("a type");
        match written {
            "&mut [u8]" => vec!["*mut u8".into(), "usize".into()],
            "&[u8]" => vec!["*const u8".into(), "usize".into()],
            plain => vec![plain.into()],
        }
    });
    (name.into(), (arguments.collect(), returned.into()))
}

fn declared_in_rust() -> Functions {
    functions_after("pub fn ", &text("host/src/raw.rs"))
}

fn exported() -> Functions {
    let folder = repository().join("crates/w83782d_c/src");
    let files = fs::read_dir(folder).expect("the crate's files");
    files
        .map(|file| fs::read_to_string(file.unwrap().path()).expect("a text"))
        .flat_map(|text| functions_after("pub extern \"C\" fn ", &text))
        .collect()
}

#[test]
fn the_header_and_the_rust_declarations_have_the_same_types() {
    assert!(declared_in_c().len() >= 20);
    assert_eq!(declared_in_c(), declared_in_rust());
}

#[test]
fn every_function_of_the_header_is_marked_must_use() {
    let code = c_declarations();
    let declarations = code
        .split(';')
        .map(str::trim)
        .filter(|one| one.ends_with(')'));
    for declaration in declarations {
        assert!(declaration.starts_with(MARK), "{declaration}");
    }
}

#[test]
fn every_exported_function_is_declared_with_its_types() {
    let declared = declared_in_c();
    assert!(exported().len() >= 20);
    for (name, types) in exported() {
        assert_eq!(declared.get(&name), Some(&types), "{name}");
    }
}

#[test]
fn every_declared_function_is_exported() {
    let exported = exported();
    for name in functions_after("pub fn ", &text("host/src/raw.rs")).keys() {
        assert!(exported.contains_key(name), "{name}");
    }
}

/// "Answer numbers" of document 01.
#[test]
fn the_header_and_the_wrapper_number_answers_as_the_paper_does() {
    let header = on_one_line(&without_c_comments(&text("include/w83782d.h")), "//");
    let defined = |name: &str, number: u8| header.contains(&format!("W83782D_{name} {number} #"));
    assert!(defined("IMAGE_SIZE", 128) && defined("RECORD_SIZE", 32));
    assert!(defined("ACCEPTED", 0));
    for (number, name, refusal) in [
        (1, "NO_REGISTER", Refusal::NoRegister),
        (2, "READ_ONLY", Refusal::ReadOnly),
        (3, "BAD_TEMPERATURE", Refusal::BadTemperature),
        (4, "NOT_MONITORING", Refusal::NotMonitoring),
        (5, "BAD_RECORD", Refusal::BadRecord),
        (6, "BAD_SPEED", Refusal::BadSpeed),
        (7, "NO_CHANNEL", Refusal::NoChannel),
        (8, "BAD_LENGTH", Refusal::BadLength),
        (12, "DAY_FULL", Refusal::DayFull),
    ] {
        assert!(defined(name, number), "{name}");
        assert_eq!(refusal.number(), number, "{refusal}");
    }
}
