//! The seventeen calls and the three functions that read a block, with their parameters, in order, as the crates
//! of the engine export them; the C header and the Rust crate declare the same. A compiler sees types alone, of
//! which several parameters have the same.

use std::fs;
use std::path::Path;

const HEADER: &str = include_str!("../../../include/stemline_calls.h");
const RUST: &str = include_str!("../../src/ffi.rs");

/// What a function is: its name, its parameters and what it gives.
#[derive(Debug, PartialEq)]
struct Function {
    name: String,
    /// Each as it is written, with single spaces.
    parameters: Vec<String>,
    reply: String,
}

fn function(name: &str, parameters: &str, reply: &str) -> Function {
    let words = |text: &str| text.split_whitespace().collect::<Vec<_>>().join(" ");
    let parameters = parameters.split(',').map(words);
    Function {
        name: name.to_string(),
        parameters: parameters.filter(|one| !one.is_empty()).collect(),
        reply: words(reply),
    }
}

/// Each function behind a start such as `extern "C" fn `: a name, parameters in brackets, and behind an
/// arrow what it gives, up to an end.
fn functions(text: &str, start: &str, ends: &[char]) -> Vec<Function> {
    let found = text.split(start).skip(1).filter_map(|rest| {
        let (name, rest) = rest.split_once('(')?;
        let (parameters, rest) = rest.split_once(')')?;
        let reply = rest.trim_start().strip_prefix("->")?.split(ends).next()?;
        Some(function(name, parameters, reply))
    });
    found.collect()
}

/// A type of the engine in C.
fn in_c(name: &str) -> String {
    let c = match name {
        "u8" => "uint8_t",
        "u32" => "uint32_t",
        "i32" => "int32_t",
        "Txn" => "stemline_txn",
        "Group" => "stemline_group",
        "Turn" => "stemline_turn",
        "Counts" => "stemline_counts",
        "RestartReply" => "stemline_restart_reply",
        "BeginReply" => "stemline_begin_reply",
        "ReadReply" => "stemline_read_reply",
        "AskReply" => "stemline_ask_reply",
        "ReportReply" => "stemline_report_reply",
        "WorkReply" => "stemline_work_reply",
        "GiverReply" => "stemline_giver_reply",
        "GiveReply" => "stemline_give_reply",
        "BlockReply" => "stemline_block_reply",
        "RecordHead" => "stemline_record_values",
        "Entry" => "stemline_entry_values",
        _ => panic!("no type {name}"),
    };
    c.to_string()
}

/// A parameter of the engine in C: a slice is a pointer and its length.
fn parameter_in_c(parameter: &str) -> Vec<String> {
    let (name, kind) = parameter.split_once(": ").unwrap();
    let Some(lent) = kind.strip_prefix('&') else {
        return vec![format!("{} {name}", in_c(kind))];
    };
    let (changed, of) = match lent.strip_prefix("mut ") {
        Some(of) => ("", of),
        None => ("const ", lent),
    };
    let element = of.strip_prefix('[').and_then(|of| of.strip_suffix(']'));
    let pointer = format!("{changed}{} *{name}", in_c(element.unwrap_or(of)));
    match element {
        Some(_) => vec![pointer, format!("size_t {name}_length")],
        None => vec![pointer],
    }
}

/// By name: the crates' order is their own.
fn sorted(mut all: Vec<Function>) -> Vec<Function> {
    all.sort_by(|a, b| a.name.cmp(&b.name));
    all
}

/// The source of the crates that export functions: those whose names begin with `replica_`.
fn source() -> String {
    let crates = Path::new(env!("CARGO_MANIFEST_DIR")).join("../../crates");
    let crates = fs::read_dir(crates).unwrap().map(|entry| entry.unwrap());
    let exports =
        crates.filter(|entry| entry.file_name().to_string_lossy().starts_with("replica_"));
    let source = |entry: fs::DirEntry| fs::read_to_string(entry.path().join("src/lib.rt")).unwrap();
    exports.map(source).collect()
}

fn engine() -> Vec<Function> {
    let found = functions(&source(), "pub extern \"C\" fn ", &['\n', '{']);
    assert_eq!(found.len(), 17 + 3);
    sorted(found)
}

/// The prototypes of the header, which stand in its last two sections, behind a comment each.
#[test]
fn the_header_declares_them() {
    let (_, rest) = HEADER.split_once("---- The calls over lent parts").unwrap();
    let (sections, _) = rest.split_once("#ifdef").unwrap();
    let prototypes: Vec<_> = sections
        .split("/*")
        .filter_map(|one| one.split_once("*/"))
        .collect();
    assert_eq!(prototypes.len(), 2);
    let declared = prototypes
        .iter()
        .flat_map(|(_, section)| section.split(';'));
    let declared = declared.filter(|one| !one.trim().is_empty());
    let declared = declared.map(|one| {
        let (front, parameters) = one.split_once('(').unwrap();
        let (reply, name) = front.trim().rsplit_once(' ').unwrap();
        function(name, parameters.trim_end_matches(')'), reply)
    });
    let due = engine().into_iter().map(|function| Function {
        reply: in_c(&function.reply),
        parameters: function
            .parameters
            .iter()
            .flat_map(|one| parameter_in_c(one))
            .collect(),
        name: function.name,
    });
    let due: Vec<_> = due.collect();
    assert_eq!(sorted(declared.collect()), due);
}

/// The crate's, which writes `mut [T]` and `ref [T]` for slices.
#[test]
fn the_crate_declares_them() {
    let (_, calls) = RUST.split_once("\ncalls! {").unwrap();
    let calls = calls.replace("mut [", "&mut [").replace("ref [", "&[");
    let declared = functions(&calls, " = ", &[';']);
    assert_eq!(sorted(declared), engine());
}
