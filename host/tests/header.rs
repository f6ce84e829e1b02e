//! `src/boundary.rs` is the header word for word: the same numbers, the same fields and the same calls, by name and in order.

use nyokazerubi_host::boundary::{
    bounds_entries, frame_bytes, image_bytes, summaries_entries, table_entries, trace_bytes, Body, BodyFramed,
    BodyPlanned, BodyRun, Fault, Framed, Limited, Opened, Place, Planned, Reading, Refreshed, Unpacked, Written,
    MOST_ACTIONS, MOST_POSITIONS, MOST_RECORDS, MOST_REPEATS,
};
use std::fs;
use std::mem::{offset_of, size_of};
use std::path::Path;

fn file(path: &str) -> String {
    let path = Path::new(env!("CARGO_MANIFEST_DIR")).join(path);
    fs::read_to_string(&path).unwrap_or_else(|error| panic!("{}: {error}", path.display()))
}

/// The header without its comments.
fn header() -> String {
    let mut text = String::new();
    for (at, part) in file("../include/nyokazerubi.h").split("/*").enumerate() {
        text += if at == 0 { part } else { part.split_once("*/").expect("a comment ends").1 };
    }
    text
}

fn boundary() -> String {
    let text = file("src/boundary.rs");
    text.lines().filter(|line| !line.trim_start().starts_with("//")).collect::<Vec<_>>().join("\n")
}

/// The last word of a C declaration, the first of a Rust one.
fn c_name(declaration: &str) -> String {
    declaration.trim().rsplit([' ', '*']).next().expect("a word").to_string()
}

fn rust_name(declaration: &str) -> String {
    declaration.trim().trim_start_matches("pub ").split(':').next().expect("a word").to_string()
}

/// What stands between two texts, each time.
fn between<'a>(text: &'a str, begins: &str, ends: &str) -> Vec<&'a str> {
    text.split(begins).skip(1).filter_map(|rest| rest.split_once(ends)).map(|(part, _)| part).collect()
}

fn names(list: &str, by: char, name: fn(&str) -> String) -> Vec<String> {
    list.split(by).filter(|part| !part.trim().is_empty() && part.trim() != "void").map(name).collect()
}

#[test]
fn numbers() {
    let digits = |text: &str| {
        let number = text.split("/*").next().expect("a number");
        number.trim().trim_end_matches('u').replace('_', "")
    };
    let of_header: Vec<(String, String)> = between(&header(), "enum {", "};")[0]
        .split(',')
        .map(|part| part.split_once('=').expect("a number"))
        .map(|(name, number)| (name.trim().trim_start_matches("NYOKAZERUBI_").to_string(), digits(number)))
        .collect();
    let of_rust: Vec<(String, String)> = between(&boundary(), "pub const ", ";")
        .iter()
        .filter_map(|part| part.split_once(": u32 = "))
        .filter(|(name, _)| *name == "ACCEPTED" || name.starts_with("REFUSED_"))
        .map(|(name, number)| (name.to_string(), digits(number)))
        .collect();
    assert_eq!(of_header.len(), 21);
    assert_eq!(of_header, of_rust);
    let (text, rust) = (header(), boundary());
    for name in [
        "BOUNDARY",
        "MOST_ACTIONS",
        "MOST_LEVELS",
        "LONGEST_COAST",
        "MOST_RECORDS",
        "MOST_FRAMES",
        "MOST_REPEATS",
        "MOST_POSITIONS",
        "SUMMARY_NUMBERS",
        "LAST_CLOCK",
        "LONGEST_TIME",
        "NO_ACTION",
        "POLICY_2008",
        "POLICY_2005",
    ] {
        let in_header = between(&text, &format!("#define NYOKAZERUBI_{name} "), "\n")[0];
        let in_rust = between(&rust, &format!("pub const {name}: "), ";")[0].split_once("= ").expect("a number").1;
        assert_eq!(digits(in_header), digits(in_rust), "{name}");
    }
}

/// The sizes of what is lent, which the header has as macros.
#[test]
fn sizes() {
    let of_header: Vec<(String, Vec<String>)> = between(&header(), "#define NYOKAZERUBI_", ")")
        .iter()
        .filter_map(|part| part.split_once('('))
        .filter(|(name, _)| !name.contains([' ', '\n']))
        .map(|(name, list)| (name.to_lowercase(), names(list, ',', c_name)))
        .collect();
    let of_rust: Vec<(String, Vec<String>)> = between(&boundary(), "pub const fn ", ")")
        .iter()
        .map(|part| part.split_once('(').expect("parameters"))
        .map(|(name, list)| (name.to_string(), names(list, ',', rust_name)))
        .collect();
    assert_eq!(of_header.len(), 6);
    assert_eq!(of_header, of_rust);
    // As the header's memory table has them in bytes, of the encoder and of the most.
    let of = |n, levels| [image_bytes(n, levels), 4 * table_entries(n, levels), 4 * bounds_entries(n, levels)];
    assert_eq!([of(9, 8), of(64, 8)], [[546, 288, 4608], [3846, 2048, 32768]]);
    assert_eq!([frame_bytes(9, 8), frame_bytes(64, 8), trace_bytes(MOST_RECORDS)], [288, 2048, 327_675]);
    assert_eq!([4 * summaries_entries(9, 8), 4 * summaries_entries(64, 8)], [1152, 8192]);
    assert_eq!(MOST_POSITIONS, MOST_ACTIONS * MOST_REPEATS as usize);
    // Of a body repeated, to plan and run it; and the durations of a dry run.
    let body = |n, levels| {
        let tables = 4 * table_entries(n, levels) + 4 * summaries_entries(n, levels);
        [
            image_bytes(n, levels) + n + tables + size_of::<BodyRun>(),
            4 * table_entries(n * MOST_REPEATS as usize, levels),
        ]
    };
    assert_eq!([body(9, 8), body(64, 8)], [[2043, 466_560], [14_198, 3_317_760]]);
}

/// The answers of the calls that take an image or write one, which have the number and the action of a refusal first, and the records of a body
/// repeated lie as other hosts have them.
#[test]
fn layout() {
    assert_eq!([size_of::<Fault>(), offset_of!(Fault, number), offset_of!(Fault, action)], [8, 0, 4]);
    assert_eq!([size_of::<Unpacked>(), offset_of!(Unpacked, n)], [32, 8]);
    assert_eq!([size_of::<Written>(), offset_of!(Written, bytes)], [16, 8]);
    assert_eq!([size_of::<Place>(), offset_of!(Place, start)], [24, 8]);
    assert_eq!([size_of::<Planned>(), offset_of!(Planned, n)], [32, 8]);
    assert_eq!([size_of::<Framed>(), offset_of!(Framed, n)], [32, 8]);
    assert_eq!([size_of::<Opened>(), offset_of!(Opened, n)], [40, 8]);
    assert_eq!([size_of::<Reading>(), offset_of!(Reading, spent), offset_of!(Reading, ratio)], [24, 8, 16]);
    assert_eq!([size_of::<Refreshed>(), offset_of!(Refreshed, bytes)], [16, 8]);
    assert_eq!([size_of::<Body>(), size_of::<BodyPlanned>(), size_of::<Limited>()], [20, 28, 16]);
    assert_eq!([size_of::<BodyRun>(), size_of::<BodyFramed>()], [48, 32]);
    // The run record has no padding but its tail: each field begins where the one before it ends.
    assert_eq!([offset_of!(BodyRun, body), offset_of!(BodyRun, level), offset_of!(BodyRun, clock)], [0, 20, 24]);
    assert_eq!([offset_of!(BodyRun, position), offset_of!(BodyRun, left), offset_of!(BodyRun, running)], [32, 36, 37]);
    assert_eq!([offset_of!(BodyRun, overrun), offset_of!(BodyRun, late), offset_of!(BodyRun, decisions)], [38, 39, 40]);
    assert_eq!([offset_of!(Body, repeats), offset_of!(Body, policy), offset_of!(BodyPlanned, body)], [12, 16, 8]);
    assert_eq!(
        [offset_of!(Limited, limit), offset_of!(BodyFramed, end), offset_of!(BodyFramed, positions)],
        [8, 16, 24]
    );
}

/// The words of a name of Rust, as the header has them.
fn words(name: &str) -> String {
    let mut words = String::new();
    for letter in name.chars() {
        if letter.is_uppercase() && !words.is_empty() {
            words.push('_');
        }
        words.extend(letter.to_lowercase());
    }
    words
}

#[test]
fn fields() {
    let of_header: Vec<(String, Vec<String>)> = between(&header(), "\nstruct nyokazerubi_", "};")
        .iter()
        .filter_map(|part| part.split_once(" {\n"))
        .filter(|(name, _)| !name.contains(' '))
        .map(|(name, list)| (name.to_string(), names(list, ';', c_name)))
        .collect();
    let of_rust: Vec<(String, Vec<String>)> = between(&boundary(), "pub struct ", "}")
        .iter()
        .map(|part| part.split_once(" {").expect("fields"))
        .map(|(name, list)| (words(name), names(list, ',', rust_name)))
        .collect();
    assert_eq!(of_header.len(), 20);
    assert_eq!(of_header, of_rust);
}

#[test]
fn calls() {
    let text = header().replace("struct nyokazerubi_", "");
    let of_header: Vec<(String, Vec<String>)> = between(&text, "nyokazerubi_", ";")
        .iter()
        .filter_map(|part| part.split_once('('))
        .filter(|(name, list)| !name.contains([' ', '\n', ')']) && list.ends_with(')'))
        .map(|(name, list)| (name.to_string(), names(list.trim_end_matches(')'), ',', c_name)))
        .collect();
    let of_rust: Vec<(String, Vec<String>)> = between(&boundary(), "pub fn nyokazerubi_", ";")
        .iter()
        .map(|part| part.split_once('(').expect("parameters"))
        .map(|(name, list)| (name.to_string(), names(list.rsplit_once(')').expect("an end").0, ',', rust_name)))
        .collect();
    assert_eq!(of_header.len(), 25);
    assert_eq!(of_header, of_rust);
}
