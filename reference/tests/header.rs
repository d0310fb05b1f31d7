//! include/pay.h: the declarations of src/archive.rs, the places of an answer
//! and the limits are the header's.

use reference::answer::{PLACES, Place, What};
use reference::header::{Prototype, enumerations, prototypes};
use reference::{MAX_ASSIGNMENTS, MAX_RECORDS, RECORD};

const HEADER: &str = include_str!("../../include/pay.h");
const ARCHIVE: &str = include_str!("../src/archive.rs");

/// The header's number of this name.
fn number(name: &str) -> u64 {
    let all: Vec<(String, u64)> = enumerations(HEADER).into_iter().flatten().collect();
    let found: Vec<u64> = all.iter().filter(|(each, _)| each == name).map(|each| each.1).collect();
    assert_eq!(found.len(), 1, "{name} stands {} times in the header", found.len());
    found[0]
}

/// The names and numbers of the header's `enum` that has this name, but for
/// `PAY_ANSWER`, which is no place.
fn beside(name: &str) -> Vec<(String, u64)> {
    let has = |names: &&Vec<(String, u64)>| names.iter().any(|(each, _)| each == name);
    let all = enumerations(HEADER);
    let found = all.iter().find(has).expect("an enum with this name").iter();
    found.filter(|(each, _)| each != "PAY_ANSWER").cloned().collect()
}

/// A name of this implementation as the header writes it: FirstDate is PAY_FIRST_DATE.
fn in_header(name: String) -> String {
    name.chars().fold("PAY".into(), |so_far, each| {
        let parted = if each.is_uppercase() { "_" } else { "" };
        so_far + parted + &each.to_uppercase().to_string()
    })
}

/// A type of C as Rust has it.
fn number_type(c: &str) -> &'static str {
    match c {
        "uint64_t" => "u64",
        "uint8_t" => "u8",
        _ => panic!("no type of the header: {c}"),
    }
}

/// A parameter of C as Rust has it.
fn parameter(c: &str) -> String {
    let (whole, constant) = (c.strip_prefix("const ").unwrap_or(c), c.starts_with("const "));
    let (c_type, name) = whole.split_once(' ').expect("a type and a name");
    // A name that Rust keeps for itself is marked.
    let name = if name == "type" { "r#type" } else { name };
    let each = number_type(c_type);
    match (name.strip_prefix('*'), name.split_once('[')) {
        (Some(name), None) if constant => format!("{name}: *const {each}"),
        (Some(name), None) => format!("{name}: *mut {each}"),
        (None, Some((name, count))) if !constant => {
            let count = count.strip_suffix(']').expect("a count in brackets");
            let count = count.parse().unwrap_or_else(|_| number(count));
            format!("{name}: *mut [{each}; {count}]")
        }
        (None, None) if !constant => format!("{name}: {each}"),
        _ => panic!("no parameter of the header: {c}"),
    }
}

fn declaration(prototype: &Prototype) -> String {
    let Prototype { returns, name, parameters } = prototype;
    assert_eq!(returns, "void", "{name}");
    let parameters: Vec<String> = parameters.iter().map(|each| parameter(each)).collect();
    format!("fn {name}({})", parameters.join(", "))
}

/// The declarations of src/archive.rs, each on one line.
fn declarations() -> Vec<String> {
    let (_, behind) = ARCHIVE.split_once("unsafe extern \"C\" {").expect("declarations");
    let (block, _) = behind.split_once("\n}").expect("their end");
    let line = |each: &str| each.split_whitespace().collect::<Vec<_>>().join(" ");
    let lines = block.split_inclusive(");").map(line);
    lines.map(|each| each.replace("( ", "(").replace(", )", ")").replace(");", ")")).collect()
}

#[test]
fn declarations_are_the_prototypes() {
    let prototypes: Vec<String> = prototypes(HEADER).iter().map(declaration).collect();
    assert_eq!(declarations(), prototypes);
    let told = HEADER.matches("answer[PAY_ANSWER]);").count();
    assert!(told > 0 && told == prototypes.len(), "{told} prototypes by another look");
}

/// A pointer to bytes goes with their number, and the answer comes last.
#[test]
fn pointers_have_lengths() {
    for Prototype { name, parameters, .. } in prototypes(HEADER) {
        assert_eq!(parameters.last().unwrap(), "uint64_t answer[PAY_ANSWER]", "{name}");
        for (each, next) in parameters.iter().zip(&parameters[1..]) {
            if let Some((_, pointer)) = each.split_once('*') {
                assert_eq!(*next, format!("uint64_t {pointer}_length"), "{name}");
            }
        }
    }
}

#[test]
fn places_are_the_headers() {
    let places = Place::ALL.map(|place| (in_header(format!("{place:?}")), place as u64));
    assert_eq!(beside("PAY_ANSWER"), places);
    assert_eq!(number("PAY_ANSWER"), PLACES as u64);
    let what = What::ALL.map(|what| (in_header(format!("{what:?}")), what as u64));
    assert_eq!(beside("PAY_REFUSED"), what);
}

#[test]
fn limits_are_the_headers() {
    assert_eq!(number("PAY_RECORD_BYTES"), RECORD as u64);
    assert_eq!(number("PAY_MOST_RECORDS"), MAX_RECORDS as u64);
    assert_eq!(number("PAY_MOST_ASSIGNMENTS"), MAX_ASSIGNMENTS.into());
    assert_eq!(number("PAY_MOST_BYTES"), (MAX_RECORDS * RECORD) as u64);
}
