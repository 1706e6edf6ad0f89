//! The names and numbers of the C headers are those of the Rust library and of
//! documents 01 and 02.

use rotundaaloe::{Lock, Operations, Refusal, VERSION, raw};
use std::collections::BTreeMap;

const HEADER: &str = include_str!("../../include/rotundaaloe.h");
const RAW: &str = include_str!("../../include/rotundaaloe_raw.h");

const REFUSALS: [Refusal; 19] = [
    Refusal::UnknownUser,
    Refusal::NoThread,
    Refusal::NoSegment,
    Refusal::NoKey,
    Refusal::NoLock,
    Refusal::NotOwner,
    Refusal::Unfit,
    Refusal::AlreadyPresent,
    Refusal::NotPresent,
    Refusal::Full,
    Refusal::Malformed,
    Refusal::TooWide,
    Refusal::Unsatisfiable,
    Refusal::Denied(Lock(7)),
    Refusal::NotGranted,
    Refusal::NotJournal,
    Refusal::OtherVersion,
    Refusal::Corrupt,
    Refusal::TooFewRows,
];

/// `NoThread` in lower case: `no_thread`.
fn snake(name: &str) -> String {
    let mut spelt = String::new();
    for letter in name.chars() {
        if letter.is_uppercase() && !spelt.is_empty() {
            spelt.push('_');
        }
        spelt.extend(letter.to_lowercase());
    }
    spelt
}

/// A refusal's name in Rust, without its lock.
fn name(refusal: Refusal) -> String {
    let shown = format!("{refusal:?}");
    shown.split('(').next().expect("a name").to_owned()
}

#[test]
fn refusals() {
    assert!(HEADER.contains("    ROTUNDAALOE_ACCEPTED = 0,"));
    for (refusal, number) in REFUSALS.into_iter().zip(1..) {
        assert_eq!(refusal.number(), number, "{refusal:?}");
        let name = snake(&name(refusal)).to_uppercase();
        let line = HEADER
            .lines()
            .map(str::trim_start)
            .find(|line| line.starts_with(&format!("ROTUNDAALOE_{name} =")));
        let line = line.unwrap_or_else(|| panic!("{name} is not in the header"));
        let (_, rest) = line.split_once("= ").expect("a number");
        let given: String = rest.chars().take_while(char::is_ascii_digit).collect();
        assert_eq!(given, number.to_string(), "{name}");
        let word = format!("/* {} */", refusal.word());
        assert!(line.ends_with(&word), "{line}");
    }
}

#[test]
fn operations() {
    for (name, operations) in [
        ("EXECUTE", Operations::EXECUTE),
        ("READ", Operations::READ),
        ("WRITE", Operations::WRITE),
    ] {
        let line = format!("ROTUNDAALOE_{name} = {},", operations.0);
        assert!(HEADER.contains(&line), "{line}");
    }
    assert_eq!(Operations::WRITE.denied(), Operations(4 + 8));
    assert_eq!(Operations::READ.and(Operations::WRITE), Operations(6));
}

/// The text that a macro stands for.
fn defined<'a>(header: &'a str, name: &str) -> &'a str {
    let start = format!("#define ROTUNDAALOE_{name} ");
    let line = header.lines().find_map(|line| line.strip_prefix(&start));
    let line = line.unwrap_or_else(|| panic!("{name} is not defined"));
    line.split("/*").next().expect("a text").trim()
}

/// Those of both are the same.
#[test]
fn limits() {
    let number = |text: &str| text.replace('_', "").parse().expect("a number");
    let library = include_str!("../src/limits.rs").lines();
    let library =
        library.filter_map(|line| line.strip_prefix("pub const ")?.split_once(": usize = "));
    let library: BTreeMap<&str, u32> = library
        .map(|(name, value)| (name, number(value.trim_end_matches(';'))))
        .collect();
    let names = RAW
        .lines()
        .filter_map(|line| line.strip_prefix("#define ROTUNDAALOE_"));
    let names = names.filter_map(|rest| rest.split(' ').next());
    let header: BTreeMap<&str, u32> = names
        .filter(|name| name.starts_with("MOST_") || name.starts_with("JOURNAL_"))
        .map(|name| (name, number(defined(RAW, name))))
        .collect();
    assert_eq!(header, library);
    assert_eq!(header.len(), 13);
}

#[test]
fn version() {
    let part = |name| defined(HEADER, name).parse().expect("a number");
    let parts = ["VERSION_MAJOR", "VERSION_MINOR", "VERSION_PATCH"].map(part);
    let number = parts
        .iter()
        .fold(0, |number, part: &u32| number * 100 + part);
    assert_eq!(number, raw::version());
    let text = parts.map(|part| part.to_string()).join(".");
    assert_eq!(text, VERSION);
    assert_eq!(defined(HEADER, "VERSION_TEXT"), format!("\"{text}\""));
}

/// What a text declares: each function's parameters, by name, with whether it is
/// a pointer and to what is not written to.
type Functions = BTreeMap<String, Vec<(String, &'static str)>>;

/// The functions that `raw.rs` imports.
fn imported() -> Functions {
    let source = include_str!("../src/raw.rs");
    let (_, block) = source.split_once("unsafe extern \"C\" {").expect("a block");
    let (block, _) = block.split_once("\n    }\n").expect("its end");
    let parameter = |text: &str| {
        let (name, kind) = text.split_once(": ").expect("a type");
        let pointer = match kind {
            _ if kind.starts_with("*const ") => "const",
            _ if kind.starts_with("*mut ") => "written",
            _ => "value",
        };
        (name.to_owned(), pointer)
    };
    let function = |text: &str| {
        let (name, rest) = text.split_once('(').expect("parameters");
        let (parameters, _) = rest.split_once(')').expect("their end");
        let parameters = parameters.split(',').map(str::trim);
        let parameters = parameters.filter(|text| !text.is_empty()).map(parameter);
        (name.to_owned(), parameters.collect())
    };
    block.split("pub fn ").skip(1).map(function).collect()
}

/// The functions that the header of the layer below declares.
fn declared() -> Functions {
    let comments = RAW.split("/*").skip(1).map(|rest| rest.split_once("*/"));
    let code: String = comments.map(|pair| pair.expect("its end").1).collect();
    let parameter = |text: &str| {
        let start = text.split('[').next().expect("a name");
        let (kind, name) = start.rsplit_once([' ', '*']).expect("a type");
        let pointer = match text.contains(['*', '[']) {
            true if kind.starts_with("const ") => "const",
            true => "written",
            false => "value",
        };
        (name.to_owned(), pointer)
    };
    let function = |text: &str| {
        let (start, rest) = text.split_once('(')?;
        let (_, name) = start.rsplit_once(' ')?;
        let parameters = rest.strip_suffix(')')?.split(',').map(str::trim);
        let parameters = parameters.filter(|text| *text != "void").map(parameter);
        Some((name.to_owned(), parameters.collect()))
    };
    let declarations = code.split(';').filter_map(function);
    declarations
        .filter(|(name, _)| name.starts_with("rotundaaloe_"))
        .collect()
}

#[test]
fn exported_functions() {
    let imported = imported();
    assert_eq!(declared(), imported);
    assert_eq!(imported.len(), 15, "as the page for hosts says");
}

/// The numbers in a comment's `Refused: 1, 10.`, for each function after one.
fn refused_by_comment() -> BTreeMap<String, Vec<u32>> {
    let mut refused = BTreeMap::new();
    for part in HEADER.split("Refused:").skip(1) {
        let (numbers, rest) = part.split_once("*/").expect("a comment's end");
        let number = |word: &str| word.trim_matches([' ', '.', '*', '\n']).parse();
        let numbers = numbers.split(',').filter_map(|word| number(word).ok());
        let (_, rest) = rest
            .split_once("unsigned rotundaaloe_")
            .expect("a function");
        let (name, _) = rest.split_once('(').expect("parameters");
        refused.insert(name.to_owned(), numbers.collect());
    }
    refused
}

/// A call's refusals in C are those that its enum has in Rust, where a segment's
/// kind can't be unfit.
#[test]
fn refusals_of_each_call() {
    let source = include_str!("../src/refusal.rs");
    let by_comment = refused_by_comment();
    for call in [
        "NewUser",
        "StartThread",
        "EndThread",
        "NewSegment",
        "NewKey",
        "GiveKey",
        "TakeKey",
        "AddLock",
        "DropLock",
        "CallSegment",
        "ReturnCall",
        "Access",
        "ListLocks",
        "FindKey",
        "Compile",
    ] {
        let start = format!("\n    {call} {{");
        let (_, rest) = source.split_once(&start).expect("an enum");
        let (cases, _) = rest.split_once('}').expect("its end");
        let is_there = |refusal: &Refusal| {
            let mut cases = cases
                .split(',')
                .filter_map(|case| case.trim().split('(').next());
            cases.any(|case| case == name(*refusal))
                || (call == "NewSegment" && *refusal == Refusal::Unfit)
        };
        let numbers: Vec<u32> = REFUSALS
            .into_iter()
            .filter(is_there)
            .map(Refusal::number)
            .collect();
        assert_eq!(by_comment[&snake(call)], numbers, "{call}");
    }
}
