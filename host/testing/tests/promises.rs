//! The documents against the repository. Every name in `docs/PROMISES.md` is declared in the file
//! beside it, every must-fail edit is listed, `docs/PROOFS.md` lists every file of
//! `crates/*/specs`, links lead to files, and lines and cells are short.
//!
//! In `docs/PROMISES.md` a sentence of the specification is bold. Elsewhere three things stand in
//! backquotes: names, each with the file that declares it after them; files and folders, from the
//! top of the repository; and must-fail edits, as `crate/edit`.

use std::collections::BTreeMap;
use std::fs;
use std::path::{Path, PathBuf};

const PROMISES: &str = "docs/PROMISES.md";
const PROOFS: &str = "docs/PROOFS.md";
/// The section of `PROMISES` that lists every must-fail edit.
const EDITS: &str = "## Must-fail edits";
const NOT_PROVED: &str = "## What is not proved";
const MOST_COLUMNS: usize = 100;
const MOST_CELL: usize = 200;

fn repository() -> PathBuf {
    Path::new(env!("CARGO_MANIFEST_DIR")).join("../..")
}

/// A file, by its path from the top of the repository.
fn read(path: &str) -> String {
    fs::read_to_string(repository().join(path)).unwrap_or_else(|error| panic!("{path}: {error}"))
}

/// The names in a folder, in order.
fn names_in(folder: &str) -> Vec<String> {
    let Ok(entries) = fs::read_dir(repository().join(folder)) else {
        return Vec::new();
    };
    let mut names: Vec<String> = entries
        .map(|entry| entry.expect("a folder can be read").file_name())
        .map(|name| name.into_string().expect("a name is text"))
        .collect();
    names.sort();
    names
}

/// The documents that people read.
fn pages() -> Vec<String> {
    let docs = ["docs", "docs/changes"].into_iter().flat_map(|folder| {
        names_in(folder)
            .into_iter()
            .map(move |name| format!("{folder}/{name}"))
    });
    ["README.md", "CHANGELOG.md", "lessons/README.md"]
        .map(str::to_owned)
        .into_iter()
        .chain(docs.filter(|name| name.ends_with(".md")))
        .collect()
}

/// The lines of a page that are in no code block, each with its number from 1.
fn prose(page: &str) -> Vec<(usize, String)> {
    let mut in_code = false;
    let mut lines = Vec::new();
    for (place, line) in read(page).lines().enumerate() {
        if line.trim_start().starts_with("```") {
            in_code = !in_code;
        } else if !in_code {
            lines.push((place + 1, line.to_owned()));
        }
    }
    lines
}

fn is_cell_row(line: &str) -> bool {
    line.trim_start().starts_with('|')
}

#[track_caller]
fn assert_none(faults: Vec<String>) {
    assert!(
        faults.is_empty(),
        "{} faults:\n{}",
        faults.len(),
        faults.join("\n")
    );
}

// ---- what PROMISES names

/// A paragraph, a list item or a row, in one line, with the number of its first line.
fn blocks(page: &str) -> Vec<(usize, String)> {
    let mut blocks: Vec<(usize, String)> = Vec::new();
    let mut is_open = false;
    for (number, line) in prose(page) {
        let line = line.trim();
        let starts = line.starts_with("- ") || line.starts_with('#') || is_cell_row(line);
        match blocks.last_mut() {
            Some((_, block)) if is_open && !starts && !line.is_empty() => {
                block.push(' ');
                block.push_str(line);
            }
            _ if line.is_empty() => {}
            _ => blocks.push((number, line.to_owned())),
        }
        is_open = !line.is_empty() && !line.starts_with('#');
    }
    blocks
}

/// What stands in backquotes outside the bold sentences; none where a backquote or `**` is not
/// closed.
fn quoted(block: &str) -> Option<Vec<String>> {
    let plain: String = block.split("**").step_by(2).collect();
    let pieces: Vec<&str> = plain.split('`').collect();
    let is_closed = block.matches("**").count().is_multiple_of(2) && pieces.len() % 2 == 1;
    let quoted = pieces.iter().skip(1).step_by(2);
    is_closed.then(|| quoted.map(|piece| piece.to_string()).collect())
}

enum Quoted {
    Name,
    Path,
    Edit,
}

fn kind(piece: &str) -> Quoted {
    let last = piece.rsplit('/').next().unwrap_or_default();
    match piece.split_once('/') {
        None => Quoted::Name,
        Some((top, _)) if repository().join(top).exists() || last.contains('.') => Quoted::Path,
        Some(_) => Quoted::Edit,
    }
}

/// What stands before a name where it is declared, in definitions and in code.
const DEFINITION_WORDS: [&str; 5] = ["abbrev", "unfoldable", "pub", "record", "data"];
const CODE_WORDS: [&str; 9] = [
    "pub",
    "pub(crate)",
    "extern",
    "\"C\"",
    "fn",
    "struct",
    "enum",
    "const",
    "ensures",
];

/// Whether a line begins with some of these words, and what follows them.
fn after_words<'a>(line: &'a str, words: &[&str]) -> (bool, &'a str) {
    let mut rest = line.trim_start();
    let mut is_after = false;
    while let Some(word) = rest.split_whitespace().next()
        && words.contains(&word)
    {
        rest = rest[word.len()..].trim_start();
        is_after = true;
    }
    (is_after, rest)
}

/// A file of definitions declares what stands before `:` or its parameters, one of code what
/// stands after `fn`, `struct` and the like. Of other files the name is some whole word.
fn declares(path: &str, text: &str, name: &str) -> bool {
    let is_inside = |c: char| c.is_alphanumeric() || "_-?'′".contains(c);
    match path.rsplit('.').next() {
        Some("antt") => text.lines().any(|line| {
            let (_, rest) = after_words(line, &DEFINITION_WORDS);
            rest.strip_prefix(name).is_some_and(|rest| {
                rest.starts_with(' ') && rest.trim_start().starts_with([':', '(', '{'])
            })
        }),
        Some("rt") => text.lines().any(|line| {
            let (is_after, rest) = after_words(line, &CODE_WORDS);
            is_after
                && rest
                    .strip_prefix(name)
                    .is_some_and(|rest| !rest.starts_with(is_inside))
        }),
        _ => text.match_indices(name).any(|(at, _)| {
            !text[..at].ends_with(is_inside) && !text[at + name.len()..].starts_with(is_inside)
        }),
    }
}

/// Where a name, a path or an edit of a block leads nowhere.
fn faults_of(block: &str) -> Vec<String> {
    let Some(pieces) = quoted(block) else {
        return vec!["a backquote or ** is not closed".to_owned()];
    };
    let mut faults = Vec::new();
    let mut names: Vec<String> = Vec::new();
    for piece in pieces {
        match kind(&piece) {
            Quoted::Name => names.push(piece),
            Quoted::Path => {
                let path = repository().join(&piece);
                let text = fs::read_to_string(&path).unwrap_or_default();
                if !path.exists() {
                    faults.push(format!("no file {piece}"));
                }
                let missing = names
                    .drain(..)
                    .filter(|name| !declares(&piece, &text, name));
                faults.extend(missing.map(|name| format!("{piece} declares no {name}")));
            }
            Quoted::Edit => {
                let edit = piece.replacen('/', "/must-fail/", 1);
                if !repository().join(format!("crates/{edit}.edit")).exists() {
                    faults.push(format!("no edit {piece}"));
                }
                let alone = names.drain(..);
                faults.extend(alone.map(|name| format!("{name} stands without its file")));
            }
        }
    }
    faults.extend(
        names
            .iter()
            .map(|name| format!("{name} stands without its file")),
    );
    faults
}

#[test]
fn names_are_declared_in_the_files_beside_them() {
    let faults = blocks(PROMISES).into_iter().flat_map(|(number, block)| {
        let faults = faults_of(&block).into_iter();
        faults.map(move |fault| format!("{PROMISES}:{number}: {fault}"))
    });
    assert_none(faults.collect());
}

/// Every list item that begins with a sentence names something, but for what is not proved.
#[test]
fn every_sentence_is_kept() {
    let mut faults = Vec::new();
    let mut section = String::new();
    for (number, block) in blocks(PROMISES) {
        if block.starts_with("## ") {
            section = block;
        } else if block.starts_with("- **")
            && section != NOT_PROVED
            && quoted(&block).is_some_and(|pieces| pieces.is_empty())
        {
            faults.push(format!("{PROMISES}:{number}: nothing keeps the sentence"));
        }
    }
    assert_none(faults);
}

// ---- the must-fail edits

#[test]
fn every_edit_is_listed_once() {
    let mut listed: BTreeMap<String, usize> = BTreeMap::new();
    for name in names_in("crates") {
        for edit in names_in(&format!("crates/{name}/must-fail")) {
            let edit = edit.strip_suffix(".edit").expect("an edit");
            listed.insert(format!("{name}/{edit}"), 0);
        }
    }
    assert!(!listed.is_empty(), "there are edits");
    let blocks = blocks(PROMISES).into_iter().map(|(_, block)| block);
    let section = blocks.skip_while(|block| block != EDITS).skip(1);
    for block in section.take_while(|block| !block.starts_with("## ")) {
        for piece in quoted(&block).into_iter().flatten() {
            if let Some(count) = listed.get_mut(&piece) {
                *count += 1;
            }
        }
    }
    let wrong = listed.into_iter().filter(|(_, count)| *count != 1);
    let faults = wrong.map(|(edit, count)| format!("{PROMISES}: {edit} is listed {count} times"));
    assert_none(faults.collect());
}

// ---- the files of definitions

/// The files of a folder and of those in it, but for those that only name modules.
fn definitions(folder: &str) -> Vec<String> {
    let mut files = Vec::new();
    for name in names_in(folder) {
        let path = format!("{folder}/{name}");
        if !name.ends_with(".antt") {
            files.extend(definitions(&path));
        } else if read(&path)
            .lines()
            .any(|line| !line.starts_with("pub mod "))
        {
            files.push(path);
        }
    }
    files
}

/// A list item `- [Name](../path): what it says`.
#[test]
fn every_file_of_definitions_is_listed_once() {
    let blocks = blocks(PROOFS);
    let listed: Vec<&str> = blocks
        .iter()
        .filter_map(|(_, block)| block.strip_prefix("- [")?.split_once("](../"))
        .filter_map(|(_, rest)| Some(rest.split_once(')')?.0))
        .collect();
    let files = names_in("crates")
        .into_iter()
        .flat_map(|name| definitions(&format!("crates/{name}/specs")));
    let mut faults = Vec::new();
    for file in files {
        let count = listed.iter().filter(|path| **path == file).count();
        if count != 1 {
            faults.push(format!("{PROOFS}: {file} is listed {count} times"));
        }
    }
    assert_none(faults);
}

// ---- links, columns and cells

/// The part of a link after `#` that leads to a heading.
fn anchor(heading: &str) -> String {
    let words = heading.trim_start_matches('#').trim().to_lowercase();
    let kept = words.replace(' ', "-");
    kept.chars()
        .filter(|c| c.is_alphanumeric() || "-_".contains(*c))
        .collect()
}

/// Whether a link of a page leads to a file, and one to a part of a page to its heading. Links
/// out of the repository are not followed.
fn leads(page: &str, target: &str) -> bool {
    let (path, part) = target.split_once('#').unwrap_or((target, ""));
    let folder = page.rsplit_once('/').map_or(".", |(folder, _)| folder);
    let path = match path {
        "" => page.to_owned(),
        _ => format!("{folder}/{path}"),
    };
    let is_heading = |line: &str| line.starts_with('#') && anchor(line) == part;
    target.contains("://")
        || repository().join(&path).exists()
            && (part.is_empty() || prose(&path).iter().any(|(_, line)| is_heading(line)))
}

#[test]
fn links_lead_to_files() {
    let mut faults = Vec::new();
    for page in pages() {
        for (number, line) in prose(&page) {
            let links = line.split("](").skip(1);
            for target in links.map(|link| link.split(')').next().unwrap_or_default()) {
                if !leads(&page, target) {
                    faults.push(format!("{page}:{number}: {target} leads nowhere"));
                }
            }
        }
    }
    assert_none(faults);
}

/// A line may be longer where it has no blank at which it could be broken.
#[test]
fn lines_of_prose_are_short() {
    let mut faults = Vec::new();
    for page in pages() {
        for (number, line) in prose(&page) {
            let columns = line.chars().count();
            let words = line.trim_start().trim_start_matches("- ");
            let can_break = words.contains(' ') && !is_cell_row(&line);
            if columns > MOST_COLUMNS && can_break {
                faults.push(format!("{page}:{number}: {columns} columns"));
            }
        }
    }
    assert_none(faults);
}

#[test]
fn cells_of_tables_are_short() {
    let mut faults = Vec::new();
    for page in pages() {
        for (number, line) in prose(&page) {
            let cells = line.replace("\\|", "!");
            for cell in cells.split('|').filter(|_| is_cell_row(&line)) {
                let size = cell.trim().chars().count();
                if size > MOST_CELL {
                    faults.push(format!("{page}:{number}: a cell of {size} characters"));
                }
            }
        }
    }
    assert_none(faults);
}
