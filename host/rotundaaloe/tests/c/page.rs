//! Every block of C on the page for hosts compiles without a warning: a complete
//! program as it is, any other in a function, after lines that declare what the
//! page's words name.

use crate::compiler::{built, checked, is_here, printed_text, scratch};
use rotundaaloe::Refusal;
use std::fs;
use std::process::Command;

const PAGE: &str = include_str!("../../../../docs/HOST.md");

const PROLOGUE: &str = "\
#include <rotundaaloe.h>
#include <stdio.h>

struct rotundaaloe_state state;
struct rotundaaloe_journal journal;
const uint8_t *file;
size_t length;
uint16_t owner, loader, thread;

void snippet(void);
void snippet(void)
{
";

fn blocks() -> Vec<&'static str> {
    let start = "\n```c\n";
    let block = |rest: &'static str| rest.split_once("\n```\n").expect("a block's end").0;
    PAGE.split(start).skip(1).map(block).collect()
}

fn is_program(block: &str) -> bool {
    block.contains("\nint main(")
}

#[test]
fn every_block_compiles() {
    let blocks = blocks();
    assert!(blocks.len() >= 6, "{} blocks", blocks.len());
    assert!(is_here("cc"));
    for compiler in ["cc", "gcc", "clang"]
        .into_iter()
        .filter(|name| is_here(name))
    {
        for block in &blocks {
            let text = match is_program(block) {
                true => format!("{block}\n"),
                false => format!("{PROLOGUE}{block}\n}}\n"),
            };
            let output = checked(compiler, &["-x", "c", "-std=c99", "-Werror"], &text);
            assert_eq!(printed_text(output), "", "{compiler}: {block}");
        }
    }
}

/// The complete program prints what the page says.
#[test]
fn the_program_runs() {
    let programs: Vec<&str> = blocks()
        .into_iter()
        .filter(|block| is_program(block))
        .collect();
    let [program] = programs[..] else {
        panic!("{} programs", programs.len());
    };
    let directory = scratch("page");
    let source = directory.join("host.c");
    fs::write(&source, format!("{program}\n")).expect("the program is written");
    let output = Command::new(built(&source, &directory)).output();
    let printed = printed_text(output.expect("it starts"));
    assert_eq!(printed, "saved, lock 1 opened\n");
    assert!(PAGE.contains("It prints `saved, lock 1 opened`."));
}

/// The refusals on the page are those of the header, which another test compares
/// with the library.
#[test]
fn the_refusals() {
    let header = include_str!("../../../include/rotundaaloe.h");
    let (_, table) = PAGE
        .split_once("\n| Number | `ROTUNDAALOE_` and |")
        .expect("a table");
    let rows = table
        .lines()
        .skip(2)
        .take_while(|line| line.starts_with('|'));
    let mut numbers: Vec<u32> = Vec::new();
    for row in rows {
        let cells: Vec<&str> = row
            .split('|')
            .map(|cell| cell.trim().trim_matches('`'))
            .collect();
        let [_, number, name, word, ..] = cells[..] else {
            panic!("{row}");
        };
        let case = format!("    ROTUNDAALOE_{name} = {number}");
        let line = header.lines().find(|line| line.starts_with(&case));
        let line = line.unwrap_or_else(|| panic!("no {case}"));
        assert!(line.ends_with(&format!("/* {word} */")), "{row}");
        numbers.push(number.parse().expect("a number"));
    }
    let all: Vec<u32> = (1..=Refusal::TooFewRows.number()).collect();
    assert_eq!(numbers, all);
}
