//! The key search in C.

use crate::compiler::{built_here, printed_text, scratch};
use std::process::Command;

#[test]
fn every_line_of_the_program_holds() {
    let program = built_here("key_search.c", &scratch("key_search"));
    let output = Command::new(program).output().expect("it starts");
    assert_eq!(printed_text(output), "");
}
