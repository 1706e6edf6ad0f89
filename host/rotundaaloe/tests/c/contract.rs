//! What the header promises beyond the calls' answers.

use crate::compiler::{built_here, printed_text, scratch};
use std::process::Command;

const WORDS: &str = "\
1 stranger\n2 no run\n3 no segment\n4 no key\n5 no lock\n6 not yours\n7 unfit\n8 already in\n\
9 not there\n10 full\n11 misspelt\n12 too wide\n13 void\n14 barred\n15 no way in\n\
16 not a desk file\n17 other version\n18 broken file\n19 too few rows\n";

#[test]
fn every_line_of_the_program_holds() {
    let program = built_here("contract.c", &scratch("contract"));
    let output = Command::new(program).output().expect("it starts");
    assert_eq!(printed_text(output), WORDS);
}
