//! The state file of C, byte for byte, and that no damaged one is a state.

use crate::compiler::{built_here, fed, printed, scratch};
use crate::journals::drawn;
use rotundaaloe::{Guard, Journal};
use std::path::Path;
use std::process::Command;

/// The empty state is its head, 37,920 bytes 0 and 33 DC 61 41, which zlib says.
#[test]
fn the_empty_state() {
    let written = written(&scratch("state-empty"), &Journal::new());
    assert_eq!(written.len(), 37_934);
    assert_eq!(
        written[..10],
        [0x4B, 0x4C, 0x53, 0x0A, 1, 0, 0x20, 0x94, 0, 0]
    );
    assert!(written[10..37_930].iter().all(|byte| *byte == 0));
    assert_eq!(written[37_930..], [0x33, 0xDC, 0x61, 0x41]);
}

fn written(directory: &Path, journal: &Journal) -> Vec<u8> {
    let program = built_here("state.c", directory);
    printed(fed(&mut Command::new(program), journal.as_bytes()))
}

/// C and Rust write the same bytes.
#[test]
fn drawn_states() {
    let directory = scratch("state-drawn");
    for seed in 30..35 {
        let (journal, mut guard) = (drawn(seed), Guard::new());
        for record in journal.records() {
            let _ = guard.call(record);
        }
        let written = written(&directory, &journal);
        assert!(written == guard.to_bytes(), "seed {seed}");
    }
}

#[test]
fn no_damaged_file_is_a_state() {
    let program = built_here("state.c", &scratch("state-damaged"));
    let output = fed(Command::new(program).arg("damage"), drawn(40).as_bytes());
    assert_eq!(String::from_utf8_lossy(&printed(output)), "");
}
