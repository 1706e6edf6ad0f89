//! What every question about where a journal leads has in common.

use crate::commands::{keylock, refused};

/// What is said of an input that is at fault, whatever two things are asked about.
#[track_caller]
pub fn asked_of_an_input_at_fault(question: &str, [one, other]: [&str; 2]) {
    let ask = |input: &[u8]| keylock(&[question, "-", one, other], input);
    let right = "keylock: standard input:2:1: 'Z' is no call's letter: \
        one of U S E N K G T L D C R A\n  Z\n  ^\n1 mistake; nothing was written\n";
    refused(&ask(b"U\nZ\n"), 1, right);
    let right = "keylock: standard input: no bytes: not a journal (16)\n";
    refused(&ask(b""), 1, right);
    let right = "keylock: standard input: byte 3: a journal of version 1, whose edits \
        (N, K, G, T, L, D) name a user; in version 2 they name a thread. The keylock that it was \
        kept with reads it (17 other version)\n";
    refused(&ask(b"KLD\x01\0\0\0"), 1, right);
    let right = "keylock: no/such: No such file or directory\n";
    refused(&keylock(&[question, "no/such", one, other], b""), 2, right);
}
