//! What a compiler says of hosts: nothing of the header and of a right one, and a
//! warning where a refusal is mistaken for an answer.

use crate::compiler::{checked, is_here, printed_text};

/// Standards of C and C++, with compilers of each. `cc` must be there.
const C: [&str; 3] = ["-std=c99", "-std=c11", "-std=c2x"];
const C_COMPILERS: [&str; 3] = ["cc", "gcc", "clang"];
const CXX: [&str; 4] = ["-std=c++11", "-std=c++14", "-std=c++17", "-std=c++20"];
const CXX_COMPILERS: [&str; 3] = ["c++", "g++", "clang++"];

/// A host that keeps the convention.
const RIGHT: &str = r#"
#include "rotundaaloe.h"

int main(void)
{
    static struct rotundaaloe_state state;
    uint16_t thread;
    unsigned refusal;
    rotundaaloe_empty(&state);
    refusal = rotundaaloe_new_user(&state, NULL);
    if (refusal == ROTUNDAALOE_ACCEPTED)
        refusal = rotundaaloe_start_thread(&state, 0, &thread);
    return refusal == ROTUNDAALOE_ACCEPTED ? 0 : 1;
}
"#;

const CALL: &str = "refusal = rotundaaloe_start_thread(&state, 0, &thread);";

/// The same host with other words in a place.
fn with(place: &str, words: &str) -> String {
    assert!(RIGHT.contains(place));
    RIGHT.replace(place, words)
}

#[test]
fn none_of_a_right_host() {
    assert!(is_here("cc"));
    for compiler in C_COMPILERS.into_iter().filter(|name| is_here(name)) {
        for standard in C {
            let output = checked(compiler, &["-x", "c", "-Werror", standard], RIGHT);
            assert_eq!(printed_text(output), "", "{compiler} {standard}");
        }
    }
    for compiler in CXX_COMPILERS.into_iter().filter(|name| is_here(name)) {
        for standard in CXX {
            let output = checked(compiler, &["-x", "c++", "-Werror", standard], RIGHT);
            assert_eq!(printed_text(output), "", "{compiler} {standard}");
        }
    }
}

#[track_caller]
fn warns(call: &str, warning: &str) {
    for compiler in C_COMPILERS.into_iter().filter(|name| is_here(name)) {
        let output = checked(compiler, &["-x", "c", "-std=c99"], &with(CALL, call));
        let said = String::from_utf8_lossy(&output.stderr).into_owned();
        assert!(said.contains(warning), "{compiler}: {said}");
    }
}

#[test]
fn one_where_a_refusal_is_not_looked_at() {
    warns(
        "rotundaaloe_start_thread(&state, 0, &thread);",
        "[-Wunused-result]",
    );
}

#[test]
fn one_where_a_refusal_is_kept_as_a_number() {
    for call in [
        "thread = rotundaaloe_start_thread(&state, 0, NULL);",
        "{ uint16_t number = rotundaaloe_start_thread(&state, 0, &thread); (void)number; }",
        "refusal = rotundaaloe_start_thread(&state, 0, NULL); thread = refusal;",
    ] {
        warns(call, "conversion]");
    }
}
