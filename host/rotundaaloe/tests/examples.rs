//! The examples for Rust print what document 01 grants and refuses. Those for C
//! are tried in `c/examples.rs`.

use std::env;
use std::path::{Path, PathBuf};
use std::process::{Command, Output};

fn top() -> PathBuf {
    Path::new(env!("CARGO_MANIFEST_DIR")).join("../..")
}

/// A built Rust example. Cargo builds them with the tests.
fn example(name: &str) -> PathBuf {
    let test = env::current_exe().expect("this test");
    let built = test.parent().and_then(Path::parent).expect("it is in deps");
    built.join("examples").join(name)
}

#[track_caller]
fn printed(output: Output) -> String {
    let complaint = String::from_utf8_lossy(&output.stderr).into_owned();
    assert!(output.status.success(), "{}: {complaint}", output.status);
    assert_eq!(complaint, "");
    String::from_utf8(output.stdout).expect("text")
}

const ROUTE: &str = "\
0 U ok 0\n1 S ok 0\n2 S ok 1\n3 N ok 0\n4 N ok 1\n5 N ok 2\n6 L ok 0\n7 L ok 1\n8 L ok 2\n\
9 C ok 0\n10 C ok 1\n11 C ok 1\n12 A ok 2\n13 A no 15 0\n14 R ok 1\n15 A no 15 0\n";

#[test]
fn the_route_in_rust() {
    let output = Command::new(example("route")).output();
    assert_eq!(
        printed(output.expect("it starts")),
        "by way of the rate loader: saved, lock 2 opened\n\
         the recalculation by itself: not saved, no way in (15)\n\
         after the return: not saved, no way in (15)\n"
    );
}

#[test]
fn a_replay_in_rust() {
    let journal = top().join("lessons/route.kld");
    let output = Command::new(example("replay")).arg(journal).output();
    assert_eq!(printed(output.expect("it starts")), ROUTE);
}
