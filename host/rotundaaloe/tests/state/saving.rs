//! A state file is written whole or not at all, and nothing else beside it.

use crate::files::Directory;
use rotundaaloe::{Guard, User};
use std::env;
use std::fs::{self, Permissions};
use std::io::ErrorKind;
use std::os::unix::fs::{PermissionsExt, symlink};
use std::path::Path;
use std::process::{Command, Output};

/// A guard with so many users.
fn guard(users: u16) -> Guard {
    let mut guard = Guard::new();
    for user in 0..users {
        assert_eq!(guard.new_user(), Ok(User(user)));
    }
    guard
}

#[track_caller]
fn has(file: &Path, users: u16) {
    assert!(Guard::load(file).expect("a state file") == guard(users));
}

fn mode(file: &Path) -> u32 {
    fs::metadata(file).expect("a file").permissions().mode() & 0o777
}

#[test]
fn a_new_file_is_for_its_owner() {
    let directory = Directory::new("new");
    let file = directory.file("state");
    guard(1).save(&file).unwrap();
    has(&file, 1);
    assert_eq!(mode(&file), 0o600);
    assert_eq!(directory.names(), ["state"]);
}

#[test]
fn an_old_file_is_replaced_and_keeps_its_permissions() {
    let directory = Directory::new("old");
    let file = directory.file("state");
    fs::write(&file, [b'x'; 50_000]).unwrap();
    fs::set_permissions(&file, Permissions::from_mode(0o640)).unwrap();
    guard(2).save(&file).unwrap();
    has(&file, 2);
    assert_eq!(mode(&file), 0o640);
    guard(3).save(&file).unwrap();
    has(&file, 3);
    assert_eq!(directory.names(), ["state"]);
}

#[test]
fn a_link_is_followed_and_stays() {
    let directory = Directory::new("link");
    let [file, link, further] = ["state", "link", "further"].map(|name| directory.file(name));
    guard(1).save(&file).unwrap();
    // By a name that holds in the link's directory only.
    symlink("state", &link).unwrap();
    symlink(&link, &further).unwrap();
    guard(2).save(&further).unwrap();
    has(&file, 2);
    for link in [&link, &further] {
        assert!(fs::symlink_metadata(link).unwrap().is_symlink());
    }
    assert_eq!(directory.names(), ["further", "link", "state"]);
}

#[test]
fn a_link_to_nothing_is_refused() {
    let directory = Directory::new("dangling");
    let link = directory.file("link");
    symlink("missing", &link).unwrap();
    let error = guard(1).save(&link).unwrap_err();
    assert_eq!(error.kind(), ErrorKind::NotFound);
    assert!(fs::symlink_metadata(&link).unwrap().is_symlink());
    assert_eq!(directory.names(), ["link"]);
}

#[test]
fn only_plain_files_are_replaced() {
    let directory = Directory::new("plain");
    let inner = directory.file("inner");
    fs::create_dir(&inner).unwrap();
    let null = directory.file("null");
    symlink("/dev/null", &null).unwrap();
    for path in [&inner, &null] {
        let error = guard(1).save(path).unwrap_err();
        assert_eq!(error.to_string(), "not a plain file");
    }
    assert_eq!(directory.names(), ["inner", "null"]);
    assert!(!fs::metadata("/dev/null").unwrap().is_file());
}

#[test]
fn a_directory_that_is_missing() {
    let directory = Directory::new("missing");
    let error = guard(1).save(directory.file("no/state")).unwrap_err();
    assert_eq!(error.kind(), ErrorKind::NotFound);
    let file = directory.file("file");
    fs::write(&file, "").unwrap();
    assert!(guard(1).save(file.join("state")).is_err());
    assert_eq!(directory.names(), ["file"]);
}

/// Names the file that a process of its own is to save.
const TO_SAVE: &str = "ROTUNDAALOE_TEST_STATE";

#[test]
#[ignore = "other tests run it as a process of its own"]
fn process() {
    let file = env::var_os(TO_SAVE).expect("the name of a file");
    guard(5).save(file).expect("it is saved");
}

/// Saves in a process of its own, after what the shell does first.
fn saved_after(first: &str, directory: &Directory, file: &str) -> Output {
    let command = format!("{first} exec \"$0\" --ignored --exact saving::process");
    let test = env::current_exe().expect("this test");
    let mut shell = Command::new("sh");
    let shell = shell.arg("-c").arg(command).arg(test);
    let shell = shell.env(TO_SAVE, file).current_dir(directory.path());
    shell.output().expect("a shell")
}

#[test]
fn a_name_without_a_directory() {
    let directory = Directory::new("bare");
    assert!(saved_after("", &directory, "state").status.success());
    has(&directory.file("state"), 5);
    assert_eq!(directory.names(), ["state"]);
}

/// The device takes less than the file has: what was there stays, and the part
/// that was written goes.
#[test]
fn a_write_that_fails_midway() {
    let directory = Directory::new("midway");
    guard(1).save(directory.file("state")).unwrap();
    let output = saved_after("trap '' XFSZ; ulimit -f 16;", &directory, "state");
    assert!(!output.status.success());
    let told = String::from_utf8_lossy(&output.stdout).into_owned();
    assert!(told.contains("FileTooLarge"), "{told}");
    has(&directory.file("state"), 1);
    assert_eq!(directory.names(), ["state"]);
}

/// Somebody else's file with the name that the new one would have is left alone.
#[test]
fn a_name_that_is_taken() {
    let directory = Directory::new("taken");
    let taken = format!(".rotundaaloe-{}-0.tmp", std::process::id());
    fs::write(directory.file(&taken), "another's").unwrap();
    guard(4).save(directory.file("state")).unwrap();
    has(&directory.file("state"), 4);
    assert_eq!(fs::read(directory.file(&taken)).unwrap(), b"another's");
    assert_eq!(directory.names(), [taken.as_str(), "state"]);
}
