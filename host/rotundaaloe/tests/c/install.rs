//! The install command, into directories with blanks in their names.

use crate::compiler::{is_here, printed_text, scratch, top};
use std::fs;
use std::os::unix::fs::PermissionsExt;
use std::path::{Path, PathBuf};
use std::process::{Command, Output};

const FILES: [&str; 4] = [
    "include/rotundaaloe.h",
    "include/rotundaaloe_raw.h",
    "lib/librotundaaloe.a",
    "lib/pkgconfig/rotundaaloe.pc",
];

fn install(prefix: &str, destination: &str) -> Output {
    let mut command = Command::new(top().join("host/install"));
    command.env("PREFIX", prefix).env("DESTDIR", destination);
    command.output().expect("it starts")
}

/// What it says of an installation.
fn installed_below(directory: &str) -> String {
    let names = "librotundaaloe.a, rotundaaloe.h, rotundaaloe_raw.h, rotundaaloe.pc";
    format!("installed below {directory}: {names}\n")
}

/// The files below a directory, by their paths in it.
fn files(directory: &Path) -> Vec<PathBuf> {
    let mut found = Vec::new();
    for entry in fs::read_dir(directory).expect("a directory") {
        let path = entry.expect("an entry").path();
        match path.is_dir() {
            true => found.extend(files(&path)),
            false => found.push(path),
        }
    }
    found.sort();
    found
}

fn text(path: &Path) -> &str {
    path.to_str().expect("text")
}

#[test]
fn a_package_stands_below_its_destination() {
    let destination = scratch("a package");
    let installed = destination.join("usr/guard");
    let said = printed_text(install("/usr/guard", text(&destination)));
    assert_eq!(said, installed_below(text(&installed)));
    assert_eq!(files(&destination), FILES.map(|file| installed.join(file)));
    for file in FILES {
        let mode = fs::metadata(installed.join(file))
            .expect("a file")
            .permissions()
            .mode();
        assert_eq!(mode & 0o777, 0o644, "{file}");
    }
    let lines = fs::read_to_string(installed.join(FILES[3])).expect("the pkg-config file");
    assert_eq!(
        lines.lines().take(3).collect::<Vec<_>>(),
        [
            "prefix=/usr/guard",
            "includedir=${prefix}/include",
            "libdir=${prefix}/lib"
        ]
    );
    assert!(lines.contains("\nVersion: 0.2.0\n"), "{lines}");
    assert!(lines.contains("\nCflags: -I${includedir}\n"), "{lines}");
    assert!(
        lines.contains("\nLibs: -L${libdir} -lrotundaaloe\n"),
        "{lines}"
    );
    assert!(!lines.contains('@'), "{lines}");
}

/// As the page for hosts says: by pkg-config, or where that isn't at hand by the
/// same words, the file's.
#[test]
fn a_host_is_built_with_what_is_installed() {
    let prefix = scratch("in use & with|signs");
    let said = printed_text(install(text(&prefix), ""));
    assert_eq!(said, installed_below(text(&prefix)));
    let flags = match is_here("pkg-config") {
        true => "$(pkg-config --cflags --libs rotundaaloe)",
        false => "'\"-I$PREFIX/include\" \"-L$PREFIX/lib\"' -lrotundaaloe",
    };
    let script = format!("eval cc -std=c99 route.c {flags} -o '\"$PREFIX/route\"'");
    let mut shell = Command::new("sh");
    shell.arg("-c").arg(script);
    shell.current_dir(top().join("host/examples"));
    shell.env("PREFIX", &prefix);
    shell.env("PKG_CONFIG_PATH", prefix.join("lib/pkgconfig"));
    assert_eq!(printed_text(shell.output().expect("a shell")), "");
    let output = Command::new(prefix.join("route")).output();
    let printed = printed_text(output.expect("it starts"));
    assert!(
        printed.starts_with("by way of the rate loader: saved"),
        "{printed}"
    );
}

#[track_caller]
fn refused(output: Output, message: &str) {
    assert_eq!(output.status.code(), Some(2));
    assert!(output.stdout.is_empty());
    let said = String::from_utf8_lossy(&output.stderr).into_owned();
    assert_eq!(said, format!("host/install: {message}\n"));
}

#[test]
fn what_it_refuses() {
    let destination = scratch("no prefix");
    let into = |prefix: &str| install(prefix, text(&destination));
    refused(into("guard"), "PREFIX must be an absolute path: guard");
    for prefix in ["/a#b", "/a'b", "/a\"b", "/a\\b", "/a$b", "/a`b"] {
        let message = format!("a pkg-config file can't hold this PREFIX: {prefix}");
        refused(into(prefix), &message);
    }
    let mut command = Command::new(top().join("host/install"));
    command.arg("--help").env("DESTDIR", &destination);
    let message = "it takes no arguments: set PREFIX and DESTDIR";
    refused(command.output().expect("it starts"), message);
    assert!(files(&destination).is_empty());
}
