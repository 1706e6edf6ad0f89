//! Java's stack check, timed by a program of its own.

use crate::scene::Outcome;
use bench::scratch::Directory;
use std::path::{Path, PathBuf};
use std::process::{Command, Output};

/// What Java took in each run. Empty where it wasn't measured.
#[derive(Default)]
pub struct Times {
    version: String,
    nanoseconds: Vec<(Outcome, u16, f64)>,
}

impl Times {
    pub fn version(&self) -> &str {
        &self.version
    }

    /// The least of the runs.
    pub fn at(&self, outcome: Outcome, depth: u16) -> Option<f64> {
        let times = self.nanoseconds.iter();
        times
            .filter(|time| (time.0, time.1) == (outcome, depth))
            .map(|time| time.2)
            .reduce(f64::min)
    }

    fn read(&mut self, line: &str) -> Option<()> {
        let words: Vec<&str> = line.split(' ').collect();
        match words[..] {
            ["version", version] => self.version = version.to_string(),
            [outcome, depth, nanoseconds] => self.nanoseconds.push((
                Outcome::ALL
                    .into_iter()
                    .find(|other| other.name() == outcome)?,
                depth.parse().ok()?,
                nanoseconds.parse().ok()?,
            )),
            _ => return None,
        }
        Some(())
    }
}

fn source() -> PathBuf {
    Path::new(env!("CARGO_MANIFEST_DIR")).join("../../bench/java/StackCheck.java")
}

/// Runs a program of the JDK to its end.
fn run(command: &mut Command) -> Result<Output, String> {
    let name = command.get_program().display().to_string();
    let output = command
        .output()
        .map_err(|error| format!("`{name}` can't be started ({error})"))?;
    if !output.status.success() {
        let said = String::from_utf8_lossy(&output.stderr);
        let first = said.lines().next().unwrap_or_default();
        return Err(format!("`{name}` failed: {first}"));
    }
    Ok(output)
}

/// Compiles the program and runs it. Answers the times of one more run, or in
/// one line why there are none.
pub fn measured_again(mut times: Times) -> Result<Times, String> {
    let classes = Directory::new("java").map_err(|error| format!("no directory: {error}"))?;
    run(Command::new("javac")
        .arg("-nowarn")
        .arg("-d")
        .args([classes.path(), &source()]))?;
    let output = run(Command::new("java")
        .args(["-Xshare:auto", "-cp"])
        .arg(classes.path())
        .arg("StackCheck"))?;
    for line in String::from_utf8_lossy(&output.stdout).lines() {
        times
            .read(line)
            .ok_or_else(|| format!("`java` printed: {line}"))?;
    }
    Ok(times)
}

#[cfg(test)]
mod tests {
    use super::*;

    #[test]
    fn lines_are_read() {
        let mut times = Times::default();
        for line in [
            "version 17.0.1",
            "granted 1 580.5",
            "granted 1 590",
            "refused 16 2970.25",
        ] {
            assert_eq!(times.read(line), Some(()));
        }
        assert_eq!(times.version(), "17.0.1");
        assert_eq!(times.at(Outcome::Granted, 1), Some(580.5));
        assert_eq!(times.at(Outcome::Refused, 16), Some(2970.25));
        assert_eq!(times.at(Outcome::Granted, 16), None);
        for line in ["", "granted 1", "granted one 2", "perhaps 1 2"] {
            assert_eq!(times.read(line), None, "{line}");
        }
    }
}
