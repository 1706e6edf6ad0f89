//! Counts the instructions of both guards with callgrind and prints tables of
//! them with their ratios and limits. It fails where a limit is missed.
//!
//! `bench/run` at the top of the repository runs it. It starts itself twice more
//! under valgrind, which must be installed, and there the scenes, the lock lists
//! and the key searches are counted. In one run these are the instructions from a
//! call to its return, less those of counting itself; in the other, those of the
//! proved guard's own check inside an access. With a file's name it writes the
//! plot's points there.

#[cfg(target_arch = "x86_64")]
mod callgrind;
#[cfg(target_arch = "x86_64")]
mod checks;
#[cfg(target_arch = "x86_64")]
mod counting;
#[cfg(target_arch = "x86_64")]
mod grants;
#[cfg(target_arch = "x86_64")]
mod limits;
#[cfg(target_arch = "x86_64")]
mod listings;
#[cfg(target_arch = "x86_64")]
mod report;
#[cfg(target_arch = "x86_64")]
mod scenes;
#[cfg(target_arch = "x86_64")]
mod searches;
#[cfg(target_arch = "x86_64")]
mod takes;

#[cfg(target_arch = "x86_64")]
use callgrind::Run;
#[cfg(target_arch = "x86_64")]
use grants::Grants;
#[cfg(target_arch = "x86_64")]
use listings::{LISTINGS, Listing};
#[cfg(target_arch = "x86_64")]
use searches::Search;
use std::process::ExitCode;
#[cfg(target_arch = "x86_64")]
use takes::{TAKES, Take};

#[cfg(target_arch = "x86_64")]
fn main() -> ExitCode {
    let (scenes, searches) = (scenes::all(), searches::all());
    match Run::current() {
        Some(Run::Calls) => {
            counting::count_nothing();
            scenes.iter().for_each(counting::count);
            LISTINGS.into_iter().for_each(Listing::count);
            searches.into_iter().for_each(Search::count);
            return ExitCode::SUCCESS;
        }
        Some(Run::Checks) => {
            scenes.iter().for_each(counting::count_check);
            return ExitCode::SUCCESS;
        }
        None => (),
    }
    scenes.iter().for_each(counting::tried);
    LISTINGS.into_iter().for_each(Listing::tried);
    searches.into_iter().for_each(Search::tried);
    TAKES.into_iter().for_each(Take::tried);
    Grants::ALL.into_iter().for_each(Grants::tried);
    match reported() {
        Ok(0) => ExitCode::SUCCESS,
        Ok(_) => ExitCode::FAILURE,
        Err(error) => {
            eprintln!("{error}");
            ExitCode::FAILURE
        }
    }
}

/// Prints the tables. Answers how many limits are missed, or what went wrong.
#[cfg(target_arch = "x86_64")]
fn reported() -> Result<usize, String> {
    let report = report::Report::new(Run::Calls.counts()?, Run::Checks.counts()?);
    bench::points::write_to_argument(&report.points())
        .map_err(|error| format!("the points can't be written: {error}"))?;
    Ok(report.print())
}

#[cfg(not(target_arch = "x86_64"))]
fn main() -> ExitCode {
    eprintln!("Instructions are counted on x86-64 only.");
    ExitCode::FAILURE
}
