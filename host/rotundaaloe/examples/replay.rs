//! Replays a journal, as the office program does.
//!
//! ```sh
//! cargo run --release --manifest-path host/Cargo.toml --example replay lessons/route.kld
//! ```

use rotundaaloe::{Guard, Journal, Refusal};
use std::process::ExitCode;
use std::{env, fs};

fn replay(file: &[u8]) -> Result<(), Refusal> {
    let journal = Journal::from_bytes(file)?;
    let mut guard = Guard::new();
    for (place, record) in journal.records().enumerate() {
        let letter = char::from(record.letter);
        match guard.call(record) {
            Ok(answer) => println!("{place} {letter} ok {answer}"),
            Err(refusal) => {
                println!(
                    "{place} {letter} no {} {}",
                    refusal.number(),
                    refusal.second()
                )
            }
        }
    }
    Ok(())
}

fn main() -> ExitCode {
    let Some(name) = env::args_os().nth(1) else {
        eprintln!("name a journal");
        return ExitCode::FAILURE;
    };
    let replayed = match fs::read(&name) {
        Ok(file) => replay(&file).map_err(|refusal| refusal.to_string()),
        Err(error) => Err(error.to_string()),
    };
    match replayed {
        Ok(()) => ExitCode::SUCCESS,
        Err(reason) => {
            eprintln!("{}: {reason}", name.display());
            ExitCode::FAILURE
        }
    }
}
