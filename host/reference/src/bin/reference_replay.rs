//! The office program with the reference instead of the proved guard: reads a
//! journal from standard input and prints a line for each of its records, or
//! the file's refusal.

use std::io::{self, Read, Write};

fn main() -> io::Result<()> {
    let mut file = Vec::new();
    io::stdin().lock().read_to_end(&mut file)?;
    io::stdout().lock().write_all(&reference::replay(&file))
}
