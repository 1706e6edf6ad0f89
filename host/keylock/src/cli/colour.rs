//! Whether to show colours.

use super::output::Target;
use std::env;
use std::io::{self, IsTerminal};

/// Only on a terminal, and not where somebody doesn't want them.
pub fn wanted(target: &Target) -> bool {
    let no_colour = env::var_os("NO_COLOR").is_some_and(|value| !value.is_empty());
    let dumb = env::var_os("TERM").is_some_and(|term| term == "dumb");
    let terminal = matches!(target, Target::StandardOutput) && io::stdout().is_terminal();
    terminal && !no_colour && !dumb
}
