//! Callgrind: the requests that a program under it can make of it, and how this
//! program is started under it. Elsewhere a request does nothing.

use bench::scratch::Directory;
use std::arch::asm;
use std::collections::HashMap;
use std::env;
use std::ffi::CStr;
use std::fs;
use std::process::{Command, Stdio};

/// What a run of this program under callgrind counts.
#[derive(Clone, Copy, PartialEq, Eq)]
pub enum Run {
    /// Calls, from before each to after it, by requests.
    Calls,
    /// What runs inside [`CHECK`], from its entry to its return, wherever it is
    /// called. There are no instructions of counting among them.
    Checks,
}

/// The proved guard's own check, a private function of the static library. Its
/// symbol is local.
pub const CHECK: &str = "checking::opening";

/// A request's number and what goes with it.
type Request = [usize; 6];

const RUNNING_ON_VALGRIND: usize = 0x1001;
/// Callgrind's own requests count from here: its letters, `CT`.
const CALLGRIND: usize = 0x4354_0000;

const ZERO_STATS: usize = CALLGRIND + 1;
static TOGGLE_COLLECT: Request = [CALLGRIND + 2, 0, 0, 0, 0, 0];
const DUMP_STATS_AT: usize = CALLGRIND + 3;

/// What callgrind writes before a dump's name.
const NAMED: &str = "desc: Trigger: Client Request: ";
/// What it writes before a dump's number of instructions.
const COUNTED: &str = "totals: ";

/// Makes a request. The answer is 0 where nobody takes it.
fn ask(request: &Request) -> usize {
    let answer;
    // SAFETY: the sequence turns a register by 128 bits in all, so it changes
    // nothing but `rdx`. Valgrind reads the request, and the name that one of
    // them points at, before the program goes on.
    unsafe {
        asm!(
            "rol rdi, 3",
            "rol rdi, 13",
            "rol rdi, 61",
            "rol rdi, 51",
            "xchg rbx, rbx",
            in("rax") request.as_ptr(),
            inout("rdx") 0_usize => answer,
            options(nostack),
        );
    }
    answer
}

/// Starts counting, or stops it. The same instructions wherever it stands, so
/// that they can be subtracted.
#[inline(always)]
fn toggle() {
    // SAFETY: as for `ask`; `rax` and `rdx` are message.
    unsafe {
        asm!(
            "lea rax, [rip + {request}]",
            "xor edx, edx",
            "rol rdi, 3",
            "rol rdi, 13",
            "rol rdi, 61",
            "rol rdi, 51",
            "xchg rbx, rbx",
            request = sym TOGGLE_COLLECT,
            out("rax") _,
            out("rdx") _,
            options(nostack),
        );
    }
}

/// Has the instructions of one call counted, and written down by this name.
#[inline(always)]
pub fn count<T>(name: &CStr, call: impl FnOnce() -> T) -> T {
    toggle();
    let answer = call();
    toggle();
    dump(name);
    answer
}

/// Has those of the check inside a call written down by this name, in a run of
/// [`Run::Checks`].
pub fn count_check<T>(name: &CStr, call: impl FnOnce() -> T) -> T {
    ask(&[ZERO_STATS, 0, 0, 0, 0, 0]);
    let answer = call();
    dump(name);
    answer
}

fn dump(name: &CStr) {
    ask(&[DUMP_STATS_AT, name.as_ptr() as usize, 0, 0, 0, 0]);
}

impl Run {
    const ALL: [Run; 2] = [Run::Calls, Run::Checks];

    /// The argument that tells this program under valgrind which run it is.
    fn argument(self) -> &'static str {
        match self {
            Run::Calls => "calls",
            Run::Checks => "checks",
        }
    }

    /// The run that this program is, if it runs under valgrind.
    pub fn current() -> Option<Run> {
        if ask(&[RUNNING_ON_VALGRIND, 0, 0, 0, 0, 0]) == 0 {
            return None;
        }
        let argument = env::args().nth(1);
        let run = Run::ALL
            .into_iter()
            .find(|run| argument.as_deref() == Some(run.argument()));
        Some(run.expect("under valgrind this program is started by itself"))
    }

    /// Runs this program under callgrind. Answers the counts by their names, or
    /// what went wrong.
    pub fn counts(self) -> Result<HashMap<String, u64>, String> {
        let directory = Directory::new("instructions")
            .map_err(|error| format!("no directory for callgrind's dumps: {error}"))?;
        let dumps = directory.path().join("dumps");
        let program = env::current_exe().map_err(|error| format!("this program: {error}"))?;
        let mut valgrind = Command::new("valgrind");
        valgrind
            .args(["--quiet", "--tool=callgrind"])
            .args(["--collect-atstart=no", "--combine-dumps=yes"])
            .arg(format!("--callgrind-out-file={}", dumps.display()));
        if self == Run::Checks {
            valgrind.arg(format!("--toggle-collect={CHECK}"));
        }
        let status = valgrind
            .arg(program)
            .arg(self.argument())
            .stdin(Stdio::null())
            .status()
            .map_err(|error| {
                format!("valgrind can't be started ({error}): install the package `valgrind`")
            })?;
        if !status.success() {
            return Err(format!("under valgrind: {status}"));
        }
        let dumps = fs::read_to_string(&dumps)
            .map_err(|error| format!("callgrind's dumps can't be read: {error}"))?;
        let counts = counts(&dumps);
        match self {
            Run::Calls => Ok(counts),
            Run::Checks => all_counted(&dumps, counts),
        }
    }
}

/// The counts of the check, if there is one in each scene.
fn all_counted(dumps: &str, counts: HashMap<String, u64>) -> Result<HashMap<String, u64>, String> {
    // A name stands where it comes first, of a function (fn) or of one that is called (cfn).
    let named = |line: &str| {
        let line = line.strip_prefix('c').unwrap_or(line);
        line.starts_with("fn=") && line.ends_with(CHECK)
    };
    if !dumps.lines().any(named) {
        return Err(format!(
            "the check can't be counted: callgrind finds no function `{CHECK}` in this program. \
             The static library must have it as a function of its own, and its symbol kept"
        ));
    }
    match counts.iter().find(|(_, count)| **count == 0) {
        Some((name, _)) => Err(format!(
            "no instruction of `{CHECK}` is counted in '{name}'"
        )),
        None => Ok(counts),
    }
}

/// The counts in a file of callgrind's dumps.
fn counts(dumps: &str) -> HashMap<String, u64> {
    let mut counts = HashMap::new();
    let mut name = None;
    for line in dumps.lines() {
        if let Some(named) = line.strip_prefix(NAMED) {
            name = Some(named);
        } else if let Some(counted) = line.strip_prefix(COUNTED)
            && let Some(name) = name.take()
        {
            let counted = counted.trim().parse().expect("a number of instructions");
            let before = counts.insert(name.to_string(), counted);
            assert_eq!(before, None, "{name} is counted twice");
        }
    }
    counts
}

#[cfg(test)]
mod tests {
    use super::*;

    fn dump(scene: &str, function: &str, count: u64) -> String {
        format!("{NAMED}{scene}\nfn=(1) {function}\n0 {count}\n{COUNTED}{count}\n")
    }

    #[test]
    fn counts_by_their_names() {
        let dumps = dump("one", CHECK, 78) + &dump("two", CHECK, 125);
        let expected = HashMap::from([("one".to_string(), 78), ("two".to_string(), 125)]);
        assert_eq!(counts(&dumps), expected);
        assert_eq!(all_counted(&dumps, counts(&dumps)), Ok(expected));
    }

    #[test]
    fn a_check_that_is_not_counted_is_reported() {
        let other = dump("one", "rotundaaloe_raw_access", 40);
        let message = all_counted(&other, counts(&other)).expect_err("no such function");
        assert!(
            message.contains("finds no function `checking::opening`"),
            "{message}"
        );
        let nothing = dump("one", CHECK, 78) + &dump("two", CHECK, 0);
        let message = all_counted(&nothing, counts(&nothing)).expect_err("nothing in a scene");
        assert!(message.ends_with("is counted in 'two'"), "{message}");
    }
}
