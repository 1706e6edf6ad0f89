//! What `--help` shows.

use super::arguments::Topic;
use keylock::letters;

pub fn text(topic: Option<Topic>) -> String {
    let text = match topic {
        None => COMMAND,
        Some(Topic::Asm) => ASM,
        Some(Topic::Dis) => DIS,
        Some(Topic::Run) => RUN,
        Some(Topic::Trace) => TRACE,
        Some(Topic::Locks) => LOCKS,
        Some(Topic::Key) => KEY,
        Some(Topic::State) => STATE,
    };
    text.replace("{LETTERS}", &letters::table())
        .replace("{OPTIONS}", OPTIONS)
}

/// The options of those that write to a file.
const OPTIONS: &str = "  \
  -o, --output OUT  write to this file; '-' and none is standard output
  -h, --help        show this
  -V, --version     show the version
";

const COMMAND: &str = "\
Usage: keylock SUBCOMMAND [OPTION]... [FILE]...

Writes, reads, replays and explains the guard's journals, shows lock lists and
state files, and finds keys. Every answer is the proved guard's.

Subcommands:
  asm    a text journal to a journal
  dis    a journal to a text journal
  run    the guard's answer to each call
  trace  each call explained, as text or as a page
  locks  a segment's lock list, as a user sees it after a journal
  key    which open call of a thread hands a key over after a journal
  state  what stands in a state file

Options:
  -h, --help     show this; 'keylock SUBCOMMAND --help' tells more
  -V, --version  show the version

A FILE that is missing or '-' is standard input; locks and key need one. '--'
ends the options.

Exit status:
  0  fine
  1  the input is at fault
  2  the command was called wrongly, or couldn't read or write

Example:
  keylock asm office.txt -o office.kld && keylock run office.kld
";

const ASM: &str = r#"Usage: keylock asm [FILE] [-o OUT]

Makes the journal of a text journal. Mistakes of the text are told with their
line and column, one a line, up to 20; where there are any, nothing is written.

A text journal has one call a line: its letter, the fields that it names, for L
the formula, and if you like the answer that 'keylock run' has to expect.

  # a comment runs to the end of the line
{LETTERS}  A 0 2 4 -> no 15 0            expects a refusal; '-> ok 2' an answer

N, K, G, T, L and D are edits: their thread makes them for its user, so an S
comes before them. Where none above can have started an edit's thread, a note
tells so on standard error: before version 2 of the journal edits named a user.

A formula has keys, U0 R0 S0 D0, with ! & | and brackets, and no blanks. In
quotes any text may stand, with \" \\ and \xHH; the guard refuses what is no
formula.

Options:
{OPTIONS}
Exit status: 0 fine, 1 mistakes in the text, 2 called wrongly, or couldn't read
or write.

Example:
  keylock asm office.txt -o office.kld
"#;

const DIS: &str = "\
Usage: keylock dis [FILE] [-o OUT]

Makes the text of a journal: a call a line, with its place and what it asks for
in a comment. 'keylock asm' makes the same journal of it again, byte for byte.
Where the guard refuses the file, it tells at which byte and why, and writes
nothing.

Options:
{OPTIONS}
Exit status: 0 fine, 1 the file is refused, 2 called wrongly, or couldn't read
or write.

Example:
  keylock dis office.kld -o office.txt
";

const RUN: &str = "\
Usage: keylock run [FILE]...

Replays journals or text journals, each from the empty state, and prints the
guard's answers as the office program does: place, letter, and 'ok N' or
'no N M'. Before each of several files stands a line '== FILE =='.

Answers that a text expects are compared: those that aren't given are told on
standard error, and so is how many there were.

Refusals, the first number after 'no'; the second is the lock with 14, else 0:
   1 stranger     5 no lock      9 not there   13 void
   2 no run       6 not yours   10 full        14 barred
   3 no segment   7 unfit       11 misspelt    15 no way in
   4 no key       8 already in  12 too wide
'keylock trace' says why.

Options:
  -h, --help     show this
  -V, --version  show the version

Colours are for terminals only, and not where NO_COLOR is set.

Exit status: 0 fine, 1 an input is at fault (then nothing is run) or an expected
answer isn't given, 2 called wrongly, or couldn't read or write.

Example:
  printf 'U\\nS 0 -> ok 0\\n' | keylock run
";

const TRACE: &str = "\
Usage: keylock trace [--html] [FILE] [-o OUT]

Explains a journal or a text journal step by step: what each call asks for, the
guard's answer and why, the thread's open calls and keys after it and, for a C
or an A, each lock with the key that opened it or kept it shut. Where several
grant locks open, the tightest answers: the one whose longest product that opens
has the most keys, barred ones counted, and of equally tight ones the lowest.
Then each stands there with its number of keys. A segment stands there with its
locks and with its lock list, as its owner and as a colleague sees it; on a page
that list is at a C or an A too, where a click opens it. A T takes its key from
the segment's open calls too: the threads that lose it stand there, and while
such a call is open, the key stands in it with the step that took it, struck out
on a page. The text's comments and expected answers stand beside the steps. A
comment that begins with what its call makes gives it a name, of up to 40
characters:

  S 0    # thread 0, the May closing
  N 0 1  # segment 2, the totals sheet

Options:
      --html        a page for a browser, in one file, to step through
{OPTIONS}
Exit status: 0 fine, 1 the input is at fault (then nothing is written) or an
expected answer isn't given, 2 called wrongly, or couldn't read or write.

Example:
  keylock trace --html office.txt -o office.html
";

const LOCKS: &str = "\
Usage: keylock locks FILE USER SEGMENT [--rows N]

Replays a journal or a text journal from the empty state, and prints the lock
list of a segment as the guard then shows it to a user: 'ok N' and N rows, or
'no N 0'. A row has the lock, its operations added up (1 execute, 2 read, 4
write), grant or deny, and keys. The segment's owner gets a row for each product
of each standing lock, with its keys, barred ones with '!'. Anyone else gets a
row for each standing lock, without keys:

  ok 3                ok 2
  2 4 grant S0 S1     2 4 grant
  3 6 deny !D0        3 6 deny
  3 6 deny U1

Refusals, the first number after 'no': 1 stranger, 3 no segment, 19 too few
rows. Answers that a text expects aren't compared here: 'keylock run' does that.

A FILE that is '-' is standard input. USER and SEGMENT are numbers from 0 to
65535.

Options:
      --rows N   how many rows are lent to the guard; enough if left out
  -h, --help     show this
  -V, --version  show the version

Exit status: 0 fine, whatever the guard answers, 1 the input is at fault (then
nothing is printed), 2 called wrongly, or couldn't read or write.

Example:
  keylock locks office.txt 0 2
";

const KEY: &str = "\
Usage: keylock key FILE THREAD KEY

Replays a journal or a text journal from the empty state, and prints which open
call of a thread then hands a key over: 'ok N' with the place of the newest one
that does, 'none' where no open call does, or 'no 2 0'. Place 0 is the thread's
newest open call, 1 the one before it, and all open calls count.

An open call hands over the list that its segment had when the call was made,
less what was taken from it since. A key that is given later, or given again,
comes with new calls only.

A thread holds its user's U key and its own R key, but no call hands them over,
so they are 'none'. So is a key that was never handed out.

Refusals, the first number after 'no': 2 no run. Answers that a text expects
aren't compared here: 'keylock run' does that.

A FILE that is '-' is standard input. THREAD is a number from 0 to 65535. KEY is
spelt as in a formula: U, R, S or D and such a number.

Options:
  -h, --help     show this
  -V, --version  show the version

Exit status: 0 fine, whatever the guard answers, 1 the input is at fault (then
nothing is printed), 2 called wrongly, or couldn't read or write.

Example:
  keylock key office.txt 0 S1
";

const STATE: &str = "\
Usage: keylock state [FILE] [-o OUT]

Shows what stands in a state file, which a host saves: the live threads with
their open calls and keys, the segments with their key lists, the standing locks
with their formulas as products, and how many numbers of each kind are left.
Where the file is refused, it tells why.

Options:
{OPTIONS}
Exit status: 0 fine, 1 the file is refused, 2 called wrongly, or couldn't read
or write.

Example:
  keylock state office.kls
";
