//! The progress line.

use keylock::progress::Progress;
use std::cell::RefCell;
use std::io::{self, Write};
use std::rc::Rc;
use std::time::Duration;

#[derive(Clone, Default)]
struct Screen(Rc<RefCell<Vec<u8>>>);

impl Screen {
    fn text(&self) -> String {
        String::from_utf8(self.0.borrow().clone()).expect("text")
    }
}

impl Write for Screen {
    fn write(&mut self, bytes: &[u8]) -> io::Result<usize> {
        self.0.borrow_mut().write(bytes)
    }

    fn flush(&mut self) -> io::Result<()> {
        Ok(())
    }
}

#[test]
fn long_work_shows_a_line_and_clears_it() {
    let screen = Screen::default();
    let mut progress = Progress::on(Box::new(screen.clone()), Duration::ZERO, 7_280, "records");
    progress.at(3_120);
    let shown = "\rkeylock: 3,120 of 7,280 records";
    assert_eq!(screen.text(), shown);
    drop(progress);
    let blanks = " ".repeat(shown.len() - 1);
    assert_eq!(screen.text(), format!("{shown}\r{blanks}\r"));
}

#[test]
fn short_work_shows_none() {
    let screen = Screen::default();
    let after = Duration::from_secs(60);
    let mut progress = Progress::on(Box::new(screen.clone()), after, 10, "records");
    progress.at(1);
    drop(progress);
    assert_eq!(screen.text(), "");
}
