//! The steps as one page for a class. It needs nothing from elsewhere. Without
//! JavaScript the steps stand one under the other; with it, it is a stepper. The
//! steps of a long journal are drawn by the script when they are looked at.

mod html;
mod lines;
mod list;
mod listing;
mod locks;
mod pieces;
mod segment;
mod stack;
mod step;

use crate::figures::grouped;
use crate::steps::{Step, Troubles};
use html::escaped;
use list::List;
use pieces::Pieces;
use std::io::{self, Write};

const STYLE: &str = include_str!("page.css");
const SCRIPT: &str = include_str!("page.js");
/// Nothing is fetched, whatever a journal's texts hold.
const POLICY: &str = "default-src 'none'; style-src 'unsafe-inline'; \
    script-src 'unsafe-inline'; base-uri 'none'; form-action 'none'";
/// The most steps that stand in the page as they are.
const MOST_PLAIN: usize = 500;
/// A longer title is shortened.
const LONGEST_TITLE: usize = 120;

/// Writes the page. Its title is the introduction's first line with words, else
/// the name. The introduction stands above the first step, a paragraph for each
/// line.
pub fn write<'a>(
    name: &str,
    introduction: &[String],
    steps: impl IntoIterator<Item = Step<'a>>,
    out: &mut impl Write,
) -> io::Result<()> {
    let mut body = Body::default();
    for step in steps {
        body.take_in(&step);
    }
    let title = escaped(&title(name, introduction));
    write!(
        out,
        "<!DOCTYPE html>\n<html lang=\"en\">\n<head>\n<meta charset=\"utf-8\">\n\
         <meta http-equiv=\"Content-Security-Policy\" content=\"{POLICY}\">\n\
         <meta name=\"viewport\" content=\"width=device-width, initial-scale=1\">\n\
         <title>{title}</title>\n<style>\n{STYLE}</style>\n\
         <script>document.documentElement.classList.add(\"js\");</script>\n</head>\n<body>\n"
    )?;
    write_bar(&title, body.sections.len(), out)?;
    writeln!(out, "<div class=\"page\">")?;
    body.list.write(out)?;
    body.write_main(introduction, out)?;
    write!(
        out,
        "</div>\n<script>\n{SCRIPT}</script>\n</body>\n</html>\n"
    )
}

/// The first line of the introduction that has a letter or digit, shortened if it
/// is long, else the name.
fn title(name: &str, introduction: &[String]) -> String {
    let has_words = |line: &&String| line.contains(char::is_alphanumeric);
    let first = introduction.iter().find(has_words);
    let first = first.map_or(name, String::as_str);
    let start: String = first.chars().take(LONGEST_TITLE).collect();
    match start.len() == first.len() {
        true => start,
        false => start + "...",
    }
}

fn write_bar(title: &str, count: usize, out: &mut impl Write) -> io::Result<()> {
    let count = grouped(count);
    writeln!(
        out,
        "<a class=\"skip\" href=\"#steps\">Skip the list of calls</a>\n\
         <header class=\"bar\"><h1 title=\"{title}\">{title}</h1>\
         <div class=\"moves\"><span class=\"count\">{count} steps</span>\
         <button type=\"button\" title=\"Left arrow or k\">Previous</button>\
         <button type=\"button\" title=\"Right arrow, j or space\">Next</button></div>\
         <p class=\"unseen\" role=\"status\"></p></header>"
    )
}

/// What the steps leave in the page.
#[derive(Default)]
struct Body {
    list: List,
    sections: Vec<String>,
    pieces: Pieces,
    troubles: Troubles,
}

impl Body {
    fn take_in(&mut self, step: &Step) {
        self.troubles.take_in(step);
        self.list.push(step);
        let section = step::section(step, &mut self.pieces);
        self.sections.push(section);
    }

    fn write_main(self, introduction: &[String], out: &mut impl Write) -> io::Result<()> {
        writeln!(out, "<main id=\"steps\" tabindex=\"-1\">")?;
        for trouble in self.troubles.sentences() {
            writeln!(out, "<p class=\"alarm\">{}</p>", escaped(&trouble))?;
        }
        write_introduction(introduction, out)?;
        let pieces = self.pieces.into_list();
        match self.sections.len() {
            0 => writeln!(out, "<p>This journal has no calls.</p>")?,
            1..=MOST_PLAIN => {
                for section in &self.sections {
                    out.write_all(pieces::whole(section, &pieces).as_bytes())?;
                }
            }
            _ => write_drawn_later(&self.sections, &pieces, out)?,
        }
        writeln!(out, "</main>")
    }
}

fn write_introduction(lines: &[String], out: &mut impl Write) -> io::Result<()> {
    if lines.is_empty() {
        return Ok(());
    }
    writeln!(out, "<div class=\"about\">")?;
    for line in lines::drawn(lines) {
        writeln!(out, "<p>{line}</p>")?;
    }
    writeln!(out, "</div>")
}

/// The sections and the pieces for the script to draw from, one a line.
fn write_drawn_later(
    sections: &[String],
    pieces: &[String],
    out: &mut impl Write,
) -> io::Result<()> {
    writeln!(
        out,
        "<div class=\"stage\"></div>\n<noscript><p>The steps of a journal as long as this are \
         drawn by a script, and none runs here. The command <code>keylock trace</code> shows them \
         as text.</p></noscript>"
    )?;
    write_lines("sections", sections, out)?;
    write_lines("pieces", pieces, out)
}

fn write_lines(class: &str, lines: &[String], out: &mut impl Write) -> io::Result<()> {
    write!(out, "<script type=\"text/html\" class=\"{class}\">")?;
    for (place, line) in lines.iter().enumerate() {
        let end = if place == 0 { "" } else { "\n" };
        write!(out, "{end}{}", line.replace('\n', ""))?;
    }
    writeln!(out, "</script>")
}
