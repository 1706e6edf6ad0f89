//! Measured points, in files that the plot is drawn from: a line for each, with
//! tabs between its fields.

use std::{env, fs, io};

/// What a point is one of.
#[derive(Clone, Copy, Debug, PartialEq, Eq)]
pub enum Panel {
    Instructions,
    Nanoseconds,
}

impl Panel {
    pub const ALL: [Panel; 2] = [Panel::Instructions, Panel::Nanoseconds];

    fn name(self) -> &'static str {
        match self {
            Panel::Instructions => "instructions",
            Panel::Nanoseconds => "nanoseconds",
        }
    }
}

/// Whose it is.
#[derive(Clone, Copy, Debug, PartialEq, Eq)]
pub enum Series {
    Proved,
    Reference,
    Document000,
    Java,
    /// The proved guard, with a C and an R for each open call.
    ProvedRoute,
}

impl Series {
    pub const ALL: [Series; 5] = [
        Series::Proved,
        Series::Reference,
        Series::Document000,
        Series::Java,
        Series::ProvedRoute,
    ];

    pub fn name(self) -> &'static str {
        match self {
            Series::Proved => "proved",
            Series::Reference => "reference",
            Series::Document000 => "document 000",
            Series::Java => "Java",
            Series::ProvedRoute => "proved + C, R",
        }
    }
}

#[derive(Clone, Copy, Debug, PartialEq)]
pub struct Point {
    pub panel: Panel,
    pub series: Series,
    pub x: f64,
    pub y: f64,
}

fn line(point: &Point) -> String {
    let (panel, series) = (point.panel.name(), point.series.name());
    format!("{panel}\t{series}\t{}\t{}\n", point.x, point.y)
}

fn point(line: &str) -> Option<Point> {
    let fields: Vec<&str> = line.split('\t').collect();
    let [panel, series, x, y] = fields[..] else {
        return None;
    };
    Some(Point {
        panel: Panel::ALL.into_iter().find(|other| other.name() == panel)?,
        series: Series::ALL
            .into_iter()
            .find(|other| other.name() == series)?,
        x: x.parse().ok()?,
        y: y.parse().ok()?,
    })
}

/// The points of a file, or the first line that is none.
pub fn read(text: &str) -> Result<Vec<Point>, String> {
    let point = |line: &str| point(line).ok_or_else(|| format!("no point: {line}"));
    text.lines().map(point).collect()
}

/// Writes the points to the file that is this program's argument, if it has
/// one.
pub fn write_to_argument(points: &[Point]) -> io::Result<()> {
    match env::args_os().nth(1) {
        Some(file) => fs::write(file, points.iter().map(line).collect::<String>()),
        None => Ok(()),
    }
}

#[cfg(test)]
mod tests {
    use super::*;

    #[test]
    fn what_is_written_is_read_back() {
        let point = |series, x, y| Point {
            panel: Panel::Nanoseconds,
            series,
            x,
            y,
        };
        let points = [
            point(Series::Proved, 1.0, 10.25),
            point(Series::Java, 16.0, 1437.5),
        ];
        let text: String = points.iter().map(line).collect();
        assert_eq!(read(&text), Ok(points.to_vec()));
    }

    #[test]
    fn another_line_is_reported() {
        for line in [
            "",
            "nanoseconds\tJava\t1",
            "nanoseconds\tC\t1\t2",
            "nanoseconds\tJava\t1\tx",
        ] {
            assert_eq!(read(&format!("{line}\n")), Err(format!("no point: {line}")));
        }
    }
}
