//! Draws the points of the files that it is given, which the measuring programs
//! wrote, and prints the drawing as SVG.
//!
//! `bench/run` at the top of the repository runs it.

mod axis;
mod svg;

use axis::Axis;
use bench::points::{self, Panel, Point};
use std::process::ExitCode;
use std::{env, fs};

fn drawn(panel: Panel, points: &[Point]) -> svg::Drawn<'_> {
    let most = points.iter().map(|point| point.y).fold(0.0, f64::max);
    match panel {
        Panel::Instructions => svg::Drawn {
            title: "One check",
            x: Axis::linear("literals in a product", 1.0, 6.0, 1.0),
            y: Axis::linear("instructions, 2 products, depth 1", 0.0, most, 200.0),
            points,
        },
        Panel::Nanoseconds => svg::Drawn {
            title: "One granted access",
            x: Axis::log("depth: open calls (Java: domains)", 1.0, 16.0, 2.0),
            y: Axis::log("nanoseconds, log scale", 1.0, most, 10.0),
            points,
        },
    }
}

/// The drawing of the files' points. A panel without points is left out.
fn drawing(files: impl Iterator<Item = String>) -> Result<String, String> {
    let mut text = String::new();
    for file in files {
        text += &fs::read_to_string(&file).map_err(|error| format!("{file}: {error}"))?;
    }
    let points = points::read(&text)?;
    let of = |panel| -> Vec<Point> {
        let points = points.iter().filter(|point| point.panel == panel);
        points.copied().collect()
    };
    let panels = Panel::ALL.map(|panel| (panel, of(panel)));
    let panels: Vec<svg::Drawn> = panels
        .iter()
        .filter(|(_, points)| !points.is_empty())
        .map(|(panel, points)| drawn(*panel, points))
        .collect();
    Ok(svg::document(&panels))
}

fn main() -> ExitCode {
    match drawing(env::args().skip(1)) {
        Ok(drawing) => {
            print!("{drawing}");
            ExitCode::SUCCESS
        }
        Err(error) => {
            eprintln!("{error}");
            ExitCode::FAILURE
        }
    }
}
