//! Panels side by side, as SVG: a line for each series, with its name and its
//! last number at its end.

use crate::axis::Axis;
use bench::points::{Point, Series};
use std::fmt::Write;

/// What a panel shows.
pub struct Drawn<'a> {
    pub title: &'static str,
    pub x: Axis,
    pub y: Axis,
    pub points: &'a [Point],
}

const PANEL: f64 = 460.0;
const HEIGHT: f64 = 350.0;
/// The field that the axes span, in a panel.
const LEFT: f64 = 58.0;
const TOP: f64 = 70.0;
const WIDE: f64 = 240.0;
const HIGH: f64 = 220.0;
/// The least distance of two lines' names.
const NAME: f64 = 18.0;

/// A series' class is its place among all. The drawing has a ground of its own,
/// so that it can be read on any page.
const STYLE: &str = "
.ground { fill: #ffffff; stroke: #d0d7de } .grid { stroke: #d8dee4 }
text { font: 14px sans-serif; fill: #1f2328 } .title { font-weight: bold; font-size: 16px }
.s0, .s4 { fill: #0550ae; stroke: #0550ae } .s1 { fill: #bc4c00; stroke: #bc4c00 }
.s2 { fill: #6e7781; stroke: #6e7781 } .s3 { fill: #1a7f37; stroke: #1a7f37 }
polyline { fill: none; stroke-width: 2.5 } .s4 polyline { stroke-dasharray: 6 4 }
@media (prefers-color-scheme: dark) {
.ground { fill: #0d1117; stroke: #30363d } .grid { stroke: #2a313a } text { fill: #e6edf3 }
.s0, .s4 { fill: #79c0ff; stroke: #79c0ff } .s1 { fill: #ffa657; stroke: #ffa657 }
.s2 { fill: #a6aeb8; stroke: #a6aeb8 } .s3 { fill: #56d364; stroke: #56d364 }
}
.name { stroke: none }
";

pub fn document(panels: &[Drawn]) -> String {
    let wide = PANEL * panels.len() as f64;
    let mut svg = format!(
        "<svg xmlns=\"http://www.w3.org/2000/svg\" viewBox=\"0 0 {wide} {HEIGHT}\" \
         width=\"{wide}\" height=\"{HEIGHT}\" role=\"img\">\n<style>{STYLE}</style>\n\
         <rect class=\"ground\" width=\"100%\" height=\"100%\" rx=\"6\"/>\n"
    );
    for (place, panel) in panels.iter().enumerate() {
        let left = PANEL * place as f64 + LEFT;
        svg += &format!("<g transform=\"translate({left} {TOP})\">\n");
        svg += &axes(panel);
        svg += &lines(panel);
        svg += "</g>\n";
    }
    svg + "</svg>\n"
}

fn text(class: &str, anchor: &str, x: f64, y: f64, text: &str) -> String {
    format!(
        "<text class=\"{class}\" text-anchor=\"{anchor}\" x=\"{x:.1}\" y=\"{y:.1}\">{text}</text>\n"
    )
}

fn axes(panel: &Drawn) -> String {
    let mut svg = text("title", "start", 8.0 - LEFT, -44.0, panel.title);
    svg += &text("", "start", 8.0 - LEFT, -18.0, panel.y.label);
    svg += &text("", "middle", WIDE / 2.0, HIGH + 44.0, panel.x.label);
    for tick in &panel.y.ticks {
        let y = HIGH * (1.0 - panel.y.place(*tick));
        let _ = writeln!(
            svg,
            "<line class=\"grid\" x2=\"{WIDE}\" y1=\"{y:.1}\" y2=\"{y:.1}\"/>"
        );
        svg += &text("", "end", -8.0, y + 5.0, &tick.to_string());
    }
    for tick in &panel.x.ticks {
        let x = WIDE * panel.x.place(*tick);
        svg += &text("", "middle", x, HIGH + 20.0, &tick.to_string());
    }
    svg
}

/// Where a point stands in its panel's field.
fn place(panel: &Drawn, point: &Point) -> [f64; 2] {
    let [x, y] = [panel.x.place(point.x), panel.y.place(point.y)];
    [WIDE * x, HIGH * (1.0 - y)]
}

fn lines(panel: &Drawn) -> String {
    let mut svg = String::new();
    let mut names = Vec::new();
    for (number, series) in Series::ALL.into_iter().enumerate() {
        let points = panel.points.iter().filter(|point| point.series == series);
        let Some(last) = points.clone().next_back() else {
            continue;
        };
        let places: Vec<[f64; 2]> = points.map(|point| place(panel, point)).collect();
        let list: Vec<String> = places
            .iter()
            .map(|[x, y]| format!("{x:.1},{y:.1}"))
            .collect();
        svg += &format!(
            "<g class=\"s{number}\"><polyline points=\"{}\"/>",
            list.join(" ")
        );
        for [x, y] in &places {
            svg += &format!("<circle cx=\"{x:.1}\" cy=\"{y:.1}\" r=\"3.5\"/>");
        }
        svg += "</g>\n";
        let name = format!("{}: {:.0}", series.name(), last.y);
        names.push((place(panel, last)[1], number, name));
    }
    svg + &names_apart(names)
}

/// The lines' names, each beside its line's end or as far below it as the name
/// above needs.
fn names_apart(mut names: Vec<(f64, usize, String)>) -> String {
    names.sort_by(|a, b| a.0.total_cmp(&b.0));
    let mut least = f64::MIN;
    let mut svg = String::new();
    for (y, number, name) in names {
        let y = y.max(least);
        least = y + NAME;
        let class = format!("s{number} name");
        svg += &text(&class, "start", WIDE + 10.0, y + 5.0, &name);
    }
    svg
}

#[cfg(test)]
mod tests {
    use super::*;
    use bench::points::Panel;

    fn point(series: Series, x: f64, y: f64) -> Point {
        Point {
            panel: Panel::Nanoseconds,
            series,
            x,
            y,
        }
    }

    fn drawing(points: &[Point]) -> String {
        document(&[Drawn {
            title: "title",
            x: Axis::linear("x", 0.0, 10.0, 5.0),
            y: Axis::log("y", 1.0, 100.0, 10.0),
            points,
        }])
    }

    #[test]
    fn a_line_for_each_series_through_its_points() {
        let svg = drawing(&[
            point(Series::Proved, 0.0, 1.0),
            point(Series::Java, 0.0, 100.0),
            point(Series::Proved, 10.0, 10.0),
            point(Series::Java, 5.0, 10.0),
        ]);
        assert_eq!(svg.matches("<polyline").count(), 2);
        assert_eq!(svg.matches("<circle").count(), 4);
        let [middle, centre] = [HIGH / 2.0, WIDE / 2.0];
        for line in [
            format!("points=\"0.0,{HIGH:.1} {WIDE:.1},{middle:.1}\""),
            format!("points=\"0.0,0.0 {centre:.1},{middle:.1}\""),
        ] {
            assert!(svg.contains(&line), "{line} in {svg}");
        }
        assert!(svg.contains(">proved: 10<") && svg.contains(">Java: 10<"));
    }

    #[test]
    fn every_tag_is_closed() {
        let svg = drawing(&[point(Series::Proved, 5.0, 10.0)]);
        let mut open = Vec::new();
        for tag in svg.split('<').skip(1) {
            let (tag, _) = tag.split_once('>').expect("a tag ends");
            let name = tag.split(' ').next().expect("a tag has a name");
            match name.strip_prefix('/') {
                Some(name) => assert_eq!(open.pop(), Some(name)),
                None if tag.ends_with('/') => (),
                None => open.push(name),
            }
        }
        assert!(open.is_empty());
    }

    #[test]
    fn names_stand_apart() {
        let name = |y: f64, number| (y, number, String::new());
        let svg = names_apart(vec![name(51.0, 0), name(50.0, 1), name(200.0, 2)]);
        let places: Vec<&str> = svg.split(" y=\"").skip(1).collect();
        let places: Vec<&str> = places
            .iter()
            .map(|at| &at[..at.find('"').unwrap()])
            .collect();
        assert_eq!(places, ["55.0", "73.0", "205.0"]);
    }
}
