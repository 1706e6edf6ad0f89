//! The page's colours: text stands out from its ground by 4.5 to 1 or more in
//! both themes, as WCAG 2 asks at level AA.

use std::collections::BTreeMap;

const STYLE: &str = include_str!("../src/page.css");
const LEAST: f64 = 4.5;
/// Text, and a ground that it stands on.
const PAIRS: [(&str, &str); 20] = [
    ("ink", "ground"),
    ("ink", "card"),
    ("ink", "accent-soft"),
    ("ink", "good-soft"),
    ("ink", "bad-soft"),
    ("quiet", "ground"),
    ("quiet", "card"),
    ("quiet", "accent-soft"),
    ("quiet", "good-soft"),
    ("quiet", "bad-soft"),
    ("accent", "ground"),
    ("accent", "card"),
    ("accent", "accent-soft"),
    ("good", "good-soft"),
    ("good", "card"),
    ("bad", "bad-soft"),
    ("bad", "card"),
    ("bad", "ground"),
    ("bad", "accent-soft"),
    ("card", "bad"),
];

/// The colours that a part of the style sets.
fn colours(part: &str) -> BTreeMap<&str, [f64; 3]> {
    let lines = part.lines().filter_map(|line| {
        let (name, value) = line.trim().strip_prefix("--")?.split_once(": #")?;
        let number = u32::from_str_radix(value.trim_end_matches(';'), 16).expect("six digits");
        let part = |shift: u32| f64::from(number >> shift & 255) / 255.0;
        Some((name, [16, 8, 0].map(part)))
    });
    lines.collect()
}

fn luminance(colour: [f64; 3]) -> f64 {
    let linear = |part: f64| match part <= 0.04045 {
        true => part / 12.92,
        false => ((part + 0.055) / 1.055).powf(2.4),
    };
    let [red, green, blue] = colour.map(linear);
    0.2126 * red + 0.7152 * green + 0.0722 * blue
}

fn contrast(one: [f64; 3], other: [f64; 3]) -> f64 {
    let (one, other) = (luminance(one) + 0.05, luminance(other) + 0.05);
    one.max(other) / one.min(other)
}

#[test]
fn text_stands_out_in_both_themes() {
    let (light, rest) = STYLE
        .split_once("@media (prefers-color-scheme: dark)")
        .expect("two themes");
    let (dark, _) = rest.split_once("}\n}").expect("its end");
    for (theme, part) in [("light", light), ("dark", dark)] {
        let colours = colours(part);
        for (text, ground) in PAIRS {
            let contrast = contrast(colours[text], colours[ground]);
            assert!(
                contrast >= LEAST,
                "{theme}: {text} on {ground}, {contrast:.2}"
            );
        }
    }
}

#[test]
fn black_on_white_is_21_to_1() {
    assert!((contrast([0.0; 3], [1.0; 3]) - 21.0).abs() < 1e-9);
}
