//! The reference's formula texts against document 01: its examples, its limits
//! from both sides, and its law that a formula holds where a product opens.

use reference::formula::{Formula, compile, parse};
use reference::limits::{MAX_DEPTH, MAX_TEXT_BYTES};
use reference::{Issued, Key, Kind, Refusal};
use std::collections::BTreeSet;
use testing::random::Random;

const TEN_EACH: Issued = Issued {
    users: 10,
    threads: 10,
    segments: 10,
    defined: 10,
};

/// A text's products, each written as `U0 !D1`, or the refusal's number.
fn answer(text: &str, issued: &Issued) -> Result<Vec<String>, u32> {
    let products = compile(text.as_bytes(), issued).map_err(Refusal::number)?;
    Ok(products
        .iter()
        .map(|product| {
            let literals: Vec<String> = product
                .literals()
                .iter()
                .map(|literal| {
                    let bar = if literal.barred { "!" } else { "" };
                    let letter = char::from(literal.key.kind.letter());
                    format!("{bar}{letter}{}", literal.key.number)
                })
                .collect();
            literals.join(" ")
        })
        .collect())
}

#[track_caller]
fn accepted(text: &str, products: &[&str]) {
    let products: Vec<String> = products.iter().map(|p| p.to_string()).collect();
    assert_eq!(answer(text, &TEN_EACH), Ok(products), "{text}");
}

#[track_caller]
fn refused(text: &str, number: u32) {
    assert_eq!(answer(text, &TEN_EACH), Err(number), "{text}");
}

#[test]
fn worked_examples() {
    refused("D0&!D0", 13);
    accepted("(D0&!D0)|D1", &["D1"]);
    accepted("D0|D0&D1", &["D0", "D0 D1"]);
    accepted("!(D0|D1)", &["!D0 !D1"]);
    refused("D01", 11);
    accepted("(D0|D1)&(D2|D3)", &["D0 D2", "D0 D3", "D1 D2", "D1 D3"]);
    accepted(
        "D0|D1|D2|D3|D4|D5|D6|D7",
        &["D0", "D1", "D2", "D3", "D4", "D5", "D6", "D7"],
    );
    refused("D0|D1|D2|D3|D4|D5|D6|D7|D8", 12);
    accepted("D0&D1&D2&D3&D4&D5", &["D0 D1 D2 D3 D4 D5"]);
    refused("D0&D1&D2&D3&D4&D5&D6", 12);
    accepted("U0", &["U0"]);
    accepted("S0&S1", &["S0 S1"]);
}

#[test]
fn products_are_kept_in_order() {
    accepted("D0&S0&R0&U0", &["U0 R0 S0 D0"]);
    accepted("D9&D3&!D5", &["D3 !D5 D9"]);
    let many = Issued {
        defined: 11,
        ..TEN_EACH
    };
    assert_eq!(answer("D10&D9", &many), Ok(vec!["D9 D10".to_string()]));
    // The order of the products is the text's, though.
    accepted("D1|D0", &["D1", "D0"]);
    accepted("(D3|D2)&(D1|D0)", &["D1 D3", "D0 D3", "D1 D2", "D0 D2"]);
}

#[test]
fn not_binds_tightest_and_turns_and_and_or() {
    accepted("!D0&D1", &["!D0 D1"]);
    accepted("!D0|D1", &["!D0", "D1"]);
    accepted("!(D0&D1)", &["!D0", "!D1"]);
    accepted("!(D0|D1&D2)", &["!D0 !D1", "!D0 !D2"]);
    accepted("!(D0|!D1)", &["!D0 D1"]);
    accepted("!!D0", &["D0"]);
    accepted("!!!(D0)", &["!D0"]);
    accepted("!(!(D0&D1)&D2)", &["D0 D1", "!D2"]);
}

#[test]
fn contradictions_and_repeats_go_before_the_node_is_measured() {
    // Seven literals, but one product that is a contradiction.
    refused("D0&D1&D2&D3&D4&D5&!D0", 13);
    // Seven keys, six of them different.
    accepted("D0&D1&D2&D3&D4&D5&D0", &["D0 D1 D2 D3 D4 D5"]);
    accepted(
        "D7|D1|D2|D3|D4|D5|D6|D0|D7|D0",
        &["D7", "D1", "D2", "D3", "D4", "D5", "D6", "D0"],
    );
    // Nine joins, of which three are left.
    accepted(
        "(D0|D1|D2)&(!D0&!D1|!D0&!D2|!D1&!D2)",
        &["D0 !D1 !D2", "!D0 D1 !D2", "!D0 !D1 D2"],
    );
    // Nothing else is simplified.
    accepted("D0|!D0", &["D0", "!D0"]);
    accepted("D0&D1|D0", &["D0 D1", "D0"]);
}

#[test]
fn every_node_must_fit_as_it_stands() {
    // Grouping to the left: nine products, or none, in the left node.
    refused("(D0|D1|D2)&(D3|D4|D5)&(D6&!D6)", 12);
    refused("(D6&!D6)&(D0|D1|D2)&(D3|D4|D5)", 13);
    refused("(D6&!D6)&((D0|D1|D2)&(D3|D4|D5))", 12);
    // Only the node's own number of NOTs counts: nine products plain, but two
    // barred.
    accepted("!((D0|D1|D2)&(D3|D4|D5))", &["!D0 !D1 !D2", "!D3 !D4 !D5"]);
    refused("!!((D0|D1|D2)&(D3|D4|D5))", 12);
    accepted("!(D0|D1|D2|D3|D4|D5)", &["!D0 !D1 !D2 !D3 !D4 !D5"]);
    refused("!(D0|D1|D2|D3|D4|D5|D6)", 12);
    refused("!(D0&D1&D2&D3&D4&D5&D6&D7&D8)", 12);
}

#[test]
fn refusals_are_judged_in_order() {
    // Too wide, and at its far end misspelt or not handed out.
    refused("D0|D1|D2|D3|D4|D5|D6|D7|D8|", 11);
    refused("D0|D1|D2|D3|D4|D5|D6|D7|D8|D10", 11);
    refused("D0&!D0&D10", 11);
    // Empty as a whole, but too wide within.
    refused("D0&!D0&(D0|D1|D2|D3|D4|D5|D6|D7|D8)", 12);
}

#[test]
fn lengths_and_depths() {
    refused("", 11);
    accepted(&("!".repeat(94) + "D0"), &["D0"]);
    refused(&("!".repeat(95) + "D0"), 11);
    let nested = |depth: usize| "(".repeat(depth) + "D0" + &")".repeat(depth);
    accepted(&nested(8), &["D0"]);
    refused(&nested(9), 11);
    // Brackets side by side, and NOTs, cost no depth.
    accepted(&format!("{0}|!{0}|!!D1", nested(8)), &["D0", "!D0", "D1"]);
    accepted(&("!(".repeat(8) + "!!!!D0" + &")".repeat(8)), &["D0"]);
}

#[test]
fn numbers() {
    let all = Issued {
        users: u32::MAX,
        threads: u32::MAX,
        segments: u32::MAX,
        defined: u32::MAX,
    };
    for text in ["D0", "D9", "D10", "D65535", "U65535", "R65535", "S65535"] {
        assert_eq!(answer(text, &all), Ok(vec![text.to_string()]));
    }
    for text in [
        "D00",
        "D01",
        "D065535",
        "D65536",
        "D65537",
        "D99999",
        "D100000",
        "D4294967296",
        "D18446744073709551616",
        "D",
        "D-1",
        "D+1",
        "D1.0",
        "D0x1",
        "D1_0",
    ] {
        assert_eq!(answer(text, &all), Err(11), "{text}");
    }
    assert_eq!(answer(&format!("D{}", "9".repeat(90)), &all), Err(11));
    assert_eq!(answer(&format!("D1{}", "0".repeat(90)), &all), Err(11));
}

#[test]
fn keys_that_are_not_handed_out() {
    let issued = Issued {
        users: 1,
        threads: 2,
        segments: 3,
        defined: 65_535,
    };
    for (last, next) in [
        ("U0", "U1"),
        ("R1", "R2"),
        ("S2", "S3"),
        ("D65534", "D65535"),
    ] {
        assert_eq!(answer(last, &issued), Ok(vec![last.to_string()]));
        assert_eq!(answer(next, &issued), Err(11), "{next}");
    }
    let none = Issued {
        users: 0,
        threads: 0,
        segments: 0,
        defined: 0,
    };
    for text in ["U0", "R0", "S0", "D0"] {
        assert_eq!(answer(text, &none), Err(11), "{text}");
    }
}

#[test]
fn spelling() {
    for text in [
        "d0", "u0", "X0", "T0", "0", "0D", "DD0", "D0D1", "D0!D1", "D0!", "!", "!&D0", "D0&",
        "&D0", "D0|", "|D0", "D0&&D1", "D0||D1", "D0&|D1", "()", "(D0", "D0)", "(D0))", "((D0)",
        ")D0(", "(D0)(D1)", "D0(D1)", "(D0)D1", "(D0)!D1", "(!)D0", "(D0&)D1", " D0", "D0 ",
        "D0 & D1", "D 0", "D0\n", "D0\0", "D0^D1",
    ] {
        refused(text, 11);
    }
    for bytes in [
        &b"D0\xff"[..],
        b"\xc40",
        b"D\xb0",
        b"D0\xa6D1",
        b"\xa8D0\xa9",
    ] {
        assert_eq!(compile(bytes, &TEN_EACH), Err(Refusal::Malformed));
    }
}

/// A tree with this many keys, drawn from a few of each kind.
fn random_tree(random: &mut Random, keys: usize) -> Formula {
    if random.one_in(5) {
        return Formula::Not(Box::new(random_tree(random, keys)));
    }
    if keys == 1 {
        return Formula::Key(random_key(random));
    }
    // One key on a side, more often than not, makes trees that are deep.
    let middle = random.between(1, keys - 1);
    let left = random.pick(&[1, middle, keys - 1]);
    let node = random.pick(&[Formula::And, Formula::Or]);
    node(
        Box::new(random_tree(random, left)),
        Box::new(random_tree(random, keys - left)),
    )
}

fn random_key(random: &mut Random) -> Key {
    Key {
        kind: random.pick(&Kind::ALL),
        number: random.below(2) as u16,
    }
}

/// A tree's text with no bracket that it can do without, and how deep its
/// brackets go.
fn spelling_of(formula: &Formula) -> (String, usize) {
    fn enclosed(formula: &Formula, bare: bool) -> (String, usize) {
        let (text, depth) = spelling_of(formula);
        if bare {
            (text, depth)
        } else {
            (format!("({text})"), depth + 1)
        }
    }
    let tight = |f: &Formula| matches!(f, Formula::Key(_) | Formula::Not(_));
    let no_or = |f: &Formula| !matches!(f, Formula::Or(..));
    match formula {
        Formula::Key(key) => (
            format!("{}{}", char::from(key.kind.letter()), key.number),
            0,
        ),
        Formula::Not(inner) => {
            let (text, depth) = enclosed(inner, tight(inner));
            (format!("!{text}"), depth)
        }
        Formula::And(left, right) => {
            let (l, l_depth) = enclosed(left, no_or(left));
            let (r, r_depth) = enclosed(right, tight(right));
            (format!("{l}&{r}"), l_depth.max(r_depth))
        }
        Formula::Or(left, right) => {
            let (l, l_depth) = enclosed(left, true);
            let (r, r_depth) = enclosed(right, no_or(right));
            (format!("{l}|{r}"), l_depth.max(r_depth))
        }
    }
}

#[test]
fn a_spelled_tree_reads_back() {
    let mut random = Random::new(1);
    let (mut read, mut too_long, mut too_deep) = (0, 0, 0);
    for _ in 0..200_000 {
        let keys = random.between(1, 30);
        let tree = random_tree(&mut random, keys);
        let (text, depth) = spelling_of(&tree);
        let result = parse(text.as_bytes(), &TEN_EACH);
        if text.len() > MAX_TEXT_BYTES {
            too_long += 1;
            assert_eq!(result, Err(Refusal::Malformed), "{text}");
        } else if depth > MAX_DEPTH {
            too_deep += 1;
            assert_eq!(result, Err(Refusal::Malformed), "{text}");
        } else {
            read += 1;
            assert_eq!(result, Ok(tree), "{text}");
        }
    }
    println!("{read} read back, {too_long} too long, {too_deep} too deep");
    assert!(read > 50_000 && too_long > 10_000 && too_deep > 100);
}

#[test]
fn a_formula_holds_where_a_product_opens() {
    let mut random = Random::new(2);
    let (mut held, mut failed, mut wide) = (0, 0, 0);
    for _ in 0..100_000 {
        let keys = random.between(1, 12);
        let tree = random_tree(&mut random, keys);
        let Ok(products) = tree.sum_of_products() else {
            wide += 1;
            continue;
        };
        for _ in 0..8 {
            let held_keys: BTreeSet<Key> = (0..random.below(9))
                .map(|_| random_key(&mut random))
                .collect();
            let holds = tree.holds(&held_keys);
            let opens = products.iter().any(|p| p.is_opened_by(&held_keys));
            assert_eq!(holds, opens, "{tree:?} on {held_keys:?}");
            if holds {
                held += 1;
            } else {
                failed += 1;
            }
        }
    }
    println!("held {held} times, failed {failed} times, {wide} trees too wide");
    assert!(held > 100_000 && failed > 100_000 && wide > 1_000);
}
