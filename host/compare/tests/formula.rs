//! The proved guard's formula texts against the reference's: the same answer,
//! the same 64 cells, and on a refusal no cell changed.
//!
//! `cargo test --release -- --nocapture` also prints how many texts came to
//! which answer.

use compare::{CELLS, ROWS, Rows, key_number, literals_of, rows_of};
use reference::formula::{Literal, parse};
use reference::{Issued, Key, Kind};
use std::collections::BTreeSet;
use std::fmt;
use testing::random::Random;
use testing::texts::{self, Case};

const MALFORMED: u32 = 11;
const TOO_WIDE: u32 = 12;
const UNSATISFIABLE: u32 = 13;

/// What the rows hold before a call: no two cells the same, and none that the
/// guard could write.
fn untouched() -> Rows {
    std::array::from_fn(|row| std::array::from_fn(|cell| 0xA5A5_0000 + (row * CELLS + cell) as u32))
}

/// Both sides on one text. Answers what they agree on.
fn agreed(text: &[u8], issued: &Issued) -> u32 {
    let (expected, expected_rows) = match reference::formula::compile(text, issued) {
        Ok(products) => (products.len() as u32, rows_of(&products)),
        Err(refusal) => (refusal.number(), untouched()),
    };
    let mut rows = untouched();
    let answer = compare::compile(text, issued, &mut rows);
    assert_eq!(
        answer,
        expected,
        "the answer on {} with {issued:?}",
        text.escape_ascii()
    );
    assert_eq!(
        rows,
        expected_rows,
        "the rows of {} with {issued:?}",
        text.escape_ascii()
    );
    answer
}

/// How often each answer came.
struct Tally {
    answers: [u64; 14],
}

impl Tally {
    fn new() -> Tally {
        Tally { answers: [0; 14] }
    }

    fn add(&mut self, answer: u32) {
        self.answers[answer as usize] += 1;
    }

    fn of(&self, answer: u32) -> u64 {
        self.answers[answer as usize]
    }

    fn accepted(&self) -> u64 {
        self.answers[1..=ROWS].iter().sum()
    }
}

impl fmt::Display for Tally {
    fn fmt(&self, f: &mut fmt::Formatter) -> fmt::Result {
        write!(
            f,
            "{} texts: {} accepted (by products {:?}), {} malformed, {} too wide, {} unsatisfiable",
            self.answers.iter().sum::<u64>(),
            self.accepted(),
            &self.answers[1..=ROWS],
            self.of(MALFORMED),
            self.of(TOO_WIDE),
            self.of(UNSATISFIABLE),
        )
    }
}

/// Both sides on many generated texts.
fn agreed_on(name: &str, seed: u64, texts: u64, make: fn(&mut Random) -> Case) -> Tally {
    let mut random = Random::new(seed);
    let mut tally = Tally::new();
    for _ in 0..texts {
        let case = make(&mut random);
        tally.add(agreed(&case.text, &case.issued));
    }
    println!("{name}: {tally}");
    tally
}

fn defined(count: u32) -> Issued {
    Issued {
        users: 0,
        threads: 0,
        segments: 0,
        defined: count,
    }
}

fn plain(kind: Kind, number: u16) -> Literal {
    Literal {
        key: Key { kind, number },
        barred: false,
    }
}

fn d(number: u16) -> Literal {
    plain(Kind::Defined, number)
}

fn not_d(number: u16) -> Literal {
    Literal {
        barred: true,
        ..d(number)
    }
}

/// Both sides must accept the text, with these products.
#[track_caller]
fn accepted(text: &str, issued: &Issued, products: &[&[Literal]]) {
    assert_eq!(agreed(text.as_bytes(), issued), products.len() as u32);
    let mut rows = untouched();
    compare::compile(text.as_bytes(), issued, &mut rows);
    for (row, product) in rows.iter().zip(products) {
        assert_eq!(literals_of(row), *product, "{text}");
    }
}

/// Both sides must refuse the text, with this number.
#[track_caller]
fn refused(text: &str, issued: &Issued, number: u32) {
    assert_eq!(agreed(text.as_bytes(), issued), number, "{text}");
}

#[test]
fn worked_examples() {
    let two = defined(2);
    refused("D0&!D0", &two, UNSATISFIABLE);
    accepted("(D0&!D0)|D1", &two, &[&[d(1)]]);
    accepted("D0|D0&D1", &two, &[&[d(0)], &[d(0), d(1)]]);
    accepted("!(D0|D1)", &two, &[&[not_d(0), not_d(1)]]);
    refused("D01", &two, MALFORMED);
    accepted(
        "(D0|D1)&(D2|D3)",
        &defined(4),
        &[&[d(0), d(2)], &[d(0), d(3)], &[d(1), d(2)], &[d(1), d(3)]],
    );
    let nine = defined(9);
    accepted(
        "D0|D1|D2|D3|D4|D5|D6|D7",
        &nine,
        &[
            &[d(0)],
            &[d(1)],
            &[d(2)],
            &[d(3)],
            &[d(4)],
            &[d(5)],
            &[d(6)],
            &[d(7)],
        ],
    );
    refused("D0|D1|D2|D3|D4|D5|D6|D7|D8", &nine, TOO_WIDE);
    accepted(
        "D0&D1&D2&D3&D4&D5",
        &nine,
        &[&[d(0), d(1), d(2), d(3), d(4), d(5)]],
    );
    refused("D0&D1&D2&D3&D4&D5&D6", &nine, TOO_WIDE);
    // The texts of the example that calls two segments and writes to a sheet.
    let office = Issued {
        users: 1,
        threads: 0,
        segments: 3,
        defined: 0,
    };
    accepted("U0", &office, &[&[plain(Kind::User, 0)]]);
    accepted(
        "S0&S1",
        &office,
        &[&[plain(Kind::Segment, 0), plain(Kind::Segment, 1)]],
    );
}

/// The numbers in the cells, written out from the interface's description.
#[test]
fn cells_are_coded_as_described() {
    let all = Issued {
        users: 65_536,
        threads: 65_536,
        segments: 65_536,
        defined: 65_536,
    };
    let text = "!D65535&S3&!R2&U1|R65535|!U0";
    let mut rows = untouched();
    assert_eq!(compare::compile(text.as_bytes(), &all, &mut rows), 3);
    let mut expected = Rows::default();
    expected[0] = [2, 131_077, 262_150, 524_287, 0, 0, 0, 4];
    expected[1] = [262_142, 0, 0, 0, 0, 0, 0, 1];
    expected[2] = [1, 0, 0, 0, 0, 0, 0, 1];
    assert_eq!(rows, expected);
    assert_eq!(agreed(text.as_bytes(), &all), 3);
}

/// Calls `visit` with every sequence of the signs of at most `bytes` bytes.
fn every_sequence(signs: &[&[u8]], bytes: usize, text: &mut Vec<u8>, visit: &mut dyn FnMut(&[u8])) {
    visit(text);
    for sign in signs {
        if sign.len() <= bytes {
            text.extend_from_slice(sign);
            every_sequence(signs, bytes - sign.len(), text, visit);
            text.truncate(text.len() - sign.len());
        }
    }
}

/// How many texts of at most `bytes` bytes the grammar has, counted by the
/// grammar's rules and without reading any; `keys[n]` keys have n bytes. The
/// brackets of so short a text can't be too deep.
fn grammatical_texts(bytes: usize, keys: &[u64]) -> u64 {
    let (mut nots, mut ands, mut ors) = (vec![0], vec![0], vec![0]);
    for n in 1..=bytes {
        // A left side, the operator's byte, and a right side.
        let pairs = |left: &[u64], right: &[u64]| -> u64 {
            (1..n.saturating_sub(1))
                .map(|i| left[i] * right[n - 1 - i])
                .sum()
        };
        let bracket = if n > 2 { ors[n - 2] } else { 0 };
        nots.push(keys.get(n).unwrap_or(&0) + nots[n - 1] + bracket);
        ands.push(nots[n] + pairs(&ands, &nots));
        ors.push(ands[n] + pairs(&ors, &ands));
    }
    ors.iter().sum()
}

#[test]
fn every_short_text_of_signs() {
    let signs: [&[u8]; 7] = [b"D0", b"D1", b"&", b"|", b"!", b"(", b")"];
    for (made, keys) in [(2, [0, 0, 2]), (1, [0, 0, 1])] {
        let mut tally = Tally::new();
        every_sequence(&signs, 9, &mut Vec::new(), &mut |text| {
            tally.add(agreed(text, &defined(made)));
        });
        println!("signs to 9 bytes, {made} made: {tally}");
        assert_eq!(
            tally.accepted() + tally.of(UNSATISFIABLE),
            grammatical_texts(9, &keys)
        );
    }
}

#[test]
fn every_short_text_of_bytes() {
    let signs: [&[u8]; 8] = [b"D", b"0", b"1", b"&", b"|", b"!", b"(", b")"];
    let mut tally = Tally::new();
    every_sequence(&signs, 7, &mut Vec::new(), &mut |text| {
        tally.add(agreed(text, &defined(12)));
    });
    println!("bytes to 7: {tally}");
    // D0 and D1, D10 and D11.
    assert_eq!(
        tally.accepted() + tally.of(UNSATISFIABLE),
        grammatical_texts(7, &[0, 0, 2, 2])
    );
}

/// A right text with one byte replaced by, and one inserted from, each of the
/// 256 bytes, at every place.
#[test]
fn every_single_wrong_byte() {
    let mut tally = Tally::new();
    for right in ["!(U0|R1)&(S2|D10)", "D65534", "((D0&!D1))|!!S3&U2"] {
        let issued = Issued {
            users: 3,
            threads: 2,
            segments: 4,
            defined: 65_535,
        };
        for place in 0..=right.len() {
            for byte in 0..=255 {
                let mut text = right.as_bytes().to_vec();
                text.insert(place, byte);
                tally.add(agreed(&text, &issued));
                if place < right.len() {
                    text.remove(place + 1);
                    tally.add(agreed(&text, &issued));
                }
            }
        }
    }
    println!("one wrong byte: {tally}");
    assert!(tally.accepted() > 100 && tally.of(MALFORMED) > 10_000);
}

#[test]
fn random_trees() {
    let tally = agreed_on("random trees", 11, 900_000, texts::random_tree);
    for products in 1..=ROWS as u32 {
        assert!(tally.of(products) > 1_000);
    }
    assert!(tally.accepted() > 50_000);
    assert!(tally.of(MALFORMED) > 50_000);
    assert!(tally.of(TOO_WIDE) > 50_000);
    assert!(tally.of(UNSATISFIABLE) > 50_000);
}

#[test]
fn deep_brackets() {
    let tally = agreed_on("deep brackets", 12, 300_000, texts::deep_brackets);
    assert!(tally.accepted() > 50_000);
    assert!(tally.of(MALFORMED) > 50_000);
}

#[test]
fn width_limits() {
    let tally = agreed_on("width limits", 13, 800_000, texts::width_limits);
    for products in 1..=ROWS as u32 {
        assert!(tally.of(products) > 5_000);
    }
    assert!(tally.of(TOO_WIDE) > 50_000);
    assert!(tally.of(UNSATISFIABLE) > 50_000);
}

#[test]
fn length_limits() {
    let tally = agreed_on("length limits", 14, 400_000, texts::length_limits);
    assert!(tally.accepted() > 50_000);
    assert!(tally.of(MALFORMED) > 50_000);
    assert!(tally.of(TOO_WIDE) > 50_000);
}

#[test]
fn damaged_texts() {
    let tally = agreed_on("damaged texts", 15, 1_000_000, texts::damaged);
    assert!(tally.accepted() > 50_000);
    assert!(tally.of(MALFORMED) > 50_000);
    assert!(tally.of(TOO_WIDE) > 30_000);
    assert!(tally.of(UNSATISFIABLE) > 10_000);
}

/// The law that the layers above rest on, asked of the proved guard's cells,
/// of the proved guard itself and of the reference's tree: a key set opens a
/// product exactly where the formula holds for it.
#[test]
fn the_rows_open_where_the_formula_holds() {
    let mut random = Random::new(16);
    let (mut held, mut failed, mut unsatisfiable) = (0, 0, 0);
    for turn in 0..300_000 {
        let case = match turn % 3 {
            0 => texts::random_tree(&mut random),
            1 => texts::width_limits(&mut random),
            _ => texts::length_limits(&mut random),
        };
        let mut rows = untouched();
        let answer = compare::compile(&case.text, &case.issued, &mut rows);
        let count = match answer {
            MALFORMED | TOO_WIDE => continue,
            UNSATISFIABLE => 0,
            count => count as usize,
        };
        let products: Vec<Vec<Literal>> = rows[..count].iter().map(literals_of).collect();
        let formula = parse(&case.text, &case.issued).expect("the proved guard has read it");
        let keys = formula.keys();
        for _ in 0..8 {
            let set = random_key_set(&mut random, &keys);
            let opens = products
                .iter()
                .any(|product| product.iter().all(|l| set.contains(&l.key) != l.barred));
            let holds = formula.holds(&set);
            assert_eq!(opens, holds, "{} on {set:?}", case.text.escape_ascii());
            let numbers: Vec<u32> = set.iter().map(key_number).collect();
            assert_eq!(
                rotundaaloe::raw::opens(&rows, count, &numbers) == 1,
                holds,
                "the proved guard on {} and {set:?}",
                case.text.escape_ascii()
            );
            match (answer, opens) {
                (UNSATISFIABLE, _) => unsatisfiable += 1,
                (_, true) => held += 1,
                (_, false) => failed += 1,
            }
        }
    }
    println!("key sets: {held} open, {failed} don't, {unsatisfiable} on texts that none opens");
    assert!(held > 100_000 && failed > 100_000 && unsatisfiable > 100_000);
}

/// Some of these keys, and now and then another one.
fn random_key_set(random: &mut Random, keys: &BTreeSet<Key>) -> BTreeSet<Key> {
    let share = random.between(0, 4);
    let mut set: BTreeSet<Key> = keys
        .iter()
        .copied()
        .filter(|_| random.below(4) < share)
        .collect();
    if random.one_in(3) {
        set.insert(Key {
            kind: random.pick(&Kind::ALL),
            number: random.bits() as u16,
        });
    }
    set
}
