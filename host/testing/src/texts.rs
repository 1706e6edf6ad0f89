//! Formula texts near document 01's limits, from a repeatable source of
//! numbers. Most of them are right or nearly so: a text of arbitrary bytes
//! would tell little.

use crate::random::Random;
use reference::limits::MAX_TEXT_BYTES;
use reference::{Issued, Kind};

/// A text, and the keys that were handed out when it is judged.
pub struct Case {
    pub text: Vec<u8>,
    pub issued: Issued,
}

/// The last number that fits 16 bits is 65,535.
const ROOMY: [u32; 6] = [9, 10, 65_535, 65_536, 65_537, u32::MAX];
const SCARCE: [u32; 5] = [0, 1, 2, 5, 65_535];

fn issued(random: &mut Random) -> Issued {
    let scarce = random.one_in(16);
    let mut count = || {
        if scarce && random.one_in(2) {
            random.pick(&SCARCE)
        } else {
            random.pick(&ROOMY)
        }
    };
    Issued {
        users: count(),
        threads: count(),
        segments: count(),
        defined: count(),
    }
}

/// The spelling of a key, now and then of one that was not handed out or
/// can't be.
fn key(random: &mut Random, issued: &Issued) -> String {
    let kind = random.pick(&Kind::ALL);
    let count = u64::from(issued.count(kind));
    let number = match random.below(64) {
        0 => edge_number(random, count),
        1..8 => count.clamp(1, 65_536).saturating_sub(1).to_string(),
        _ => random.below(count.clamp(1, 10) as usize).to_string(),
    };
    format!("{}{number}", char::from(kind.letter()))
}

fn edge_number(random: &mut Random, count: u64) -> String {
    match random.below(8) {
        0 => count.to_string(),
        1 => (count + 1).to_string(),
        2 => random.pick(&["65535", "65536", "65537", "99999"]).into(),
        3 => random
            .pick(&["131072", "4294967296", "18446744073709551616"])
            .into(),
        4 => random
            .pick(&["00", "01", "007", "065535", "0000000000000"])
            .into(),
        5 => "9".repeat(random.between(5, 93)),
        6 => format!("1{}", "0".repeat(random.between(4, 92))),
        _ => String::new(),
    }
}

/// The keys that one text draws from. Few of them make repeats and
/// contradictions likely.
fn pool(random: &mut Random, issued: &Issued) -> Vec<String> {
    let size = random.between(1, 12);
    (0..size).map(|_| key(random, issued)).collect()
}

/// One digit each, so that a text holds many of them.
fn short_pool(random: &mut Random) -> Vec<String> {
    let size = random.between(2, 10);
    let first = random.below(40);
    let mut keys: Vec<String> = (first..first + size)
        .map(|place| {
            let kind = Kind::ALL[place % 4];
            format!("{}{}", char::from(kind.letter()), place / 4 % 9)
        })
        .collect();
    for place in 1..keys.len() {
        let other = random.below(place + 1);
        keys.swap(place, other);
    }
    keys
}

/// Writes random trees as texts.
struct Writer<'a> {
    random: &'a mut Random,
    pool: &'a [String],
    /// How many of ten operators are `&`.
    ands: usize,
    text: String,
}

impl Writer<'_> {
    fn nots(&mut self) {
        while self.random.one_in(6) {
            self.text.push('!');
        }
    }

    fn operator(&mut self) {
        let and = self.random.below(10) < self.ands;
        self.text.push(if and { '&' } else { '|' });
    }

    fn key(&mut self) {
        let place = self.random.below(self.pool.len());
        self.text.push_str(&self.pool[place]);
    }

    /// Something with this many keys that may stand beside an operator. With
    /// no bracket around it, the tree that is read isn't the one that was
    /// drawn, which is as good.
    fn side(&mut self, keys: usize) {
        if keys > 1 && self.random.one_in(3) {
            return self.whole(keys);
        }
        self.nots();
        if keys > 1 || self.random.one_in(12) {
            self.text.push('(');
            self.whole(keys);
            self.text.push(')');
        } else {
            self.key();
        }
    }

    fn whole(&mut self, keys: usize) {
        if keys == 1 {
            return self.side(1);
        }
        let left = self.random.between(1, keys - 1);
        self.side(left);
        self.operator();
        self.side(keys - left);
    }
}

fn tree(random: &mut Random, pool: &[String], keys: usize) -> String {
    let ands = random.between(1, 9);
    let mut writer = Writer {
        random,
        pool,
        ands,
        text: String::new(),
    };
    writer.whole(keys);
    writer.text
}

/// Trees of every shape, to 100 bytes or a little over.
pub fn random_tree(random: &mut Random) -> Case {
    let issued = issued(random);
    let pool = pool(random, &issued);
    let mut keys = random.between(1, 26);
    let mut text = tree(random, &pool, keys);
    while text.len() > 100 && keys > 1 {
        keys -= keys.div_ceil(4);
        text = tree(random, &pool, keys);
    }
    Case {
        text: text.into_bytes(),
        issued,
    }
}

/// Brackets in brackets, 6 to 10 deep, with a small tree in the innermost and
/// keys beside the outer ones.
pub fn deep_brackets(random: &mut Random) -> Case {
    let issued = issued(random);
    let pool = pool(random, &issued);
    let keys = random.between(1, 8);
    let mut text = format!("({})", tree(random, &pool, keys));
    // The tree may bring a bracket or two of its own.
    for _ in 1..random.between(6, 10) {
        let bar = if random.one_in(3) { "!" } else { "" };
        let operator = random.pick(&["&", "|"]);
        let key = &pool[random.below(pool.len())];
        text = match random.below(6) {
            0 => format!("({text}{operator}{bar}{key})"),
            1 => format!("({bar}{key}{operator}{text})"),
            _ => format!("({bar}{text})"),
        };
    }
    Case {
        text: text.into_bytes(),
        issued,
    }
}

/// As many keys as asked for, joined by one operator. The first ones are
/// different as long as the pool lasts; those after are repeats.
fn chain(random: &mut Random, pool: &[String], keys: usize, operator: &str, bars: usize) -> String {
    let start = random.below(pool.len());
    let parts: Vec<String> = (0..keys)
        .map(|place| {
            let bar = if random.below(10) < bars { "!" } else { "" };
            format!("{bar}{}", pool[(start + place) % pool.len()])
        })
        .collect();
    parts.join(operator)
}

fn width_shape(random: &mut Random, pool: &[String], nesting: usize) -> String {
    let bars = random.pick(&[0, 0, 1, 5, 10]);
    let shapes = if nesting == 0 { 5 } else { 9 };
    match random.below(shapes) {
        // 8 or 9 products.
        0 => {
            let keys = random.between(7, 11);
            chain(random, pool, keys, "|", bars)
        }
        // 6 or 7 literals.
        1 => {
            let keys = random.between(5, 9);
            chain(random, pool, keys, "&", bars)
        }
        // A product of sums: the joins multiply.
        2 => {
            let sums: Vec<String> = (0..random.between(2, 4))
                .map(|_| {
                    let keys = random.between(1, 4);
                    format!("({})", chain(random, pool, keys, "|", bars))
                })
                .collect();
            sums.join("&")
        }
        // A sum of products.
        3 => {
            let products: Vec<String> = (0..random.between(2, 9))
                .map(|_| {
                    let keys = random.between(1, 4);
                    chain(random, pool, keys, "&", bars)
                })
                .collect();
            products.join("|")
        }
        // Each sum has a key both ways: 2, 4, 8, 16 products, unless a key
        // comes again.
        4 => {
            let sums: Vec<String> = (0..random.between(2, 6))
                .map(|_| {
                    let key = &pool[random.below(pool.len())];
                    format!("({key}|!{key})")
                })
                .collect();
            sums.join("&")
        }
        // A node that vanishes in the one outside it.
        5 => {
            let inner = width_shape(random, pool, nesting - 1);
            let key = &pool[random.below(pool.len())];
            match random.below(4) {
                0 => format!("({inner})&{key}&!{key}"),
                1 => format!("{key}&!{key}&({inner})"),
                2 => format!("{key}&({inner})&!{key}"),
                _ => format!("({inner})&({key}&!{key})|{key}"),
            }
        }
        6 | 7 => format!("!({})", width_shape(random, pool, nesting - 1)),
        _ => {
            let left = width_shape(random, pool, nesting - 1);
            let right = width_shape(random, pool, nesting - 1);
            let operator = random.pick(&["&", "|"]);
            format!("({left}){operator}({right})")
        }
    }
}

/// Nodes that just fit and just don't.
pub fn width_limits(random: &mut Random) -> Case {
    let issued = Issued {
        users: 9,
        threads: 9,
        segments: 9,
        defined: 9,
    };
    loop {
        let pool = short_pool(random);
        let nesting = random.between(0, 2);
        let text = width_shape(random, &pool, nesting);
        if text.len() <= MAX_TEXT_BYTES + 1 {
            return Case {
                text: text.into_bytes(),
                issued,
            };
        }
    }
}

/// Texts around the most bytes, of which only the length may be wrong.
pub fn length_limits(random: &mut Random) -> Case {
    let length = random.between(MAX_TEXT_BYTES - 1, MAX_TEXT_BYTES + 1);
    let issued = Issued {
        users: 10,
        threads: 10,
        segments: 10,
        defined: 10,
    };
    let pool = short_pool(random);
    let mut keys = random.between(1, 30);
    let mut text = tree(random, &pool, keys);
    while text.len() > length {
        keys -= keys / 4;
        text = tree(random, &pool, keys);
    }
    while text.len() < length {
        let missing = length - text.len();
        let key = &pool[random.below(pool.len())];
        if missing >= 3 && !random.one_in(3) {
            let operator = random.pick(&["&", "|"]);
            text = format!("{text}{operator}{key}");
        } else if missing >= 2 && random.one_in(12) {
            text = format!("({text})");
        } else {
            text.insert(0, '!');
        }
    }
    Case {
        text: text.into_bytes(),
        issued,
    }
}

/// A text of one of the kinds above with up to three bytes or stretches
/// changed.
pub fn damaged(random: &mut Random) -> Case {
    let mut case = match random.below(4) {
        0 => random_tree(random),
        1 => deep_brackets(random),
        2 => width_limits(random),
        _ => length_limits(random),
    };
    for _ in 0..random.between(1, 3) {
        damage(random, &mut case.text);
    }
    case
}

const SIGNS: &[u8] = b"&|!()URSD0123456789";

fn damage(random: &mut Random, text: &mut Vec<u8>) {
    if text.is_empty() {
        return text.push(random.pick(SIGNS));
    }
    let place = random.below(text.len());
    match random.below(18) {
        // By a byte of the same sort: the text may well stay right.
        0..9 => {
            text[place] = match text[place] {
                b'&' => b'|',
                b'|' => b'&',
                b'0'..=b'9' => b'0' + random.below(10) as u8,
                b'U' | b'R' | b'S' | b'D' => random.pick(b"URSD"),
                _ => b'!',
            }
        }
        9 => text[place] = random.pick(SIGNS),
        10 => text[place] = random.bits() as u8,
        11 => text.insert(place, random.pick(SIGNS)),
        12 => text.insert(place, b'!'),
        13 => text.insert(place, random.bits() as u8),
        14 => {
            text.remove(place);
        }
        15 => text.truncate(place),
        16 => {
            let end = (place + random.between(1, 12)).min(text.len());
            let stretch = text[place..end].to_vec();
            text.splice(place..place, stretch);
        }
        _ => {
            let other = random.below(text.len());
            text.swap(place, other);
        }
    }
}
