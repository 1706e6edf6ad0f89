//! Formula texts of each shape, for comparing and for timing.

use reference::limits::MAX_TEXT_BYTES;

/// The texts, the longest of each shape among them. They name keys up to 65,535.
pub fn texts() -> Vec<String> {
    let every_way = "(D0|!D0)&(D1|!D1)&(D2|!D2)";
    let deep = "((((((((D0&D1)|D2)&D3)|D4)&D5)|D6)&D7))";
    let deep_not = "!(D0&!(D1&!(D2&!(D3&!(D4&!(D5&!(D6&!(D7&D8))))))))";
    let cycle = |operator: &str, keys: &[&str], count: usize| {
        let keys: Vec<&str> = keys.iter().copied().cycle().take(count).collect();
        keys.join(operator)
    };
    let eight = ["D0", "D1", "D2", "D3", "D4", "D5", "D6", "D7"];
    let long_numbers = ["D65535", "S65534", "R65533", "U65532"];

    // Nearly the most bytes each, and accepted.
    let longest = [
        cycle("&", &["D0"], 32),
        cycle("&", &eight[..6], 32),
        cycle("|", &eight, 32),
        format!("{}D0", "!".repeat(MAX_TEXT_BYTES - 2)),
        format!("{}|U0", cycle("|", &long_numbers, 13)),
        format!("{deep}|{}|D0&D1&D3&D5&D7", deep.replace('D', "U")),
        format!("{deep_not}|{}", deep_not.replace("&!(D7&D8)", "&D7")),
        format!(
            "({})&({})&({})&(D2|D2|D2|D2|D2)",
            cycle("|", &eight, 8).replace('D', "U"),
            cycle("|", &["D0"], 8),
            cycle("|", &["D1"], 8),
        ),
        format!("({every_way})&({every_way})&({every_way})&(D0|D0)"),
        format!("{every_way}&{every_way}&{every_way}&(D0|!D0)&!!!!D0"),
    ];
    let nearly = MAX_TEXT_BYTES - 5..=MAX_TEXT_BYTES;
    assert!(longest.iter().all(|text| nearly.contains(&text.len())));
    // As long, and refused: 11 for the last byte, 12 for the first bracket,
    // 13 after all. The reference makes no products for the first.
    let refused = [
        format!("{}&", cycle("&", &["D0"], 32)),
        format!("(D0|D1|D2)&(D3|D4|D5)&{}", cycle("&", &["D6"], 24)),
        format!("{}&!D0&!D0", cycle("&", &eight[..6], 29)),
    ];

    let mut texts = vec![
        "S0&S1".to_string(),
        "D0".to_string(),
        cycle("|", &eight, 8),
        "(D0|D1)&(D2|D3)&(D4|D5)".to_string(),
    ];
    texts.extend(longest);
    texts.extend(refused);
    texts
}
