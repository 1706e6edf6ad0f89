//! The page: whole, closed in itself, and harmless whatever a journal holds.

mod lesson;

use keylock::answer::Answer;
use keylock::steps::{self, Step};
use keylock::{page, trace};
use lesson::{ROUTE, explained};
use rotundaaloe::Record;

fn page<'a>(introduction: &[&str], steps: impl IntoIterator<Item = Step<'a>>) -> String {
    let introduction: Vec<String> = introduction.iter().map(|line| line.to_string()).collect();
    let mut out = Vec::new();
    page::write("The <route>", &introduction, steps, &mut out).expect("a vector takes it");
    String::from_utf8(out).expect("text")
}

/// The section of a step.
fn section(page: &str, place: usize) -> &str {
    let start = format!("id=\"step-{place}\"");
    let start = page.find(&start).expect("a section for each step");
    let length = page[start..].find("</section>").expect("an end");
    &page[start..start + length]
}

/// Follows the tags of a page. Panics where one doesn't close the newest that
/// is open, or an attribute isn't quoted.
fn check_nesting(page: &str) {
    let mut open: Vec<&str> = Vec::new();
    let mut rest = page.strip_prefix("<!DOCTYPE html>").expect("a doctype");
    while let Some(start) = rest.find('<') {
        assert!(!rest[..start].contains('>'), "{}", &rest[..start]);
        let end = start + rest[start..].find('>').expect("an end of the tag");
        let tag = &rest[start + 1..end];
        rest = &rest[end + 1..];
        if let Some(name) = tag.strip_prefix('/') {
            assert_eq!(open.pop(), Some(name), "{tag}");
            continue;
        }
        assert!(tag.matches('"').count().is_multiple_of(2), "{tag}");
        let name = tag.split(' ').next().expect("a name");
        match name {
            "meta" | "br" | "wbr" => {}
            "style" | "script" => {
                let close = format!("</{name}>");
                let length = rest.find(&close).expect("its end");
                rest = &rest[length + close.len()..];
            }
            _ => open.push(name),
        }
    }
    assert!(open.is_empty(), "{open:?}");
}

#[test]
fn one_section_for_each_record() {
    let page = page(&["A lesson.", "More of it."], explained(ROUTE));
    check_nesting(&page);
    assert_eq!(page.matches("<section ").count(), 16);
    assert_eq!(page.matches("<a class=\"ok\"").count(), 14);
    assert_eq!(page.matches("<a class=\"no\"").count(), 2);
    assert!(page.contains("<html lang=\"en\">"));
    assert!(page.contains("<p>A lesson.</p>\n<p>More of it.</p>"));
}

#[test]
fn the_title_is_the_first_line() {
    let lesson = page(&["Lesson <2>.", "More."], explained(ROUTE));
    assert!(lesson.contains("<title>Lesson &lt;2&gt;.</title>"));
    assert!(lesson.contains(">Lesson &lt;2&gt;.</h1>"));
    let bare = page(&[], explained(ROUTE));
    assert!(bare.contains("<title>The &lt;route&gt;</title>"));
    assert!(bare.contains(">The &lt;route&gt;</h1>"));
    let long = "a".repeat(1_000);
    let shortened = format!("<title>{}...</title>", "a".repeat(120));
    let page = page(&[&long], explained(ROUTE));
    assert!(page.contains(&shortened) && page.contains(&format!("<p>{long}</p>")));
}

/// A line without a letter or digit is a rule or a gap, and no title.
#[test]
fn the_title_has_words() {
    for (introduction, title) in [
        (&["", "Lesson X"][..], "Lesson X"),
        (&["##########", " - ", "Lesson X", "More."], "Lesson X"),
        (&["=====", "7"], "7"),
        (&["***", "\u{9375}"], "\u{9375}"),
        (&["", "#####"], "The &lt;route&gt;"),
    ] {
        let page = page(introduction, explained(ROUTE));
        let (head, bar) = (format!("<title>{title}</title>"), format!(">{title}</h1>"));
        assert!(
            page.contains(&head) && page.contains(&bar),
            "{introduction:?}"
        );
    }
}

/// Steps count from 0, as a replay prints them, and nothing counts otherwise.
#[test]
fn one_counting_of_steps() {
    let page = page(&[], explained(ROUTE));
    let body = &page[page.find("<body>").expect("a body")..];
    let body = &body[..body.find("<script>").expect("a script")];
    assert!(section(body, 13).contains("<p class=\"where\">Step 13: <code>A 1 2 4</code></p>"));
    assert!(section(body, 0).contains("Step 0: "));
    assert!(!body.contains("Place") && !body.contains("Step 16"));
}

#[test]
fn the_list_can_be_skipped() {
    let page = page(&[], explained(ROUTE));
    let skip = page
        .find("<a class=\"skip\" href=\"#steps\">")
        .expect("a link");
    let list = page.find("<nav ").expect("a list");
    let main = page
        .find("<main id=\"steps\" tabindex=\"-1\">")
        .expect("its target");
    assert!(skip < list && list < main);
}

/// The keys of the help line are keys that the script knows.
#[test]
fn the_help_line_names_keys() {
    let page = page(&[], explained(ROUTE));
    let keys: Vec<&str> = page
        .split("<kbd>")
        .skip(1)
        .filter_map(|rest| Some(rest.split_once("</kbd>")?.0))
        .collect();
    assert_eq!(keys, ["n", "p"]);
    for key in keys
        .iter()
        .chain(&["Home", "End", "ArrowLeft", "ArrowRight", " "])
    {
        assert!(page.contains(&format!("case \"{key}\":")), "{key}");
    }
}

/// A disabled button would lose the focus.
#[test]
fn no_button_is_disabled() {
    let page = page(&[], explained(ROUTE));
    assert_eq!(page.matches("setAttribute(\"aria-disabled\"").count(), 2);
    assert!(!page.contains(".disabled") && !page.contains(":disabled"));
}

/// One sentence, with the missing key, and nothing else is announced.
#[test]
fn what_is_announced() {
    let page = page(&[], steps::explain(lesson::named_route()));
    assert_eq!(page.matches("role=\"status\"").count(), 1);
    assert!(!page.contains("aria-live"));
    let said = "data-said=\"Step 13: the February closing (thread 1) writes the totals sheet \
                (segment 2), refused: no way in (15), S0 is missing.\"";
    assert!(section(&page, 13).contains(said), "{}", section(&page, 13));
}

#[test]
fn names_stand_in_headline_list_and_box() {
    let page = page(&[], steps::explain(lesson::named_route()));
    check_nesting(&page);
    let writes = "The February closing <small>(thread\u{a0}1)</small> writes \
                  the totals sheet <small>(segment\u{a0}2)</small>";
    let listed = format!("<span class=\"at\">13</span><span>{writes}</span>");
    assert!(page.contains(&listed));
    let step = section(&page, 13);
    for part in [
        &format!("<h2 id=\"call-13\">{writes}</h2>"),
        "<p class=\"why\">S0 is missing: the rate loader <small>(segment\u{a0}0)</small> \
         hands it over, and this thread has no open call of it.</p>",
        "<h3>Locks for write on the totals sheet <small>(segment\u{a0}2)</small></h3>",
        "<b>the February closing <small>(thread\u{a0}1)</small></b>",
        "<small>of the office <small>(user\u{a0}0)</small>, always held</small>",
        "<li><b>segment\u{a0}1</b>",
    ] {
        assert!(step.contains(part), "{part}\n{step}");
    }
    let fallback = "<h2 id=\"call-10\">Thread\u{a0}0 calls segment\u{a0}1</h2>";
    assert!(section(&page, 10).contains(fallback));
    let edit = "<h2 id=\"call-5\">Thread\u{a0}0, for the office <small>(user\u{a0}0)</small>, \
                makes a sheet</h2>";
    assert!(section(&page, 5).contains(edit), "{}", section(&page, 5));
}

#[test]
fn nothing_comes_from_elsewhere() {
    let page = page(&[], explained(ROUTE));
    assert!(page.contains("default-src 'none'"));
    for outside in [
        "http:", "https:", "//", " src=", "url(", "@import", "<link", "<img", "<iframe",
    ] {
        assert!(!page.contains(outside), "{outside}");
    }
}

#[test]
fn the_refused_save_says_what_is_missing() {
    let page = page(&[], explained(ROUTE));
    let refused = section(&page, 13);
    for part in [
        "Thread\u{a0}1 writes segment\u{a0}2</h2>",
        "Refused: no way in (15)<code>no 15 0</code>",
        "<span class=\"lit off\"><code>S0</code>missing</span>",
        "<span class=\"lit\"><code>S1</code>held</span>",
        "<p class=\"why\">S0 is missing: segment\u{a0}0 hands it over, \
         and this thread has no open call of it.</p>",
        "<p class=\"against\">S0 is missing: segment\u{a0}0 hands it over, \
         and this thread has no open call of it</p>",
        "<b>Lock 2 stays shut.</b> It grants write if <code>S0&amp;<wbr>S1</code>",
        "<li><b>segment\u{a0}1</b>",
    ] {
        assert!(refused.contains(part), "{part}\n{refused}");
    }
    let granted = section(&page, 12);
    assert!(granted.contains("<div class=\"lock opens decides\">"));
    assert!(granted.contains("S0 from segment\u{a0}0, S1 from segment\u{a0}1"));
    let left = section(&page, 14);
    assert!(left.contains("<li class=\"left\"><b>segment\u{a0}1 <em>just left</em></b>"));
}

/// Both calls handed over S0, and only the second D0.
#[test]
fn a_key_that_stays_held_is_not_crossed_out() {
    let calls = "U; S 0; N 0 0; K 0; L 0 0 1 U0; C 0 0; G 0 0 0; C 0 0; R 0; E 0";
    let page = page(&[], explained(calls));
    check_nesting(&page);
    let left = "<li class=\"left\"><b>segment\u{a0}0 <em>just left</em></b><div class=\"keys\">\
         <code class=\"gone\">D0</code><code>S0</code><i>still held</i></div>";
    assert!(section(&page, 8).contains(left), "{}", section(&page, 8));
    let closed = "<div class=\"keys\"><code class=\"gone\">S0</code></div>";
    assert!(section(&page, 9).contains(closed), "{}", section(&page, 9));
    assert_eq!(page.matches("still held").count(), 1);
}

/// The older call loses D0 in step 8. The newer one handed over S0 too and D1 alone.
#[test]
fn a_key_that_was_taken_is_crossed_out() {
    let calls = "U; S 0; N 0 0; K 0; K 0; G 0 0 0; L 0 0 1 U0; C 0 0; T 0 0 0; G 0 0 1; C 0 0; \
                 R 0; E 0";
    let page = page(&[], explained(calls));
    check_nesting(&page);
    let lost = "<span class=\"taken\"><code class=\"gone\">D0</code>\
                <i>taken in step\u{a0}8</i></span></div>";
    let open = format!("<b>segment\u{a0}0</b><div class=\"keys\"><code>S0</code>{lost}");
    for (place, times) in [(7, 0), (8, 1), (9, 0), (10, 1), (11, 1), (12, 0)] {
        assert_eq!(
            section(&page, place).matches(&open).count(),
            times,
            "{place}"
        );
    }
    let left = "<em>just left</em></b><div class=\"keys\">\
                <code class=\"gone\">D1</code><code>S0</code><i>still held</i></div>";
    assert!(section(&page, 11).contains(left), "{}", section(&page, 11));
    let closed = "<em>closed</em></b><div class=\"keys\"><code class=\"gone\">S0</code>";
    let closed = format!("{closed}{lost}");
    assert!(
        section(&page, 12).contains(&closed),
        "{}",
        section(&page, 12)
    );
}

#[test]
fn a_granted_call_names_the_keys_before_it() {
    let page = page(&[], explained("U; S 0; N 0 0; C 0 0; L 0 0 1 !S0; C 0 0"));
    let granted = section(&page, 5);
    for part in [
        "Lock\u{a0}0 opened: thread\u{a0}0 didn&#39;t hold S0.",
        "Tried with the keys before the call: <code>U0 R0</code>",
    ] {
        assert!(granted.contains(part), "{part}\n{granted}");
    }
    assert!(
        !section(&page, 3).contains("Tried with"),
        "there is no lock"
    );
}

/// What the owner sees of how a lock opens, a colleague doesn't.
#[test]
fn lock_lists_of_owner_and_colleague() {
    let calls = "U; S 0; N 0 1; N 0 0; L 0 0 2 S1&!U0|S0; L 0 0 12 U0; A 0 0 2";
    let page = page(&[], explained(calls));
    check_nesting(&page);
    let step = section(&page, 5);
    for part in [
        "<h3>Its owner sees in the lock list</h3><ul class=\"stack\">\
         <li><b>Lock 0 grants read</b>\
         <div class=\"keys\"><code>!U0</code><code>S1</code></div></li>\
         <li><b>Lock 0 grants read</b><div class=\"keys\"><code>S0</code></div></li>\
         <li><b>Lock 1 denies write</b><div class=\"keys\"><code>U0</code></div></li></ul>",
        "<h3>A colleague sees</h3><ul class=\"stack\"><li><b>Lock 0 grants read</b></li>\
         <li><b>Lock 1 denies write</b></li></ul>",
        "A colleague knows which locks there are, and not how they are opened.",
    ] {
        assert!(step.contains(part), "{part}\n{step}");
    }
    // Without a lock there is nothing to see.
    for place in [2, 3] {
        assert!(!section(&page, place).contains("colleague"), "{place}");
    }
}

/// The part of a step that opens at a click.
fn folded(step: &str) -> Option<&str> {
    let start = step.find("<details>")?;
    let length = step[start..].find("</details>").expect("an end");
    Some(&step[start..start + length])
}

/// They are the same at a call or an access, where they are folded.
#[test]
fn lock_lists_at_calls_and_accesses() {
    let page = page(&[], steps::explain(lesson::named_route()));
    check_nesting(&page);
    let totals = "<details><summary>Lock list of the totals sheet \
         <small>(segment\u{a0}2)</small></summary>\n\
         <div class=\"list\"><h3>Its owner sees in the lock list</h3><ul class=\"stack\">\
         <li><b>Lock 2 grants write</b>\
         <div class=\"keys\"><code>S0</code><code>S1</code></div></li></ul></div>\n\
         <div class=\"list\"><h3>A colleague sees</h3><ul class=\"stack\">\
         <li><b>Lock 2 grants write</b></li></ul></div>\n\
         <p class=\"after\">A row's keys must all be held, and none with a <code>!</code>; of a \
         lock's rows one is enough. A colleague knows which locks there are, and not how they are \
         opened.</p>\n";
    // Granted, and refused to two threads.
    for place in [12, 13, 15] {
        assert_eq!(folded(section(&page, place)), Some(totals), "{place}");
    }
    let code = folded(section(&page, 11)).expect("a list");
    assert!(code.starts_with("<details><summary>Lock list of segment\u{a0}1</summary>"));
    assert!(code.contains("<b>Lock 1 grants execute</b><div class=\"keys\"><code>U0</code></div>"));
    // Elsewhere they aren't folded, or there are none.
    for place in [0, 1, 3, 4, 6, 7, 14] {
        assert_eq!(folded(section(&page, place)), None, "{place}");
    }
}

/// As the locks stand at the step, whatever the access is refused for.
#[test]
fn a_folded_list_is_of_its_step() {
    let calls = "U; S 0; N 0 1; A 0 0 2; L 0 0 2 U0; A 0 0 4; L 0 0 12 R0; \
                 A 0 0 4; A 1 0 2; A 0 0 1; D 0 0; A 0 0 2; D 0 1; A 0 0 2; A 0 1 2";
    let page = page(&[], explained(calls));
    check_nesting(&page);
    let grants = "<li><b>Lock 0 grants read</b><div class=\"keys\"><code>U0</code></div></li>";
    let denies = "<li><b>Lock 1 denies write</b><div class=\"keys\"><code>R0</code></div></li>";
    for (place, answer, owners) in [
        (5, "no 15 0", grants.to_string()),
        (7, "no 14 1", format!("{grants}{denies}")),
        (8, "no 2 0", format!("{grants}{denies}")),
        (9, "no 7 0", format!("{grants}{denies}")),
        (11, "no 15 0", denies.to_string()),
    ] {
        let step = section(&page, place);
        assert!(step.contains(&format!("<code>{answer}</code>")), "{place}");
        let list = folded(step).expect("a list");
        let owners = format!("in the lock list</h3><ul class=\"stack\">{owners}</ul></div>");
        assert!(list.contains(&owners), "{place}\n{list}");
    }
    // No lock stands, or there is no such segment.
    for (place, answer) in [(3, "no 15 0"), (13, "no 15 0"), (14, "no 3 0")] {
        let step = section(&page, place);
        assert!(step.contains(&format!("<code>{answer}</code>")), "{place}");
        assert_eq!(folded(step), None, "{place}");
    }
}

/// The script leaves the space key to what it opens or presses.
#[test]
fn space_opens_a_lock_list() {
    let page = page(&[], explained(ROUTE));
    let space = page.lines().find(|line| line.contains("case \" \":"));
    let space = space.expect("the space key");
    assert!(space.contains("closest?.(\"button, summary\") ? undefined"));
}

/// A line may break after an operator of a formula, and not inside a key.
#[test]
fn formulas_break_after_operators() {
    let page = page(&[], explained("U; S 0; N 0 1; K 0; L 0 0 2 U0|!(D0&U0)"));
    let formula = "<code>U0|<wbr>!(D0&amp;<wbr>U0)</code>";
    let step = section(&page, 4);
    assert_eq!(step.matches(formula).count(), 2, "{step}");
    assert!(step.contains("<code>L 0 0 2 U0|<wbr>!(D0&amp;<wbr>U0)</code>"));
}

/// Texts of any language stay. What is invisible or turns the line round doesn't.
#[test]
fn odd_characters_are_shown_by_number() {
    let plain =
        "\u{9375}\u{3000}\u{5e33} e\u{301} 5\u{a0}km \u{939}\u{93f}\u{928}\u{94d}\u{926}\u{940}";
    let mut entries = lesson::entries("U; U; S 0");
    entries[0].note = Some("a\u{202e}b\u{200b}c\u{feff}d\u{2028}e\tf".to_string());
    entries[1].note = Some(plain.to_string());
    let page = page(&["\u{2066}x\u{9b}"], steps::explain(entries));
    let odd = "<p class=\"note\">a\\u{202e}b\\u{200b}c\\u{feff}d\\u{2028}e\\tf</p>";
    assert!(page.contains(odd), "{}", section(&page, 0));
    assert!(section(&page, 1).contains(&format!("<p class=\"note\">{plain}</p>")));
    assert!(page.contains("<p>\\u{2066}x\\u{9b}</p>"));
    assert!(section(&page, 2).contains("User\u{a0}0 starts a thread</h2>"));
}

#[test]
fn texts_are_escaped() {
    let lock = |text| Record {
        letter: b'L',
        a: 0,
        b: 0,
        c: 2,
        text,
    };
    let odd: Vec<u8> = (0..96)
        .map(|n: u8| n.wrapping_mul(7).wrapping_add(160))
        .collect();
    let mut entries = lesson::entries("U; S 0; N 0 1");
    entries.push(lock(b"<script>alert(1)</script>").into());
    entries.push(lock(b"\"'&\x00\x7f\xff\n").into());
    entries.push(lock(&odd).into());
    entries[0].note = Some("</p><script>\u{1}".to_string());
    entries[1].heading = vec!["<b>".to_string(), "</section>".to_string()];
    let page = page(&["<i>"], steps::explain(entries));
    check_nesting(&page);
    assert_eq!(page.matches("<script>").count(), 2);
    assert_eq!(page.matches("<section ").count(), 6);
    assert!(section(&page, 3).contains("&lt;script&gt;alert(1)&lt;/script&gt;"));
    assert!(section(&page, 4).contains("&quot;&#39;&amp;<wbr>\\x00\\x7F\\xFF\\x0A"));
    assert!(page.contains("&lt;/p&gt;&lt;script&gt;\\u{1}"));
}

#[test]
fn expected_answers_are_marked() {
    let mut entries = lesson::entries(ROUTE);
    entries[12].expected = Some(Answer::Ok(2));
    entries[13].expected = Some(Answer::Ok(2));
    entries[14].expected = Some(Answer::No {
        refusal: 9,
        second: 0,
    });
    let page = page(&[], steps::explain(entries));
    check_nesting(&page);
    assert!(section(&page, 12).contains("as expected"));
    assert!(section(&page, 13).contains("Expected ok 2, but the answer is no 15 0"));
    assert!(section(&page, 14).contains("Expected no 9 0, but the answer is ok 1"));
    assert!(!section(&page, 15).contains("xpected"));
    let loud = "<p class=\"alarm\">2 answers aren&#39;t as expected: steps 13, 14</p>";
    assert!(page.contains(loud));
    assert_eq!(page.matches("<strong>not as expected</strong>").count(), 2);
    assert_eq!(
        page.matches("<a class=\"no odd\" href=\"#step-13\">")
            .count(),
        1
    );
    assert_eq!(
        page.matches("<a class=\"ok odd\" href=\"#step-14\">")
            .count(),
        1
    );
}

#[test]
fn a_disagreement_is_shown() {
    let mut steps = explained(ROUTE);
    steps[12].disagreement = Some("one & the other".to_string());
    let page = page(&[], steps.clone());
    let shown = "<p class=\"alarm\">Explanation and guard differ: one &amp; the other</p>";
    assert!(section(&page, 12).contains(shown));
    assert!(page.contains("1 explanation differs from the guard: step 12"));
    let mut out = Vec::new();
    trace::write(&[], steps, false, &mut out).expect("a vector takes it");
    let out = String::from_utf8(out).expect("text");
    assert!(out.contains("WRONG   explanation and guard differ: one & the other\n"));
    assert!(out.ends_with("\n\n1 explanation differs from the guard: step 12\n"));
}

/// The answer as a journal has it stands in one line.
#[test]
fn an_answer_does_not_break() {
    let page = page(&[], explained(ROUTE));
    let style = page
        .lines()
        .find(|line| line.starts_with(".answer .word code {"));
    assert!(
        style.is_some_and(|style| style.contains("white-space: nowrap;")),
        "{style:?}"
    );
}

fn numbered(count: usize) -> Vec<String> {
    (1..=count)
        .map(|number| format!("Line {number}."))
        .collect()
}

/// Of an introduction, 200 lines are drawn and the others counted.
#[test]
fn a_long_introduction_is_cut() {
    for (count, last) in [
        (200, "<p>Line 200.</p>\n</div>"),
        (201, "<p>Line 200.</p>\n<p>and 1 more line</p>\n</div>"),
        (
            12_545,
            "<p>Line 200.</p>\n<p>and 12,345 more lines</p>\n</div>",
        ),
    ] {
        let lines = numbered(count);
        let lines: Vec<&str> = lines.iter().map(String::as_str).collect();
        let page = page(&lines, explained(ROUTE));
        check_nesting(&page);
        assert_eq!(page.matches("<p>Line ").count(), 200, "{count}");
        assert_eq!(page.matches("more line").count(), usize::from(count > 200));
        assert!(page.contains(last), "{count}");
    }
}

/// And so of a heading.
#[test]
fn a_long_heading_is_cut() {
    for (count, last) in [
        (200, "<br>Line 200.</p>"),
        (201, "<br>Line 200.<br>and 1 more line</p>"),
        (12_545, "<br>Line 200.<br>and 12,345 more lines</p>"),
    ] {
        let mut entries = lesson::entries(ROUTE);
        entries[3].heading = numbered(count);
        let page = page(&[], steps::explain(entries));
        check_nesting(&page);
        let step = section(&page, 3);
        assert!(step.contains("<p class=\"chapter\"><b>Line 1.</b><br>Line 2."));
        assert_eq!(step.matches("<br>Line ").count(), 199, "{count}");
        assert_eq!(page.matches("more line").count(), usize::from(count > 200));
        assert!(step.contains(last), "{count}");
    }
}

#[test]
fn an_empty_journal() {
    let page = page(&[], []);
    check_nesting(&page);
    assert!(page.contains("This journal has no calls."));
}

/// The lines of a part that the script draws from.
fn lines<'a>(page: &'a str, part: &str) -> Vec<&'a str> {
    let start = format!("<script type=\"text/html\" class=\"{part}\">");
    let start = page.find(&start).expect("the part") + start.len();
    let length = page[start..].find("</script>").expect("its end");
    page[start..start + length].split('\n').collect()
}

/// As the script does it: `<5>` is the sixth piece.
fn drawn(text: &str, pieces: &[&str]) -> String {
    let mut parts = text.split('<');
    let mut whole = parts.next().expect("a first part").to_string();
    for part in parts {
        let piece = part.split_once('>').filter(|(place, _)| {
            !place.is_empty() && place.bytes().all(|byte| byte.is_ascii_digit())
        });
        whole += &match piece {
            Some((place, rest)) => {
                let place: usize = place.parse().expect("a place");
                drawn(pieces[place], pieces) + rest
            }
            None => format!("<{part}"),
        };
    }
    whole
}

/// The steps of a long journal are drawn later, and are the same.
#[test]
fn a_long_journal_is_drawn_from_pieces() {
    let calls = format!("{ROUTE}; {}", vec!["A 1 2 4"; 500].join("; "));
    let plain = page(&[], explained(ROUTE));
    let long = page(&[], explained(&calls));
    check_nesting(&long);
    assert!(!plain.contains("<noscript>") && long.contains("<noscript>"));
    let (sections, pieces) = (lines(&long, "sections"), lines(&long, "pieces"));
    assert_eq!(sections.len(), 516);
    assert_eq!(long.matches("<section ").count(), 516);
    for (place, shown) in sections[..16].iter().enumerate() {
        let shown = drawn(shown, &pieces);
        let expected = section(&plain, place).replace('\n', "");
        assert!(shown.contains(&expected), "{place}\n{shown}\n{expected}");
        assert!(shown.starts_with("<section ") && shown.ends_with("</section>"));
    }
}

/// What stands for a piece, or ends the part that the script draws from, is
/// escaped in a text as everything else is.
#[test]
fn texts_of_a_long_journal_are_escaped() {
    let calls = vec!["U"; 501].join("; ");
    let mut entries = lesson::entries(&calls);
    entries[0].note = Some("<0> </script><!--\n".to_string());
    let page = page(&[], steps::explain(entries));
    check_nesting(&page);
    let (sections, pieces) = (lines(&page, "sections"), lines(&page, "pieces"));
    assert_eq!(sections.len(), 501);
    let note = "<p class=\"note\">&lt;0&gt; &lt;/script&gt;&lt;!--\\n</p>";
    let shown = drawn(sections[0], &pieces);
    assert!(shown.contains(note), "{shown}");
}

/// The most calls that a journal holds, and the fullest state at each: the page
/// stays small, since nothing stands in it twice.
#[test]
fn the_page_of_the_fullest_journal_is_modest() {
    let calls = lesson::fullest();
    let page = page(&[], steps::explain(lesson::entries(&calls)));
    let (sections, pieces) = (lines(&page, "sections"), lines(&page, "pieces"));
    assert!(sections.len() > 7_000, "{}", sections.len());
    let last = drawn(sections[sections.len() - 1], &pieces);
    assert_eq!(last.matches("<li><b>segment").count(), 16);
    assert_eq!(last.matches("<span class=\"lit off\">").count(), 48);
    // Its lock list, for the owner and for a colleague, which is kept once.
    assert_eq!(last.matches("<li><b>Lock ").count(), 8 + 8);
    let name = "Lock list of segment\u{a0}16</summary>";
    assert_eq!(page.matches(name).count(), 1);
    assert!(page.len() < 10_000_000, "{} bytes", page.len());
}

/// Locks that come and go, so that the lock lists of nearly every step are others.
#[test]
fn the_page_of_changing_locks_is_modest() {
    let mut calls = vec!["U; S 0; N 0 1".to_string()];
    calls.extend(vec!["L 0 0 2 U0".to_string(); 7]);
    calls.extend((0..3_200).map(|lock| format!("L 0 0 2 U0; D 0 {lock}")));
    let calls = calls.join("; ");
    let page = page(&[], explained(&calls));
    let (sections, pieces) = (lines(&page, "sections"), lines(&page, "pieces"));
    assert_eq!(sections.len(), 6_410);
    let last = drawn(sections[6_409], &pieces);
    assert_eq!(last.matches("<li><b>Lock 32").count(), 14);
    assert!(page.len() < 7_000_000, "{} bytes", page.len());
}

/// And an access after each, whose lock list is another each time.
#[test]
fn the_page_of_accesses_between_changes_is_modest() {
    let mut calls = vec!["U; S 0; N 0 1".to_string()];
    calls.extend(vec!["L 0 0 2 U0".to_string(); 7]);
    calls.extend((0..1_720).map(|lock| format!("L 0 0 2 U0; A 0 0 2; D 0 {lock}; A 0 0 2")));
    let calls = calls.join("; ");
    let page = page(&[], steps::explain(lesson::entries(&calls)));
    let (sections, pieces) = (lines(&page, "sections"), lines(&page, "pieces"));
    assert_eq!(sections.len(), 6_890);
    let last = drawn(sections[6_889], &pieces);
    assert_eq!(last.matches("<li><b>Lock 17").count(), 14);
    assert!(page.len() < 7_000_000, "{} bytes", page.len());
}
