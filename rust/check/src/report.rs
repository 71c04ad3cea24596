// SPDX-License-Identifier: Apache-2.0
//! What came of all cases, as lines, JUnit, JSON and a page.
use std::fmt::Write;

use crate::markup::escaped;
use crate::run::{Outcome, Verdict, VERDICTS};
use crate::table::Row;
use crate::trace::lines_of;

/// The line of a case.
pub fn line_of(outcome: &Outcome) -> String {
    let row = outcome.row;
    let known = if outcome.is_expected { " (as expected)" } else { "" };
    format!("{:7} {:7} {} | {} | {}{known}", row.id, outcome.verdict, row.section, row.expected, outcome.seen)
}

fn count(outcomes: &[Outcome], verdict: Verdict) -> usize {
    outcomes.iter().filter(|it| it.verdict == verdict).count()
}

/// The last line: it counts what was seen, and claims no more.
pub fn summary_of(outcomes: &[Outcome], strict: bool) -> String {
    let counts: Vec<String> = VERDICTS.iter().map(|it| format!("{it} {}", count(outcomes, *it))).collect();
    let tried = outcomes.iter().filter(|it| !matches!(it.verdict, Verdict::Skip | Verdict::Trouble)).count();
    let head = match outcomes.iter().filter(|it| it.fails(strict)).count() {
        0 => format!("no fault seen in {tried} cases"),
        1 => format!("1 fault in {tried} cases"),
        faults => format!("{faults} faults in {tried} cases"),
    };
    format!("{head}: {}", counts.join(", "))
}

/// What --explain prints of a case.
pub fn explanation_of(row: &Row, reason: Option<&str>) -> String {
    let sentence = match row.sentence {
        "" => "The specification has no sentence on this.".to_string(),
        text if text.starts_with('(') => text.to_string(),
        text => format!("\"{text}\""),
    };
    let more =
        reason.map_or(String::new(), |it| format!("\nThis case is not programmed, is not tried, and is not counted: {it}."));
    format!(
        "{} {}\n\nSection:   {}\nIs tried:  {}\nExpected:  {}\n\n{sentence}{more}",
        row.id, row.level, row.section, row.provoked, row.expected
    )
}

/// The report as JUnit has it.
pub fn junit_of(name: &str, outcomes: &[Outcome], strict: bool) -> String {
    let failures = outcomes.iter().filter(|it| it.fails(strict)).count();
    let [errors, skipped] = [Verdict::Trouble, Verdict::Skip].map(|it| count(outcomes, it));
    let mut out = String::from("<?xml version=\"1.0\" encoding=\"UTF-8\"?>\n");
    let total = outcomes.len();
    let counts = format!("tests=\"{total}\" failures=\"{failures}\" errors=\"{errors}\" skipped=\"{skipped}\"");
    let _ = writeln!(out, "<testsuite name=\"{}\" {counts}>", escaped(name));
    for outcome in outcomes {
        let row = outcome.row;
        let title = escaped(&format!("{} {}", row.id, row.expected));
        let _ =
            write!(out, "  <testcase classname=\"{}\" name=\"{title}\" time=\"{:.3}\">", escaped(row.section), outcome.seconds);
        let _ = writeln!(out, "{}</testcase>", inner_of(outcome, strict));
    }
    out.push_str("</testsuite>\n");
    out
}

fn inner_of(outcome: &Outcome, strict: bool) -> String {
    let message = escaped(&outcome.seen);
    match outcome.verdict {
        Verdict::Skip => format!("<skipped message=\"{message}\"/>"),
        Verdict::Trouble => format!("<error message=\"{message}\"/>"),
        Verdict::Pass => String::new(),
        verdict if outcome.fails(strict) => {
            format!(
                "<failure type=\"{verdict}\" message=\"{message}\">{}</failure>",
                escaped(&lines_of(&outcome.trace).join(" / "))
            )
        }
        verdict => format!("<system-out>{verdict}: {message}</system-out>"),
    }
}

/// A text of JSON.
fn quoted(text: &str) -> String {
    let mut out = String::from("\"");
    for letter in text.chars() {
        match letter {
            '"' | '\\' => out.extend(['\\', letter]),
            other if (other as u32) < 0x20 => {
                let _ = write!(out, "\\u{:04x}", other as u32);
            }
            other => out.push(other),
        }
    }
    out.push('"');
    out
}

/// The report as JSON: a list with an object for each case.
pub fn json_of(outcomes: &[Outcome]) -> String {
    let objects: Vec<String> = outcomes.iter().map(object_of).collect();
    format!("[\n{}\n]\n", objects.join(",\n"))
}

fn object_of(outcome: &Outcome) -> String {
    let row = outcome.row;
    let trace: Vec<String> = lines_of(&outcome.trace).iter().map(|it| quoted(it)).collect();
    let fields = [
        ("id", quoted(row.id)),
        ("verdict", quoted(&outcome.verdict.to_string())),
        ("level", quoted(&row.level.to_string())),
        ("section", quoted(row.section)),
        ("provoked", quoted(row.provoked)),
        ("expected", quoted(row.expected)),
        ("sentence", quoted(row.sentence)),
        ("seen", quoted(&outcome.seen)),
        ("as_expected", outcome.is_expected.to_string()),
        ("seconds", format!("{:.3}", outcome.seconds)),
        ("trace", format!("[{}]", trace.join(", "))),
    ];
    let fields: Vec<String> = fields.iter().map(|(name, value)| format!("\"{name}\": {value}")).collect();
    format!("  {{{}}}", fields.join(", "))
}

const STYLE: &str = "\
body { font: 15px/1.5 sans-serif; max-width: 70em; margin: 2em auto; padding: 0 1em; }
table { border-collapse: collapse; width: 100%; } td, th { text-align: left; vertical-align: top; padding: .3em .6em; border-top: 1px solid #ccc; }
td:first-child { white-space: nowrap; } pre { overflow-x: auto; background: #f4f4f4; padding: .6em; } summary { cursor: pointer; }
.MUST, .CRASH, .HANG { color: #b00020; font-weight: bold; } .SHOULD { color: #a05a00; font-weight: bold; } .PASS { color: #1b6e2c; } .SKIP { color: #777; }";

/// The report as one page: the cases by section, each unfolded to the bytes that went.
pub fn page_of(name: &str, outcomes: &[Outcome], strict: bool) -> String {
    let title = escaped(&format!("covretin check: {name}"));
    let mut out = format!("<!DOCTYPE html>\n<html lang=\"en\"><head><meta charset=\"utf-8\"><title>{title}</title>\n");
    let _ = writeln!(
        out,
        "<style>\n{STYLE}\n</style></head><body>\n<h1>{title}</h1>\n<p>{}</p>",
        escaped(&summary_of(outcomes, strict))
    );
    let mut sections: Vec<&str> = Vec::new();
    for outcome in outcomes {
        if !sections.contains(&outcome.row.section) {
            sections.push(outcome.row.section);
        }
    }
    for section in sections {
        let _ = writeln!(out, "<h2>{}</h2>\n<table><tr><th>Case<th>Verdict<th>What came of it</tr>", escaped(section));
        outcomes.iter().filter(|it| it.row.section == section).for_each(|it| out.push_str(&row_of_page(it)));
        out.push_str("</table>\n");
    }
    out.push_str("</body></html>\n");
    out
}

fn row_of_page(outcome: &Outcome) -> String {
    let row = outcome.row;
    let [provoked, expected, sentence, seen] = [row.provoked, row.expected, row.sentence, &outcome.seen].map(escaped);
    let trace: Vec<String> = lines_of(&outcome.trace).iter().map(|it| escaped(it)).collect();
    let bytes = if trace.is_empty() { String::new() } else { format!("<pre>{}</pre>", trace.join("\n")) };
    format!(
        "<tr id=\"{id}\"><td>{id}<td class=\"{verdict}\">{verdict}<td><details><summary>{expected}</summary>\
         <p>Tried: {provoked}.</p><blockquote>{sentence}</blockquote><p>Seen: {seen}</p>{bytes}</details></tr>\n",
        id = row.id,
        verdict = outcome.verdict,
    )
}

#[cfg(test)]
mod tests {
    use super::*;
    use crate::table::rows;

    fn outcomes() -> Vec<Outcome> {
        let rows: &'static [Row] = Box::leak(rows().into_boxed_slice());
        let texts = ["replies <1> & \"2\"", "hung up"];
        let verdicts = [Verdict::Must, Verdict::Pass];
        rows.iter().zip(texts).zip(verdicts).map(|((row, seen), verdict)| Outcome::new(row, verdict, seen.to_string())).collect()
    }

    #[test]
    fn a_summary_counts_and_claims_no_conformance() {
        let all = outcomes();
        assert!(summary_of(&all, false).starts_with("1 fault in 2 cases: PASS 1, MUST 1"));
        assert!(summary_of(&all[1..], false).starts_with("no fault seen in 1 cases"));
    }

    #[test]
    fn reports_escape_what_was_seen() {
        let all = outcomes();
        let junit = junit_of("a", &all, false);
        assert!(junit.contains("failures=\"1\"") && junit.contains("replies &lt;1&gt; &amp; &quot;2&quot;"));
        assert!(json_of(&all).contains("\"seen\": \"replies <1> & \\\"2\\\"\""));
        assert!(page_of("a", &all, false).contains("replies &lt;1&gt;"));
    }
}
