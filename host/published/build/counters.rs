//! Counters in the published source.

use crate::edits::place;

/// Kind, line and text of a counted point.
pub type Point = (&'static str, u32, String);

/// Counters in the lines from `start` to `end`: one where a block or an arm begins, one before each `if`, one behind
/// each `&&` and `||`.
pub fn count(text: &mut String, start: &str, end: &str, points: &mut Vec<Point>) -> Result<(), String> {
    let from = place(text, start)?;
    let to = text[from..].find(end).map_or(text.len(), |at| from + at);
    let first_line = text[..from].lines().count() as u32;
    let mut out = String::new();
    for (i, line) in text[from..to].lines().enumerate() {
        let bare = line.trim();
        let mut point = |kind: &'static str| {
            points.push((kind, first_line + 1 + i as u32, bare.to_string()));
            points.len() - 1
        };
        if bare.starts_with("//") {
            out += line;
            out.push('\n');
            continue;
        }
        if bare.starts_with("if ") && !bare.ends_with("=>") {
            out += &format!("crate::hit({});\n", point("if"));
        }
        let mut line = line.to_string();
        for (mark, call) in [("&& ", "hit"), ("|| ", "miss")] {
            let mut parts = line.split(mark);
            let mut joined = parts.next().unwrap().to_string();
            for part in parts {
                joined += &format!("{mark}crate::{call}({}) {mark}{part}", point("condition"));
            }
            line = joined;
        }
        let opens = bare.ends_with("{")
            && !bare.ends_with("Val {")
            && !bare.contains("fn ")
            && (bare == "{"
                || bare == ") {"
                || bare.contains("if ")
                || bare.ends_with("else {")
                || bare.contains("=> {")
                || bare.starts_with("for ")
                || bare.ends_with("| {"));
        let arm = line.trim_end().strip_suffix(',').and_then(|line| line.split_once(" => "));
        if opens {
            line += &format!("\ncrate::hit({});", point(if bare.contains("=> {") { "arm" } else { "block" }));
        } else if let Some((pattern, value)) = arm {
            line = format!("{pattern} => {{ crate::hit({}); {value} }},", point("arm"));
        }
        out += &line;
        out.push('\n');
    }
    *text = text[..from].to_string() + &out + &text[to..];
    Ok(())
}
