//! The counted points of the published source: which of them the calls did not meet.

/// Kind, line, text and count.
type Point = (&'static str, u32, &'static str, u64);

/// Points of the published source that no input reaches, and why.
const OUT_OF_REACH: [(&str, usize, &str); 3] = [
    ("if let Some((last, rest)) = path.split_last() {", 2, "the path is not empty there"),
    ("_ => (),", 3, "the opcode is one of the two before"),
    ("if path.is_empty() {", 1, "set_info is never handed the root"),
];

/// Each counted point of the published source that was never met, and each `if` that never went both ways.
pub fn report() -> bool {
    let points = published::points();
    if points.is_empty() {
        println!("this build has no counters (ARGCOL_COUNTERS=1)");
        return false;
    }
    let mut missing = missing(&points);
    let found = missing.len();
    for (text, most, why) in OUT_OF_REACH {
        let at: Vec<usize> = (0..missing.len()).filter(|i| missing[*i].0 == text).take(most).collect();
        println!("out of reach, {} times, `{text}`: {why}", at.len());
        at.into_iter().rev().for_each(|i| drop(missing.remove(i)));
    }
    missing.iter().for_each(|(_, text)| println!("{text}"));
    println!("{} points, {found} never met or never false, {} of them without a reason", points.len(), missing.len());
    println!("least count {}", points.iter().map(|point| point.3).filter(|n| *n > 0).min().unwrap_or(0));
    missing.is_empty()
}

/// The line of each missing point, and what is said of it.
fn missing(points: &[Point]) -> Vec<(&'static str, String)> {
    let mut missing = Vec::new();
    for (i, (kind, line, text, count)) in points.iter().enumerate() {
        if *count == 0 {
            missing.push((*text, format!("never: {kind} at line {line}: {text}")));
        }
        if *kind == "if"
            && let Some(block) = points[i..].iter().find(|point| point.0 == "block")
            && block.3 == *count
        {
            missing.push((*text, format!("never false: {kind} at line {line}: {text}")));
        }
    }
    missing
}
