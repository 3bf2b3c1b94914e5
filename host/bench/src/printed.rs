//! Titles, rows and cells of the tables. Only the last round prints.

use crate::clock::in_last_round;

pub fn row(cells: &[String]) {
    if in_last_round() {
        println!("| {} |", cells.join(" | "));
    }
}

pub fn title(text: &str, cells: &str) {
    if in_last_round() {
        println!("\n{text}\n\n| {cells} |\n|{}", "---|".repeat(cells.split(" | ").count()));
    }
}

pub fn ns(value: f64) -> String {
    if value >= 10_000.0 { format!("{:.1} µs", value / 1000.0) } else { format!("{value:.0} ns") }
}

pub fn ratio(a: f64, b: f64) -> String {
    if b > 0.0 { format!("{:.2}", a / b) } else { "".into() }
}
