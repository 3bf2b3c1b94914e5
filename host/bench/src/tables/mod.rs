//! The tables of docs/PERFORMANCE.md, one to a file.

mod closings;
mod growth;
mod library;
mod soundness;
mod steps;
mod texts;

/// Each by the name that the command line has for it.
pub const ALL: [(&str, fn()); 6] = [
    ("steps", steps::steps),
    ("closings", closings::closings),
    ("texts", texts::texts),
    ("soundness", soundness::soundnesses),
    ("growth", growth::growth),
    ("library", library::library),
];
