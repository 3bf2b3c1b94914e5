//! What is counted, and the differences that are found.

#[derive(Default)]
pub struct Tally {
    pub fresh: u64,
    pub steps: u64,
    pub steps_published: u64,
    pub step_numbers: [u64; 12],
    pub closings: u64,
    pub closings_published: u64,
    pub closing_numbers: [u64; 12],
    pub verdicts: [u64; 3],
    pub texts: u64,
    pub text_numbers: [u64; 12],
    pub differences: u64,
    /// Where the first difference was.
    pub first: Option<String>,
    /// No difference is printed.
    pub silent: bool,
}

impl Tally {
    pub fn new() -> Self {
        Self::default()
    }

    /// Counts a difference, and prints it if it is one of the first.
    pub fn difference(&mut self, what: &str, detail: String) {
        self.differences += 1;
        self.first.get_or_insert(what.to_string());
        if self.differences <= 5 && !self.silent {
            println!("DIFFERENCE in {what}\n{detail}");
        }
    }
}
