//! Why bytes are no sheet.

/// The first question that is answered no, and at which byte.
#[derive(Clone, Debug, PartialEq, Eq)]
pub struct Refusal {
    pub question: u8,
    pub at: usize,
    pub what: String,
    pub expected: String,
}

impl std::fmt::Display for Refusal {
    fn fmt(&self, f: &mut std::fmt::Formatter) -> std::fmt::Result {
        write!(f, "question {}, byte {}: {}; expected {}", self.question, self.at, self.what, self.expected)
    }
}
