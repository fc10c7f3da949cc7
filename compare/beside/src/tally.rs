//! What became of the inputs of one function.

/// Differences that are printed in full for each function.
const SHOWN: usize = 3;

pub struct Tally {
    pub name: String,
    /// Whether it is of the inputs of one lane, one after the other.
    pub every: bool,
    pub compared: u64,
    pub different: u64,
    pub shown: Vec<String>,
}

impl Tally {
    pub fn new(name: String, every: bool) -> Self {
        Self { name, every, compared: 0, different: 0, shown: Vec::new() }
    }

    /// Counts one input, and one difference where the two are not the same.
    pub fn compare<T: PartialEq>(&mut self, rust: &T, port: &T, text: impl FnOnce() -> String) {
        self.compared += 1;
        if rust != port {
            self.different += 1;
            if self.shown.len() < SHOWN {
                self.shown.push(text());
            }
        }
    }
}

pub fn hex(bytes: &[u8]) -> String {
    bytes.iter().map(|byte| format!("{byte:02x}")).collect()
}
