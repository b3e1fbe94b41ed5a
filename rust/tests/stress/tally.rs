//! How many calls of each function were made, and with which codes they ended.

use std::collections::BTreeMap;

/// A function's calls by their codes.
type Codes = BTreeMap<u32, usize>;

/// The calls of one layout, by function.
#[derive(Default)]
pub struct Tally(BTreeMap<&'static str, Codes>);

impl Tally {
    pub fn count(&mut self, function: &'static str, code: u32) {
        let codes = self.0.entry(function).or_default();
        *codes.entry(code).or_default() += 1;
    }

    pub fn made(&self) -> usize {
        self.0.values().flat_map(Codes::values).sum()
    }

    /// A line for each function.
    pub fn lines(&self, layout: &str) -> Vec<String> {
        let line = |(function, codes): (&&str, &Codes)| {
            let made: usize = codes.values().sum();
            let accepted = codes.get(&0).copied().unwrap_or(0);
            let refused: Vec<String> = codes
                .keys()
                .filter(|&&c| c > 0)
                .map(u32::to_string)
                .collect();
            format!(
                "{layout} {function}: {made} calls, {accepted} accepted ({} %), refused with {}",
                100 * accepted / made,
                refused.join(", ")
            )
        };
        self.0.iter().map(line).collect()
    }
}
