//! What was compared, for a person to see that it was enough, and for the header to be held to: how often each call got each answer, and other
//! counts.

use std::collections::BTreeMap;

#[derive(Default)]
pub struct Tally {
    /// By the function, without `vulprow_`, and its answer.
    pub answers: BTreeMap<(&'static str, u32), u64>,
    counts: BTreeMap<String, u64>,
}

impl Tally {
    pub fn answer(&mut self, call: &'static str, answer: u32) {
        *self.answers.entry((call, answer)).or_default() += 1;
    }

    pub fn add(&mut self, what: &str, count: u64) {
        match self.counts.get_mut(what) {
            Some(counted) => *counted += count,
            None => drop(self.counts.insert(what.into(), count)),
        }
    }

    pub fn count(&mut self, what: &str) {
        self.add(what, 1);
    }

    pub fn told(&self) -> String {
        let answers = self.answers.iter().map(|((call, answer), times)| format!("{call} {answer}: {times}"));
        let counts = self.counts.iter().map(|(what, times)| format!("{what}: {times}"));
        answers.chain(counts).collect::<Vec<_>>().join(", ")
    }
}

/// A difference between two answers to an input.
pub fn same<T: std::fmt::Debug + PartialEq>(input: &[u8], by_reference: T, by_engine: T) -> Result<T, String> {
    if by_reference == by_engine {
        return Ok(by_reference);
    }
    Err(format!(
        "input, {} bytes: {input:?}\nas text:\n{}\nreference: {by_reference:?}\nengine:    {by_engine:?}",
        input.len(),
        String::from_utf8_lossy(input),
    ))
}
