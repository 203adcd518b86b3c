//! What was compared, and how often each answer was seen.

use std::collections::BTreeMap;

/// How many differences are printed.
const SHOWN: usize = 20;

#[derive(Default)]
pub struct Compared {
    seen: BTreeMap<&'static str, usize>,
    differences: usize,
}

impl Compared {
    pub fn count(&mut self, what: &'static str, number: usize) {
        *self.seen.entry(what).or_default() += number;
    }

    pub fn number(&self, what: &str) -> usize {
        self.seen.get(what).copied().unwrap_or_default()
    }

    /// Notes a difference where two texts are not one; tells whether they are.
    pub fn same(
        &mut self,
        original: &impl std::fmt::Debug,
        ours: &impl std::fmt::Debug,
        about: impl FnOnce() -> String,
    ) -> bool {
        let (original, ours) = (format!("{original:?}"), format!("{ours:?}"));
        if original == ours {
            return true;
        }
        self.differences += 1;
        if self.differences <= SHOWN {
            println!("DIFFERENT: {}\n    original: {original}\n    ours:     {ours}", about());
        }
        false
    }

    /// A difference that is no question of two answers.
    pub fn wrong(&mut self, what: String) {
        self.differences += 1;
        println!("WRONG: {what}");
    }

    /// Prints what was seen; tells whether nothing differs.
    pub fn end(&self) -> bool {
        for (what, number) in &self.seen {
            println!("{number:>8} {what}");
        }
        println!("{:>8} differences", self.differences);
        self.differences == 0
    }
}
