//! How often each sort of case occurred.

use std::collections::BTreeMap;

/// What cases count as; a case counts as several.
#[derive(Default)]
pub struct Mix {
    counts: BTreeMap<String, usize>,
}

impl Mix {
    pub fn count(&mut self, what: impl Into<String>) {
        *self.counts.entry(what.into()).or_default() += 1;
    }

    pub fn count_if(&mut self, holds: bool, what: impl Into<String>) {
        if holds {
            self.count(what);
        }
    }

    /// Prints the counts.
    ///
    /// # Panics
    ///
    /// If one of these occurred more rarely.
    pub fn assert_least(&self, least: &[(&str, usize)]) {
        for (what, count) in &self.counts {
            println!("{count:6} {what}");
        }
        for &(what, least) in least {
            let count = self.counts.get(what).copied().unwrap_or(0);
            assert!(count >= least, "{what}: {count} of {least}");
        }
    }
}
