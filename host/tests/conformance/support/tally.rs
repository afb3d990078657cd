//! How often each thing came up; a run that never met one of the expected things proves too little.

use std::collections::BTreeMap;

const MOST_PRINTED: usize = 60;
const RAREST_PRINTED: usize = 8;

#[derive(Clone, Debug, Default)]
pub struct Tally {
    counts: BTreeMap<String, usize>,
}

impl Tally {
    pub fn add(&mut self, what: impl Into<String>) {
        *self.counts.entry(what.into()).or_default() += 1;
    }

    pub fn merge(&mut self, other: Tally) {
        for (what, count) in other.counts {
            *self.counts.entry(what).or_default() += count;
        }
    }

    pub fn total(&self) -> usize {
        self.counts.values().sum()
    }

    /// Prints the counts, and fails unless exactly the expected things came up, each at least so many times.
    pub fn require(&self, title: &str, expected: &[String], least: usize) {
        println!("{title}: {} in all, of {} kinds", self.total(), self.counts.len());
        self.print();
        for what in expected {
            let count = self.counts.get(what).copied().unwrap_or_default();
            assert!(count >= least, "{title}: '{what}' came up {count} times, wanted {least}");
        }
        for what in self.counts.keys() {
            assert!(expected.contains(what), "{title}: '{what}' is not among the expected");
        }
    }

    /// All counts; of very many, the rarest.
    fn print(&self) {
        let mut counts: Vec<(&String, &usize)> = self.counts.iter().collect();
        if counts.len() > MOST_PRINTED {
            counts.sort_by_key(|(_, &count)| count);
            counts.truncate(RAREST_PRINTED);
            println!("the rarest:");
        }
        for (what, count) in counts {
            println!("{count:>9}  {what}");
        }
    }
}
