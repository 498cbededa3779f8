use std::collections::BTreeMap;

/// Counts how often each thing came out in each way.
#[derive(Default)]
pub struct Tally {
    counts: BTreeMap<(&'static str, u32), u64>,
}

/// A thing that is counted, and the ways in which it can come out.
pub type Listed = (&'static str, &'static [u32]);

impl Tally {
    pub fn count(&mut self, what: &'static str, outcome: u32) {
        *self.counts.entry((what, outcome)).or_default() += 1;
    }

    pub fn of(&self, what: &'static str, outcome: u32) -> u64 {
        self.counts.get(&(what, outcome)).copied().unwrap_or(0)
    }

    pub fn total(&self) -> u64 {
        self.counts.values().sum()
    }

    /// Returns how often a thing was counted, with any outcome.
    pub fn total_of(&self, what: &'static str) -> u64 {
        let all = self.counts.range((what, 0)..=(what, u32::MAX));
        all.map(|(_, count)| count).sum()
    }

    /// Returns how often each outcome came, for all things together.
    pub fn by_outcome(&self) -> BTreeMap<u32, u64> {
        let mut sums = BTreeMap::new();
        for ((_, outcome), count) in &self.counts {
            *sums.entry(*outcome).or_default() += count;
        }
        sums
    }

    pub fn report(&self, listed: &[Listed]) {
        for &(what, outcomes) in listed {
            let counts: Vec<String> = outcomes
                .iter()
                .map(|&outcome| format!("{outcome} x {}", self.of(what, outcome)))
                .collect();
            println!("{what}: {}", counts.join(", "));
        }
    }

    /// Each listed outcome must have come at least `least` times, and no other may have come. A
    /// comparison that never met an outcome says nothing about it.
    pub fn check(&self, listed: &[Listed], least: u64) {
        for &(what, outcomes) in listed {
            for &outcome in outcomes {
                let count = self.of(what, outcome);
                assert!(count >= least, "{what}: {outcome} only {count} times");
            }
        }
        let places = listed.iter().map(|(_, outcomes)| outcomes.len()).sum();
        assert_eq!(self.counts.len(), places, "not listed: {:?}", self.counts);
    }
}
