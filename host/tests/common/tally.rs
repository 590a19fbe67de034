//! What a test tried, to be printed at its end.

use std::collections::BTreeMap;

#[derive(Default)]
pub struct Tally {
    seeds: usize,
    calls: BTreeMap<&'static str, usize>,
    answers: BTreeMap<u8, usize>,
    /// Of deletes and the like, the kinds that were met.
    met: BTreeMap<&'static str, BTreeMap<&'static str, usize>>,
    /// Rows, sharing pairs and counts compared, and records judged.
    pub rows: usize,
    pub pairs: usize,
    pub counts: usize,
    pub judged: usize,
    /// Calls after which all lent bytes were compared with those before.
    pub untouched: usize,
    /// The most that any record held.
    pub ghosts: usize,
    pub depth: usize,
    pub snapshots: usize,
    pub full: usize,
}

impl Tally {
    /// The tally of one history, as yet without calls.
    pub fn of_one() -> Tally {
        Tally {
            seeds: 1,
            ..Tally::default()
        }
    }

    pub fn call(&mut self, name: &'static str, answer: u8) {
        *self.calls.entry(name).or_default() += 1;
        *self.answers.entry(answer).or_default() += 1;
    }

    pub fn meet(&mut self, what: &'static str, kind: &'static str) {
        *self.met.entry(what).or_default().entry(kind).or_default() += 1;
    }

    pub fn add(&mut self, other: &Tally) {
        add_each(&mut self.calls, &other.calls);
        add_each(&mut self.answers, &other.answers);
        for (what, kinds) in &other.met {
            add_each(self.met.entry(what).or_default(), kinds);
        }
        self.seeds += other.seeds;
        self.rows += other.rows;
        self.pairs += other.pairs;
        self.counts += other.counts;
        self.judged += other.judged;
        self.untouched += other.untouched;
        self.full += other.full;
        self.ghosts = self.ghosts.max(other.ghosts);
        self.depth = self.depth.max(other.depth);
        self.snapshots = self.snapshots.max(other.snapshots);
    }

    pub fn print(&self, title: &str) {
        println!("{title}: {} histories", self.seeds);
        println!("  calls:   {}", listed(&self.calls));
        println!("  answers: {}", listed(&self.answers));
        for (what, kinds) in &self.met {
            println!("  {what}: {}", listed(kinds));
        }
        println!(
            "  compared: {} rows, {} pairs for sharing, {} counts, {} times lent bytes untouched",
            self.rows, self.pairs, self.counts, self.untouched
        );
        println!("  judged sound: {} records", self.judged);
        println!(
            "  at most: {} snapshots, {} ghosts, {} deep; {} calls on a full store",
            self.snapshots, self.ghosts, self.depth, self.full
        );
    }

    /// Fails unless something of every kind was compared and every answer was seen.
    pub fn require(&self, title: &str, answers: &[u8]) {
        for compared in [
            self.rows,
            self.pairs,
            self.counts,
            self.judged,
            self.untouched,
        ] {
            assert!(compared > 0, "{title}: nothing of a kind was compared");
        }
        for answer in answers {
            let seen = self.answers.contains_key(answer);
            assert!(seen, "{title}: answer {answer} was never seen");
        }
    }

    pub fn require_met(&self, title: &str, what: &str, kinds: &[&str]) {
        for kind in kinds {
            let seen = self.met.get(what).is_some_and(|met| met.contains_key(kind));
            assert!(seen, "{title}: {what}: never met: {kind}");
        }
    }
}

fn add_each<K: Ord + Copy>(sum: &mut BTreeMap<K, usize>, other: &BTreeMap<K, usize>) {
    for (&key, &count) in other {
        *sum.entry(key).or_default() += count;
    }
}

fn listed<K: std::fmt::Display>(counts: &BTreeMap<K, usize>) -> String {
    let items: Vec<String> = counts.iter().map(|(k, n)| format!("{k} {n}×")).collect();
    items.join(", ")
}
