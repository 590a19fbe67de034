//! Drawn lists of calls, compared with the full copies after every call.

mod common;

use common::calls::{read, Habit, Source};
use common::tally::Tally;
use common::trial::{Care, Trial};
use rowstore_host::dice::Dice;
use rowstore_host::layout::Measures;
use rowstore_host::store::Store;

const SMALL_SEEDS: u64 = 1200;
/// At the end of a large history the store reads every row; a larger stride reads fewer.
const STRIDE: usize = 1;

const HABITS: [Habit; 5] = [
    Habit::MIXED,
    Habit {
        name: "deep",
        weights: [30, 5, 40, 10, 15, 5],
        source: Source::Latest,
        highest_tag: 14,
        ..Habit::MIXED
    },
    Habit {
        name: "wide",
        weights: [30, 5, 40, 10, 20, 5],
        source: Source::Origin,
        highest_tag: 12,
        ..Habit::MIXED
    },
    Habit {
        name: "pruned",
        weights: [25, 3, 40, 10, 30, 2],
        highest_tag: 7,
        calls: 150,
        ..Habit::MIXED
    },
    Habit {
        name: "written",
        weights: [10, 5, 65, 20, 5, 5],
        highest_tag: 6,
        ..Habit::MIXED
    },
];

/// Tries to go beyond 64 snapshots.
const MANY: Habit = Habit {
    name: "many",
    weights: [60, 5, 27, 5, 3, 5],
    highest_tag: 99,
    calls: 220,
    ..Habit::MIXED
};

/// What deletes must have met; when ghosts are made is the store's choice, so large histories, which
/// are few, must meet the first four only.
const SHAPES: [&str; 7] = [
    "leaf",
    "leaf, its ghost goes too",
    "leaf, its ghost stays",
    "node with one child",
    "node with one child under a ghost",
    "node with several children",
    "node with several children under a ghost",
];

/// What kinds of read must have been met.
const READS: [&str; 6] = [
    "refused",
    "a row of its own",
    "a row of two",
    "a row of several",
    "a row of all 65 versions",
    "a row read past a ghost",
];

/// To what kinds of row equal bytes must have been written.
const EQUAL_WRITES: [&str; 5] = [
    "a row of its own",
    "a shared row of a full store",
    "a shared row of the origin",
    "a shared row of a snapshot with children",
    "a shared row of a snapshot",
];

/// What kinds of border must have been met, the last in small histories only, since large ones are few.
const BORDERS: [&str; 16] = [
    "no row",
    "one row",
    "several rows",
    "64 rows",
    "a row twice",
    "equal bytes",
    "two places for the origin",
    "two places and a ghost",
    "ended inside by 3",
    "ended inside by 24",
    "no row of a dead version",
    "rows of a dead version",
    "places of a wrong length",
    "bytes of a wrong length",
    "65 rows",
    "65 rows of a wrong length",
];

const REFUSALS: [u8; 10] = [2, 3, 4, 5, 20, 21, 22, 23, 24, 25];

for_each_store!(small_stores, large_stores, deep_chains, shared_by_all);

/// Many seeds at small measures; everything is compared after every call.
fn small_stores<S: Store>() {
    let mut tally = Tally::default();
    for seed in 0..SMALL_SEEDS {
        let mut dice = Dice::new(seed);
        let habit = match seed % 24 {
            0 => MANY,
            number => HABITS[number as usize % HABITS.len()],
        };
        let rows = dice.between(1, 4);
        let width = dice.pick(&[1, 2, 8]);
        let places = rows + dice.pick(&[0, 1, 2, 3, 4, 6, 8, 12, 20]);
        let measures = Measures::of(rows, width, places);
        let title = format!("seed {seed}, {}, {measures:?}", habit.name);
        let mut trial = Trial::<S>::open(&title, measures, Care::Whole);
        trial.draw(&mut dice, &habit);
        tally.add(&trial.tally);
    }
    let title = format!(
        "small histories, {}, seeds 0 to {}",
        S::NAME,
        SMALL_SEEDS - 1
    );
    tally.print(&title);
    tally.require(&title, &REFUSALS);
    tally.require_met(&title, "deletes", &SHAPES);
    tally.require_met(&title, "reads", &READS);
    tally.require_met(&title, "equal bytes written", &EQUAL_WRITES);
    tally.require_met(&title, "borders", &BORDERS);
    assert!(tally.snapshots == 64 && tally.ghosts >= 4, "{title}");
}

/// The largest measures: a sample after every call, and everything at the end.
fn large_stores<S: Store>() {
    let stores = [
        (1024, 128, 4096, 6500),
        (1024, 2, 1024, 300),
        (1, 16, 4096, 900),
        (64, 1024, 256, 900),
        (1024, 1024, 4096, 300),
    ];
    let mut tally = Tally::default();
    for (seed, (rows, width, places, calls)) in stores.into_iter().enumerate() {
        let measures = Measures::of(rows, width, places);
        let mut dice = Dice::new(seed as u64);
        let habit = Habit {
            weights: [14, 3, 78, 6, 3, 2],
            calls,
            ..MANY
        };
        let care = Care::Sample {
            rows: 2,
            judge_every: 100,
        };
        let title = format!("seed {seed}, large, {measures:?}");
        let mut trial = Trial::<S>::open(&title, measures, care);
        trial.draw(&mut dice, &habit);
        trial.compare_all(STRIDE);
        tally.add(&trial.tally);
    }
    let title = format!("large histories, {}, seeds 0 to 4", S::NAME);
    tally.print(&title);
    tally.require(&title, &REFUSALS);
    tally.require_met(&title, "deletes", &SHAPES[..4]);
    tally.require_met(&title, "reads", &READS);
    tally.require_met(&title, "equal bytes written", &EQUAL_WRITES);
    tally.require_met(&title, "borders", &BORDERS[..15]);
    assert!(tally.snapshots == 64 && tally.full > 0, "{title}");
}

/// Chains of 64 snapshots, each of the one before, taken down in three orders.
fn deep_chains<S: Store>() {
    let measures = Measures::of(2, 4, 140);
    let mut tally = Tally::default();
    for order in ["from the top", "from the bottom", "drawn"] {
        let title = format!("seed 7, chain, {order}");
        let mut dice = Dice::new(7);
        let mut trial = Trial::<S>::open(&title, measures, Care::Whole);
        let mut tags: Vec<u16> = (1..=64).collect();
        for &tag in &tags {
            assert_eq!(trial.snapshot(tag - 1, tag), 0, "{title}");
            assert_eq!(trial.write(tag, dice.below(2), tag as u8), 0, "{title}");
        }
        assert_eq!(trial.snapshot(64, 65), 23, "{title}");
        for _ in 0..60 {
            trial.write(dice.below(65) as u16, dice.below(2), dice.byte());
        }
        match order {
            "from the top" => {}
            "from the bottom" => tags.reverse(),
            _ => tags.sort_by_key(|tag| tag.wrapping_mul(40_503)),
        }
        for tag in tags {
            assert_eq!(trial.delete(tag), 0, "{title}");
            assert_eq!(trial.delete(tag), 21, "{title}");
        }
        assert_eq!(trial.copies.count(), (2, 0), "{title}");
        tally.add(&trial.tally);
    }
    let title = format!("deep chains, {}, seed 7", S::NAME);
    tally.print(&title);
    tally.require(&title, &[0, 21, 23]);
    assert!(tally.depth >= 64, "{title}");
}

/// The numbers of sharers that the store reads at a row, for every living version.
fn sharers<S: Store>(trial: &Trial<S>, row: usize) -> Vec<usize> {
    let width = trial.copies.measures.width;
    let number = |tag| read::<S>(trial.records(), trial.places(), tag, row, width).numbers[0];
    trial.copies.tags().into_iter().map(number).collect()
}

/// All 65 versions share every row; then one writes, and others part, which leaves ghosts between.
fn shared_by_all<S: Store>() {
    const WRITER: u16 = 20;
    let mut tally = Tally::default();
    for shape in ["all of the origin", "a chain", "two of each"] {
        let title = format!("shared by all, {shape}");
        let mut trial = Trial::<S>::open(&title, Measures::of(2, 4, 6), Care::Whole);
        for tag in 1..=64 {
            let source = match shape {
                "all of the origin" => 0,
                "a chain" => tag - 1,
                _ => tag / 2,
            };
            assert_eq!(trial.snapshot(source, tag), 0, "{title}");
        }
        assert_eq!(trial.write(WRITER, 0, 0), 0, "{title}");
        assert_eq!(sharers(&trial, 0), [65; 65], "{title}");
        assert_eq!(sharers(&trial, 1), [65; 65], "{title}");
        assert_eq!(trial.read(64, 1), (0, 65), "{title}");
        assert_eq!(trial.write(WRITER, 0, 1), 0, "{title}");
        let mut tags = trial.copies.tags();
        for gone in (1..=32).filter(|&tag| tag != WRITER) {
            let others = |&tag: &u16| if tag == WRITER { 1 } else { tags.len() - 1 };
            let due: Vec<usize> = tags.iter().map(others).collect();
            assert_eq!(sharers(&trial, 0), due, "{title}, before {gone} parts");
            assert_eq!(sharers(&trial, 1), vec![tags.len(); tags.len()], "{title}");
            assert_eq!(trial.delete(gone), 0, "{title}");
            tags.retain(|&tag| tag != gone);
        }
        assert_eq!(trial.read(WRITER, 0), (0, 1), "{title}");
        assert_eq!(trial.read(WRITER, 1), (0, 34), "{title}");
        assert_eq!(trial.read(0, 0), (0, 33), "{title}");
        tally.add(&trial.tally);
    }
    let title = format!("shared by all, {}", S::NAME);
    tally.print(&title);
    tally.require(&title, &[0]);
    tally.require_met(&title, "reads", &READS[4..]);
    // A node with two others below it cannot go with its version.
    assert!(tally.ghosts >= 30, "{title}");
}
