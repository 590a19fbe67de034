//! Damaged records: every call says 20 exactly if the judge finds them unsound.

mod common;

use common::calls::{Call, Habit, Outcome};
use common::trial::{adopted, Care, Trial};
use rowstore_host::dice::Dice;
use rowstore_host::judge::{sound, Records};
use rowstore_host::layout::*;
use rowstore_host::store::Store;
use std::marker::PhantomData;

const LAST_NODE: u8 = NODES as u8 - 1;

const GROWING: Habit = Habit {
    name: "growing",
    weights: [25, 0, 55, 5, 12, 0],
    highest_tag: 12,
    ..Habit::MIXED
};

for_each_store!(
    every_byte,
    pairs_of_bytes,
    drawn_bytes,
    wrong_lengths,
    drawn_trees,
    most_nodes,
);

/// Sound record bytes and their places, with a tag to call by.
struct Sample {
    title: String,
    width: usize,
    records: Vec<u8>,
    places: Vec<u8>,
    tag: u16,
}

impl Sample {
    /// The first drawn history whose records are as wanted.
    fn grown<S: Store>(
        title: &str,
        measures: Measures,
        habit: &Habit,
        wanted: impl Fn(&Records) -> bool,
    ) -> Sample {
        let care = Care::Sample {
            rows: 0,
            judge_every: usize::MAX,
        };
        for seed in 0..1000 {
            let mut trial = Trial::<S>::open(&format!("{title}, seed {seed}"), measures, care);
            trial.draw(&mut Dice::new(seed), habit);
            if wanted(&trial.parsed()) {
                return Sample::of(&trial, &format!("{title}, seed {seed}"), measures.width);
            }
        }
        panic!("{title}: no seed grows such records");
    }

    fn of<S: Store>(trial: &Trial<S>, title: &str, width: usize) -> Sample {
        Sample {
            title: title.to_string(),
            width,
            records: trial.records().to_vec(),
            places: trial.places().to_vec(),
            tag: trial.copies.tags().last().copied().unwrap_or(0),
        }
    }

    /// Six calls, which are good ones or would be refused for other reasons too. Where a store has
    /// one row only, the border ends inside.
    fn calls(&self, bad: bool) -> [Call; 6] {
        let places_len = self.places.len();
        let tag = if bad { 65_000 } else { self.tag };
        let row = if bad { 70_000 } else { 0 };
        let out_len = if bad { 0 } else { self.width };
        let new_tag = if bad { 0 } else { 64_000 };
        let gone = if bad { 0 } else { self.tag };
        [
            Call::Snapshot {
                source: tag,
                tag: new_tag,
            },
            Call::Read {
                tag,
                row,
                places_len,
                out_len,
            },
            Call::Write {
                tag,
                row,
                places_len,
                bytes: vec![0xee; out_len],
            },
            Call::Border {
                tag,
                rows: if bad { vec![65_535; 65] } else { vec![0, 1, 0] },
                places_len,
                bytes: [0xdd, 0xee, 0xdf].repeat(out_len),
            },
            Call::Delete { tag: gone },
            Call::Count,
        ]
    }
}

fn samples<S: Store>() -> Vec<Sample> {
    let many = Habit {
        weights: [60, 0, 27, 3, 2, 0],
        highest_tag: 120,
        calls: 260,
        ..GROWING
    };
    let ghosts_and_full = |r: &Records| r.ghosts() >= 2 && r.free_places().is_empty();
    let ghosts_and_free = |r: &Records| r.ghosts() >= 4 && r.free_places().len() >= 2;
    let all_alive = |r: &Records| r.tags().len() == 65 && r.ghosts() >= 3;
    let untouched = Habit {
        calls: 0,
        ..GROWING
    };
    vec![
        Sample::grown::<S>("full", Measures::of(4, 2, 14), &GROWING, ghosts_and_full),
        Sample::grown::<S>("free", Measures::of(3, 1, 24), &GROWING, ghosts_and_free),
        Sample::grown::<S>("wide", Measures::of(9, 4, 49), &GROWING, ghosts_and_full),
        Sample::grown::<S>("many", Measures::of(2, 3, 60), &many, all_alive),
        Sample::grown::<S>("fresh", Measures::of(1, 1, 1), &untouched, |_| true),
    ]
}

/// What was tried, and how it was judged.
struct Findings<S> {
    title: String,
    tried: usize,
    sound: usize,
    calls: usize,
    /// Outcomes compared with the full copies of sound records.
    compared: usize,
    /// Of these, the reads of a row that several versions share.
    shared: usize,
    store: PhantomData<S>,
}

impl<S: Store> Findings<S> {
    fn new(title: &str) -> Findings<S> {
        Findings {
            title: format!("{title}, {}", S::NAME),
            tried: 0,
            sound: 0,
            calls: 0,
            compared: 0,
            shared: 0,
            store: PhantomData,
        }
    }

    /// Makes good and bad calls on altered records and compares with the judge.
    fn try_records(&mut self, what: std::fmt::Arguments, records: &[u8], sample: &Sample) -> bool {
        self.tried += 1;
        let is_sound = sound(records);
        self.sound += is_sound as usize;
        let parsed = is_sound.then(|| Records::of(records)).flatten();
        let fitting = parsed.filter(|p| p.measures.places_len() == sample.places.len());
        let title = format!("{}, {}, {what}", self.title, sample.title);
        for call in [sample.calls(false), sample.calls(true)].as_flattened() {
            let got = try_call::<S>(&title, call, records, sample, is_sound);
            self.calls += 1;
            if let Some(parsed) = &fitting {
                let wanted = call.on_copies(&mut adopted(parsed, &sample.places));
                assert_eq!(got, wanted, "{title}: {call:?}");
                self.compared += 1;
                if let Call::Read { .. } = call {
                    self.shared += (got.numbers[0] > 1) as usize;
                }
            }
        }
        is_sound
    }

    /// Prints, and fails unless sound and unsound records were both seen.
    fn end(&self) {
        let Findings {
            title,
            tried,
            sound,
            calls,
            compared,
            shared,
            ..
        } = self;
        let unsound = tried - sound;
        println!("{title}: {tried} records tried, {sound} sound, {unsound} unsound");
        println!("  {calls} calls, {compared} of them compared with full copies");
        println!("  {shared} of these read a shared row");
        assert!(*sound > 0 && unsound > 0, "{title}: one verdict only");
        assert!(*compared > 0, "{title}: nothing compared");
        assert!(*shared > 0, "{title}: no shared row read");
    }
}

/// Makes one call, which must be 20 exactly if the records are not sound, and leave them sound.
fn try_call<S: Store>(
    title: &str,
    call: &Call,
    records: &[u8],
    sample: &Sample,
    is_sound: bool,
) -> Outcome {
    let (mut lent, mut lent_places) = (records.to_vec(), sample.places.clone());
    let got = call.on_store::<S>(&mut lent, &mut lent_places);
    let said = got.answer;
    assert_eq!(said == 20, !is_sound, "{title}: {call:?} answers {said}");
    if call.may_change(&got) {
        assert!(sound(&lent), "{title}: {call:?} leaves records unsound");
        return got;
    }
    let untouched = lent == records && lent_places == sample.places;
    assert!(untouched, "{title}: {call:?}: {said}, and bytes lost");
    if said != 0 {
        assert_eq!(got, call.refused(said), "{title}: {call:?}");
    }
    got
}

/// Each byte alone: the first sample's head with all values, all others with some.
fn every_byte<S: Store>() {
    let mut findings = Findings::<S>::new("every byte");
    let mut dice = Dice::new(11);
    for (number, sample) in samples::<S>().iter().enumerate() {
        let mut records = sample.records.clone();
        for at in 0..records.len() {
            let old = records[at];
            let mut values = vec![0, 1, 2, 3, 4, 64, LAST_NODE, LAST_NODE + 1, 255];
            values.extend([old ^ 1, old ^ 2, old ^ 64, dice.byte()]);
            if number == 0 && at < TABLE {
                values = (0..=255).collect();
            }
            for value in values {
                records[at] = value;
                findings.try_records(format_args!("byte {at} now {value}"), &records, sample);
            }
            records[at] = old;
        }
    }
    findings.end();
}

/// A byte that is likely to mean something where it is put.
fn likely_byte(dice: &mut Dice, records: &[u8]) -> u8 {
    match dice.below(4) {
        0 => dice.below(6) as u8,
        1 => dice.pick(records),
        2 => dice.below(NODES + 2) as u8,
        _ => dice.byte(),
    }
}

/// A position, more often in the head of a used node or in the table.
fn likely_position(dice: &mut Dice, len: usize) -> usize {
    let node = dice.below(24);
    match dice.below(5) {
        0 => STATES + node,
        1 => PARENTS + node,
        2 => TAGS + 2 * node + 1,
        3 if len > TABLE => dice.between(TABLE, len - 1),
        _ => dice.below(len),
    }
}

fn try_pairs<S: Store>(findings: &mut Findings<S>, sample: &Sample, tries: usize, seed: u64) {
    let mut dice = Dice::new(seed);
    let len = sample.records.len();
    for number in 0..tries {
        let mut records = sample.records.clone();
        for _ in 0..2 {
            let at = likely_position(&mut dice, len);
            records[at] = likely_byte(&mut dice, &sample.records);
        }
        // Now and then two positions change places.
        if dice.chance(15) {
            records.swap(
                likely_position(&mut dice, len),
                likely_position(&mut dice, len),
            );
        }
        findings.try_records(format_args!("seed {seed}, pair {number}"), &records, sample);
    }
}

/// Two bytes at a time, also in a full table of 3,072 entries.
fn pairs_of_bytes<S: Store>() {
    let mut findings = Findings::<S>::new("pairs of bytes");
    for (seed, sample) in samples::<S>().iter().enumerate() {
        try_pairs(&mut findings, sample, 12_000, seed as u64);
    }
    let measures = Measures::of(1024, 1, 4096);
    let filling = Habit {
        weights: [3, 0, 96, 0, 0, 0],
        highest_tag: 60,
        calls: 4600,
        ..GROWING
    };
    let full = |r: &Records| r.ghosts() > 0 && r.free_places().is_empty();
    let sample = Sample::grown::<S>("largest", measures, &filling, full);
    try_pairs(&mut findings, &sample, 120, 99);
    findings.end();
}

/// Bytes drawn throughout, or behind a stretch that is kept; now and then all is kept.
fn drawn_bytes<S: Store>() {
    let mut findings = Findings::<S>::new("drawn bytes");
    let mut dice = Dice::new(5);
    let samples = samples::<S>();
    for number in 0..6000 {
        let sample = &samples[number % samples.len()];
        let len = sample.records.len();
        let kept = dice.pick(&[&PARTS.map(|(_, start)| start)[..], &[len]].concat());
        let mut records = dice.bytes(len);
        records[..kept].copy_from_slice(&sample.records[..kept]);
        findings.try_records(format_args!("seed 5, draw {number}"), &records, sample);
    }
    findings.end();
}

/// Every length up to that with four entries, and lengths around the right one, cut and extended.
fn wrong_lengths<S: Store>() {
    let mut findings = Findings::<S>::new("wrong lengths");
    let low = Measures::of(1, 1, 5).records_len();
    for sample in &samples::<S>() {
        let right = sample.records.len();
        let around = right.saturating_sub(9)..=right + 9;
        for len in (0..=low).chain(around).chain([2 * right, 65_536]) {
            for filler in [0, 1] {
                let mut records = sample.records.clone();
                records.resize(len, filler);
                let fits = findings.try_records(format_args!("length {len}"), &records, sample);
                assert_eq!(fits, len == right, "{}: length {len}", sample.title);
            }
        }
    }
    findings.end();
}

/// Small trees drawn node by node, of which many are sound; from those a history goes on.
fn drawn_trees<S: Store>() {
    let mut findings = Findings::<S>::new("drawn trees");
    let mut continued = 0;
    for seed in 0..30_000 {
        let mut dice = Dice::new(seed);
        let sample = drawn_tree(&mut dice);
        let title = format!("drawn tree, seed {seed}");
        let is_sound = findings.try_records(format_args!("seed {seed}"), &sample.records, &sample);
        if is_sound && seed % 8 == 0 {
            let mut trial = Trial::<S>::adopt(&title, &sample.records, &sample.places);
            let habit = Habit {
                calls: 12,
                ..GROWING
            };
            trial.draw(&mut dice, &habit);
            continued += 1;
        }
    }
    println!("  of these {continued} were continued by 12 calls each");
    findings.end();
    assert!(continued > 0);
}

/// Node numbers for a tree: the first ones, or any.
fn drawn_nodes(dice: &mut Dice) -> Vec<u8> {
    let count = dice.below(10);
    let mut nodes: Vec<u8> = (1..=if dice.chance(70) { 10 } else { LAST_NODE }).collect();
    for i in 0..count {
        let other = dice.between(i, nodes.len() - 1);
        nodes.swap(i, other);
    }
    nodes.truncate(count);
    nodes
}

/// Records with node 0 alone and a free table, and places with drawn bytes.
fn blank(dice: &mut Dice, rows: usize, entries: usize) -> Sample {
    let measures = Measures::of(rows, 2, rows + entries);
    let mut records = vec![0; measures.records_len()];
    measures.put(&mut records);
    put_node(&mut records, 0, ALIVE, 0, 0);
    Sample {
        title: "tree".to_string(),
        width: measures.width,
        records,
        places: dice.bytes(measures.places_len()),
        tag: 1,
    }
}

fn put_version(records: &mut [u8], node: u8, ghost: bool, parent: u8, tag: u8) {
    let (state, tag) = if ghost { (GHOST, 0) } else { (ALIVE, tag) };
    put_node(records, node.into(), state, parent.into(), tag.into());
}

/// A tree with now and then a wrong parent, ghost, tag or row.
fn drawn_tree(dice: &mut Dice) -> Sample {
    let (rows, entries) = (dice.between(1, 3), dice.below(7));
    let mut sample = blank(dice, rows, entries);
    let records = &mut sample.records;
    let nodes = drawn_nodes(dice);
    let parents: Vec<u8> = (0..nodes.len())
        .map(|i| match i {
            0 => 0,
            _ if dice.chance(97) => nodes[dice.below(i)],
            _ => dice.pick(&nodes),
        })
        .collect();
    for (i, &node) in nodes.iter().enumerate() {
        let children = parents.iter().filter(|&&parent| parent == node).count();
        let ghost = dice.chance(if children >= 2 { 65 } else { 2 });
        let tag = if dice.chance(97) {
            i + 1
        } else {
            dice.below(4)
        };
        put_version(records, node, ghost, parents[i], tag as u8);
    }
    for entry in 0..entries {
        if !nodes.is_empty() && dice.chance(75) {
            let node = dice.pick(&nodes);
            let highest = if dice.chance(97) { rows - 1 } else { rows };
            put_entry(records, entry, node.into(), dice.between(0, highest));
        }
    }
    sample
}

/// Chains of up to 127 snapshots, and 64 snapshots below 63 ghosts, from which a history goes on.
fn most_nodes<S: Store>() {
    let mut findings = Findings::<S>::new("most nodes");
    let mut dice = Dice::new(3);
    for count in [0, 1, 63, 64, 65, LAST_NODE] {
        let mut sample = blank(&mut dice, 2, 40);
        for node in 1..=count {
            put_version(&mut sample.records, node, false, node - 1, node);
        }
        let what = format!("a chain of {count}");
        let is_sound = findings.try_records(format_args!("{what}"), &sample.records, &sample);
        assert_eq!(is_sound, count <= 64, "{what}");
    }
    let mut sample = blank(&mut dice, 2, 40);
    for node in 1..=LAST_NODE {
        put_version(&mut sample.records, node, node < 64, node / 2, node);
    }
    let what = format_args!("all nodes in use");
    assert!(findings.try_records(what, &sample.records, &sample));
    let title = "most nodes, seed 3";
    let mut trial = Trial::<S>::adopt(title, &sample.records, &sample.places);
    let habit = Habit {
        highest_tag: 130,
        calls: 400,
        ..GROWING
    };
    trial.draw(&mut dice, &habit);
    trial.tally.print(title);
    trial.tally.require(title, &[0, 21, 22, 23, 24]);
    findings.end();
}
