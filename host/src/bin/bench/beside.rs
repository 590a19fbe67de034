//! The largest store's calls beside LMDB, which has a full copy of every version.

use crate::calls::{stores, Fresh, Timed, CALLS};
use crate::lmdb::{version, Copies, Memory, FLAG_NAMES};
use crate::stores::{Lent, Stock};
use crate::timing::{line, medians, timed, timed_undone, Repetition};
use std::env;
use std::hint::black_box;
use std::rc::Rc;

/// Those of the calls that LMDB does too, in their order.
const LINES: [&str; 6] = [
    "snapshot",
    "read",
    "write unshared",
    "write shared",
    "delete",
    "count",
];

/// The tag of a snapshot that comes and goes.
const NEW_TAG: u16 = 65_000;

/// Copies of all versions of a store, in the order of their tags.
fn loaded(lent: &Lent) -> Copies {
    let (rows, width) = (lent.rows(), lent.shape.measures.width);
    let copies = Copies::new(rows, width);
    let all_rows: Vec<u16> = (0..rows as u16).collect();
    let mut tags = lent.tags();
    tags.sort();
    for tag in tags {
        copies.load(tag, &lent.bytes(tag, &all_rows));
    }
    let mut out = vec![0; width];
    for (tag, row) in lent.all_targets() {
        copies.read(tag, row, &mut out);
        assert_eq!(out, lent.bytes(tag, &[row as u16]));
    }
    copies
}

/// Tests that the rows are there of all versions, and no others.
fn test_complete(copies: &Copies, lent: &Lent) {
    assert_eq!(copies.count(), lent.tags().len());
    let mut out = vec![0; lent.shape.measures.width];
    for tag in lent.tags() {
        (0..lent.rows()).for_each(|row| copies.read(tag, row, &mut out));
    }
}

fn timed_snapshot(copies: &Rc<Copies>, tags: Vec<u16>) -> Repetition {
    let (taken, undone) = (copies.clone(), copies.clone());
    timed_undone(
        move |number| taken.snapshot(tags[number % tags.len()], NEW_TAG),
        move |_| undone.delete(NEW_TAG),
    )
}

fn timed_read(copies: &Rc<Copies>, lent: &Lent) -> Repetition {
    let (copies, targets) = (copies.clone(), lent.all_targets());
    let mut out = vec![0; lent.shape.measures.width];
    timed(move |number| {
        let (tag, row) = targets[number % targets.len()];
        copies.read(tag, row, &mut out);
        black_box(&out);
    })
}

/// A row is written alike whether others share it or not.
fn timed_write(copies: &Rc<Copies>, lent: &Lent, shared: bool) -> Repetition {
    let (copies, targets) = (copies.clone(), lent.targets(shared));
    let mut fresh = Fresh::rows(1, lent);
    timed(move |number| {
        let (tag, row) = targets[number % targets.len()];
        copies.write(tag, row, fresh.bytes());
    })
}

/// Each version that goes comes back as a copy of the origin, which takes as much.
fn timed_delete(copies: &Rc<Copies>, mut tags: Vec<u16>) -> Repetition {
    tags.retain(|&tag| tag != 0);
    let (gone, undone, again) = (copies.clone(), copies.clone(), tags.clone());
    timed_undone(
        move |number| gone.delete(tags[number % tags.len()]),
        move |number| undone.snapshot(0, again[number % again.len()]),
    )
}

fn timed_count(copies: &Rc<Copies>) -> Repetition {
    let copies = copies.clone();
    timed(move |_| {
        black_box(copies.count());
    })
}

/// The calls in the order of their lines.
fn timed_lmdb(copies: &Rc<Copies>, stock: &Stock) -> Vec<Repetition> {
    let full = &stock.full;
    vec![
        timed_snapshot(copies, full.tags()),
        timed_read(copies, full),
        timed_write(copies, full, false),
        timed_write(copies, &stock.roomy, true),
        timed_delete(copies, full.tags()),
        timed_count(copies),
    ]
}

fn timed_store(store: &Timed, stock: &Stock) -> Vec<Repetition> {
    let calls = CALLS.into_iter().zip((store.calls)(stock));
    let chosen = calls.filter(|(call, _)| LINES.contains(call));
    chosen.map(|(_, repetition)| repetition).collect()
}

/// The time of the calls, and the ratio of the first store's to LMDB's.
fn print_times(stock: &Stock, copies: &Rc<Copies>) {
    print!("{:<24}", "ns per call");
    let (stores, mut cells) = (stores(), Vec::new());
    for store in &stores {
        print!("{:>12}", store.name);
        cells.extend(timed_store(store, stock));
    }
    println!("{:>12}{:>14}", "LMDB", format!("{}/LMDB", stores[0].name));
    cells.extend(timed_lmdb(copies, stock));
    let times = medians(cells);
    for (row, call) in LINES.iter().enumerate() {
        print!("{call:<24}");
        let line = line(&times, row, LINES.len());
        line.iter().for_each(|time| print!("{time:>12.0}"));
        println!("{:>14.2}", line[0] / line[stores.len()]);
    }
}

fn print_memory(when: &str, Memory { used, spanned }: Memory) {
    println!("bytes of LMDB {when}: {used} in pages in use, {spanned} up to the last page");
}

pub fn print(stock: &Stock) {
    let full = &stock.full;
    let (name, snapshots) = (full.shape.name, full.shape.snapshots);
    println!("\n{name} beside LMDB, {snapshots} snapshots; {}", version());
    println!("with {FLAG_NAMES}, in {}", env::temp_dir().display());
    let copies = Rc::new(loaded(full));
    let first = copies.memory();
    print_times(stock, &copies);
    test_complete(&copies, full);
    let (records, places) = (full.records.len(), full.places.len());
    let bytes = records + places;
    println!("bytes of the row store: {bytes}, {records} of records and {places} of places");
    print_memory("as loaded", first);
    print_memory("after the calls", copies.memory());
}
