//! The picture of a store: its words and colours against the full copies, the example's against the documents, and what it
//! says of damaged records.

mod common;

use common::calls::{Habit, Source};
use common::trial::{Care, Trial};
use rowstore_host::copies::Copies;
use rowstore_host::dice::Dice;
use rowstore_host::judge::{fault, Records};
use rowstore_host::layout::*;
use rowstore_host::picture::{svg, text, Picture};
use rowstore_host::store::Store;
use std::collections::{BTreeMap, BTreeSet};
use std::path::{Path, PathBuf};
use std::process::{Command, Output};
use std::{env, fs};

/// The store that README.md draws.
const EXAMPLE: Measures = Measures::of(4, 8, 8);
const EXAMPLE_PLACES: &[u8] =
    b"row 0, 0row 1, 0row 2, 0row 3, 0row 2, 9\0\0\0\0\0\0\0\0row 2, 7row 0, 9";

fn example() -> Vec<u8> {
    let mut records = vec![0; EXAMPLE.records_len()];
    EXAMPLE.put(&mut records);
    for (node, state, parent, tag) in [
        (0, ALIVE, 0, 0),
        (1, GHOST, 0, 0),
        (2, ALIVE, 3, 8),
        (3, ALIVE, 1, 7),
        (4, ALIVE, 1, 9),
    ] {
        put_node(&mut records, node, state, parent, tag);
    }
    for (entry, node, row) in [(0, 1, 2), (2, 3, 2), (3, 4, 0)] {
        put_entry(&mut records, entry, node, row);
    }
    records
}

fn in_project(path: &str) -> PathBuf {
    Path::new(env!("CARGO_MANIFEST_DIR")).join("..").join(path)
}

fn picture_of(records: &[u8]) -> Picture {
    assert_eq!(fault(records), None);
    Picture::of(&Records::of(records).expect("records of a fitting length"))
}

/// The numbers that "0, 7 to 9" stands for.
fn numbers(words: &str) -> Vec<usize> {
    let number = |word: &str| word.parse::<usize>().unwrap_or_else(|_| panic!("{words}"));
    let range = |part: &str| match part.split_once(" to ") {
        Some((first, last)) => (number(first)..=number(last)).collect(),
        None => vec![number(part)],
    };
    words.split(", ").flat_map(range).collect()
}

/// The lines of a part of the text, under its heading.
fn part<'a>(text: &'a str, heading: &str) -> Vec<&'a str> {
    let lines = text.lines().skip_while(|line| !line.starts_with(heading));
    lines.skip(1).take_while(|line| !line.is_empty()).collect()
}

/// What stands behind a word and before another one, if both are there.
fn between<'a>(line: &'a str, before: &str, behind: &str) -> Option<&'a str> {
    let (_, rest) = line.split_once(before)?;
    Some(rest.split_once(behind)?.0)
}

/// By tag the number of places that the text says a deletion would free, and these places.
fn frees_told(text: &str) -> BTreeMap<u16, Vec<usize>> {
    let mut told = BTreeMap::new();
    for line in part(text, "versions") {
        let Some(tag) = between(line, "tag ", " (node") else {
            continue;
        };
        let (_, freed) = line
            .split_once("its deletion frees ")
            .expect("what is freed");
        let places = match freed.split_once(": ") {
            None => Vec::new(),
            Some((count, places)) => {
                let places = numbers(places);
                let count = count.split(' ').next().expect("a count");
                assert_eq!(count, places.len().to_string(), "{line}");
                places
            }
        };
        let again = told.insert(tag.parse().expect("a tag"), places);
        assert!(again.is_none(), "{line}");
    }
    told
}

/// By row the groups of tags that the text says share it.
fn groups_told(text: &str) -> BTreeMap<usize, Vec<Vec<usize>>> {
    let mut told = BTreeMap::new();
    for line in part(text, "rows, and who") {
        let (rows, groups) = line.split_once(": ").expect("rows and tags");
        let rows = rows.trim_start_matches("rows ").trim_start_matches("row ");
        let groups: Vec<_> = groups.split(" | ").map(numbers).collect();
        for row in numbers(rows) {
            assert!(told.insert(row, groups.clone()).is_none(), "{line}");
        }
    }
    told
}

/// By tag the colour of each row in the version's strip.
fn strips_drawn(svg: &str) -> BTreeMap<u16, Vec<String>> {
    let mut strips: BTreeMap<u16, Vec<String>> = BTreeMap::new();
    for line in svg.lines() {
        let (Some(fill), Some(title)) = (
            between(line, "fill=\"", "\""),
            between(line, "<title>", "</title>"),
        ) else {
            continue;
        };
        let Some((name, rows)) = title.split_once(", rows ") else {
            continue;
        };
        let tag = name.trim_start_matches("tag ").parse().unwrap_or(0);
        let (rows, _) = rows.split_once(" of node ").expect("rows of a node");
        let strip = strips.entry(tag).or_default();
        for row in numbers(rows) {
            assert_eq!(row, strip.len(), "{line}");
            strip.push(fill.to_string());
        }
    }
    strips
}

/// Fails unless every element of the picture ends, inside the one in which it begins.
fn well_formed(svg: &str) {
    let mut open = Vec::new();
    for piece in svg.split('<').skip(1) {
        let (tag, _) = piece.split_once('>').unwrap_or_else(|| panic!("<{piece}"));
        let name = tag.split([' ', '/']).find(|word| !word.is_empty());
        let name = name.expect("a name");
        assert_eq!(tag.matches('"').count() % 2, 0, "<{tag}>");
        if tag.starts_with('/') {
            assert_eq!(open.pop(), Some(name), "<{tag}>");
        } else if !tag.ends_with('/') {
            open.push(name);
        }
    }
    assert!(open.is_empty(), "not ended: {open:?}");
}

/// How much was compared.
#[derive(Default)]
struct Compared {
    stores: usize,
    deletions: usize,
    freeing: usize,
    pairs: usize,
    ghosts: usize,
    full: usize,
}

/// Compares the picture of a store with its full copies, and with what its deletes do.
fn compare<S: Store>(title: &str, trial: &Trial<S>, compared: &mut Compared) {
    let picture = picture_of(trial.records());
    let words = text(&picture, Some(trial.places()));
    let drawn = svg(&picture);
    well_formed(&drawn);
    compare_counts(title, &picture, &words, &trial.copies);
    compare_sharing(title, &words, &drawn, &trial.copies, compared);
    compare_places(title, &words, trial);
    let told = frees_told(&words);
    let tags: Vec<u16> = told.keys().copied().collect();
    assert_eq!(tags, trial.copies.tags()[1..], "{title}");
    for (tag, places) in told {
        compare_deletion(title, trial, tag, &places);
        compared.deletions += 1;
        compared.freeing += usize::from(!places.is_empty());
    }
    compared.stores += 1;
    compared.ghosts = compared.ghosts.max(picture.ghosts());
    compared.full += usize::from(picture.free_places().is_empty());
}

fn compare_counts(title: &str, picture: &Picture, words: &str, copies: &Copies) {
    let (used, snapshots) = copies.count();
    let said = words.lines().take(2).collect::<Vec<_>>().join("\n");
    let places = copies.measures.places;
    assert!(said.contains(&format!("places in use: {used} of {places}, ")));
    assert!(said.contains(&format!("snapshots: {snapshots} of 64;")));
    assert!(said.ends_with(&format!("ghosts among them: {}", picture.ghosts())));
    let free = match between(&said, "free: ", "\n") {
        Some(listed) => numbers(listed).len(),
        None => 0,
    };
    assert_eq!(free, places - used, "{title}: {said}");
}

/// Versions share a row in the words and in the colours exactly if they do in the copies.
fn compare_sharing(
    title: &str,
    words: &str,
    drawn: &str,
    copies: &Copies,
    compared: &mut Compared,
) {
    let told = groups_told(words);
    let strips = strips_drawn(drawn);
    let tags = copies.tags();
    assert_eq!(told.len(), copies.measures.rows, "{title}");
    assert_eq!(strips.keys().copied().collect::<Vec<_>>(), tags, "{title}");
    for (row, groups) in told {
        let mut listed: Vec<usize> = groups.concat();
        listed.sort();
        let all: Vec<usize> = tags.iter().map(|&tag| tag.into()).collect();
        assert_eq!(listed, all, "{title}: row {row}");
        let group = |tag: u16| groups.iter().position(|tags| tags.contains(&tag.into()));
        for &one in &tags {
            for &other in &tags {
                let share = copies.shares(one, other, row);
                let at = format!("{title}: {one} and {other} at row {row}");
                assert_eq!(group(one) == group(other), share, "{at}");
                assert_eq!(strips[&one][row] == strips[&other][row], share, "{at}");
                compared.pairs += 1;
            }
        }
    }
}

/// Each place's line has the first bytes that are read there, and those who read it; or says that it is free.
fn compare_places<S: Store>(title: &str, words: &str, trial: &Trial<S>) {
    let lines = part(words, "places");
    let copies = &trial.copies;
    assert_eq!(lines.len(), copies.measures.places, "{title}");
    let mut read = BTreeSet::new();
    for (place, line) in lines.iter().enumerate() {
        let (number, said) = line.trim_start().split_once(": ").expect("a place");
        assert_eq!(number, place.to_string(), "{title}");
        let Some((held, readers)) = said.split_once(", read by ") else {
            assert_eq!(said, "free", "{title}: place {place}");
            continue;
        };
        let row: usize = between(held, "  row ", " of ")
            .and_then(|row| row.parse().ok())
            .unwrap_or_else(|| panic!("{title}: {line}"));
        for tag in numbers(readers) {
            let bytes = copies.row(tag as u16, row);
            let shown = &bytes[..bytes.len().min(16)];
            let shown: String = shown.iter().map(|byte| format!("{byte:02x}")).collect();
            assert!(held.starts_with(&shown), "{title}: {line}");
            assert!(read.insert((tag, row)), "{title}: {line}");
        }
    }
    assert_eq!(
        read.len(),
        copies.tags().len() * copies.measures.rows,
        "{title}"
    );
}

/// The deletion frees so many places in the copies, and these in the store.
fn compare_deletion<S: Store>(title: &str, trial: &Trial<S>, tag: u16, places: &[usize]) {
    let mut copies = trial.copies.clone();
    assert_eq!(copies.delete(tag), 0, "{title}: {tag}");
    let freed = trial.copies.count().0 - copies.count().0;
    assert_eq!(places.len(), freed, "{title}: {tag}");
    let mut records = trial.records().to_vec();
    assert_eq!(S::delete(&mut records, tag), 0, "{title}: {tag}");
    let free = |bytes: &[u8]| Records::of(bytes).expect("records").free_places();
    let before: BTreeSet<usize> = free(trial.records()).into_iter().collect();
    let after: BTreeSet<usize> = free(&records).into_iter().collect();
    let new: Vec<usize> = after.difference(&before).copied().collect();
    assert_eq!(new, places, "{title}: {tag}");
}

for_each_store!(drawn_stores);

/// Small stores of several habits, and one with many versions and rows.
fn drawn_stores<S: Store>() {
    const SEEDS: u64 = 400;
    let care = Care::Sample {
        rows: 0,
        judge_every: usize::MAX,
    };
    let mut compared = Compared::default();
    for seed in 0..SEEDS {
        let mut dice = Dice::new(seed);
        let source = dice.pick(&[Source::Any, Source::Latest, Source::Origin]);
        let habit = Habit {
            weights: [25, 0, 50, 5, dice.pick(&[2, 10, 20]), 0],
            source,
            highest_tag: dice.pick(&[6, 14, 99]),
            calls: dice.pick(&[0, 30, 120, 220]),
            ..Habit::MIXED
        };
        let rows = dice.between(1, 9);
        let places = rows + dice.pick(&[0, 1, 5, 20, 90]);
        let measures = Measures::of(rows, dice.pick(&[1, 8, 17]), places);
        let title = format!("picture, seed {seed}, {measures:?}");
        let mut trial = Trial::<S>::open(&title, measures, care);
        trial.draw(&mut dice, &habit);
        compare(&title, &trial, &mut compared);
    }
    let Compared {
        stores,
        deletions,
        freeing,
        pairs,
        ghosts,
        full,
    } = compared;
    println!("pictures, {}, seeds 0 to {}:", S::NAME, SEEDS - 1);
    println!("  {stores} stores, {full} of them full, {ghosts} ghosts at most, {pairs} pairs");
    println!("  {deletions} deletions told, {freeing} of them free places");
    assert!(full > 0 && ghosts > 3 && freeing > 0 && freeing < deletions);
}

#[test]
fn numbers_in_a_row() {
    use rowstore_host::picture::ranges;
    assert_eq!(ranges([]), "");
    assert_eq!(ranges([7]), "7");
    assert_eq!(ranges([0, 1, 3, 4, 5, 9]), "0, 1, 3 to 5, 9");
    assert_eq!(numbers("0, 1, 3 to 5, 9"), [0, 1, 3, 4, 5, 9]);
}

/// The block of a document that starts with a line.
fn block(document: &str, first: &str) -> String {
    let text = fs::read_to_string(in_project(document)).expect("the document");
    let start = text
        .find(first)
        .unwrap_or_else(|| panic!("{document}: {first}"));
    let (block, _) = text[start..].split_once("```").expect("the block ends");
    block.to_string()
}

#[test]
fn the_example_is_the_one_that_is_drawn() {
    let read = |path| fs::read(in_project(path)).expect("an example's file");
    assert_eq!(read("example/store.records"), example());
    assert_eq!(read("example/store.places"), EXAMPLE_PLACES);
    let picture = picture_of(&example());
    let words = text(&picture, None);
    assert_eq!(
        words,
        block("README.md", words.lines().next().expect("a line"))
    );
    let drawn = svg(&picture);
    let kept = String::from_utf8(read("docs/store.svg")).expect("text");
    assert!(drawn == kept, "docs/store.svg is not the example's picture");
}

/// What is said of the example with a byte altered, for each rule.
#[test]
fn damage_is_named() {
    // The low byte of an entry's row.
    let row_of = |entry: usize| TABLE + 4 + 2 * entry + 1;
    let cases = [
        (ROWS + 1, 0, "rule 1: L is 0, not 1 to 1024 (byte 0)"),
        (WIDTH, 5, "rule 1: B is 1288, not 1 to 1024 (byte 2)"),
        (PLACES + 1, 3, "rule 1: P is 3, not 4 to 4096 (byte 4)"),
        (
            PLACES + 1,
            9,
            "rule 1: the length is 530, not 533 as for L 4 and P 9",
        ),
        (STATES + 5, 3, "rule 2: node 5 has state 3 (byte 11)"),
        (STATES, 2, "rule 2: node 0 is a ghost, not alive (byte 6)"),
        (
            TAGS + 3,
            1,
            "rule 2: node 1 is a ghost and has tag 1, not 0 (byte 264)",
        ),
        (
            TAGS + 11,
            6,
            "rule 2: node 5 is empty and has tag 6, not 0 (byte 272)",
        ),
        (
            PARENTS,
            1,
            "rule 2: node 0 is alive and has parent 1, not 0 (byte 134)",
        ),
        (
            PARENTS + 9,
            1,
            "rule 2: node 9 is empty and has parent 1, not 0 (byte 143)",
        ),
        (
            PARENTS + 2,
            5,
            "rule 3: node 2 hangs on node 5, which is not in use (byte 136)",
        ),
        (
            PARENTS + 2,
            200,
            "rule 3: node 2 hangs on node 200, which is not in use (byte 136)",
        ),
        (
            PARENTS + 3,
            2,
            "rule 3: the way up from node 2 does not end at node 0 (byte 136)",
        ),
        (
            TAGS + 5,
            0,
            "rule 4: node 2 is alive and has tag 0 (byte 266)",
        ),
        (
            TAGS + 9,
            7,
            "rule 4: nodes 3 and 4 both have tag 7 (byte 270)",
        ),
        (
            PARENTS + 4,
            0,
            "rule 5: nodes 1 and 4 both hang on node 0 (byte 138)",
        ),
        (
            PARENTS + 4,
            3,
            "rule 5: one node alone hangs on ghost 1 (byte 7)",
        ),
        (
            row_of(1),
            1,
            "rule 6: place 5 is free and has row 1 (byte 524)",
        ),
        (
            TABLE + 1,
            9,
            "rule 6: place 5 is for node 9, which is not in use (byte 519)",
        ),
        (row_of(3), 4, "rule 6: place 7 has row 4 of 4 (byte 528)"),
        (
            TABLE + 2,
            1,
            "rule 6: places 4 and 6 both have row 2 of node 1 (byte 520)",
        ),
        (
            row_of(3),
            2,
            "rule 7: nobody reads place 4, row 2 of node 1 (byte 518)",
        ),
    ];
    for (at, value, due) in cases {
        let mut records = example();
        records[at] = value;
        let said = fault(&records).map(|fault| fault.to_string());
        assert_eq!(said.as_deref(), Some(due), "byte {at} now {value}");
    }
    let short = fault(&example()[..500]).map(|fault| fault.to_string());
    assert_eq!(
        short.as_deref(),
        Some("rule 1: the length is 500, and the table starts at 518")
    );
    let mut many = vec![0; Measures::of(1, 1, 1).records_len()];
    Measures::of(1, 1, 1).put(&mut many);
    put_node(&mut many, 0, ALIVE, 0, 0);
    for node in 1..=65 {
        put_node(&mut many, node, ALIVE, node - 1, node as u16);
    }
    let many = fault(&many).map(|fault| fault.to_string());
    assert_eq!(
        many.as_deref(),
        Some("rule 4: 65 snapshots are alive (byte 71)")
    );
}

/// A file of this test alone.
fn scratch(name: &str) -> PathBuf {
    let folder = Path::new(env!("CARGO_TARGET_TMPDIR")).join("picture");
    fs::create_dir_all(&folder).expect("a folder for files");
    folder.join(name)
}

fn inspect(words: &[&str]) -> Output {
    let mut program = Command::new(env!("CARGO_BIN_EXE_inspect"));
    program.args(words).output().expect("inspect runs")
}

#[test]
fn the_program_tells_and_draws() {
    let path = |path: PathBuf| path.to_str().expect("a path in UTF-8").to_string();
    let records = path(in_project("example/store.records"));
    let places = path(in_project("example/store.places"));
    let drawn = scratch("store.svg");
    let _ = fs::remove_file(&drawn);

    let said = inspect(&[&records, "--places", &places, "--svg", &path(drawn.clone())]);
    let picture = picture_of(&example());
    assert_eq!(said.status.code(), Some(0));
    let words = String::from_utf8(said.stdout).expect("text");
    assert_eq!(words, text(&picture, Some(EXAMPLE_PLACES)));
    let written = fs::read_to_string(&drawn).expect("the picture");
    assert_eq!(written, svg(&picture));

    let mut damaged = example();
    damaged[STATES + 5] = 3;
    let file = scratch("damaged.records");
    fs::write(&file, damaged).expect("a file");
    let said = inspect(&[&path(file), "--svg", &path(scratch("none.svg"))]);
    assert_eq!(said.status.code(), Some(1));
    assert_eq!(
        said.stdout,
        b"not sound, rule 2: node 5 has state 3 (byte 11)\n"
    );
    assert!(!scratch("none.svg").exists());

    let cut = scratch("cut.places");
    fs::write(&cut, &EXAMPLE_PLACES[1..]).expect("a file");
    let said = inspect(&[&records, "--places", &path(cut)]);
    assert_eq!(said.status.code(), Some(2));
    assert_eq!(said.stderr, b"inspect: places of 63 bytes, not 64\n");

    for words in [&[][..], &["--svg"], &[&records, &places], &["no such file"]] {
        let said = inspect(words);
        assert_eq!(said.status.code(), Some(2), "{words:?}");
        assert!(said.stdout.is_empty() && !said.stderr.is_empty());
    }
}
