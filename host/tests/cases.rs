//! Worked cases, each on the store and on the full copies, with the answer that is expected.

mod common;

use common::calls::{read, Call, Outcome};
use common::tally::Tally;
use common::trial::{Care, Trial};
use rowstore_host::copies::Copies;
use rowstore_host::dice::Dice;
use rowstore_host::judge::place_of;
use rowstore_host::layout::{Measures, EMPTY, STATES};
use rowstore_host::store::Store;
use std::hint::black_box;

const USUAL: Measures = Measures::of(4, 8, 6);

for_each_store!(
    measures_of_an_opening,
    lengths_on_opening,
    listed_cases,
    printed_example,
    steps_that_go_wrong,
    any_address,
);

/// Opens on marked bytes of the given lengths; a refusal must leave all of them.
fn opening<S: Store>(measures: Measures, records_len: usize, places_len: usize) -> u8 {
    let mut records = vec![0x77; records_len];
    let mut places = vec![0x88; places_len];
    let got = S::open(&mut records, &mut places, measures);
    let wanted = Copies::open(records_len, places_len, measures).err();
    assert_eq!(got, wanted.unwrap_or(0), "{}: {measures:?}", S::NAME);
    if got != 0 {
        let untouched = records.iter().all(|&b| b == 0x77) && places.iter().all(|&b| b == 0x88);
        assert!(untouched, "{}: {measures:?} refused, bytes lost", S::NAME);
    }
    got
}

/// Every measure at, below and above its limits.
fn measures_of_an_opening<S: Store>() {
    let huge = usize::MAX;
    let cases = [
        ((0, 8, 6), 1),
        ((1025, 8, 2000), 1),
        ((1, 8, 6), 0),
        ((1024, 8, 1024), 0),
        ((4, 8, 3), 1),
        ((4, 8, 4), 0),
        ((4, 0, 6), 1),
        ((4, 1, 6), 0),
        ((4, 1024, 6), 0),
        ((4, 1025, 6), 1),
        ((4, 8, 4096), 0),
        ((4, 8, 4097), 1),
        ((1024, 1024, 4096), 0),
        ((1024, 1, 1023), 1),
        ((1, 1, 1), 0),
        ((1, 1, 0), 1),
        ((huge, 8, huge), 1),
        ((4, huge, 6), 1),
        ((4, 8, huge), 1),
        ((65_540, 8, 65_542), 1),
        ((4, 65_544, 6), 1),
    ];
    for ((rows, width, places), wanted) in cases {
        let measures = Measures::of(rows, width, places);
        // Where the measures are out of bounds, lengths of some other store will do.
        let fits = if wanted == 0 { measures } else { USUAL };
        let got = opening::<S>(measures, fits.records_len(), fits.places_len());
        assert_eq!(got, wanted, "{}: {measures:?}", S::NAME);
    }
    println!("openings, {}: {} measures tried", S::NAME, cases.len());
}

/// Both buffers at other lengths; a wrong measure goes before a wrong length.
fn lengths_on_opening<S: Store>() {
    let (records_len, places_len) = (USUAL.records_len(), USUAL.places_len());
    let mut tried = 0;
    for measures in [
        USUAL,
        Measures { places: 4, ..USUAL },
        Measures { rows: 1, ..USUAL },
    ] {
        let (records_len, places_len) = (measures.records_len(), measures.places_len());
        let wrong_records = (0..records_len).chain(records_len + 1..records_len + 40);
        for len in wrong_records {
            assert_eq!(opening::<S>(measures, len, places_len), 2, "records {len}");
            tried += 1;
        }
        let wrong_places = (0..places_len).chain(places_len + 1..places_len + 40);
        for len in wrong_places {
            assert_eq!(opening::<S>(measures, records_len, len), 2, "places {len}");
            tried += 1;
        }
        assert_eq!(opening::<S>(measures, 0, 0), 2);
    }
    for measures in [
        Measures { rows: 0, ..USUAL },
        Measures { width: 0, ..USUAL },
        Measures { places: 3, ..USUAL },
    ] {
        assert_eq!(opening::<S>(measures, records_len - 1, places_len + 1), 1);
        tried += 1;
    }
    println!("openings, {}: {tried} wrong lengths tried", S::NAME);
}

/// A trial at the usual measures.
fn usual<S: Store>(title: &str) -> Trial<S> {
    Trial::open(title, USUAL, Care::Whole)
}

fn listed_cases<S: Store>() {
    let cases: [fn() -> Tally; 16] = [
        rows_after_opening::<S>,
        sharers_of_rows::<S>,
        refused_reads::<S>,
        tags_of_a_snapshot::<S>,
        write_above_a_reader::<S>,
        full_store::<S>,
        no_snapshot_places::<S>,
        sixty_four_snapshots::<S>,
        zeros_written_again::<S>,
        equal_bytes_in_a_full_store::<S>,
        equal_bytes_above_a_reader::<S>,
        border_without_a_place::<S>,
        border_without_a_row::<S>,
        border_above_a_reader::<S>,
        border_of_equal_bytes::<S>,
        refused_borders::<S>,
    ];
    let title = format!("listed cases, {}", S::NAME);
    let tallies = cases.map(|case| case());
    require_all(&title, &tallies, &[0, 2, 3, 4, 20, 21, 22, 23, 24, 25]);
}

/// Prints the tallies together, and requires that all the answers were seen.
fn require_all(title: &str, tallies: &[Tally], answers: &[u8]) {
    let mut sum = Tally::default();
    tallies.iter().for_each(|tally| sum.add(tally));
    sum.print(title);
    sum.require(title, answers);
}

fn rows_after_opening<S: Store>() -> Tally {
    let mut trial = usual::<S>("rows after opening");
    assert_eq!(trial.read(0, 3), (0, 1));
    assert_eq!(trial.copies.row(0, 3), [0; 8]);
    assert_eq!(trial.read(0, 4), (3, 0));
    trial.tally
}

/// Reads every row of the versions; each has as many sharers as stand for it.
fn expect_sharers<S: Store>(trial: &mut Trial<S>, due: &[(u16, [usize; 4])]) {
    for &(tag, numbers) in due {
        for (row, number) in numbers.into_iter().enumerate() {
            assert_eq!(trial.read(tag, row), (0, number), "tag {tag} row {row}");
        }
    }
}

fn sharers_of_rows<S: Store>() -> Tally {
    let mut trial = usual::<S>("sharers of rows");
    expect_sharers(&mut trial, &[(0, [1; 4])]);
    assert_eq!(trial.snapshot(0, 7), 0);
    expect_sharers(&mut trial, &[(0, [2; 4]), (7, [2; 4])]);
    assert_eq!(trial.snapshot(7, 8), 0);
    let all = [(0, [3; 4]), (7, [3; 4]), (8, [3; 4])];
    expect_sharers(&mut trial, &all);
    // Bytes that are there already change no number.
    assert_eq!(trial.write(7, 0, 0), 0);
    expect_sharers(&mut trial, &all);
    assert_eq!(trial.write(7, 0, 0x71), 0);
    let moved = [(0, [2, 3, 3, 3]), (7, [1, 3, 3, 3]), (8, [2, 3, 3, 3])];
    expect_sharers(&mut trial, &moved);
    assert_eq!(trial.write(7, 0, 0x71), 0);
    assert_eq!(trial.write(8, 0, 0), 0);
    expect_sharers(&mut trial, &moved);
    // Nor do bytes that others have in another place.
    assert_eq!(trial.write(7, 0, 0), 0);
    expect_sharers(&mut trial, &moved);
    assert_eq!(trial.delete(7), 0);
    expect_sharers(&mut trial, &[(0, [2; 4]), (8, [2; 4])]);
    assert_eq!(trial.delete(8), 0);
    expect_sharers(&mut trial, &[(0, [1; 4])]);
    trial.tally
}

/// Whatever refuses a read, its number is 0; each refusal goes before the later ones.
fn refused_reads<S: Store>() -> Tally {
    let mut trial = usual::<S>("refused reads");
    assert_eq!(trial.snapshot(0, 7), 0);
    assert_eq!(trial.read(7, 0), (0, 2));
    assert_eq!(trial.read(9, 0), (21, 0));
    assert_eq!(trial.read(7, 4), (3, 0));
    assert_eq!(trial.read(9, usize::MAX), (3, 0));
    // Lengths that are wrong: that of the places, or that of the buffer to be filled.
    for (tag, row) in [(7, 0), (9, 4)] {
        for (places_off, out_off) in [(1, 0), (-1, 0), (0, 1), (0, -1), (0, -8)] {
            let mut refused = trial.read_of(tag, row);
            if let Call::Read {
                places_len,
                out_len,
                ..
            } = &mut refused
            {
                *places_len = places_len.wrapping_add_signed(places_off);
                *out_len = out_len.wrapping_add_signed(out_off);
            }
            assert_eq!(trial.call(&refused), Outcome::with_numbers(2, &[0]));
            trial.misfit(&refused, USUAL.records_len() - 1);
        }
    }
    let mut unsound = trial.records().to_vec();
    unsound[STATES] = EMPTY;
    for (tag, row, out_len) in [(7, 0, 8), (9, 4, 9)] {
        let got = read::<S>(&unsound, trial.places(), tag, row, out_len);
        assert_eq!(got, Outcome::with_numbers(20, &[0]));
    }
    trial.tally
}

fn tags_of_a_snapshot<S: Store>() -> Tally {
    let mut trial = usual::<S>("tags of a snapshot");
    assert_eq!(trial.snapshot(0, 0), 4);
    assert_eq!(trial.snapshot(9, 9), 21);
    assert_eq!(trial.snapshot(0, 9), 0);
    assert_eq!(trial.snapshot(9, 9), 22);
    trial.tally
}

fn write_above_a_reader<S: Store>() -> Tally {
    let mut trial = usual::<S>("write above a reader");
    assert_eq!(trial.snapshot(0, 7), 0);
    assert_eq!(trial.snapshot(7, 8), 0);
    assert_eq!(trial.write(7, 0, 0x71), 0);
    assert_eq!(trial.read(8, 0), (0, 2));
    assert_eq!(trial.copies.row(8, 0), [0; 8]);
    assert_eq!(place_of(trial.records(), 8, 0), Some(0));
    assert_eq!(trial.copies.count(), (5, 2));
    assert_eq!(trial.delete(8), 0);
    assert_eq!(trial.read(7, 0), (0, 1));
    assert_eq!(trial.copies.row(7, 0), [0x71; 8]);
    assert_eq!(trial.copies.count(), (5, 1));
    trial.tally
}

fn full_store<S: Store>() -> Tally {
    let mut trial = usual::<S>("full store");
    assert_eq!(trial.snapshot(0, 7), 0);
    assert_eq!(trial.write(7, 0, 0x70), 0);
    assert_eq!(trial.write(7, 1, 0x71), 0);
    assert_eq!(trial.write(7, 2, 0x72), 24);
    assert_eq!(trial.write(7, 0, 0x73), 0);
    assert_eq!(trial.write(0, 2, 0x02), 24);
    assert_eq!(trial.write(0, 0, 0x01), 0);
    assert_eq!(trial.delete(7), 0);
    assert_eq!(trial.snapshot(0, 9), 0);
    assert_eq!(trial.write(9, 2, 0x92), 0);
    trial.tally
}

fn no_snapshot_places<S: Store>() -> Tally {
    let measures = Measures { places: 4, ..USUAL };
    let mut trial = Trial::<S>::open("no snapshot places", measures, Care::Whole);
    assert_eq!(trial.snapshot(0, 7), 0);
    for row in 0..4 {
        assert_eq!(trial.write(0, row, 1), 24);
        assert_eq!(trial.write(7, row, 1), 24);
    }
    assert_eq!(trial.delete(7), 0);
    for row in 0..4 {
        assert_eq!(trial.write(0, row, 1), 0);
        assert_eq!(trial.write(7, row, 1), 21);
    }
    trial.tally
}

fn sixty_four_snapshots<S: Store>() -> Tally {
    let mut trial = usual::<S>("sixty-four snapshots");
    for tag in 1..=64 {
        assert_eq!(trial.snapshot(0, tag), 0);
    }
    assert_eq!(trial.snapshot(0, 65), 23);
    assert_eq!(trial.snapshot(64, 65), 23);
    assert_eq!(trial.delete(30), 0);
    assert_eq!(trial.snapshot(0, 65), 0);
    trial.tally
}

fn zeros_written_again<S: Store>() -> Tally {
    let mut trial = usual::<S>("zeros written again");
    assert_eq!(trial.snapshot(0, 7), 0);
    assert_eq!(trial.write(0, 0, 0), 0);
    assert!(trial.copies.shares(0, 7, 0));
    assert_eq!(trial.copies.count(), (4, 1));
    trial.tally
}

fn equal_bytes_in_a_full_store<S: Store>() -> Tally {
    let mut trial = usual::<S>("equal bytes in a full store");
    assert_eq!(trial.snapshot(0, 7), 0);
    assert_eq!(trial.write(7, 0, 0x70), 0);
    assert_eq!(trial.write(7, 1, 0x71), 0);
    assert_eq!(trial.write(7, 2, 0), 0);
    assert_eq!(trial.write(7, 2, 0x72), 24);
    assert_eq!(trial.write(0, 2, 0), 0);
    assert_eq!(trial.write(0, 2, 0x02), 24);
    assert_eq!(trial.copies.count(), (6, 1));
    trial.tally
}

fn equal_bytes_above_a_reader<S: Store>() -> Tally {
    let mut trial = usual::<S>("equal bytes above a reader");
    assert_eq!(trial.snapshot(0, 7), 0);
    assert_eq!(trial.snapshot(7, 8), 0);
    assert_eq!(trial.write(7, 0, 0), 0);
    assert_eq!(trial.parsed().ghosts(), 0);
    // Other bytes make a ghost, since 8 reads the row too.
    assert_eq!(trial.write(7, 0, 0x71), 0);
    assert_eq!(trial.parsed().ghosts(), 1);
    trial.tally
}

/// Two places are free: the third row has none, and it and those after it stay as they are.
fn border_without_a_place<S: Store>() -> Tally {
    let mut trial = usual::<S>("border without a place");
    assert_eq!(trial.snapshot(0, 7), 0);
    let rows = [(3, 0x73), (1, 0x71), (2, 0x72), (0, 0x70), (1, 0x11)];
    assert_eq!(trial.border(7, &rows), (24, 2));
    let due = [(0, 2), (0x71, 1), (0, 2), (0x73, 1)];
    for (row, (byte, sharers)) in due.into_iter().enumerate() {
        assert_eq!(trial.read(7, row), (0, sharers));
        assert_eq!(trial.copies.row(7, row), [byte; 8]);
        assert_eq!(trial.copies.row(0, row), [0; 8]);
    }
    assert_eq!(trial.copies.count(), (6, 1));
    // What is there is written all the same, and so are rows that are not shared.
    assert_eq!(trial.border(7, &[(2, 0), (3, 0x33), (0, 0)]), (0, 3));
    assert_eq!(trial.border(0, &[(1, 0x01), (2, 0x02), (3, 0x03)]), (24, 1));
    assert_eq!(trial.copies.row(0, 1), [0x01; 8]);
    trial.tally
}

fn border_without_a_row<S: Store>() -> Tally {
    let mut trial = usual::<S>("border without a row");
    let rows = [(1, 0x01), (3, 0x03), (4, 0x04), (2, 0x02)];
    assert_eq!(trial.border(0, &rows), (3, 2));
    assert_eq!(trial.copies.row(0, 1), [0x01; 8]);
    assert_eq!(trial.copies.row(0, 2), [0; 8]);
    assert_eq!(trial.copies.row(0, 3), [0x03; 8]);
    assert_eq!(trial.border(0, &[(u16::MAX, 1), (0, 1)]), (3, 0));
    trial.tally
}

/// Only the first row that moves makes a ghost; the origin's border saves two rows.
fn border_above_a_reader<S: Store>() -> Tally {
    let measures = Measures { places: 8, ..USUAL };
    let mut trial = Trial::<S>::open("border above a reader", measures, Care::Whole);
    assert_eq!(trial.snapshot(0, 7), 0);
    assert_eq!(trial.snapshot(7, 8), 0);
    assert_eq!(trial.border(7, &[(0, 0x70), (1, 0x71), (0, 0x72)]), (0, 3));
    assert_eq!(trial.parsed().ghosts(), 1);
    assert_eq!(trial.copies.count(), (6, 2));
    assert_eq!(trial.copies.row(7, 0), [0x72; 8]);
    assert_eq!(trial.copies.row(8, 0), [0; 8]);
    assert_eq!(trial.border(0, &[(2, 0x02), (3, 0x03)]), (0, 2));
    assert_eq!(trial.copies.count(), (8, 2));
    assert!(trial.copies.shares(7, 8, 2));
    trial.tally
}

fn border_of_equal_bytes<S: Store>() -> Tally {
    let mut trial = usual::<S>("border of equal bytes");
    assert_eq!(trial.snapshot(0, 7), 0);
    assert_eq!(trial.border(7, &[(0, 0), (1, 0), (2, 0), (3, 0)]), (0, 4));
    assert_eq!(trial.copies.count(), (4, 1));
    // The row moves at its second turn, and stays from then on.
    assert_eq!(trial.border(7, &[(0, 0), (0, 1), (0, 1), (0, 0)]), (0, 4));
    assert!(!trial.copies.shares(0, 7, 0));
    assert_eq!(trial.copies.count(), (5, 1));
    trial.tally
}

/// Each refusal of a whole border goes before the later ones; 64 rows are accepted, and none.
fn refused_borders<S: Store>() -> Tally {
    let mut trial = usual::<S>("refused borders");
    let most: Vec<(u16, u8)> = (0..64).map(|i| (i % 4, i as u8)).collect();
    assert_eq!(trial.border(0, &most), (0, 64));
    assert_eq!(trial.copies.row(0, 3), [63; 8]);
    assert_eq!(trial.border(0, &[]), (0, 0));
    assert_eq!(trial.border(9, &[]), (21, 0));
    assert_eq!(trial.border(9, &[(4, 1)]), (21, 0));
    let more = [&most[..], &[(0, 1)]].concat();
    assert_eq!(trial.border(0, &more), (25, 0));
    // Lengths that are wrong: that of the places, or that of the bytes.
    for (tag, rows, refusal) in [(0, &most, 2), (9, &most, 2), (9, &more, 25)] {
        for (places_off, bytes_off) in [(1, 0), (-1, 0), (0, 1), (0, -1), (0, 8), (0, -8)] {
            let mut border = trial.border_of(tag, rows);
            if let Call::Border {
                places_len, bytes, ..
            } = &mut border
            {
                *places_len = places_len.wrapping_add_signed(places_off);
                bytes.resize(bytes.len().wrapping_add_signed(bytes_off), 0);
            }
            assert_eq!(trial.call(&border), border.refused(refusal));
            trial.misfit(&border, USUAL.records_len() - 1);
        }
    }
    trial.tally
}

/// The example of the program `shelf`, as calls.
fn printed_example<S: Store>() {
    let mut trial = usual::<S>("printed example");
    assert_eq!(trial.snapshot(0, 7), 0);
    assert_eq!(trial.write(0, 2, 0xa1), 0);
    assert_eq!(trial.read(7, 2), (0, 1));
    assert_eq!(trial.copies.row(7, 2), [0; 8]);
    assert_eq!(trial.read(0, 2), (0, 1));
    assert_eq!(trial.copies.row(0, 2), [0xa1; 8]);
    assert_eq!(trial.copies.count(), (5, 1));
    assert_eq!(trial.delete(7), 0);
    assert_eq!(trial.copies.count(), (4, 0));
    assert_eq!(trial.read(7, 0), (21, 0));
    let title = format!("printed example, {}", S::NAME);
    trial.tally.print(&title);
    trial.tally.require(&title, &[0, 21]);
}

/// Histories in which a step of the 2009 paper, taken as printed (SPEC 11.3), loses a row or keeps a dead one.
/// Each has its title and its steps, which `played` reads.
const STEPS_THAT_GO_WRONG: [[&str; 2]; 6] = [
    // Every version below a ghost writes its own row; the ghost's goes.
    [
        "ghost's row without readers",
        "0>1 1.0=1 1>2 1>3 -1 2.0=2 6/2 3.0=3 6/2",
    ],
    // A version with two children that have their own rows parts: its row and its ghost's go.
    [
        "rows above a new ghost",
        "0>1 1.0=1 1.1=1 1>2 1>3 3.0=3 3.1=3 2.0=2 2>4 2>5 4.0=4 5.0=5 4.1=4 5.1=5 -1 -2 10/3",
    ],
    // A version reads its own row before any above it.
    ["own row first", "0>1 1.0=1 1>2 2.0=2 2.0?2 1.0?1"],
    // A version parts whose one child has its own row; another row is passed on.
    [
        "entry under a child with its own",
        "0>1 1.0=1 1.1=1 1>2 2.0=2 -1 6/1 2.1?1",
    ],
    // The origin's row is saved for nobody if all snapshots have their own.
    [
        "origin's row that no snapshot reads",
        "0>1 1>2 1>3 2.0=2 3.0=3 -1 0.0=9 6/2",
    ],
    // One version alone still reads a ghost's row, and writes it in its place; then it parts.
    [
        "row read through a ghost alone",
        "0>1 1.0=1 1>2 1>3 1>4 -1 2.0=2 3.0=3 4.0=4 7/3 -4 6/2",
    ],
];

fn steps_that_go_wrong<S: Store>() {
    let tallies = STEPS_THAT_GO_WRONG.map(|[title, steps]| played::<S>(title, steps));
    let title = format!("steps that go wrong, {}", S::NAME);
    require_all(&title, &tallies, &[0]);
}

/// Makes the steps, all accepted: `0>1` a snapshot of 0 as 1, `1.2=3` a write of threes to row 2 of 1, `1.2?3` a
/// read that finds them, `-1` a delete; `5/1` says that 5 places are in use and 1 snapshot is alive.
fn played<S: Store>(title: &str, steps: &str) -> Tally {
    let measures = Measures {
        places: 20,
        ..USUAL
    };
    let mut trial = Trial::<S>::open(title, measures, Care::Whole);
    for step in steps.split(' ') {
        let at = format!("{}: {title}: {step} in {steps}", S::NAME);
        let numbers = step.split(|sign: char| !sign.is_ascii_digit());
        let numbers: Vec<u16> = numbers.filter_map(|digits| digits.parse().ok()).collect();
        let signs = step.replace(|sign: char| sign.is_ascii_digit(), "");
        let answer = match (signs.as_str(), &numbers[..]) {
            (">", &[source, tag]) => trial.snapshot(source, tag),
            (".=", &[tag, row, byte]) => trial.write(tag, row.into(), byte as u8),
            (".?", &[tag, row, byte]) => {
                assert_eq!(trial.copies.row(tag, row.into()), [byte as u8; 8], "{at}");
                trial.read(tag, row.into()).0
            }
            ("-", &[tag]) => trial.delete(tag),
            ("/", &[used, snapshots]) => {
                let counts = (used.into(), snapshots.into());
                assert_eq!(trial.copies.count(), counts, "{at}");
                0
            }
            _ => panic!("{at}: no step"),
        };
        assert_eq!(answer, 0, "{at}");
    }
    trial.tally
}

/// What stands around lent bytes.
const AROUND: u8 = 0x99;

/// Bytes that start at an address with the given remainder by 8.
struct Lent {
    remainder: usize,
    buffer: Vec<u8>,
    from: usize,
    to: usize,
}

impl Lent {
    fn at(remainder: usize, len: usize) -> Lent {
        let buffer = vec![AROUND; len + 24];
        let from = 8 + (remainder + 8 - buffer.as_ptr() as usize % 8) % 8;
        let to = from + len;
        assert_eq!(buffer[from..to].as_ptr() as usize % 8, remainder);
        Lent {
            remainder,
            buffer,
            from,
            to,
        }
    }

    fn bytes(&mut self) -> &mut [u8] {
        &mut self.buffer[self.from..self.to]
    }

    fn kept_around(&self) -> bool {
        let around = [&self.buffer[..self.from], &self.buffer[self.to..]];
        around.iter().all(|part| part.iter().all(|&b| b == AROUND))
    }
}

/// The rows of the borders at any address.
const BORDER: usize = 3;

/// Records, places and rows at every remainder by 8, at the usual measures and at odd ones.
fn any_address<S: Store>() {
    let odd = Measures::of(33, 37, 101);
    let mut calls = 0;
    for measures in [USUAL, odd] {
        for records_at in 0..8 {
            for places_at in 0..8 {
                let buffers = [
                    Lent::at(records_at, measures.records_len()),
                    Lent::at(places_at, measures.places_len()),
                    Lent::at((records_at + places_at) % 8, measures.width),
                    Lent::at((records_at + places_at) % 8, BORDER * measures.width),
                ];
                calls += history_at::<S>(measures, buffers);
            }
        }
    }
    println!("any address, {}: {calls} calls compared", S::NAME);
}

/// A history in which every call is made, and after each the count and every row is compared.
fn history_at<S: Store>(measures: Measures, mut buffers: [Lent; 4]) -> usize {
    let [records, places, ..] = &mut buffers;
    let Measures { rows, width, .. } = measures;
    let places_len = measures.places_len();
    let opened = S::open(records.bytes(), places.bytes(), measures);
    assert_eq!(opened, 0, "{}: {measures:?}", S::NAME);
    let mut copies = Copies::open(measures.records_len(), places_len, measures)
        .expect("copies open as the store does");
    let mut dice = Dice::new(17);
    let mut drawn = |rows: usize| dice.bytes(rows * width);
    let write = |tag, row, bytes| Call::Write {
        tag,
        row,
        places_len,
        bytes,
    };
    let border = |tag, rows: [usize; BORDER], bytes| Call::Border {
        tag,
        rows: rows.map(|row| row as u16).to_vec(),
        places_len,
        bytes,
    };
    let steps = [
        Call::Snapshot { source: 0, tag: 7 },
        Call::Snapshot { source: 7, tag: 8 },
        write(7, 0, drawn(1)),
        write(0, rows - 1, drawn(1)),
        write(8, 1, drawn(1)),
        write(7, 0, drawn(1)),
        border(0, [rows - 1, 0, 1], drawn(BORDER)),
        Call::Delete { tag: 7 },
        write(8, 0, drawn(1)),
        border(8, [0, rows, 1], drawn(BORDER)),
    ];
    let mut made = 0;
    for step in steps {
        compare_at::<S>(&step, &mut buffers, &mut copies);
        compare_at::<S>(&Call::Count, &mut buffers, &mut copies);
        for tag in copies.tags() {
            for row in 0..rows {
                let read = Call::Read {
                    tag,
                    row,
                    places_len,
                    out_len: width,
                };
                compare_at::<S>(&read, &mut buffers, &mut copies);
                made += 1;
            }
        }
        made += 2;
    }
    made
}

fn compare_at<S: Store>(call: &Call, buffers: &mut [Lent; 4], copies: &mut Copies) {
    let remainders = buffers.each_ref().map(|lent| lent.remainder);
    let [lent, lent_places, lent_row, lent_rows] = buffers.each_mut().map(Lent::bytes);
    let got = match call {
        Call::Read { tag, row, .. } => {
            let (answer, sharers) = S::read(lent, lent_places, *tag, *row, lent_row);
            Outcome {
                row: lent_row.to_vec(),
                ..Outcome::with_numbers(answer, &[sharers])
            }
        }
        Call::Write {
            tag, row, bytes, ..
        } => {
            lent_row.copy_from_slice(bytes);
            let answer = S::write(lent, lent_places, *tag, *row, lent_row);
            Outcome {
                spoilt: black_box(lent_row) != bytes,
                ..Outcome::plain(answer)
            }
        }
        Call::Border {
            tag, rows, bytes, ..
        } => {
            lent_rows.copy_from_slice(bytes);
            // The row numbers at every even address.
            let ahead = remainders[3] / 2;
            let mut numbers = [&[0; 4][..ahead], rows].concat();
            let lent_numbers = &numbers[ahead..];
            let (answer, done) = S::border(lent, lent_places, *tag, lent_numbers, lent_rows);
            let kept = black_box(&mut numbers)[ahead..] == *rows;
            Outcome {
                spoilt: !kept || black_box(lent_rows) != bytes,
                ..Outcome::with_numbers(answer, &[done])
            }
        }
        _ => call.on_store::<S>(lent, lent_places),
    };
    let wanted = call.on_copies(copies);
    assert_eq!(got, wanted, "{}: {call:?} at {remainders:?}", S::NAME);
    let kept = buffers.iter().all(Lent::kept_around);
    assert!(kept, "{}: {call:?} at {remainders:?}, beyond", S::NAME);
}
