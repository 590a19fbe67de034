//! Rows in cable order and back: every bit, drawn rows, wrong lengths. The order is computed once more, by dealing out bits.

use rowstore_host::cable::{ByTable, Transposed, Turn, FILES, HOOKS, IN_FILE, ROW};
use rowstore_host::dice::Dice;
use rowstore_host::store::answer::{ACCEPTED, LENGTH};
#[cfg(feature = "linked")]
use rowstore_host::store::Proved;

const SEEDS: u64 = 2_000;
/// Every length up to this is tried, and two that are far beyond.
const LENGTHS: usize = 2 * ROW + 1;
const FAR: [usize; 2] = [HOOKS, 65_536];
/// Bytes on each side of an output, which no turn may touch.
const GUARD: usize = 16;

type Turning = fn(&[u8], &mut [u8]) -> u8;

/// The bits of a row, the highest of each byte first.
fn bits(row: &[u8]) -> Vec<bool> {
    let of_byte = |&byte: &u8| (0..8).rev().map(move |bit| byte >> bit & 1 == 1);
    row.iter().flat_map(of_byte).collect()
}

fn bytes(bits: &[bool]) -> Vec<u8> {
    let byte = |bits: &[bool]| bits.iter().fold(0, |byte, &bit| 2 * byte + bit as u8);
    bits.chunks(8).map(byte).collect()
}

/// The first hook of each file in turn, then the second of each, and so on.
fn expected_cable(row: &[u8]) -> Vec<u8> {
    let bits = bits(row);
    let files: Vec<&[bool]> = bits.chunks(IN_FILE).collect();
    let of_hook = |hook: usize| files.iter().map(move |file| file[hook]);
    bytes(&(0..IN_FILE).flat_map(of_hook).collect::<Vec<bool>>())
}

/// The bits are dealt out to the files in turn.
fn expected_row(cable: &[u8]) -> Vec<u8> {
    let mut files = vec![Vec::new(); FILES];
    for (file, bit) in (0..FILES).cycle().zip(bits(cable)) {
        files[file].push(bit);
    }
    bytes(&files.concat())
}

/// Turns a row into an output that held other bytes, and looks at those around it too.
fn turned(turn: Turning, row: &[u8], dice: &mut Dice) -> Vec<u8> {
    let before = dice.bytes(GUARD + ROW + GUARD);
    let mut lent = before.clone();
    assert_eq!(turn(row, &mut lent[GUARD..GUARD + ROW]), ACCEPTED);
    assert_eq!(lent[..GUARD], before[..GUARD], "bytes before the output");
    assert_eq!(lent[GUARD + ROW..], before[GUARD + ROW..], "bytes after it");
    lent[GUARD..GUARD + ROW].to_vec()
}

/// Every hook alone and every hook but one: so the whole order is seen.
fn every_bit<T: Turn>() {
    let mut dice = Dice::new(0);
    let mut position = 0;
    for hook in 0..IN_FILE {
        for file in 0..FILES {
            for set in [true, false] {
                let (mut row, mut cable) = (vec![!set; HOOKS], vec![!set; HOOKS]);
                row[file * IN_FILE + hook] = set;
                cable[position] = set;
                let (row, cable) = (bytes(&row), bytes(&cable));
                assert_eq!(turned(T::to_cable, &row, &mut dice), cable);
                assert_eq!(turned(T::from_cable, &cable, &mut dice), row);
            }
            position += 1;
        }
    }
    assert_eq!(position, HOOKS);
    println!("cable: {}: each of {position} hooks alone", T::NAME);
}

fn drawn_rows<T: Turn>() {
    for seed in 0..SEEDS {
        let mut dice = Dice::new(seed);
        let told = format!("{}, seed {seed}", T::NAME);
        let row = dice.bytes(ROW);
        let cable = turned(T::to_cable, &row, &mut dice);
        assert_eq!(cable, expected_cable(&row), "to cable order: {told}");
        let again = turned(T::from_cable, &cable, &mut dice);
        assert_eq!(again, row, "to cable order and back: {told}");
        let back = turned(T::from_cable, &row, &mut dice);
        assert_eq!(back, expected_row(&row), "from cable order: {told}");
        let again = turned(T::to_cable, &back, &mut dice);
        assert_eq!(again, row, "from cable order and to it: {told}");
    }
    println!("cable: {}: {SEEDS} drawn rows, there and back", T::NAME);
}

/// A turn of a row and an output of any lengths: 2 unless both are right, and then no byte is changed.
fn tried<T: Turn>(turn: Turning, row_length: usize, out_length: usize, dice: &mut Dice) -> u8 {
    let (row, before) = (dice.bytes(row_length), dice.bytes(out_length));
    let (lent, mut out) = (row.clone(), before.clone());
    let answer = turn(&lent, &mut out);
    let told = format!(
        "{}: a row of {row_length}, an output of {out_length}",
        T::NAME
    );
    let right = row_length == ROW && out_length == ROW;
    assert_eq!(answer, if right { ACCEPTED } else { LENGTH }, "{told}");
    assert_eq!(lent, row, "{told}");
    assert!(right || out == before, "{told}: refused, and changed");
    answer
}

/// Every wrong length of one buffer beside the right one and some wrong ones of the other.
fn wrong_lengths<T: Turn>() {
    let mut dice = Dice::new(1);
    let mut refused = 0;
    for turn in [T::to_cable as Turning, T::from_cable] {
        for one in (0..LENGTHS).chain(FAR) {
            for other in [ROW, one, 0, ROW - 1, ROW + 1] {
                refused += (tried::<T>(turn, one, other, &mut dice) == LENGTH) as usize;
                refused += (tried::<T>(turn, other, one, &mut dice) == LENGTH) as usize;
            }
        }
    }
    println!("cable: {}: {refused} turns refused", T::NAME);
}

fn all<T: Turn>() {
    every_bit::<T>();
    drawn_rows::<T>();
    wrong_lengths::<T>();
}

#[test]
fn by_table() {
    all::<ByTable>();
}

#[test]
fn transposed() {
    all::<Transposed>();
}

#[cfg(feature = "linked")]
#[test]
fn proved() {
    all::<Proved>();
}
