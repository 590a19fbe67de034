//! Drawn streams of commands, given to the program and to the full copies: every byte that is printed is compared.
#![cfg(feature = "linked")]

use rowstore_host::copies::Copies;
use rowstore_host::dice::Dice;
use rowstore_host::layout::Measures;
use std::collections::BTreeMap;
use std::fs::{self, File};
use std::io::Write;
use std::path::PathBuf;
use std::process::{Command, Stdio};

/// The program's store.
const SHELF: Measures = Measures::of(4, 8, 6);
const PLACES_LEN: usize = SHELF.places_len();

fn program() -> Command {
    Command::new(PathBuf::from(env!("CARGO_MANIFEST_DIR")).join("../target/bin/shelf"))
}

/// What the program prints for a stream.
fn printed(stream: &[u8]) -> Vec<u8> {
    let mut child = program()
        .stdin(Stdio::piped())
        .stdout(Stdio::piped())
        .spawn()
        .unwrap_or_else(|error| panic!("{:?}: {error}", program()));
    let mut input = child.stdin.take().expect("standard input is piped");
    // A stream that is too long need not be read to its end.
    let _ = input.write_all(stream);
    drop(input);
    let output = child.wait_with_output().expect("the program ends");
    assert!(output.status.success(), "{}", output.status);
    output.stdout
}

/// The commands of a stream, one after the other.
struct Reader<'a> {
    rest: &'a [u8],
}

impl<'a> Reader<'a> {
    /// The next command's kind and operands: none at the end, else the refusal 6 or 7.
    fn next(&mut self) -> Option<Result<(u8, &'a [u8]), u8>> {
        let (&kind, behind) = self.rest.split_first()?;
        let operands = match kind {
            1 | 2 => 4,
            3 => 4 + SHELF.width,
            4 => 2,
            5 => 0,
            _ => return Some(Err(6)),
        };
        if behind.len() < operands {
            return Some(Err(7));
        }
        let (taken, rest) = behind.split_at(operands);
        self.rest = rest;
        Some(Ok((kind, taken)))
    }
}

fn number(bytes: &[u8]) -> u16 {
    u16::from_be_bytes([bytes[0], bytes[1]])
}

fn hexadecimal(bytes: &[u8]) -> String {
    bytes.iter().map(|byte| format!("{byte:02x}")).collect()
}

/// What streams met: how often each answer, reads by their number of sharers, and writes of equal bytes to shared
/// rows, in a full store or not.
#[derive(Debug, Default)]
struct Seen {
    answers: BTreeMap<u8, usize>,
    sharers: BTreeMap<usize, usize>,
    equal: usize,
    equal_when_full: usize,
}

impl Seen {
    fn answer(&mut self, answer: u8) {
        *self.answers.entry(answer).or_default() += 1;
    }

    fn read(&mut self, sharers: usize) {
        *self.sharers.entry(sharers).or_default() += 1;
    }

    fn write(&mut self, copies: &Copies, tag: u16, row: usize, bytes: &[u8]) {
        let known = copies.tags().contains(&tag) && row < SHELF.rows;
        if known && copies.shared(tag, row) && copies.row(tag, row) == bytes {
            let full = copies.count().0 == SHELF.places;
            self.equal += usize::from(!full);
            self.equal_when_full += usize::from(full);
        }
    }
}

/// A call on the full copies: its answer, and what is shown of it.
fn answered(copies: &mut Copies, kind: u8, operands: &[u8], seen: &mut Seen) -> (u8, String) {
    let dash = String::from("-");
    match kind {
        1 => (
            copies.snapshot(number(operands), number(&operands[2..])),
            dash,
        ),
        2 => {
            let row = usize::from(number(&operands[2..]));
            match copies.read(PLACES_LEN, number(operands), row, SHELF.width) {
                Ok((bytes, sharers)) => {
                    seen.read(sharers);
                    (0, format!("{} {sharers}", hexadecimal(bytes)))
                }
                Err(refusal) => (refusal, dash),
            }
        }
        3 => {
            let row = usize::from(number(&operands[2..]));
            let (tag, bytes) = (number(operands), &operands[4..]);
            seen.write(copies, tag, row, bytes);
            (copies.write(PLACES_LEN, tag, row, bytes), dash)
        }
        4 => (copies.delete(number(operands)), dash),
        _ => {
            let (used, snapshots) = copies.count();
            (0, format!("{used} {snapshots}"))
        }
    }
}

/// What is due.
fn due(stream: &[u8], seen: &mut Seen) -> Vec<u8> {
    if stream.len() > 4096 {
        seen.answer(8);
        return b"0 8 -\n".to_vec();
    }
    let mut copies = Copies::open(SHELF.records_len(), PLACES_LEN, SHELF).expect("it opens");
    let mut reader = Reader { rest: stream };
    let mut text = Vec::new();
    let mut line = 0;
    while let Some(command) = reader.next() {
        line += 1;
        let (answer, shown) = match command {
            Ok((kind, operands)) => answered(&mut copies, kind, operands, seen),
            Err(refusal) => (refusal, String::from("-")),
        };
        seen.answer(answer);
        writeln!(text, "{line} {answer} {shown}").expect("a vector takes every line");
        if command.is_err() {
            break;
        }
    }
    text
}

/// A drawn command: few tags and rows, now and then ones that do not exist.
fn command(dice: &mut Dice, stream: &mut Vec<u8>) {
    let kind = dice.pick(&[1u8, 2, 2, 3, 3, 3, 4, 5]);
    stream.push(kind);
    let tag = |dice: &mut Dice| dice.pick(&[0u16, 0, 1, 2, 3, 258, 4660]).to_be_bytes();
    let row = |dice: &mut Dice| {
        dice.pick(&[0u16, 1, 2, 3, 3, 2, 1, 0, 4, 256])
            .to_be_bytes()
    };
    match kind {
        1 => stream.extend([tag(dice), tag(dice)].concat()),
        2 => stream.extend([tag(dice), row(dice)].concat()),
        3 => {
            stream.extend([tag(dice), row(dice)].concat());
            // Every second row is of few kinds, so that it is often written as it is already.
            let bytes = match dice.below(4) {
                0 => vec![0; SHELF.width],
                1 => vec![1; SHELF.width],
                _ => dice.bytes(SHELF.width),
            };
            stream.extend(bytes);
        }
        4 => stream.extend(tag(dice)),
        _ => {}
    }
}

/// A stream of drawn commands; one in three is cut, ends in an unknown command, or is drawn byte by byte.
fn stream(dice: &mut Dice) -> Vec<u8> {
    let mut bytes = Vec::new();
    for _ in 0..dice.below(120) {
        command(dice, &mut bytes);
    }
    match dice.below(9) {
        0 => bytes.truncate(dice.below(bytes.len() + 1)),
        1 => bytes.push(dice.pick(&[0u8, 6, 255])),
        2 => {
            let len = dice.below(40);
            bytes = dice.bytes(len);
        }
        _ => {}
    }
    bytes
}

fn compare(stream: &[u8], what: &str, seen: &mut Seen) {
    let expected = due(stream, seen);
    let got = printed(stream);
    assert!(
        got == expected,
        "{what}: expected\n{}got\n{}",
        String::from_utf8_lossy(&expected),
        String::from_utf8_lossy(&got)
    );
}

#[test]
fn drawn_streams() {
    const SEEDS: u64 = 600;
    let mut seen = Seen::default();
    for seed in 0..SEEDS {
        let bytes = stream(&mut Dice::new(seed));
        compare(&bytes, &format!("seed {seed}"), &mut seen);
    }
    for answer in [0, 3, 4, 5, 6, 7, 21, 22, 24] {
        let met = seen.answers.contains_key(&answer);
        assert!(met, "no answer {answer} in {seen:?}");
    }
    assert!(seen.equal > 0 && seen.equal_when_full > 0, "{seen:?}");
    let met = |sharers| seen.sharers.contains_key(&sharers);
    let more = seen.sharers.range(3..).next().is_some();
    assert!(met(1) && met(2) && more, "{seen:?}");
    println!("drawn streams: seeds 0 to {}, {seen:?}", SEEDS - 1);
}

/// The longest stream, one more byte, and none.
#[test]
fn lengths_of_streams() {
    let mut seen = Seen::default();
    for len in [0, 1, 4095, 4096, 4097, 5000, 70000] {
        compare(&vec![5; len], &format!("{len} counts"), &mut seen);
    }
    let mut rows = Vec::new();
    while rows.len() + 5 <= 4096 {
        rows.extend([2, 0, 0, 0, 3]);
    }
    compare(&rows, "only reads", &mut seen);
    assert!(seen.answers[&8] == 3 && seen.answers[&0] > 8000, "{seen:?}");
    println!("lengths of streams: {seen:?}");
}

/// Snapshots up to the last that is accepted, with a read after each, and one more of both.
#[test]
fn every_number_of_sharers() {
    let mut seen = Seen::default();
    let mut stream = vec![2, 0, 0, 0, 3];
    for tag in 1..=65 {
        stream.extend([1, 0, 0, 0, tag]);
        stream.extend([2, 0, tag, 0, 3]);
    }
    compare(&stream, "65 snapshots", &mut seen);
    let once = (1..=65).map(|sharers| (sharers, 1)).collect();
    assert_eq!(seen.sharers, once, "{seen:?}");
    assert!(seen.answers[&23] == 1 && seen.answers[&21] == 1, "{seen:?}");
    println!("every number of sharers: {seen:?}");
}

/// Input that cannot be read counts as ended, and output that cannot be written is lost: the status is 0.
#[test]
fn status_where_nothing_can_be_read_or_written() {
    let folder = File::open(env!("CARGO_MANIFEST_DIR")).expect("this folder");
    let output = program().stdin(folder).output().expect("the program ends");
    assert_eq!(output.status.code(), Some(0));
    assert!(output.stdout.is_empty());
    let full = fs::OpenOptions::new().write(true).open("/dev/full");
    let mut child = program()
        .stdin(Stdio::piped())
        .stdout(full.expect("a device that takes nothing"))
        .spawn()
        .expect("the program starts");
    let input = child.stdin.take();
    let count = input.expect("standard input").write_all(&[5]);
    count.expect("a command is sent");
    assert_eq!(child.wait().expect("the program ends").code(), Some(0));
}
