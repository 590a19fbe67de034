//! A call with its arguments: made on a store, made on the full copies, or drawn.

use rowstore_host::copies::Copies;
use rowstore_host::dice::Dice;
use rowstore_host::store::{Store, MAX_BORDER};
use std::hint::black_box;

/// What a buffer to be filled holds before the call.
const UNFILLED: u8 = 0xc3;

#[derive(Clone, Debug)]
pub enum Call {
    Snapshot {
        source: u16,
        tag: u16,
    },
    Read {
        tag: u16,
        row: usize,
        places_len: usize,
        out_len: usize,
    },
    Write {
        tag: u16,
        row: usize,
        places_len: usize,
        bytes: Vec<u8>,
    },
    Border {
        tag: u16,
        rows: Vec<u16>,
        places_len: usize,
        bytes: Vec<u8>,
    },
    Delete {
        tag: u16,
    },
    Count,
}

/// All that a call answers; a refused one has an empty row.
#[derive(Debug, PartialEq)]
pub struct Outcome {
    pub answer: u8,
    pub row: Vec<u8>,
    /// Those that a call sets: a read's sharers, the rows that a border did, or a count's two.
    pub numbers: Vec<usize>,
    /// Something that was lent to be read has changed.
    pub spoilt: bool,
}

impl Outcome {
    pub fn plain(answer: u8) -> Outcome {
        Outcome {
            answer,
            row: Vec::new(),
            numbers: Vec::new(),
            spoilt: false,
        }
    }

    pub fn with_numbers(answer: u8, numbers: &[usize]) -> Outcome {
        Outcome {
            numbers: numbers.to_vec(),
            ..Outcome::plain(answer)
        }
    }
}

impl Call {
    pub fn name(&self) -> &'static str {
        match self {
            Call::Snapshot { .. } => "snapshot",
            Call::Read { .. } => "read",
            Call::Write { .. } => "write",
            Call::Border { .. } => "border",
            Call::Delete { .. } => "delete",
            Call::Count => "count",
        }
    }

    /// The outcome if the call is refused before it has done anything.
    pub fn refused(&self, answer: u8) -> Outcome {
        match self {
            Call::Read { .. } | Call::Border { .. } => Outcome::with_numbers(answer, &[0]),
            Call::Count => Outcome::with_numbers(answer, &[0, 0]),
            _ => Outcome::plain(answer),
        }
    }

    /// The version and the rows that are to be written, each with its bytes, in their order.
    pub fn rows(&self, width: usize) -> (u16, Vec<(usize, &[u8])>) {
        match self {
            Call::Write {
                tag, row, bytes, ..
            } => (*tag, vec![(*row, &bytes[..])]),
            Call::Border {
                tag, rows, bytes, ..
            } => {
                let rows = rows.iter().map(|&row| row.into());
                (*tag, rows.zip(bytes.chunks(width)).collect())
            }
            _ => (0, Vec::new()),
        }
    }

    /// How many of these rows were written.
    pub fn done(&self, outcome: &Outcome) -> usize {
        match self {
            Call::Write { .. } => (outcome.answer == 0) as usize,
            Call::Border { .. } => outcome.numbers[0],
            _ => 0,
        }
    }

    /// Whether the call may have changed lent bytes.
    pub fn may_change(&self, outcome: &Outcome) -> bool {
        match self {
            Call::Snapshot { .. } | Call::Delete { .. } => outcome.answer == 0,
            _ => self.done(outcome) > 0,
        }
    }

    /// Makes the call; of the places, which have bytes to spare, it lends as many as it says.
    pub fn on_store<S: Store>(&self, records: &mut [u8], places: &mut [u8]) -> Outcome {
        match self {
            Call::Snapshot { source, tag } => Outcome::plain(S::snapshot(records, *source, *tag)),
            Call::Read {
                tag,
                row,
                places_len,
                out_len,
            } => read::<S>(records, &places[..*places_len], *tag, *row, *out_len),
            Call::Write {
                tag,
                row,
                places_len,
                bytes,
            } => {
                let mut lent = bytes.clone();
                let answer = S::write(records, &mut places[..*places_len], *tag, *row, &lent);
                Outcome {
                    spoilt: black_box(&mut lent) != bytes,
                    ..Outcome::plain(answer)
                }
            }
            Call::Border {
                tag,
                rows,
                places_len,
                bytes,
            } => {
                let places = &mut places[..*places_len];
                let mut lent = (rows.clone(), bytes.clone());
                let (answer, done) = S::border(records, places, *tag, &lent.0, &lent.1);
                let (lent_rows, lent_bytes) = black_box(&mut lent);
                Outcome {
                    spoilt: lent_rows != rows || lent_bytes != bytes,
                    ..Outcome::with_numbers(answer, &[done])
                }
            }
            Call::Delete { tag } => Outcome::plain(S::delete(records, *tag)),
            Call::Count => {
                let (answer, used, snapshots) = S::count(records);
                Outcome::with_numbers(answer, &[used, snapshots])
            }
        }
    }

    pub fn on_copies(&self, copies: &mut Copies) -> Outcome {
        match self {
            Call::Snapshot { source, tag } => Outcome::plain(copies.snapshot(*source, *tag)),
            Call::Read {
                tag,
                row,
                places_len,
                out_len,
            } => match copies.read(*places_len, *tag, *row, *out_len) {
                Err(refusal) => self.refused(refusal),
                Ok((bytes, sharers)) => Outcome {
                    row: bytes.to_vec(),
                    ..Outcome::with_numbers(0, &[sharers])
                },
            },
            Call::Write {
                tag,
                row,
                places_len,
                bytes,
            } => Outcome::plain(copies.write(*places_len, *tag, *row, bytes)),
            Call::Border {
                tag,
                rows,
                places_len,
                bytes,
            } => {
                let (answer, done) = copies.border(*places_len, *tag, rows, bytes);
                Outcome::with_numbers(answer, &[done])
            }
            Call::Delete { tag } => Outcome::plain(copies.delete(*tag)),
            Call::Count => {
                let (used, snapshots) = copies.count();
                Outcome::with_numbers(0, &[used, snapshots])
            }
        }
    }
}

/// Reads into a marked buffer. A refusal that leaves it as it was gives an empty row.
pub fn read<S: Store>(
    records: &[u8],
    places: &[u8],
    tag: u16,
    row: usize,
    out_len: usize,
) -> Outcome {
    let mut out = vec![UNFILLED; out_len];
    let (answer, sharers) = S::read(records, places, tag, row, &mut out);
    if answer != 0 && out.iter().all(|&byte| byte == UNFILLED) {
        out.clear();
    }
    Outcome {
        row: out,
        ..Outcome::with_numbers(answer, &[sharers])
    }
}

/// Which version a new snapshot is mostly taken of.
#[derive(Clone, Copy)]
pub enum Source {
    Any,
    Latest,
    Origin,
}

/// How a history's calls are drawn.
#[derive(Clone, Copy)]
pub struct Habit {
    pub name: &'static str,
    /// Of snapshot, read, write, border, delete and count.
    pub weights: [usize; 6],
    pub source: Source,
    /// Tags are drawn up to this one.
    pub highest_tag: usize,
    pub calls: usize,
}

impl Habit {
    /// All calls, of any version.
    pub const MIXED: Habit = Habit {
        name: "mixed",
        weights: [20, 15, 40, 10, 15, 10],
        source: Source::Any,
        highest_tag: 9,
        calls: 120,
    };

    pub fn draw(&self, dice: &mut Dice, copies: &Copies, latest: u16) -> Call {
        match dice.weighted(&self.weights) {
            0 => Call::Snapshot {
                source: self.draw_source(dice, copies, latest),
                tag: dice.below(self.highest_tag + 1) as u16,
            },
            1 => Call::Read {
                tag: self.draw_tag(dice, copies),
                row: draw_row(dice, copies),
                places_len: draw_len(dice, copies.measures.places_len()),
                out_len: draw_len(dice, copies.measures.width),
            },
            2 => {
                let tag = self.draw_tag(dice, copies);
                let row = draw_row(dice, copies);
                let bytes = draw_bytes(dice, copies, tag, row);
                Call::Write {
                    tag,
                    row,
                    places_len: draw_len(dice, copies.measures.places_len()),
                    bytes: draw_fitting(dice, bytes),
                }
            }
            3 => {
                let tag = self.draw_tag(dice, copies);
                let rows = draw_rows(dice, copies);
                let row_bytes = |&row: &u16| draw_bytes(dice, copies, tag, row.into());
                let bytes = rows.iter().flat_map(row_bytes).collect();
                Call::Border {
                    tag,
                    rows,
                    places_len: draw_len(dice, copies.measures.places_len()),
                    bytes: draw_fitting(dice, bytes),
                }
            }
            4 => Call::Delete {
                tag: self.draw_tag(dice, copies),
            },
            _ => Call::Count,
        }
    }

    /// Mostly a living version's tag.
    fn draw_tag(&self, dice: &mut Dice, copies: &Copies) -> u16 {
        if dice.chance(85) {
            dice.pick(&copies.tags())
        } else {
            dice.below(self.highest_tag + 1) as u16
        }
    }

    fn draw_source(&self, dice: &mut Dice, copies: &Copies, latest: u16) -> u16 {
        match self.source {
            Source::Latest if dice.chance(80) => latest,
            Source::Origin if dice.chance(80) => 0,
            _ => self.draw_tag(dice, copies),
        }
    }
}

/// Mostly a row of the store.
fn draw_row(dice: &mut Dice, copies: &Copies) -> usize {
    let rows = copies.measures.rows;
    if dice.chance(95) {
        dice.below(rows)
    } else {
        dice.pick(&[rows, rows + 1, 1024, 65_535, 65_536, usize::MAX])
    }
}

/// The rows of a border: none, one, several, the most or one too many; now and then one of them is
/// no row of the store.
fn draw_rows(dice: &mut Dice, copies: &Copies) -> Vec<u16> {
    let count = match dice.weighted(&[8, 12, 60, 14, 6]) {
        0 => 0,
        1 => 1,
        2 => dice.between(2, 12),
        3 => MAX_BORDER,
        _ => MAX_BORDER + 1,
    };
    let rows = copies.measures.rows;
    let mut drawn: Vec<u16> = (0..count).map(|_| dice.below(rows) as u16).collect();
    if count > 0 && dice.chance(15) {
        drawn[dice.below(count)] = dice.pick(&[rows as u16, rows as u16 + 1, 1024, u16::MAX]);
    }
    drawn
}

/// Mostly the length that is right.
fn draw_len(dice: &mut Dice, right: usize) -> usize {
    if dice.chance(97) {
        right
    } else {
        dice.pick(&[0, right.saturating_sub(1), right + 1, right + 2])
    }
}

/// A row's bytes: now and then those that it has already.
fn draw_bytes(dice: &mut Dice, copies: &Copies, tag: u16, row: usize) -> Vec<u8> {
    let known = copies.tags().contains(&tag) && row < copies.measures.rows;
    if known && dice.chance(10) {
        return copies.row(tag, row).to_vec();
    }
    dice.bytes(copies.measures.width)
}

/// The bytes, or now and then too many or few.
fn draw_fitting(dice: &mut Dice, mut bytes: Vec<u8>) -> Vec<u8> {
    bytes.resize(draw_len(dice, bytes.len()), 0);
    bytes
}
