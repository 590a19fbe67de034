//! The stores that are timed, as the host lends them, in the states that the calls need.

use rowstore_host::dice::Dice;
use rowstore_host::judge::Records;
use rowstore_host::layout::Measures;
use rowstore_host::plain::Plain;
use rowstore_host::store::{Store, MAX_BORDER};
use std::cmp::Reverse;
use std::collections::HashSet;

/// How many versions and rows a call goes through in turn.
const TARGETS: usize = 64;

/// How many borders are written in turn; a repetition has no fewer calls.
pub const BORDERS: usize = 4;

#[derive(Clone, Copy)]
pub struct Shape {
    pub name: &'static str,
    pub measures: Measures,
    pub snapshots: usize,
    /// Entries of the table in use.
    pub entries: usize,
    /// How the snapshots are taken.
    pub tree: fn(&mut Lent, &mut Dice),
}

pub const SMALL: Shape = Shape {
    name: "small",
    measures: Measures::of(4, 8, 6),
    snapshots: 1,
    entries: 2,
    tree: Lent::come_and_go,
};

pub const MIDDLE: Shape = Shape {
    name: "middle",
    measures: Measures::of(128, 64, 512),
    snapshots: 16,
    entries: 192,
    tree: Lent::come_and_go,
};

pub const LARGEST: Shape = Shape {
    name: "largest",
    measures: Measures::of(1024, 128, 4096),
    snapshots: 64,
    entries: 3072,
    tree: Lent::come_and_go,
};

/// All 128 nodes are in use.
pub const FULLEST: Shape = Shape {
    name: "fullest tree",
    tree: Lent::branch,
    ..LARGEST
};

/// The table of the largest store shared out among the snapshots of a chain.
pub const CHAIN_ROWS: usize = LARGEST.entries / LARGEST.snapshots;

/// The numbers of entries in the table of growth.
pub const GROWTH: [usize; 5] = [240, 480, 960, 1920, 3840];

/// A store as the host lends it.
#[derive(Clone)]
pub struct Lent {
    pub shape: Shape,
    pub records: Vec<u8>,
    pub places: Vec<u8>,
}

impl Lent {
    /// Grows a store of the shape: snapshots are taken, then rows are written.
    pub fn grown(shape: Shape) -> Lent {
        let mut lent = Lent::opened(shape);
        let mut dice = Dice::new(1);
        (shape.tree)(&mut lent, &mut dice);
        let used = shape.measures.rows + shape.entries;
        while Plain::count(&lent.records).1 < used {
            let missing = used - Plain::count(&lent.records).1;
            lent.write_drawn(&mut dice, missing);
        }
        lent
    }

    /// Every other snapshot goes again, so that ghosts stand between the rest.
    fn come_and_go(&mut self, dice: &mut Dice) {
        self.take_snapshots(dice);
        for tag in (2..self.shape.snapshots as u16).step_by(2) {
            self.write_drawn(dice, self.rows());
            Plain::delete(&mut self.records, tag);
        }
        self.take_snapshots(dice);
    }

    /// Each snapshot but the first is taken of a drawn one, which is written then: its node becomes a
    /// ghost, since the new one reads on through it. Half of the table is left for later.
    fn branch(&mut self, dice: &mut Dice) {
        let Shape {
            snapshots, entries, ..
        } = self.shape;
        assert_eq!(Plain::snapshot(&mut self.records, 0, 1), 0);
        for tag in 2..=snapshots {
            let source = dice.between(1, tag - 1) as u16;
            assert_eq!(Plain::snapshot(&mut self.records, source, tag as u16), 0);
            for _ in 0..entries / snapshots / 2 {
                let row = dice.below(self.rows());
                assert_eq!(self.write(dice, source, row), 0);
            }
        }
        assert_eq!(self.parsed().ghosts(), snapshots - 1);
    }

    /// A chain: each snapshot is taken of the one before, and every one has the same rows of its
    /// own. All other rows are the origin's, at the end of the longest way up.
    pub fn chain() -> Lent {
        let shape = Shape {
            name: "chain",
            ..LARGEST
        };
        let mut lent = Lent::opened(shape);
        let mut dice = Dice::new(1);
        for tag in 1..=shape.snapshots as u16 {
            assert_eq!(Plain::snapshot(&mut lent.records, tag - 1, tag), 0);
            for row in 0..CHAIN_ROWS {
                assert_eq!(lent.write(&mut dice, tag, row), 0);
            }
        }
        lent
    }

    pub fn opened(shape: Shape) -> Lent {
        let mut lent = Lent {
            shape,
            records: vec![0; shape.measures.records_len()],
            places: vec![0; shape.measures.places_len()],
        };
        assert_eq!(open::<Plain>(&mut lent), 0);
        lent
    }

    fn take_snapshots(&mut self, dice: &mut Dice) {
        while Plain::count(&self.records).2 < self.shape.snapshots {
            let tag = dice.between(1, self.shape.snapshots) as u16;
            let source = dice.pick(&self.tags());
            Plain::snapshot(&mut self.records, source, tag);
        }
    }

    /// Writes rows; each takes one place or none.
    fn write_drawn(&mut self, dice: &mut Dice, writes: usize) {
        let tags = self.tags();
        for _ in 0..writes.min(self.shape.entries / 4 + 1) {
            let (tag, row) = (dice.pick(&tags), dice.below(self.rows()));
            self.write(dice, tag, row);
        }
    }

    /// Writes drawn bytes to a row.
    fn write(&mut self, dice: &mut Dice, tag: u16, row: usize) -> u8 {
        let bytes = dice.bytes(self.shape.measures.width);
        Plain::write(&mut self.records, &mut self.places, tag, row, &bytes)
    }

    pub fn parsed(&self) -> Records {
        Records::of(&self.records).expect("grown records")
    }

    pub fn tags(&self) -> Vec<u16> {
        self.parsed().tags()
    }

    pub fn snapshots(&self) -> Vec<u16> {
        self.tags().into_iter().filter(|&tag| tag != 0).collect()
    }

    pub fn rows(&self) -> usize {
        self.shape.measures.rows
    }

    /// The place in which a version reads a row, for all of them.
    fn place(&self) -> impl Fn(u16, usize) -> usize {
        let records = self.parsed();
        move |tag, row| records.place_of(tag, row).expect("a place for every row")
    }

    /// Whether another version shares a version's row, for all of them.
    fn is_shared(&self) -> impl Fn(u16, usize) -> bool {
        let place = self.place();
        let mut readers = vec![0; self.shape.measures.places];
        for tag in self.tags() {
            (0..self.rows()).for_each(|row| readers[place(tag, row)] += 1);
        }
        move |tag, row| readers[place(tag, row)] > 1
    }

    /// The bytes of rows, one after the other.
    pub fn bytes(&self, tag: u16, rows: &[u16]) -> Vec<u8> {
        let place = self.place();
        let stretch = |&row: &u16| self.shape.measures.stretch(place(tag, row.into()));
        let bytes = rows.iter().flat_map(|row| &self.places[stretch(row)]);
        bytes.copied().collect()
    }

    /// Versions and rows drawn from those that are shared, or from those that are not.
    pub fn targets(&self, shared: bool) -> Vec<(u16, usize)> {
        let (tags, is_shared) = (self.tags(), self.is_shared());
        let mut dice = Dice::new(2);
        let mut drawn = (0..100_000).map(|_| (dice.pick(&tags), dice.below(self.rows())));
        let mut targets = Vec::new();
        while targets.len() < TARGETS {
            targets.extend(drawn.find(|&(tag, row)| is_shared(tag, row) == shared));
        }
        targets
    }

    /// Versions and rows of both kinds.
    pub fn all_targets(&self) -> Vec<(u16, usize)> {
        [self.targets(true), self.targets(false)].concat()
    }

    /// Borders of rows that are shared, or of those that are not, for the versions that have most of
    /// them: as many different rows as there are and are asked for, again and again.
    pub fn borders(&self, shared: bool, most: usize) -> Vec<Border> {
        let is_shared = self.is_shared();
        let border = |tag: u16| {
            let rows = 0..self.rows() as u16;
            let rows = rows.filter(|&row| is_shared(tag, row.into()) == shared);
            let rows = rows.collect();
            Border { tag, rows }
        };
        let mut borders: Vec<Border> = self.tags().into_iter().map(border).collect();
        borders.sort_by_key(|border| Reverse(border.rows.len()));
        borders.retain(|border| !border.rows.is_empty());
        borders.truncate(BORDERS);
        for Border { rows, .. } in &mut borders {
            rows.sort_by_key(|row| row.wrapping_mul(40_503));
            rows.truncate(most);
            *rows = rows.iter().copied().cycle().take(MAX_BORDER).collect();
        }
        borders
    }
}

/// A version and 64 of its rows.
pub struct Border {
    pub tag: u16,
    pub rows: Vec<u16>,
}

impl Border {
    /// Writes the rows with one call, or with a call for each; 0 if all are accepted.
    pub fn write<S: Store>(
        &self,
        at_once: bool,
        records: &mut [u8],
        places: &mut [u8],
        bytes: &[u8],
    ) -> u8 {
        if at_once {
            return S::border(records, places, self.tag, &self.rows, bytes).0;
        }
        let rows = self.rows.iter().zip(bytes.chunks(bytes.len() / MAX_BORDER));
        rows.fold(0, |answer, (&row, bytes)| {
            answer | S::write(records, places, self.tag, row.into(), bytes)
        })
    }

    pub fn different_rows(&self) -> usize {
        self.rows.iter().collect::<HashSet<_>>().len()
    }
}

pub fn open<S: Store>(lent: &mut Lent) -> u8 {
    S::open(&mut lent.records, &mut lent.places, lent.shape.measures)
}

/// One shape of store, in the states that the calls need.
pub struct Stock {
    pub full: Lent,
    /// With a free entry.
    pub roomy: Lent,
    /// With free entries for a border, or with none in use.
    roomier: Lent,
    /// With fewer than 64 snapshots.
    pub open_to_more: Lent,
}

impl Stock {
    pub fn of(shape: Shape) -> Stock {
        let Measures { rows, places, .. } = shape.measures;
        let with_free = |free: usize| {
            let entries = shape.entries.min((places - rows).saturating_sub(free));
            Lent::grown(Shape { entries, ..shape })
        };
        let snapshots = shape.snapshots.min(63);
        Stock {
            full: Lent::grown(shape),
            roomy: with_free(1),
            roomier: with_free(MAX_BORDER),
            open_to_more: Lent::grown(Shape { snapshots, ..shape }),
        }
    }

    /// For each kind of border the store that it is written to, and the borders.
    pub fn borders(&self) -> [(&Lent, Vec<Border>); 3] {
        let free = self.roomier.parsed().free_places().len();
        [
            (&self.full, self.full.borders(false, MAX_BORDER)),
            (&self.roomier, self.roomier.borders(true, free)),
            (&self.full, self.full.borders(true, MAX_BORDER)),
        ]
    }
}
