//! A store under trial, with its lent bytes and its full copies.

use super::calls::{read, Call, Habit, Outcome};
use super::tally::Tally;
use rowstore_host::copies::{Copies, Version};
use rowstore_host::dice::Dice;
use rowstore_host::judge::Records;
use rowstore_host::layout::{Measures, TABLE};
use rowstore_host::store::answer::*;
use rowstore_host::store::{Store, MAX_BORDER};
use std::fmt::Debug;
use std::marker::PhantomData;

/// Bytes kept behind the records and the places, to lend too many.
pub const SPARE: usize = 3;

/// How much is compared after each call.
#[derive(Clone, Copy)]
pub enum Care {
    /// Everything.
    Whole,
    /// Some rows; the records are judged now and then.
    Sample { rows: usize, judge_every: usize },
}

pub struct Trial<S> {
    title: String,
    measures: Measures,
    records: Vec<u8>,
    places: Vec<u8>,
    pub copies: Copies,
    pub tally: Tally,
    care: Care,
    dice: Dice,
    made: usize,
    /// The tag of the last snapshot taken.
    pub latest: u16,
    store: PhantomData<S>,
}

/// A row that a call is to write, as it stands when its turn comes.
struct Turn {
    row: usize,
    /// The version reads the same bytes there already.
    equal: bool,
    /// Where a row must stay that no other version shared before the call.
    own_place: Option<usize>,
}

/// The copies that sound records from elsewhere start with.
pub fn adopted(records: &Records, places: &[u8]) -> Copies {
    let measures = records.measures;
    let version = |tag: u16| {
        let place = |row| records.place_of(tag, row).expect("a place for every row");
        let marks: Vec<usize> = (0..measures.rows).map(place).collect();
        let row_bytes = |&place: &usize| &places[measures.stretch(place)];
        let bytes = marks.iter().flat_map(row_bytes).copied().collect();
        (tag, Version { bytes, marks })
    };
    let versions = records.tags().into_iter().map(version).collect();
    Copies::of(measures, versions)
}

fn living_node(records: &Records, tag: u16) -> usize {
    records.node_of(tag).expect("a living version's node")
}

impl<S: Store> Trial<S> {
    /// Opens on dirty bytes.
    pub fn open(title: &str, measures: Measures, care: Care) -> Trial<S> {
        let mut records = vec![0xa5; measures.records_len() + SPARE];
        let mut places = vec![0x5a; measures.places_len() + SPARE];
        let lent_records = &mut records[..measures.records_len()];
        let lent_places = &mut places[..measures.places_len()];
        let opened = S::open(lent_records, lent_places, measures);
        assert_eq!(opened, 0, "{title}: opening {measures:?}");
        let zero = lent_places.iter().all(|&byte| byte == 0);
        assert!(zero, "{title}: opened places are not zero");
        let copies = Copies::open(lent_records.len(), lent_places.len(), measures)
            .expect("copies open as the store does");
        let mut trial = Trial::on(title, measures, care, copies);
        (trial.records, trial.places) = (records, places);
        trial.compare_all(1);
        trial
    }

    /// Goes on from sound records and their places.
    pub fn adopt(title: &str, records: &[u8], places: &[u8]) -> Trial<S> {
        let parsed = Records::of(records).expect("records of a fitting length");
        let copies = adopted(&parsed, places);
        let mut trial = Trial::on(title, parsed.measures, Care::Whole, copies);
        trial.records = [records, &[0; SPARE]].concat();
        trial.places = [places, &[0; SPARE]].concat();
        trial.compare_all(1);
        trial
    }

    fn on(title: &str, measures: Measures, care: Care, copies: Copies) -> Trial<S> {
        Trial {
            title: title.to_string(),
            measures,
            records: Vec::new(),
            places: Vec::new(),
            copies,
            tally: Tally::of_one(),
            care,
            dice: Dice::new(1),
            made: 0,
            latest: 0,
            store: PhantomData,
        }
    }

    pub fn records(&self) -> &[u8] {
        &self.records[..self.measures.records_len()]
    }

    pub fn places(&self) -> &[u8] {
        &self.places[..self.measures.places_len()]
    }

    /// The records taken apart by the judge.
    pub fn parsed(&self) -> Records {
        self.parsed_of(&self.records)
    }

    /// The same of records that stood there before.
    fn parsed_of(&self, records: &[u8]) -> Records {
        let len = self.measures.records_len();
        Records::of(&records[..len]).expect("records of a fitting length")
    }

    pub fn snapshot(&mut self, source: u16, tag: u16) -> u8 {
        self.call(&Call::Snapshot { source, tag }).answer
    }

    pub fn read_of(&self, tag: u16, row: usize) -> Call {
        Call::Read {
            tag,
            row,
            places_len: self.measures.places_len(),
            out_len: self.measures.width,
        }
    }

    /// Reads a row; gives the answer and the sharers.
    pub fn read(&mut self, tag: u16, row: usize) -> (u8, usize) {
        let got = self.call(&self.read_of(tag, row));
        (got.answer, got.numbers[0])
    }

    /// Writes a row full of one byte.
    pub fn write(&mut self, tag: u16, row: usize, byte: u8) -> u8 {
        let write = Call::Write {
            tag,
            row,
            places_len: self.measures.places_len(),
            bytes: vec![byte; self.measures.width],
        };
        self.call(&write).answer
    }

    /// A border of rows that are each full of one byte.
    pub fn border_of(&self, tag: u16, rows: &[(u16, u8)]) -> Call {
        let row_bytes = |&(_, byte): &(u16, u8)| vec![byte; self.measures.width];
        Call::Border {
            tag,
            rows: rows.iter().map(|&(row, _)| row).collect(),
            places_len: self.measures.places_len(),
            bytes: rows.iter().flat_map(row_bytes).collect(),
        }
    }

    /// Writes such a border; gives the answer and the rows done.
    pub fn border(&mut self, tag: u16, rows: &[(u16, u8)]) -> (u8, usize) {
        let got = self.call(&self.border_of(tag, rows));
        (got.answer, got.numbers[0])
    }

    pub fn delete(&mut self, tag: u16) -> u8 {
        self.call(&Call::Delete { tag }).answer
    }

    /// Draws calls, and now and then lends records of a wrong length.
    pub fn draw(&mut self, dice: &mut Dice, habit: &Habit) {
        for _ in 0..habit.calls {
            let call = habit.draw(dice, &self.copies, self.latest);
            if dice.chance(3) {
                let right = self.measures.records_len();
                let wrong = [0, TABLE - 1, right - 1, right + 1, right + SPARE];
                self.misfit(&call, dice.pick(&wrong));
            }
            self.call(&call);
        }
    }

    /// Makes the call on store and copies, and compares.
    pub fn call(&mut self, call: &Call) -> Outcome {
        self.made += 1;
        let before = (self.records.clone(), self.places.clone());
        self.note_delete(call);
        let turns = self.turns(call);
        let wanted = call.on_copies(&mut self.copies);
        let len = self.measures.records_len();
        let got = call.on_store::<S>(&mut self.records[..len], &mut self.places);
        self.check(&got, &wanted, call, "the answer");
        self.tally.call(call.name(), got.answer);
        let done = &turns[..call.done(&got)];
        // Bytes that are there already change nothing, and are never refused with 24.
        let written = done.iter().any(|turn| !turn.equal);
        let changed = written || done.is_empty() && call.may_change(&got);
        if !changed {
            self.check(&self.records, &before.0, call, "the records lent");
        }
        if written {
            self.check_written(call, done, &before);
        } else {
            self.check(&self.places, &before.1, call, "the places lent");
        }
        if got.answer == NO_PLACE {
            let equal = turns[done.len()].equal;
            self.check(&equal, &false, call, "equal bytes that are refused");
        }
        self.tally.untouched += 1;
        self.note_read(call, &got);
        self.note_write(call, !written && !done.is_empty());
        self.note_border(call, &got, done, &before.0);
        if let (Call::Snapshot { tag, .. }, 0) = (call, got.answer) {
            self.latest = *tag;
        }
        self.compare();
        got
    }

    /// Makes the call with records of a wrong length, which is 20 before all else.
    pub fn misfit(&mut self, call: &Call, records_len: usize) {
        self.made += 1;
        let before = (self.records.clone(), self.places.clone());
        let got = call.on_store::<S>(&mut self.records[..records_len], &mut self.places);
        let wanted = call.refused(UNSOUND);
        self.check(&got, &wanted, call, "the answer to misfit records");
        self.check(&self.records, &before.0, call, "the misfit records lent");
        self.check(&self.places, &before.1, call, "the places lent");
        self.tally.call(call.name(), got.answer);
        self.tally.untouched += 1;
    }

    fn at(&self) -> String {
        format!("{} ({}), call {}", self.title, S::NAME, self.made)
    }

    fn check<T: PartialEq + Debug + ?Sized>(&self, got: &T, wanted: &T, call: &Call, what: &str) {
        if got != wanted {
            let (mut got, mut wanted) = (format!("{got:?}"), format!("{wanted:?}"));
            got.truncate(600);
            wanted.truncate(600);
            panic!("{}: {what}: got {got}, not {wanted}; {call:?}", self.at());
        }
    }

    /// Counts what kind of node an accepted delete will take away.
    fn note_delete(&mut self, call: &Call) {
        let Call::Delete { tag } = *call else { return };
        if tag == 0 || !self.copies.tags().contains(&tag) {
            return;
        }
        let records = self.parsed();
        let node = living_node(&records, tag);
        let above = records.parent(node);
        let shape = match (records.children(node), records.is_ghost(above)) {
            (0, false) => "leaf",
            (0, true) if records.children(above) == 2 => "leaf, its ghost goes too",
            (0, true) => "leaf, its ghost stays",
            (1, false) => "node with one child",
            (1, true) => "node with one child under a ghost",
            (_, false) => "node with several children",
            (_, true) => "node with several children under a ghost",
        };
        self.tally.meet("deletes", shape);
    }

    /// Counts of what kinds a read was.
    fn note_read(&mut self, call: &Call, got: &Outcome) {
        let &Call::Read { tag, row, .. } = call else {
            return;
        };
        let accepted = got.answer == 0;
        let kind = match got.numbers[0] {
            _ if !accepted => "refused",
            1 => "a row of its own",
            2 => "a row of two",
            65 => "a row of all 65 versions",
            _ => "a row of several",
        };
        self.tally.meet("reads", kind);
        if accepted && self.shares_past_a_ghost(tag, row) {
            self.tally.meet("reads", "a row read past a ghost");
        }
    }

    /// Whether a ghost lies on the way up between a version and one that shares the row with it.
    fn shares_past_a_ghost(&self, tag: u16, row: usize) -> bool {
        let records = self.parsed();
        let node = living_node(&records, tag);
        let mut tags = self.copies.tags();
        tags.retain(|&other| self.copies.shares(tag, other, row));
        tags.into_iter().any(|other| {
            let other = living_node(&records, other);
            records.ghost_between(node, other) || records.ghost_between(other, node)
        })
    }

    /// Counts to what kind of row a write brought the bytes that were there, and still are.
    fn note_write(&mut self, call: &Call, equal: bool) {
        let (&Call::Write { tag, row, .. }, true) = (call, equal) else {
            return;
        };
        let records = self.parsed();
        let node = living_node(&records, tag);
        let full = self.copies.count().0 == self.measures.places;
        let kind = match (self.copies.shared(tag, row), tag) {
            (false, _) => "a row of its own",
            (true, _) if full => "a shared row of a full store",
            (true, 0) => "a shared row of the origin",
            (true, _) if records.children(node) > 0 => "a shared row of a snapshot with children",
            (true, _) => "a shared row of a snapshot",
        };
        self.tally.meet("equal bytes written", kind);
    }

    /// Counts of what kinds a border was.
    fn note_border(&mut self, call: &Call, got: &Outcome, done: &[Turn], records: &[u8]) {
        let Call::Border {
            tag, rows, bytes, ..
        } = call
        else {
            return;
        };
        let (before, after) = (self.parsed_of(records), self.parsed());
        let taken = before.free_places().len() - after.free_places().len();
        let ghost = after.ghosts() > before.ghosts();
        let (answer, count, most) = (got.answer, rows.len(), rows.len() == MAX_BORDER);
        let (dead, too_many) = (answer == NO_VERSION, answer == TOO_MANY_ROWS);
        let fits = bytes.len() == count * self.measures.width;
        let inside = !done.is_empty() && done.len() + 1 < count;
        let again = |i: usize| done[..i].iter().any(|turn| turn.row == done[i].row);
        let kinds = [
            ("no row", answer == 0 && count == 0),
            ("one row", answer == 0 && count == 1),
            ("several rows", answer == 0 && count > 1 && !most),
            ("64 rows", answer == 0 && most),
            ("a row twice", (0..done.len()).any(again)),
            ("equal bytes", done.iter().any(|turn| turn.equal)),
            ("two places for the origin", taken > 1 && *tag == 0),
            ("two places and a ghost", taken > 1 && ghost),
            ("ended inside by 3", answer == ROW && inside),
            ("ended inside by 24", answer == NO_PLACE && inside),
            ("no row of a dead version", dead && count == 0),
            ("rows of a dead version", dead && count > 0),
            ("places of a wrong length", answer == LENGTH && fits),
            ("bytes of a wrong length", answer == LENGTH && !fits),
            ("65 rows", too_many && fits),
            ("65 rows of a wrong length", too_many && !fits),
        ];
        for (kind, _) in kinds.into_iter().filter(|&(_, met)| met) {
            self.tally.meet("borders", kind);
        }
    }

    /// The rows of the store that a call is to write, up to the first that is none.
    fn turns(&self, call: &Call) -> Vec<Turn> {
        let (tag, rows) = call.rows(self.measures.width);
        if rows.is_empty() || !self.copies.tags().contains(&tag) {
            return Vec::new();
        }
        let records = self.parsed();
        let turn = |i: usize| {
            let (row, bytes) = rows[i];
            if row >= self.measures.rows {
                return None;
            }
            let earlier = rows[..i].iter().rfind(|(other, _)| *other == row);
            let own_place = (!self.copies.shared(tag, row)).then(|| records.place_of(tag, row));
            Some(Turn {
                row,
                equal: earlier.map_or(self.copies.row(tag, row), |(_, bytes)| bytes) == bytes,
                own_place: own_place.flatten(),
            })
        };
        (0..rows.len()).map_while(turn).collect()
    }

    /// Rows that are written change their places, and ones that were free; no other byte.
    fn check_written(&self, call: &Call, done: &[Turn], before: &(Vec<u8>, Vec<u8>)) {
        let (tag, _) = call.rows(self.measures.width);
        let after = self.parsed();
        let free = after.free_places();
        let left = self.measures.places - self.copies.count().0;
        self.check(&free.len(), &left, call, "the places free");
        let mut filled = self.parsed_of(&before.0).free_places();
        filled.retain(|place| free.binary_search(place).is_err());
        for turn in done {
            let place = after.place_of(tag, turn.row).expect("a place for the row");
            if let Some(own) = turn.own_place {
                self.check(&place, &own, call, "the place of an unshared row");
            }
            if !turn.equal {
                filled.push(place);
            }
        }
        let mut wanted = before.1.clone();
        for place in filled {
            let stretch = self.measures.stretch(place);
            wanted[stretch.clone()].copy_from_slice(&self.places[stretch]);
        }
        self.check(&self.places, &wanted, call, "the places not written");
    }

    fn compare(&mut self) {
        match self.care {
            Care::Whole => self.compare_all(1),
            Care::Sample { rows, judge_every } => {
                let records = self.parsed();
                for _ in 0..rows {
                    let tag = self.dice.pick(&self.copies.tags());
                    let row = self.dice.below(self.measures.rows);
                    self.compare_row(tag, row);
                    self.compare_sharing(&records, row);
                }
                if self.made % judge_every == 0 {
                    self.judge(&records);
                    self.compare_count();
                }
            }
        }
    }

    /// Compares all of it; each version reads every `stride`-th row, each from another one on, and
    /// the judge finds every row.
    pub fn compare_all(&mut self, stride: usize) {
        let records = self.parsed();
        self.judge(&records);
        for row in 0..self.measures.rows {
            self.compare_sharing(&records, row);
        }
        for (number, tag) in self.copies.tags().into_iter().enumerate() {
            for row in 0..self.measures.rows {
                self.compare_place(&records, tag, row);
            }
            for row in (number % stride..self.measures.rows).step_by(stride) {
                self.compare_row(tag, row);
            }
        }
        self.compare_count();
    }

    /// What the store reads: the row's bytes, and how many share it.
    fn compare_row(&mut self, tag: u16, row: usize) {
        let got = read::<S>(self.records(), self.places(), tag, row, self.measures.width);
        let wanted = (self.copies.row(tag, row), self.copies.sharers(tag, row));
        let same = got.answer == 0 && got.row == wanted.0 && got.numbers == [wanted.1];
        let at = self.at();
        assert!(same, "{at}: tag {tag} row {row}: {got:?}, not {wanted:?}");
        self.tally.rows += 1;
    }

    /// The bytes that lie in the place that the judge finds.
    fn compare_place(&mut self, records: &Records, tag: u16, row: usize) {
        let place = records.place_of(tag, row).expect("a place for every row");
        let got = &self.places[self.measures.stretch(place)];
        let same = got == self.copies.row(tag, row);
        assert!(same, "{}: tag {tag} row {row}, place {place}", self.at());
        self.tally.rows += 1;
    }

    /// Two versions read a row in one place exactly if they hold the same mark.
    fn compare_sharing(&mut self, records: &Records, row: usize) {
        let tags = self.copies.tags();
        let places: Vec<_> = tags.iter().map(|&t| records.place_of(t, row)).collect();
        for a in 0..tags.len() {
            for b in a + 1..tags.len() {
                let together = places[a] == places[b];
                let share = self.copies.shares(tags[a], tags[b], row);
                let (one, two) = (tags[a], tags[b]);
                assert_eq!(together, share, "{}: {one}, {two} at {row}", self.at());
            }
        }
        self.tally.pairs += tags.len() * (tags.len() - 1) / 2;
    }

    fn compare_count(&mut self) {
        let (used, snapshots) = self.copies.count();
        let got = S::count(self.records());
        assert_eq!(got, (0, used, snapshots), "{}: the count", self.at());
        self.tally.counts += 1;
        self.tally.snapshots = self.tally.snapshots.max(snapshots);
        self.tally.full += (used == self.measures.places) as usize;
    }

    fn judge(&mut self, records: &Records) {
        assert!(records.sound(), "{}: records not sound", self.at());
        let mut tags = records.tags();
        tags.sort();
        assert_eq!(tags, self.copies.tags(), "{}: the tags alive", self.at());
        self.tally.judged += 1;
        self.tally.ghosts = self.tally.ghosts.max(records.ghosts());
        let nodes = tags.iter().filter_map(|&tag| records.node_of(tag));
        let depth = nodes.map(|node| records.depth(node)).max().unwrap_or(0);
        self.tally.depth = self.tally.depth.max(depth);
    }
}
