//! A slow and plain check of record bytes, rule by rule, and reading by going up.

use crate::layout::*;
use std::collections::HashSet;
use std::fmt;

struct Node {
    state: u8,
    parent: usize,
    tag: u16,
}

/// An entry of the table: free if its node is 0.
struct Entry {
    node: usize,
    row: usize,
}

/// Record bytes taken apart; their length fits their own numbers.
pub struct Records {
    pub measures: Measures,
    nodes: Vec<Node>,
    table: Vec<Entry>,
    /// For each row the nodes that have an exception there, and its place.
    exceptions: Vec<Vec<(usize, usize)>>,
}

/// A rule that records break, and where it shows.
#[derive(Clone, Debug, PartialEq)]
pub struct Fault {
    /// The rule's number in docs/LAYOUT.md.
    pub rule: usize,
    pub what: String,
    /// The byte of the records that tells it; none if their length is wrong.
    pub at: Option<usize>,
}

impl fmt::Display for Fault {
    fn fmt(&self, to: &mut fmt::Formatter) -> fmt::Result {
        write!(to, "rule {}: {}", self.rule, self.what)?;
        self.at.map_or(Ok(()), |at| write!(to, " (byte {at})"))
    }
}

/// A rule that is broken at a byte.
fn broken(rule: usize, at: usize, what: String) -> Option<Fault> {
    let at = Some(at);
    Some(Fault { rule, what, at })
}

/// The first of the seven rules that record bytes break.
pub fn fault(bytes: &[u8]) -> Option<Fault> {
    match Records::of(bytes) {
        Some(records) => records.fault(),
        None => Some(misfit(bytes)),
    }
}

/// Whether the record bytes meet all seven rules.
pub fn sound(bytes: &[u8]) -> bool {
    fault(bytes).is_none()
}

/// What is wrong with bytes whose length is not the one that their numbers give.
fn misfit(bytes: &[u8]) -> Fault {
    let len = bytes.len();
    let wrong_length = |what| Fault {
        rule: 1,
        what,
        at: None,
    };
    let Some(measures) = Measures::told_by(bytes) else {
        return wrong_length(format!(
            "the length is {len}, and the table starts at {TABLE}"
        ));
    };
    beyond_limits(measures).unwrap_or_else(|| {
        let Measures { rows, places, .. } = measures;
        let due = measures.records_len();
        wrong_length(format!(
            "the length is {len}, not {due} as for L {rows} and P {places}"
        ))
    })
}

/// The first measure that is out of its limits.
fn beyond_limits(measures: Measures) -> Option<Fault> {
    let Measures {
        rows,
        width,
        places,
    } = measures;
    let all = [
        ("L", rows, 1, MAX_ROWS, ROWS),
        ("B", width, 1, MAX_WIDTH, WIDTH),
        ("P", places, rows, MAX_PLACES, PLACES),
    ];
    let beyond = |&(_, measure, least, most, _): &(_, usize, usize, usize, _)| {
        !(least..=most).contains(&measure)
    };
    let (name, measure, least, most, at) = all.into_iter().find(beyond)?;
    broken(1, at, format!("{name} is {measure}, not {least} to {most}"))
}

/// The place in which a tag's version reads a row of sound records.
pub fn place_of(bytes: &[u8], tag: u16, row: usize) -> Option<usize> {
    Records::of(bytes)?.place_of(tag, row)
}

impl Records {
    /// Takes the bytes apart; none if their length is not the one that their numbers give.
    pub fn of(bytes: &[u8]) -> Option<Records> {
        let measures = Measures::told_by(bytes)?;
        let rows = measures.rows;
        if rows > measures.places || bytes.len() != measures.records_len() {
            return None;
        }
        let node = |n: usize| Node {
            state: bytes[STATES + n],
            parent: bytes[PARENTS + n] as usize,
            tag: number(bytes, TAGS + 2 * n),
        };
        let entry = |(&node, &row): (&u8, &[u8; 2])| Entry {
            node: node as usize,
            row: u16::from_be_bytes(row) as usize,
        };
        let (entry_nodes, entry_rows) = table(bytes);
        let table: Vec<Entry> = entry_nodes.iter().zip(entry_rows).map(entry).collect();
        let mut exceptions = vec![Vec::new(); rows];
        for (i, entry) in table.iter().enumerate() {
            if entry.node != 0 && entry.row < rows {
                exceptions[entry.row].push((entry.node, rows + i));
            }
        }
        Some(Records {
            measures,
            nodes: (0..NODES).map(node).collect(),
            table,
            exceptions,
        })
    }

    pub fn sound(&self) -> bool {
        self.fault().is_none()
    }

    /// The first rule that is broken.
    pub fn fault(&self) -> Option<Fault> {
        beyond_limits(self.measures)
            .or_else(|| (0..NODES).find_map(|n| self.wrong_state(n)))
            .or_else(|| self.used().find_map(|n| self.wrong_way(n)))
            .or_else(|| self.wrong_tags())
            .or_else(|| self.wrong_children())
            .or_else(|| (0..self.table.len()).find_map(|i| self.wrong_entry(i)))
            .or_else(|| (0..self.table.len()).find_map(|i| self.unread_entry(i)))
    }

    /// Places that stand free, lowest first.
    pub fn free_places(&self) -> Vec<usize> {
        let free = |&i: &usize| self.table[i].node == 0;
        let entries = (0..self.table.len()).filter(free);
        entries.map(|i| self.measures.rows + i).collect()
    }

    /// The living node that has the tag.
    pub fn node_of(&self, tag: u16) -> Option<usize> {
        let mut living = self.living();
        living.find(|&n| self.nodes[n].tag == tag)
    }

    /// The tags of the living versions, the origin's first.
    pub fn tags(&self) -> Vec<u16> {
        self.living().map(|n| self.nodes[n].tag).collect()
    }

    pub fn place_of(&self, tag: u16, row: usize) -> Option<usize> {
        self.place_from(self.node_of(tag)?, row)
    }

    pub fn parent(&self, node: usize) -> usize {
        self.nodes[node].parent
    }

    pub fn tag(&self, node: usize) -> u16 {
        self.nodes[node].tag
    }

    /// The rows of which a node has its own, rising, and the place of each.
    pub fn own_rows(&self, node: usize) -> Vec<(usize, usize)> {
        let rows = self.exceptions.iter().enumerate();
        let own = rows.flat_map(|(row, all)| all.iter().map(move |&(n, place)| (n, row, place)));
        own.filter(|&(n, ..)| n == node)
            .map(|(_, row, place)| (row, place))
            .collect()
    }

    pub fn is_ghost(&self, node: usize) -> bool {
        self.nodes[node].state == GHOST
    }

    pub fn ghosts(&self) -> usize {
        (0..NODES).filter(|&n| self.is_ghost(n)).count()
    }

    /// How many nodes in use other than node 0 have this parent.
    pub fn children(&self, node: usize) -> usize {
        let child = |&n: &usize| self.in_use(n) && self.nodes[n].parent == node;
        (1..NODES).filter(child).count()
    }

    /// How many nodes lie on the way from a node in use up to node 0.
    pub fn depth(&self, node: usize) -> usize {
        self.way_up(node).map_or(0, |way| way.len() - 1)
    }

    /// Whether a ghost lies on the way from a node up to another one.
    pub fn ghost_between(&self, low: usize, high: usize) -> bool {
        let way = self.way_up(low).unwrap_or_default();
        let end = way.iter().position(|&node| node == high);
        end.is_some_and(|end| way[..end].iter().any(|&node| self.is_ghost(node)))
    }

    pub fn in_use(&self, node: usize) -> bool {
        node < NODES && self.nodes[node].state != EMPTY
    }

    fn living(&self) -> impl Iterator<Item = usize> + '_ {
        (0..NODES).filter(|&n| self.nodes[n].state == ALIVE)
    }

    /// The nodes from this one up to node 0; none if the way leaves the nodes in use or returns.
    fn way_up(&self, node: usize) -> Option<Vec<usize>> {
        let mut way = Vec::new();
        let mut visited = HashSet::new();
        let mut at = node;
        while at != 0 {
            if !self.in_use(at) || !visited.insert(at) {
                return None;
            }
            way.push(at);
            at = self.nodes[at].parent;
        }
        way.push(0);
        Some(way)
    }

    /// The first exception on the way up gives the place; at node 0 it is the place of that number.
    fn place_from(&self, node: usize, row: usize) -> Option<usize> {
        let exceptions = self.exceptions.get(row)?;
        let mut at = node;
        for _ in 0..NODES {
            if at == 0 {
                return Some(row);
            }
            if let Some(&(_, place)) = exceptions.iter().find(|&&(node, _)| node == at) {
                return Some(place);
            }
            at = self.nodes[at].parent;
        }
        None
    }

    /// The nodes in use but node 0.
    fn used(&self) -> impl Iterator<Item = usize> + '_ {
        (1..NODES).filter(|&n| self.in_use(n))
    }

    /// Rule 2 at a node.
    fn wrong_state(&self, n: usize) -> Option<Fault> {
        let Node { state, parent, tag } = self.nodes[n];
        let kind = match state {
            EMPTY => "empty",
            ALIVE => "alive",
            GHOST => "a ghost",
            _ => return broken(2, STATES + n, format!("node {n} has state {state}")),
        };
        if n == 0 && state != ALIVE {
            return broken(2, STATES, format!("node 0 is {kind}, not alive"));
        }
        if tag != 0 && (n == 0 || state != ALIVE) {
            let what = format!("node {n} is {kind} and has tag {tag}, not 0");
            return broken(2, TAGS + 2 * n, what);
        }
        if parent != 0 && (n == 0 || state == EMPTY) {
            let what = format!("node {n} is {kind} and has parent {parent}, not 0");
            return broken(2, PARENTS + n, what);
        }
        None
    }

    /// Rule 3 at a node in use.
    fn wrong_way(&self, n: usize) -> Option<Fault> {
        let parent = self.nodes[n].parent;
        let what = if !self.in_use(parent) {
            format!("node {n} hangs on node {parent}, which is not in use")
        } else if self.way_up(n).is_none() {
            format!("the way up from node {n} does not end at node 0")
        } else {
            return None;
        };
        broken(3, PARENTS + n, what)
    }

    /// Rule 4.
    fn wrong_tags(&self) -> Option<Fault> {
        let snapshots: Vec<usize> = self.living().filter(|&n| n != 0).collect();
        let tag = |n: usize| self.nodes[n].tag;
        for (i, &n) in snapshots.iter().enumerate() {
            let before = snapshots[..i].iter().find(|&&m| tag(m) == tag(n));
            let what = match (tag(n), before) {
                (0, _) => format!("node {n} is alive and has tag 0"),
                (tag, Some(m)) => format!("nodes {m} and {n} both have tag {tag}"),
                _ => continue,
            };
            return broken(4, TAGS + 2 * n, what);
        }
        let &beyond = snapshots.get(MAX_SNAPSHOTS)?;
        let what = format!("{} snapshots are alive", snapshots.len());
        broken(4, STATES + beyond, what)
    }

    /// Rule 5.
    fn wrong_children(&self) -> Option<Fault> {
        let mut top = self.used().filter(|&n| self.nodes[n].parent == 0);
        if let (Some(first), Some(second)) = (top.next(), top.next()) {
            let what = format!("nodes {first} and {second} both hang on node 0");
            return broken(5, PARENTS + second, what);
        }
        let lone = |&n: &usize| self.is_ghost(n) && self.children(n) < 2;
        let ghost = self.used().find(lone)?;
        let what = match self.children(ghost) {
            0 => format!("no node hangs on ghost {ghost}"),
            _ => format!("one node alone hangs on ghost {ghost}"),
        };
        broken(5, STATES + ghost, what)
    }

    /// Rule 6 at an entry of the table.
    fn wrong_entry(&self, i: usize) -> Option<Fault> {
        let Entry { node, row } = self.table[i];
        let (place, rows) = (self.measures.rows + i, self.measures.rows);
        let (node_at, row_at) = (TABLE + i, TABLE + self.table.len() + 2 * i);
        if node == 0 && row != 0 {
            return broken(
                6,
                row_at,
                format!("place {place} is free and has row {row}"),
            );
        }
        if !self.in_use(node) {
            let what = format!("place {place} is for node {node}, which is not in use");
            return broken(6, node_at, what);
        }
        if row >= rows {
            return broken(6, row_at, format!("place {place} has row {row} of {rows}"));
        }
        let same = |other: &Entry| node != 0 && other.node == node && other.row == row;
        let first = rows + self.table[..i].iter().position(same)?;
        let what = format!("places {first} and {place} both have row {row} of node {node}");
        broken(6, node_at, what)
    }

    /// Rule 7 at an entry of the table.
    fn unread_entry(&self, i: usize) -> Option<Fault> {
        let Entry { node, row } = self.table[i];
        let place = self.measures.rows + i;
        let read = |version| self.place_from(version, row) == Some(place);
        if node == 0 || self.living().any(read) {
            return None;
        }
        let what = format!("nobody reads place {place}, row {row} of node {node}");
        broken(7, TABLE + i, what)
    }
}
