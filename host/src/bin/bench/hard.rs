//! Sound records of the largest measures in which a ghost's reader is hard to find. They are built
//! node by node and entry by entry, and every row has three entries.

use crate::stores::{Lent, Shape, LARGEST};
use rowstore_host::dice::Dice;
use rowstore_host::layout::{put_entry, put_node, ALIVE, GHOST, NODES};
use rowstore_host::plain::Plain;
use rowstore_host::store::Store;

/// The slow store's version whose rows are the upper ghost's.
pub const SLOW_READER: u16 = 110;

/// A living chain, with a ghost on its first node. Two of the three versions below the ghost have
/// rows of their own everywhere, so one of 64 living versions reads the ghost's.
pub fn slow() -> Lent {
    let chain = (1..=60).map(|node| (node, ALIVE, node - 1));
    let ghosts = [(100, GHOST, 1), (120, GHOST, 100)];
    let leaves = [(110, ALIVE, 100), (121, ALIVE, 120), (122, ALIVE, 120)];
    let nodes = chain.chain(ghosts).chain(leaves);
    built("slow", nodes, |_| [100, 121, 122])
}

/// What hangs on each ghost of a chain of ghosts, beside the next one.
#[derive(Clone, Copy)]
enum Beside {
    /// A ghost with two living leaves.
    Pair,
    /// A living leaf.
    Leaf,
}

impl Beside {
    /// Nodes 1 to 63 are ghosts, the chain's first; 64 to 127 are leaves, of which two end the chain.
    fn parent(self, node: usize) -> usize {
        match (self, node) {
            (Beside::Pair, 1..=32) => node - 1,
            (Beside::Pair, 33..=63) => node - 32,
            (Beside::Pair, 64..=125) => node / 2 + 1,
            (Beside::Pair, _) => 32,
            (Beside::Leaf, 1..=63) => node - 1,
            (Beside::Leaf, 64..=125) => node - 63,
            (Beside::Leaf, _) => 63,
        }
    }

    /// What hangs beside the last ghost of the chain.
    fn last(self) -> usize {
        match self {
            Beside::Pair => 63,
            Beside::Leaf => 125,
        }
    }

    /// The first ghost and both leaves that end the chain have every row. Or one leaf has every other,
    /// in turn with the last beside: then the deepest reader of the ghost changes row by row.
    fn owners(self, in_turn: bool, row: usize) -> [usize; 3] {
        if in_turn && row % 2 == 1 {
            [1, 126, self.last()]
        } else {
            [1, 126, 127]
        }
    }
}

/// Which nodes have the low numbers.
#[derive(Clone, Copy)]
enum Low {
    Ghosts,
    Leaves,
}

impl Low {
    fn number(self, node: usize) -> usize {
        match self {
            Low::Ghosts => node,
            Low::Leaves => (NODES - node) % NODES,
        }
    }
}

/// Chains of ghosts as long as 64 snapshots allow, with the names of their lines.
pub fn deep_ghosts() -> Vec<(String, Lent)> {
    let mut stores = Vec::new();
    for (name, beside) in [("pairs", Beside::Pair), ("leaves", Beside::Leaf)] {
        for (order, low) in [("low", Low::Ghosts), ("high", Low::Leaves)] {
            for (turns, in_turn) in [("", false), (" turns", true)] {
                let line = format!("count {name} {order}{turns}");
                stores.push((line, deep(beside, low, in_turn)));
            }
        }
    }
    stores
}

fn deep(beside: Beside, low: Low, in_turn: bool) -> Lent {
    let nodes = (1..NODES).map(|node| {
        let state = if node < 64 { GHOST } else { ALIVE };
        (low.number(node), state, low.number(beside.parent(node)))
    });
    built("deep ghosts", nodes, |row| {
        beside.owners(in_turn, row).map(|node| low.number(node))
    })
}

/// A line's name, its store, and the version that is deleted there.
pub type Doomed = (&'static str, Lent, u16);

/// Deletes for which much has to be asked. The first of a chain, or of one with a ghost below it, has
/// every row, and so have the next living ones: it alone reads its rows. Of the leaves on ghosts below
/// ghosts one reads the first ghost's rows, like many others, and one has every row.
pub fn deletes() -> Vec<Doomed> {
    let chain = (1..=64).map(|node| (node, ALIVE, node - 1));
    let gap = [(1, ALIVE, 0), (2, GHOST, 1), (3, ALIVE, 2), (4, ALIVE, 2)];
    let below = (5..=64).map(|node| (node, ALIVE, node - 1));
    let ghosts = |beside| deep(beside, Low::Ghosts, false);
    let built = |nodes: Vec<_>, owners| built("deletes", nodes.into_iter(), move |_| owners);
    vec![
        (
            "delete a chain's first",
            built(chain.collect(), [1, 2, 3]),
            1,
        ),
        (
            "delete above a ghost",
            built(gap.into_iter().chain(below).collect(), [1, 3, 4]),
            1,
        ),
        ("delete of the last pair", ghosts(Beside::Pair), 125),
        ("delete the last leaf", ghosts(Beside::Leaf), 125),
        ("delete one with rows", ghosts(Beside::Leaf), 126),
    ]
}

/// A store of these nodes, each given with its state and its parent; a living one's tag is its
/// number. The owners have entries at their row.
fn built(
    name: &'static str,
    nodes: impl Iterator<Item = (usize, u8, usize)>,
    owners: impl Fn(usize) -> [usize; 3],
) -> Lent {
    let mut lent = Lent::opened(Shape { name, ..LARGEST });
    for (node, state, parent) in nodes {
        let tag = if state == ALIVE { node as u16 } else { 0 };
        put_node(&mut lent.records, node, state, parent, tag);
    }
    let rows = 0..lent.rows();
    let entries = rows.flat_map(|row| owners(row).map(|node| (node, row)));
    for (entry, (node, row)) in entries.enumerate() {
        put_entry(&mut lent.records, entry, node, row);
    }
    lent.places = Dice::new(1).bytes(lent.places.len());
    let (answer, used, snapshots) = Plain::count(&lent.records);
    assert_eq!((answer, used), (0, lent.shape.measures.places));
    lent.shape.snapshots = snapshots;
    lent
}
