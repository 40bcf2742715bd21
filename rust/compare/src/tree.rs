//! Trees as tables, and as bonsai's `Behavior`.

use crate::random::Random;
use crate::theirs::cleaned;
use crate::Behavior;
use std::fmt;

pub const WAIT: u8 = 0;
pub const ACTION: u8 = 2;
pub const TIMEOUT: u8 = 5;
pub const IF: u8 = 7;
pub const MEMORYLESS_SEQUENCE: u8 = 9;
pub const MEMORYLESS_SELECTOR: u8 = 10;
pub const WHEN_ALL: u8 = 13;
pub const WHEN_ANY: u8 = 14;
pub const AFTER: u8 = 15;

/// The fewest and most children of each kind, as document 01's table has them.
pub fn children_of(kind: u8) -> Option<(u16, u16)> {
    Some(match kind {
        0..=2 => (0, 0),
        3..=5 => (1, 1),
        6 | 8 => (1, u16::MAX),
        7 => (3, 3),
        9 | 10 | 13..=16 => (0, u16::MAX),
        11 | 12 => (2, u16::MAX),
        _ => return None,
    })
}

/// A tree as a table in preorder, with what the harness wants to know of each node.
#[derive(Clone, Debug)]
pub struct Tree {
    pub kinds: Vec<u8>,
    pub ns: Vec<u16>,
    pub limits: Vec<f64>,
    /// The end of each node's subtree.
    pub ends: Vec<usize>,
    /// The node above; its own place for the root.
    pub parents: Vec<usize>,
    /// The root is 1.
    pub depths: Vec<u16>,
}

/// Kind, number and limit.
pub type Node = (u8, u16, f64);

/// An action of bonsai's tree. It knows its depth, which tells how many visits are under way.
#[derive(Clone, Copy, Debug, PartialEq)]
pub struct Act {
    pub number: u16,
    pub depth: u16,
}

impl Tree {
    /// The tree of a good table.
    pub fn new(nodes: &[Node]) -> Self {
        let mut tree = Tree {
            kinds: nodes.iter().map(|node| node.0).collect(),
            ns: nodes.iter().map(|node| node.1).collect(),
            limits: nodes.iter().map(|node| node.2).collect(),
            ends: vec![0; nodes.len()],
            parents: vec![0; nodes.len()],
            depths: vec![1; nodes.len()],
        };
        tree.measure(0);
        tree
    }

    fn measure(&mut self, place: usize) -> usize {
        let mut q = place + 1;
        for _ in 0..self.children(place) {
            self.parents[q] = place;
            self.depths[q] = self.depths[place] + 1;
            q = self.measure(q);
        }
        self.ends[place] = q;
        q
    }

    pub fn len(&self) -> usize {
        self.kinds.len()
    }

    pub fn children(&self, place: usize) -> usize {
        if self.kinds[place] == ACTION {
            0
        } else {
            usize::from(self.ns[place])
        }
    }

    /// The places of a node's children.
    pub fn places(&self, place: usize) -> impl Iterator<Item = usize> + '_ {
        let inside = move |q: &usize| *q < self.ends[place];
        std::iter::successors(Some(place + 1).filter(inside), move |&q| Some(self.ends[q]).filter(inside))
    }

    /// The place of a node's child.
    pub fn child(&self, place: usize, index: usize) -> usize {
        (0..index).fold(place + 1, |q, _| self.ends[q])
    }

    pub fn table(&self) -> lemboraw::raw::Table<'_> {
        lemboraw::raw::Table { kinds: &self.kinds, ns: &self.ns, limits: &self.limits }
    }

    /// The subtree at a place in bonsai's words.
    pub fn behavior(&self, place: usize) -> Behavior<Act> {
        self.behavior_under(place, &|node| node)
    }

    /// The same with something above each node.
    pub fn behavior_under(&self, place: usize, above: &dyn Fn(Behavior<Act>) -> Behavior<Act>) -> Behavior<Act> {
        let child = |i| Box::new(self.behavior_under(self.child(place, i), above));
        let from = |i| self.places(place).skip(i).map(|q| self.behavior_under(q, above)).collect();
        let all = || from(0);
        let limit = cleaned(self.limits[place]);
        above(match self.kinds[place] {
            0 => Behavior::Wait(limit),
            1 => Behavior::WaitForever,
            2 => Behavior::Action(Act { number: self.ns[place], depth: self.depths[place] }),
            3 => Behavior::Invert(child(0)),
            4 => Behavior::AlwaysSucceed(child(0)),
            5 => Behavior::Timeout(limit, child(0)),
            6 => Behavior::Select(all()),
            7 => Behavior::If(child(0), child(1), child(2)),
            8 => Behavior::Sequence(all()),
            9 => Behavior::Sequence(all()).memory(false),
            10 => Behavior::Select(all()).memory(false),
            11 => Behavior::While(child(0), from(1)),
            12 => Behavior::WhileAll(child(0), from(1)),
            13 => Behavior::WhenAll(all()),
            14 => Behavior::WhenAny(all()),
            15 => Behavior::After(all()),
            _ => Behavior::Race(all()),
        })
    }

    /// A tree of up to `most` nodes and 16 levels, with limits from `limit`.
    pub fn random(random: &mut Random, most: usize, limit: &mut dyn FnMut(&mut Random) -> f64) -> Tree {
        let size = 1 + random.below(most);
        let shape = random.pick(&[Shape::Deep, Shape::Deep, Shape::Wide, Shape::Runs]);
        let mut nodes = vec![];
        grow(&mut nodes, random, 1, size, shape, limit);
        Tree::new(&nodes)
    }
}

/// How a random tree grows: with few children a node, with any number, or with long runs of Waits, most of which last.
#[derive(Clone, Copy, PartialEq)]
enum Shape {
    Deep,
    Wide,
    Runs,
}

/// Adds a random subtree of at most `size` nodes.
fn grow(
    nodes: &mut Vec<Node>,
    random: &mut Random,
    depth: usize,
    size: usize,
    shape: Shape,
    limit: &mut dyn FnMut(&mut Random) -> f64,
) {
    let below = if depth == 16 { 0 } else { size - 1 };
    let runs = shape == Shape::Runs;
    if runs && below == 0 && !random.one_in(100) {
        let time = if random.one_in(50) { limit(random) } else { random.pick(&[12.0, 1e300, f64::MAX]) };
        nodes.push((WAIT, 0, time));
        return;
    }
    // Leaves are mostly waits and actions, and now and then a node without children.
    let kind = match below {
        0 if random.one_in(4) => random.pick(&[1, 9, 10, 13, 14, 15, 16]),
        0 => random.pick(&[WAIT, ACTION]),
        1 => random.pick(&[3, 4, 5, 6, 8, 9, 10, 13, 14, 15, 16]),
        2 => random.pick(&[3, 4, 5, 6, 8, 9, 10, 11, 12, 13, 14, 15, 16]),
        _ => 3 + random.below(14) as u8,
    };
    let time = if kind == WAIT || kind == TIMEOUT { limit(random) } else { random.pick(&[0.0, -0.0]) };
    let (fewest, most) = children_of(kind).unwrap_or((0, 0));
    let most = usize::from(most).min(below);
    let wish =
        if runs && random.one_in(2) { most } else { 1 + random.below(if shape == Shape::Deep { 3 } else { most }) };
    let n = wish.max(usize::from(fewest)).min(most);
    let number = if kind == ACTION { random.pick(&[0, 1, 2, 255, 256, 65535]) } else { n as u16 };
    nodes.push((kind, number, time));
    let mut left = below;
    for i in 0..n {
        // Every later child keeps one node at least.
        let spare = left - (n - i);
        let take = if i + 1 == n { spare } else { random.below(spare + 1) };
        grow(nodes, random, depth + 1, 1 + take, shape, limit);
        left -= 1 + take;
    }
}

impl fmt::Display for Tree {
    fn fmt(&self, f: &mut fmt::Formatter<'_>) -> fmt::Result {
        for place in 0..self.len() {
            let bits = self.limits[place].to_bits();
            writeln!(f, "  01 {:02x} {:04x} {bits:016x}", self.kinds[place], self.ns[place])?;
        }
        Ok(())
    }
}
