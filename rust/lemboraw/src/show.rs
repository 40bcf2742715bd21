//! A tree and its last tick, for people to look at.

use crate::kind::Kind;
use crate::{raw, Status, BT};
use std::fmt::{self, Debug, Display};

/// A behavior of a tree, as the last tick left it.
#[derive(Clone, Copy, Debug, PartialEq)]
pub struct Node<'a, A> {
    /// Its place in preorder, from 0.
    pub place: usize,
    /// How deep it lies; the root is 1 deep.
    pub depth: usize,
    /// What it is.
    pub kind: Kind,
    /// The action of an `Action`.
    pub action: Option<&'a A>,
    /// The limit of a `Wait` or `Timeout`.
    pub limit: Option<f64>,
    /// The time that has passed in a `Wait` or `Timeout`.
    pub elapsed: Option<f64>,
    /// Its status after the last tick carried out: see [`BT::last_status`].
    pub status: Option<Status>,
    /// For how many ticks it has stood: see [`BT::age`].
    pub age: u64,
}

impl<A, B> BT<A, B> {
    /// The behaviors in preorder.
    pub fn nodes(&self) -> impl Iterator<Item = Node<'_, A>> + '_ {
        let tree = &self.tree;
        tree.depths().enumerate().map(move |(place, depth)| {
            let kind = tree.kind(place);
            let timed = |time: &[f64]| kind.timed().then(|| time[place]);
            Node {
                place,
                depth,
                kind,
                action: if kind == Kind::Action { tree.actions.get(usize::from(tree.ns[place])) } else { None },
                limit: timed(&tree.limits),
                elapsed: timed(&self.cells.times),
                status: Status::from_number(self.board[place]),
                age: raw::age(self.tick_count(), self.cells.sinces[place]),
            }
        })
    }

    /// The tree in the language of [Graphviz](https://graphviz.org), each behavior with its
    /// [age](BT::age) and coloured by its status after the last tick ([`BT::last_status`]): gold for
    /// running, green for success, red for failure, white for none.
    pub fn dot(&self) -> String
    where
        A: Debug,
    {
        let mut text =
            String::from("digraph {\n  ordering=out;\n  node [shape=box style=filled];\n  edge [arrowhead=none];\n");
        // The places above the one under way.
        let mut above: Vec<usize> = vec![];
        for node in self.nodes() {
            let label = node.to_string().replace('\\', "\\\\").replace('"', "\\\"");
            let color = match node.status {
                None => "white",
                Some(Status::Running) => "gold",
                Some(Status::Success) => "palegreen",
                Some(Status::Failure) => "lightcoral",
            };
            text += &format!("  {} [label=\"{label}\\nage {}\" fillcolor={color}];\n", node.place, node.age);
            above.truncate(node.depth - 1);
            if let Some(parent) = above.last() {
                text += &format!("  {parent} -> {};\n", node.place);
            }
            above.push(node.place);
        }
        text + "}\n"
    }
}

/// What it is, with its action or its times: `Timeout 3.0 (1.0 passed)`.
impl<A: Debug> Display for Node<'_, A> {
    fn fmt(&self, f: &mut fmt::Formatter<'_>) -> fmt::Result {
        write!(f, "{}", self.kind)?;
        if let Some(action) = self.action {
            write!(f, " {action:?}")?;
        }
        if let (Some(limit), Some(elapsed)) = (self.limit, self.elapsed) {
            write!(f, " {limit:?} ({elapsed:?} passed)")?;
        }
        Ok(())
    }
}

/// A line for each behavior: its status after the last tick, `-` for none, its [age](BT::age), and what it
/// is, indented by its depth.
impl<A: Debug, B> Display for BT<A, B> {
    fn fmt(&self, f: &mut fmt::Formatter<'_>) -> fmt::Result {
        for node in self.nodes() {
            let status = node.status.map_or("-".into(), |status| format!("{status:?}"));
            writeln!(f, "{status:7}{:6}{:width$}{node}", node.age, "", width = 2 * node.depth)?;
        }
        Ok(())
    }
}
