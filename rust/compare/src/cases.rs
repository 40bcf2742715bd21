//! The trees whose ticks are measured, with the event and the answers of every tick.

use crate::theirs::{Answer, Ev};
use crate::tree::{Node, Tree, ACTION, IF, MEMORYLESS_SEQUENCE, TIMEOUT, WAIT, WHEN_ALL};
use crate::Status;

/// So long that it never ends.
const LONG: f64 = 1e300;
const SEQUENCE: u8 = 8;
const WHILE: u8 = 11;
const WHILE_ALL: u8 = 12;

/// A tree with the event and the answers of every tick, which all do the same.
pub struct Case {
    pub name: String,
    pub tree: Tree,
    pub ev: Ev,
    pub answers: Vec<Answer>,
    /// Whether the tick ends the tree, so that each is a restart.
    pub restart: bool,
    /// Whether a host that has to be asked is measured, too.
    pub asks: bool,
}

fn case(name: &str, nodes: &[Node], dt: f64, restart: bool) -> Case {
    let tree = Tree::new(nodes);
    let actions = tree.kinds.iter().filter(|&&kind| kind == ACTION).count();
    let answers = vec![(Status::Running, 0.0); actions];
    Case { name: name.to_string(), tree, ev: Ev::Update(dt), answers, restart, asks: false }
}

fn above(kind: u8, n: usize, leaf: Node) -> Vec<Node> {
    let mut nodes = vec![(kind, n as u16, 0.0)];
    nodes.resize(n + 1, leaf);
    nodes
}

/// A wide tree of that many nodes whose tick visits them all.
fn wide(kind: u8, nodes: usize) -> Case {
    let n = nodes - 1;
    match kind {
        WHEN_ALL => case(&format!("WhenAll, {nodes} nodes"), &above(kind, n, (WAIT, 0, LONG)), 1.0, false),
        // Each wait takes 1 of the time, and the last ends the tree.
        SEQUENCE => {
            case(&format!("Sequence, {nodes} nodes, restarted"), &above(kind, n, (WAIT, 0, 1.0)), n as f64, true)
        }
        // The last wait gets half of what it needs.
        _ => {
            case(&format!("MemorylessSequence, {nodes} nodes"), &above(kind, n, (WAIT, 0, 1.0)), n as f64 - 0.5, false)
        }
    }
}

/// The trees that are ticked on every side.
pub fn ticked() -> Vec<Case> {
    let small = [(WHEN_ALL, 2, 0.0), (3, 1, 0.0), (WAIT, 0, LONG), (TIMEOUT, 1, LONG), (ACTION, 0, 0.0)];
    let mut all = vec![case("small, 5 nodes", &small, 1.0, false), one_kind("deep, 16 levels", 3)];
    for kind in [WHEN_ALL, SEQUENCE, MEMORYLESS_SEQUENCE] {
        all.extend([16, 32, 64, 128, 256].map(|nodes| wide(kind, nodes)));
    }
    // Most children were passed by in earlier ticks.
    let late = |kind: u8| {
        let mut nodes = above(kind, 255, (WAIT, 0, LONG));
        nodes[1..=200].iter_mut().for_each(|node| node.2 = 0.0);
        nodes
    };
    all.push(one_kind("deep Sequence", SEQUENCE));
    all.push(one_kind("deep WhenAll", WHEN_ALL));
    all.push(one_kind("deep If", IF));
    all.push(one_kind("deep While", WHILE));
    all.push(case("Sequence of 255 at place 200", &late(SEQUENCE), 1.0, false));
    all.push(case("WhenAll of 255, 200 marked", &late(WHEN_ALL), 1.0, false));
    all.push(case("Wait alone", &[(WAIT, 0, LONG)], 1.0, false));
    all
}

/// The trees whose host may not know its answers beforehand.
pub fn asked() -> Vec<Case> {
    [(1, "WhenAll of 1 action"), (10, "WhenAll of 10 actions"), (100, "WhenAll of 100 actions")]
        .map(|(n, name)| Case { asks: true, ..case(name, &above(WHEN_ALL, n, (ACTION, 7, 0.0)), 1.0, false) })
        .into()
}

/// One kind, 15 deep, above a wait: the path down the tree.
pub fn one_kind(name: &str, kind: u8) -> Case {
    let limit = if kind == TIMEOUT { LONG } else { 0.0 };
    let (n, before, behind): (u16, &[Node], &[Node]) = match kind {
        IF => (3, &[], &[(1, 0, 0.0), (1, 0, 0.0)]),
        WHILE | WHILE_ALL => (2, &[(1, 0, 0.0)], &[]),
        _ => (1, &[], &[]),
    };
    let below = vec![(WAIT, 0, LONG)];
    let nodes = (0..15).fold(below, |below, _| [&[(kind, n, limit)], before, &below, behind].concat());
    case(name, &nodes, 1.0, false)
}
