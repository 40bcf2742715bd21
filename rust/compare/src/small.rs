//! Every tree of few nodes, with every answer and both events, for three ticks, and at each state reached an exchange
//! of each branch.

use crate::exchange;
use crate::ours::{Call, Cells, Ours, ALL};
use crate::theirs::{number, Answer, Ev, Left, Theirs, Trace};
use crate::tree::{children_of, Node, Tree, ACTION, TIMEOUT, WAIT};
use crate::{Count, Status};
use lemboraw::raw::Said;

const LIMITS: [f64; 3] = [0.0, 1.0, 2.0];
const EVENTS: [Ev; 4] = [Ev::Other, Ev::Update(-0.0), Ev::Update(1.0), Ev::Update(2.5)];
const ANSWERS: [Answer; 4] =
    [(Status::Running, 7.0), (Status::Success, -0.0), (Status::Success, 1.0), (Status::Failure, 1.0)];
const TICKS: usize = 3;
/// Enough for four nodes without loops, and for some rounds of a loop; one that never ends stops here.
const FUEL: u32 = 12;

/// Every tree of exactly `size` nodes.
pub fn trees(size: usize) -> Vec<Vec<Node>> {
    let mut all = vec![];
    for kind in 0..=16 {
        let (fewest, most) = children_of(kind).unwrap_or((0, 0));
        for n in fewest..=most.min(size as u16 - 1) {
            let limits = if kind == WAIT || kind == TIMEOUT { &LIMITS[..] } else { &[0.0] };
            for rest in forests(usize::from(n), size - 1) {
                for &limit in limits {
                    let n = if kind == ACTION { 7 } else { n };
                    let mut nodes = vec![(kind, n, limit)];
                    nodes.extend(&rest);
                    // Actions are told apart by where they stand; every other zero is minus zero.
                    for (place, node) in nodes.iter_mut().enumerate() {
                        if node.0 == ACTION {
                            node.1 = place as u16;
                        }
                        if node.2 == 0.0 {
                            node.2 = [-0.0, 0.0][place % 2];
                        }
                    }
                    all.push(nodes);
                }
            }
        }
    }
    all
}

/// Every row of `n` trees with `size` nodes in all.
fn forests(n: usize, size: usize) -> Vec<Vec<Node>> {
    if n == 0 {
        return if size == 0 { vec![vec![]] } else { vec![] };
    }
    let mut all = vec![];
    for first in 1..=size {
        let rests = forests(n - 1, size - first);
        if rests.is_empty() {
            continue;
        }
        for tree in trees(first) {
            for rest in &rests {
                all.push([&tree[..], rest].concat());
            }
        }
    }
    all
}

/// A state that both have reached.
#[derive(Clone)]
struct Point {
    theirs: Theirs,
    ours: Ours,
}

/// New branches that are tried in turn, with the turn.
struct Branches {
    all: Vec<Tree>,
    turn: usize,
}

impl Branches {
    fn new() -> Self {
        let all: [&[Node]; 6] = [
            &[(ACTION, 40, -0.0)],
            &[(WAIT, 0, 1.0)],
            &[(8, 2, 0.0), (ACTION, 41, -0.0), (WAIT, 0, -0.0)],
            &[(TIMEOUT, 1, 2.0), (ACTION, 42, 0.0)],
            &[(13, 2, -0.0), (WAIT, 0, 1.0), (ACTION, 43, 0.0)],
            &[(10, 0, 0.0)],
        ];
        Branches { all: all.into_iter().map(Tree::new).collect(), turn: 0 }
    }

    /// An exchange of each at each node of a tree, and behind the last.
    fn each_place(&mut self, tree: &Tree, point: &mut Point, count: &mut Count) -> Result<(), String> {
        let Branches { all, turn } = self;
        for (at, branch) in (0..=tree.len()).flat_map(|at| all.iter().map(move |branch| (at, branch))) {
            *turn += 1;
            let size = tree.ends.get(at).map_or(tree.len(), |end| tree.len() - (end - at) + branch.len());
            let mut room = [size + 1; 7];
            // Now and then one part of the room is just long enough, or too short.
            room[*turn % 7] -= [0, 1, 0, 0, 2][*turn % 5];
            let after = exchange::both(&point.theirs, &mut point.ours, tree, at, branch, room, count)?;
            if let Some(exchange::After { tree, theirs, ours }) = after {
                go_on(&tree, Point { theirs, ours }, *turn, count)
                    .map_err(|wrong| format!("{branch}at {at}, which gives\n{tree}{wrong}"))?;
            }
        }
        Ok(())
    }
}

/// After an exchange two ticks and a restart.
fn go_on(tree: &Tree, mut point: Point, turn: usize, count: &mut Count) -> Result<(), String> {
    let event = |tick: usize| EVENTS[(turn + tick) % EVENTS.len()];
    for tick in 0..2 {
        if !point.theirs.bt.finished {
            walk(tree, &mut point, false, event(tick), turn / 4 + tick, count)?;
        }
    }
    again(tree, point, event(2), count)
}

/// Follows a tree through every answer and event. States that meet again are followed once.
pub fn explore(nodes: &[Node], count: &mut Count) -> Result<(), String> {
    let tree = Tree::new(nodes);
    let mut theirs = Theirs::new(&tree);
    // The ticks are numbered 2^64 - 1, 0 and 1; before them each node has a number of its own.
    theirs.bt.tick_count = u64::MAX - 1;
    theirs.since.numbers = (0..tree.len() as u64).map(|place| 100 + place).collect();
    let mut level = vec![Point { ours: Ours::new(&tree, 1, &theirs), theirs }];
    let mut branches = Branches::new();
    for _ in 0..TICKS {
        let mut next = vec![];
        for point in &mut level {
            branches.each_place(&tree, point, count).map_err(|wrong| format!("{tree}{wrong}"))?;
            for ev in EVENTS {
                again(&tree, point.clone(), ev, count).map_err(|wrong| format!("{tree}{wrong}"))?;
                follow(&tree, point, ev, &mut next, count).map_err(|wrong| format!("{tree}{wrong}"))?;
            }
        }
        level = next;
    }
    Ok(())
}

fn follow(tree: &Tree, point: &mut Point, ev: Ev, next: &mut Vec<Point>, count: &mut Count) -> Result<(), String> {
    // The answers as indices, counted up like the digits of a number.
    let mut digits: Vec<usize> = vec![];
    let mut known = 0;
    loop {
        let watched = point.theirs.watch(tree, ev, FUEL, &mut |k| {
            if k == digits.len() {
                digits.push(0);
            }
            ANSWERS[digits[k]]
        });
        let trace = &watched.trace;
        for given in known..trace.asks.len() {
            call(tree, &mut point.ours, false, ev, trace, FUEL, given, None, count)?;
        }
        let all = trace.asks.len();
        if let Some((_, visits)) = trace.end.filter(|end| end.1 <= u64::from(FUEL)) {
            let visits = visits as u32;
            call(tree, &mut point.ours, false, ev, trace, visits - 1, all, None, count)?;
            let mut after = point.clone();
            after.theirs.tick(tree, ev, &watched)?;
            let left = after.theirs.left(tree);
            let fuel = visits + all as u32 % 2;
            call(tree, &mut after.ours, false, ev, trace, fuel, all, Some((&after.theirs, &left)), count)?;
            if after.theirs.bt.finished {
                finished(tree, &mut after, ev, trace, count)?;
                again(tree, after, ev, count)?;
            } else if next.iter().all(|other| other.theirs.state_differs(&after.theirs)) {
                next.push(after);
            }
        } else {
            call(tree, &mut point.ours, false, ev, trace, FUEL, all, None, count)?;
        }
        while digits.last() == Some(&(ANSWERS.len() - 1)) {
            digits.pop();
        }
        match digits.last_mut() {
            Some(digit) => *digit += 1,
            None => return Ok(()),
        }
        known = digits.len();
    }
}

/// A finished tree refuses to tick.
fn finished(tree: &Tree, point: &mut Point, ev: Ev, trace: &Trace, count: &mut Count) -> Result<(), String> {
    let (statuses, leftovers) = split(&trace.answers);
    let call = Call {
        restart: false,
        table: tree.table(),
        ev,
        fuel: FUEL,
        statuses: &statuses,
        leftovers: &leftovers,
        lent: ALL,
    };
    point.ours.call(&call, Said { no: 2, ..Said::default() }, None, count)
}

/// A restart is the Rust's reset and tick, wherever the tree stands and whatever its cells hold: with each
/// answer missing, with too little fuel, and carried out.
fn again(tree: &Tree, point: Point, ev: Ev, count: &mut Count) -> Result<(), String> {
    let Point { mut theirs, mut ours } = point;
    if ev != Ev::Other {
        ours.cells_mut().copy(&Cells::rubbish(tree.len()), tree.len());
    }
    theirs.reset();
    walk(tree, &mut Point { theirs, ours }, true, ev, 0, count)
}

/// A tick, or a restart of what was reset: with each answer missing, with too little fuel, and carried out. The answers are
/// those from `first` on.
fn walk(tree: &Tree, point: &mut Point, restart: bool, ev: Ev, first: usize, count: &mut Count) -> Result<(), String> {
    let Point { theirs, ours } = point;
    let watched = theirs.watch(tree, ev, FUEL, &mut |k| ANSWERS[(first + k) % ANSWERS.len()]);
    let trace = &watched.trace;
    let all = trace.asks.len();
    for given in 0..all {
        call(tree, ours, restart, ev, trace, FUEL, given, None, count)?;
    }
    match trace.end.filter(|end| end.1 <= u64::from(FUEL)) {
        Some((_, visits)) => {
            call(tree, ours, restart, ev, trace, visits as u32 - 1, all, None, count)?;
            theirs.tick(tree, ev, &watched)?;
            let left = theirs.left(tree);
            call(tree, ours, restart, ev, trace, visits as u32, all, Some((theirs, &left)), count)
        }
        None => call(tree, ours, restart, ev, trace, FUEL, all, None, count),
    }
}

#[allow(clippy::too_many_arguments)]
fn call(
    tree: &Tree,
    ours: &mut Ours,
    restart: bool,
    ev: Ev,
    trace: &Trace,
    fuel: u32,
    given: usize,
    then: Option<(&Theirs, &Left)>,
    count: &mut Count,
) -> Result<(), String> {
    let (statuses, leftovers) = split(&trace.answers[..given]);
    let call = Call { restart, table: tree.table(), ev, fuel, statuses: &statuses, leftovers: &leftovers, lent: ALL };
    ours.call(&call, trace.said(fuel, given), then, count)
}

/// Answers as the library takes them.
pub fn split(answers: &[Answer]) -> (Vec<u8>, Vec<f64>) {
    (answers.iter().map(|a| number(a.0)).collect(), answers.iter().map(|a| a.1).collect())
}
