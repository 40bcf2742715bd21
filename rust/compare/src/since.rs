//! Since when each node has stood, as bonsai itself shows it.
//!
//! A second bonsai ticks the same tree with a Timeout above each node. Its limit is NaN, which no time
//! reaches, so it changes nothing but the leftover of what is Running. bonsai makes each Timeout with no
//! time passed. After a tick the time in all of them is set to NaN, and whatever is added it stays NaN:
//! where it is another after the next tick, bonsai has made that State in it.

use crate::branch::{self, Step};
use crate::state::State;
use crate::theirs::{cleaned, Ev, Seen, Trace};
use crate::tree::{Act, Tree};
use crate::{ActionArgs, Behavior, Status, BT};
use std::ops::Range;

/// The second bonsai, with what it has shown.
#[derive(Clone)]
pub struct Since {
    bt: BT<Act, ()>,
    /// For each node the number of the tick that last made it fresh.
    pub numbers: Vec<u64>,
}

/// A Timeout without end above a node.
fn under_timeout(node: Behavior<Act>) -> Behavior<Act> {
    Behavior::Timeout(f64::NAN, Box::new(node))
}

/// A tick that was carried out: its number, and what was seen of it.
struct Tick<'a> {
    tree: &'a Tree,
    seen: &'a Seen,
    number: u64,
}

impl Since {
    /// A new tree.
    pub fn new(tree: &Tree, seen: &Seen) -> Self {
        let mut since = Since { bt: BT::new(tree.behavior_under(0, &under_timeout), ()), numbers: vec![0; tree.len()] };
        // What a new tree holds was made in no tick.
        Tick { tree, seen, number: 0 }.follow(&mut since.bt.state, 0, &mut since.numbers);
        since
    }

    pub fn reset(&mut self) {
        self.bt.reset_bt();
    }

    /// Replaces a branch as in the first bonsai. That makes no State, so no tick shows the new nodes: they have stood
    /// since the tick count of the moment.
    pub fn exchange(&mut self, way: &[Step], result: &Tree, removed: Range<usize>, added: usize, number: u64) {
        let branch = result.behavior_under(removed.start, &under_timeout);
        branch::exchange(&mut self.bt, &branch::way_under(way), &branch);
        self.numbers.splice(removed, vec![number; added]);
    }

    /// Ticks with the answers of the first bonsai, and notes what was made or dropped.
    pub fn tick(&mut self, tree: &Tree, seen: &Seen, ev: Ev, trace: &Trace, number: u64) -> Result<(), String> {
        let mut asked = vec![];
        let result = self.bt.tick(&ev, &mut |args: ActionArgs<Ev, Act>, _: &mut ()| {
            let given = trace.answers.get(asked.len()).map_or((Status::Running, 0.0), |&answer| answer);
            asked.push((args.action.number, args.dt.to_bits()));
            (given.0, cleaned(given.1))
        });
        let asks: Vec<_> = trace.asks.iter().map(|ask| (ask.number, ask.dt.to_bits())).collect();
        if asked != asks || result.map(|result| result.0) != trace.end.map(|end| end.0 .0) {
            return Err("bonsai and bonsai under Timeouts without end differ".to_string());
        }
        Tick { tree, seen, number }.follow(&mut self.bt.state, 0, &mut self.numbers);
        Ok(())
    }
}

impl Tick<'_> {
    /// Looks at a node's State, and tells whether the tick made it. What it made is fresh as a whole.
    fn follow(&self, state: &mut State<Act>, place: usize, numbers: &mut [u64]) -> bool {
        let State::Timeout { elapsed_time, child: node, .. } = state else {
            return false; // none: each State is under its Timeout
        };
        let made = !elapsed_time.is_nan();
        *elapsed_time = f64::NAN;
        let end = self.tree.ends[place];
        if made {
            numbers[place..end].fill(self.number);
        }
        let memoryless = matches!(**node, State::MemorylessSequence { .. } | State::MemorylessSelector { .. });
        let mut held = self.held(node, place).into_iter().peekable();
        for q in self.tree.places(place) {
            if let Some((_, state)) = held.next_if(|(at, _)| *at == q) {
                // A memoryless node that makes a child walks anew, and that makes all of them fresh.
                if self.follow(state, q, numbers) && memoryless {
                    numbers[place + 1..end].fill(self.number);
                }
            } else if self.seen.board[q] != 0 {
                // Visited, and no State is left: the tick dropped it.
                numbers[q..self.tree.ends[q]].fill(self.number);
            }
        }
        made
    }

    /// The children that bonsai holds a State for, each with its place, in order.
    fn held<'a>(&self, node: &'a mut State<Act>, place: usize) -> Vec<(usize, &'a mut State<Act>)> {
        let child = |index| self.tree.child(place, index);
        match node {
            State::Action(_) | State::Wait { .. } | State::WaitForever => vec![],
            State::Invert(below) | State::AlwaysSucceed(below) | State::Timeout { child: below, .. } => {
                vec![(child(0), below)]
            }
            State::If { status, current_state, .. } => {
                let index = match status {
                    Status::Running => 0,
                    Status::Success => 1,
                    Status::Failure => 2,
                };
                vec![(child(index), current_state)]
            }
            State::Select { behaviors, current_index, current_state }
            | State::Sequence { behaviors, current_index, current_state } => {
                // Past the end the state is still that of the last child.
                vec![(child((*current_index).min(behaviors.len() - 1)), current_state)]
            }
            // Before its first child it holds a WaitForever of its own.
            State::MemorylessSequence { cursor, .. } | State::MemorylessSelector { cursor, .. } => match **cursor {
                State::WaitForever => vec![],
                _ => vec![(self.seen.cursors[place], cursor)],
            },
            State::While { condition_state, loop_body_index, loop_body_state, .. }
            | State::WhileAll { condition_state, loop_body_index, loop_body_state, .. } => {
                vec![(child(0), condition_state), (child(1 + *loop_body_index), loop_body_state)]
            }
            State::WhenAll(states) | State::WhenAny(states) | State::Race(states) => {
                let all = self.tree.places(place).zip(states);
                all.filter_map(|(at, state)| Some((at, state.as_mut()?))).collect()
            }
            State::After { states, .. } => self.tree.places(place).zip(states).collect(),
        }
    }
}
