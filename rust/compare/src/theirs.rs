//! bonsai, watched.

use crate::branch;
use crate::ours::Cells;
use crate::since::Since;
use crate::state::State;
use crate::tracer::{NodeMeta, Tracer};
use crate::tree::{Act, Tree, MEMORYLESS_SELECTOR, MEMORYLESS_SEQUENCE};
use crate::{ActionArgs, Status, UpdateArgs, UpdateEvent, BT, RUNNING};
use lemboraw::raw::Said;
use std::cell::Cell;
use std::panic::{catch_unwind, resume_unwind, AssertUnwindSafe};
use std::rc::Rc;

/// An update, or another event: bonsai's own `Event` has no other.
#[derive(Clone, Copy, Debug, PartialEq)]
pub enum Ev {
    Update(f64),
    Other,
}

impl Ev {
    pub fn dt(self) -> Option<f64> {
        match self {
            Ev::Update(dt) => Some(dt),
            Ev::Other => None,
        }
    }

    fn cleaned(self) -> Self {
        self.dt().map_or(Ev::Other, |dt| Ev::Update(cleaned(dt)))
    }
}

/// bonsai is given plus zero where this library is given minus zero.
pub fn cleaned(x: f64) -> f64 {
    if x == 0.0 {
        0.0
    } else {
        x
    }
}

impl UpdateEvent for Ev {
    fn from_update_args(args: &UpdateArgs, _old: &Self) -> Option<Self> {
        Some(Ev::Update(args.dt))
    }

    fn update<U, F>(&self, mut f: F) -> Option<U>
    where
        F: FnMut(&UpdateArgs) -> U,
    {
        self.dt().map(|dt| f(&UpdateArgs { dt }))
    }
}

pub type Answer = (Status, f64);

pub fn number(status: Status) -> u8 {
    match status {
        Status::Running => 1,
        Status::Success => 2,
        Status::Failure => 3,
    }
}

/// An action asked: its number, the dt it saw, and the visits made until then, its own included.
#[derive(Clone, Copy, Debug)]
pub struct Ask {
    pub number: u16,
    pub dt: f64,
    pub entered: u64,
}

/// What one tick of bonsai did.
#[derive(Clone, Debug)]
pub struct Trace {
    pub asks: Vec<Ask>,
    pub answers: Vec<Answer>,
    /// Result and visits; none if it was stopped for making more visits than allowed.
    pub end: Option<(Answer, u64)>,
}

impl Trace {
    /// What a call with that much fuel and that many of the trace's answers has to say. A trace
    /// that was stopped knows this for fuel up to the visits that it was allowed.
    pub fn said(&self, fuel: u32, given: usize) -> Said {
        let fuel = u64::from(fuel);
        match (self.asks.get(given), self.end) {
            (Some(ask), _) if ask.entered <= fuel => {
                Said { no: 1, extra: usize::from(ask.number), time: ask.dt, ..Said::default() }
            }
            (None, Some(((status, left), visits))) if visits <= fuel => Said {
                no: 0,
                status: number(status),
                visits: visits as u32,
                used: self.asks.len(),
                extra: 0,
                time: left,
            },
            _ => Said { no: 7, ..Said::default() },
        }
    }
}

/// A tree in bonsai.
#[derive(Clone)]
pub struct Theirs {
    pub bt: BT<Act, ()>,
    pub seen: Seen,
    pub since: Since,
    metas: Rc<[NodeMeta]>,
}

/// What a watched tick shows besides its state.
#[derive(Clone)]
pub struct Seen {
    /// The status of each node's last visit, 0 for those not visited.
    pub board: Vec<u8>,
    /// For each memoryless node the child that its cursor stands on: bonsai's state does not say.
    pub cursors: Vec<usize>,
}

/// What a tick leaves, as this library lays it out: bonsai's state as cells, and the board.
pub struct Left {
    pub cells: Cells,
    pub board: Vec<u8>,
}

impl Left {
    /// A child that has ended: the board shows its status where the tick did not visit it.
    fn ended(&mut self, place: usize, status: Status) {
        if self.board[place] == 0 {
            self.board[place] = number(status);
        }
    }
}

/// A watched tick: what happened, and the state that it left.
pub struct Watched {
    pub trace: Trace,
    state: State<Act>,
    seen: Seen,
}

/// Past the visits that are watched an action says Running, which ends most loops. After so many more bonsai is unwound,
/// which took half of the instructions where every such loop was left by it.
const MORE: u64 = 16;

/// Counts visits as they end and keeps their statuses.
struct Watch<'a> {
    tree: &'a Tree,
    ended: &'a Cell<u64>,
    most: u64,
    seen: &'a mut Seen,
}

impl Tracer for Watch<'_> {
    const IS_RECORDING: bool = true;

    fn record(&mut self, id: usize, status: Status) {
        self.ended.set(self.ended.get() + 1);
        if self.ended.get() > self.most + MORE {
            resume_unwind(Box::new(())); // no message: this is how a walk is stopped
        }
        self.seen.board[id] = number(status);
        let parent = self.tree.parents[id];
        if id > 0 && matches!(self.tree.kinds[parent], MEMORYLESS_SEQUENCE | MEMORYLESS_SELECTOR) {
            self.seen.cursors[parent] = id;
        }
    }
}

fn metas(tree: &Tree) -> Rc<[NodeMeta]> {
    (0..tree.len()).map(|p| NodeMeta { subtree_size: tree.ends[p] - p }).collect()
}

impl Theirs {
    pub fn new(tree: &Tree) -> Self {
        let seen = Seen { board: vec![0; tree.len()], cursors: vec![0; tree.len()] };
        Theirs { bt: BT::new(tree.behavior(0), ()), since: Since::new(tree, &seen), seen, metas: metas(tree) }
    }

    pub fn reset(&mut self) {
        self.bt.reset_bt();
        self.since.reset();
    }

    /// The same with the branch at a place replaced by that of `result`, which has `added` nodes.
    pub fn exchanged(&self, tree: &Tree, place: usize, added: usize, result: &Tree) -> Self {
        let way = branch::way(tree, &self.seen, place);
        let mut after = Theirs { metas: metas(result), ..self.clone() };
        branch::exchange(&mut after.bt, &way, &result.behavior(place));
        let removed = place..tree.ends[place];
        after.since.exchange(&way, result, removed.clone(), added, self.bt.tick_count);
        after.seen.board.splice(removed.clone(), vec![0; added]);
        after.seen.cursors.splice(removed.clone(), vec![0; added]);
        // What stands behind the branch has moved.
        for child in after.seen.cursors.iter_mut().filter(|child| **child >= removed.end) {
            *child = *child - removed.len() + added;
        }
        after
    }

    /// Ticks a copy of the state, with answers made as they are asked for, and stops past `most`
    /// visits.
    pub fn watch(&self, tree: &Tree, ev: Ev, most: u32, answer: &mut dyn FnMut(usize) -> Answer) -> Watched {
        let mut state = self.bt.state.clone();
        let mut seen = Seen { board: vec![0; tree.len()], cursors: self.seen.cursors.clone() };
        let ended = Cell::new(0);
        let most = u64::from(most);
        let mut asks = vec![];
        let mut answers = vec![];
        let mut watch = Watch { tree, ended: &ended, most, seen: &mut seen };
        let mut act = |args: ActionArgs<Ev, Act>, _: &mut ()| {
            if ended.get() > most {
                return RUNNING;
            }
            // The visits under way are this action and every node above it.
            let entered = ended.get() + u64::from(args.action.depth);
            let given = answer(asks.len());
            asks.push(Ask { number: args.action.number, dt: args.dt, entered });
            answers.push(given);
            (given.0, cleaned(given.1))
        };
        let ev = ev.cleaned();
        let ticked = || state.tick(0, &self.metas, &ev, &mut (), &mut act, &mut watch);
        let result = catch_unwind(AssertUnwindSafe(ticked)).ok().filter(|_| ended.get() <= most);
        let trace = Trace { asks, answers, end: result.map(|result| (result, ended.get())) };
        Watched { trace, state, seen }
    }

    /// Ticks by `BT::tick` itself, and takes over what the watched copy showed besides.
    pub fn tick(&mut self, tree: &Tree, ev: Ev, watched: &Watched) -> Result<(), String> {
        let mut given = watched.trace.answers.iter();
        let result = self.bt.tick(&ev.cleaned(), &mut |_: ActionArgs<Ev, Act>, _: &mut ()| {
            given.next().map_or((Status::Running, 0.0), |&(status, left)| (status, cleaned(left)))
        });
        self.seen.clone_from(&watched.seen);
        if result != watched.trace.end.map(|end| end.0) || self.bt.state != watched.state {
            return Err("bonsai ticked and bonsai watched differ".to_string());
        }
        self.since.tick(tree, &self.seen, ev.cleaned(), &watched.trace, self.bt.tick_count)
    }

    /// Whether another state was reached.
    pub fn state_differs(&self, other: &Theirs) -> bool {
        self.bt.state != other.bt.state
            || self.seen.cursors != other.seen.cursors
            || self.since.numbers != other.since.numbers
    }

    /// What the last tick left.
    pub fn left(&self, tree: &Tree) -> Left {
        let mut left = Left { cells: Cells::fresh(tree.len()), board: self.seen.board.clone() };
        left.cells.sinces.clone_from(&self.since.numbers);
        self.decode(tree, &self.bt.state, 0, &mut left);
        left
    }

    fn decode(&self, tree: &Tree, state: &State<Act>, place: usize, left: &mut Left) {
        let child = |i| tree.child(place, i);
        let cells = &mut left.cells;
        match state {
            State::Action(_) | State::WaitForever => {}
            State::Wait { elapsed_time, .. } => cells.times[place] = *elapsed_time,
            State::Invert(below) | State::AlwaysSucceed(below) => self.decode(tree, below, child(0), left),
            State::Timeout { elapsed_time, child: below, .. } => {
                cells.times[place] = *elapsed_time;
                self.decode(tree, below, child(0), left);
            }
            State::If { status, current_state, .. } => {
                let chosen = match status {
                    Status::Running => 0,
                    Status::Success => 1,
                    Status::Failure => 2,
                };
                cells.places[place] = chosen as u16;
                self.decode(tree, current_state, child(chosen), left);
            }
            State::Select { behaviors, current_index, current_state }
            | State::Sequence { behaviors, current_index, current_state } => {
                cells.places[place] = *current_index as u16;
                // Past the end the state is still that of the last child.
                let index = (*current_index).min(behaviors.len() - 1);
                self.decode(tree, current_state, child(index), left);
                let ended = if matches!(state, State::Select { .. }) { Status::Failure } else { Status::Success };
                (0..*current_index).for_each(|i| left.ended(child(i), ended));
            }
            State::MemorylessSequence { cursor, .. } | State::MemorylessSelector { cursor, .. } => {
                // A cursor that never moved stands on a WaitForever of its own, which has no cells.
                if **cursor != State::WaitForever {
                    self.decode(tree, cursor, self.seen.cursors[place], left);
                }
            }
            State::While { condition_state, loop_body_index, loop_body_state, .. } => {
                cells.places[place] = *loop_body_index as u16;
                self.decode(tree, condition_state, child(0), left);
                self.decode(tree, loop_body_state, child(1 + loop_body_index), left);
            }
            State::WhileAll { condition_state, check_condition, loop_body_index, loop_body_state, .. } => {
                cells.places[place] = if *check_condition { 0 } else { 1 + *loop_body_index as u16 };
                self.decode(tree, condition_state, child(0), left);
                self.decode(tree, loop_body_state, child(1 + loop_body_index), left);
            }
            State::WhenAll(states) | State::WhenAny(states) | State::Race(states) => {
                let ended = if matches!(state, State::WhenAny(_)) { Status::Failure } else { Status::Success };
                let mut q = place + 1;
                for state in states {
                    match state {
                        Some(state) => self.decode(tree, state, q, left),
                        None => {
                            left.cells.marks[q] = 1;
                            left.ended(q, ended);
                        }
                    }
                    q = tree.ends[q];
                }
            }
            State::After { next_success_index, states } => {
                cells.places[place] = *next_success_index as u16;
                let mut q = place + 1;
                for state in states {
                    self.decode(tree, state, q, left);
                    q = tree.ends[q];
                }
                (0..*next_success_index).for_each(|i| left.ended(child(i), Status::Success));
            }
        }
    }
}
