//! A tree as a table, and what is wrong with one that the evaluator refuses.

use crate::behavior::Behavior;
use crate::kind::Kind;
use crate::raw;
use crate::refusal::{Fault, NoBound, Refusal};

const MOST_NODES: usize = 256;
const MOST_DEEP: usize = 16;
/// 2^40.
pub(crate) const LONGEST: f64 = 1_099_511_627_776.0;

/// A tree as the evaluator reads it. An action's number is its index in `actions`.
#[derive(Clone, Debug)]
pub(crate) struct Tree<A> {
    pub kinds: Vec<u8>,
    pub ns: Vec<u16>,
    pub limits: Vec<f64>,
    pub actions: Vec<A>,
}

impl<A> Tree<A> {
    /// Lays the behavior out in preorder. A 257th node is kept, so that the evaluator refuses the
    /// table there; what would follow it is dropped.
    pub fn new(root: Behavior<A>) -> Self {
        let mut tree = Tree { kinds: vec![], ns: vec![], limits: vec![], actions: vec![] };
        // A list of what is still to come, and no recursion: any depth is taken and taken apart.
        let mut due = vec![root];
        while let Some(behavior) = due.pop() {
            let kind = behavior.kind();
            let mut limit = 0.0;
            let mut action = None;
            let children = match behavior {
                Behavior::WaitForever => vec![],
                Behavior::Wait(time) => {
                    limit = time;
                    vec![]
                }
                Behavior::Action(a) => {
                    action = Some(a);
                    vec![]
                }
                Behavior::Timeout(time, child) => {
                    limit = time;
                    vec![*child]
                }
                Behavior::Invert(child) | Behavior::AlwaysSucceed(child) => vec![*child],
                Behavior::If(condition, on_success, on_failure) => vec![*condition, *on_success, *on_failure],
                Behavior::While(condition, mut body) | Behavior::WhileAll(condition, mut body) => {
                    body.insert(0, *condition);
                    body
                }
                Behavior::Select(children)
                | Behavior::Sequence(children)
                | Behavior::MemorylessSequence(children)
                | Behavior::MemorylessSelector(children)
                | Behavior::WhenAll(children)
                | Behavior::WhenAny(children)
                | Behavior::After(children)
                | Behavior::Race(children) => children,
            };
            if tree.kinds.len() <= MOST_NODES {
                let n = if action.is_some() { tree.actions.len() } else { children.len() };
                tree.kinds.push(kind.number());
                tree.ns.push(u16::try_from(n).unwrap_or(u16::MAX));
                // Minus zero is taken as plus zero, also in what is written from this tree.
                tree.limits.push(if limit == 0.0 { 0.0 } else { limit });
                tree.actions.extend(action);
            }
            due.extend(children.into_iter().rev());
        }
        tree
    }

    pub fn table(&self) -> raw::Table<'_> {
        raw::Table { kinds: &self.kinds, ns: &self.ns, limits: &self.limits }
    }

    /// What the behavior at a place is.
    pub fn kind(&self, place: usize) -> Kind {
        Kind::ALL[usize::from(self.kinds[place])]
    }

    fn children(&self, place: usize) -> u16 {
        if self.kind(place) == Kind::Action {
            0
        } else {
            self.ns[place]
        }
    }

    /// How deep each behavior lies; the root is 1 deep.
    pub fn depths(&self) -> impl Iterator<Item = usize> + '_ {
        // For each level under way, the children still to come.
        let mut due: Vec<u16> = vec![];
        (0..self.kinds.len()).map(move |place| {
            while due.last() == Some(&0) {
                due.pop();
            }
            if let Some(left) = due.last_mut() {
                *left -= 1;
            }
            due.push(self.children(place));
            due.len()
        })
    }

    /// Room for a table is lent.
    pub fn lend(&mut self) -> raw::TableMut<'_> {
        raw::TableMut { kinds: &mut self.kinds, ns: &mut self.ns, limits: &mut self.limits }
    }

    /// Leaves the first `len` behaviors, and all actions.
    pub fn truncate(&mut self, len: usize) {
        self.kinds.truncate(len);
        self.ns.truncate(len);
        self.limits.truncate(len);
    }

    /// Gives the actions of the table, which stand in `actions` in its order, their numbers.
    pub fn number_actions(&mut self) {
        let actions = self.kinds.iter().zip(&mut self.ns).filter(|(&kind, _)| kind == Kind::Action.number());
        for (number, (_, n)) in (0..).zip(actions) {
            *n = number;
        }
    }

    /// The place behind a behavior and all below it.
    pub fn end(&self, place: usize) -> usize {
        let mut behind = self.depths().enumerate().skip(place);
        let depth = behind.next().map(|(_, depth)| depth);
        behind.find(|(_, next)| Some(*next) <= depth).map_or(self.kinds.len(), |(at, _)| at)
    }

    /// Why the evaluator refuses the table at a place.
    pub fn bad_tree(&self, place: usize) -> Refusal {
        let (kind, fault) = self.fault(place);
        Refusal::BadTree { place, kind, fault }
    }

    /// What the behavior at a place is, and what is wrong with it.
    pub fn fault(&self, place: usize) -> (Kind, Fault) {
        let depth = self.depths().nth(place);
        let limit = self.limits[place];
        let fault = if place >= MOST_NODES {
            Fault::TooMany
        } else if depth > Some(MOST_DEEP) {
            Fault::TooDeep
        } else if !limit.is_finite() || limit < 0.0 {
            Fault::Limit { limit }
        } else {
            Fault::Empty
        };
        (self.kind(place), fault)
    }

    /// Why the evaluator works out no bound, if there is a reason.
    pub fn no_bound(&self, step: f64) -> Option<NoBound> {
        if step < 1.0 || !whole(step) {
            return Some(NoBound::Step { step });
        }
        (0..self.kinds.len()).find_map(|place| {
            let limit = self.limits[place];
            if !whole(limit) {
                Some(NoBound::Limit { place, limit })
            } else if self.kind(place) == Kind::After && self.ns[place] == 0 {
                Some(NoBound::EmptyAfter { place })
            } else {
                None
            }
        })
    }
}

/// A whole time, as the bound and what it promises speak of.
fn whole(time: f64) -> bool {
    time.fract() == 0.0 && time <= LONGEST
}
