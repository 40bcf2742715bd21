//! bonsai's tree with a branch replaced, and where it holds state for one.
//!
//! bonsai has no exchange. Its State keeps the children of some nodes as Behaviors, from which it makes their
//! States when it comes to them; `initial_behavior` is kept for a reset. The harness replaces the branch in
//! each of these Behaviors and in no State.

use crate::state::State;
use crate::theirs::Seen;
use crate::tree::{Act, Tree};
use crate::{Behavior, Status, BT};

/// A step from a node down to one of its children.
#[derive(Clone, Copy)]
pub struct Step {
    index: usize,
    /// The node is memoryless and its cursor stands on that child.
    at_cursor: bool,
}

/// The way from the root to a place.
pub fn way(tree: &Tree, seen: &Seen, place: usize) -> Vec<Step> {
    let mut steps = vec![];
    let mut at = place;
    while at > 0 {
        let parent = tree.parents[at];
        let index = tree.places(parent).take_while(|&child| child < at).count();
        steps.push(Step { index, at_cursor: seen.cursors[parent] == at });
        at = parent;
    }
    steps.reverse();
    steps
}

/// The same way where each node stands under one more, its only child.
pub fn way_under(way: &[Step]) -> Vec<Step> {
    way.iter().flat_map(|&step| [Step { index: 0, at_cursor: false }, step]).collect()
}

/// The child of an If that its State is of.
fn chosen(status: Status) -> usize {
    match status {
        Status::Running => 0,
        Status::Success => 1,
        Status::Failure => 2,
    }
}

/// Whether bonsai holds a State for the node at the end of the way. An ended child of WhenAll or WhenAny, whose State is
/// dropped, counts as held, and so do the children of a memoryless node, as new ones where its cursor is not on them.
pub fn held(state: &State<Act>, way: &[Step]) -> bool {
    let [step, rest @ ..] = way else {
        return true;
    };
    match state {
        State::Action(_) | State::Wait { .. } | State::WaitForever => true, // none: there is nothing below
        State::Invert(below) | State::AlwaysSucceed(below) | State::Timeout { child: below, .. } => held(below, rest),
        State::If { status, current_state, .. } => step.index == chosen(*status) && held(current_state, rest),
        State::Select { behaviors, current_index, current_state }
        | State::Sequence { behaviors, current_index, current_state } => {
            // Past the end the state is still that of the last child.
            step.index == (*current_index).min(behaviors.len() - 1) && held(current_state, rest)
        }
        State::MemorylessSequence { behaviors, cursor } | State::MemorylessSelector { behaviors, cursor } => {
            if step.at_cursor && **cursor != State::WaitForever {
                held(cursor, rest)
            } else {
                held(&State::new(behaviors[step.index].clone()), rest)
            }
        }
        State::While { condition_state, loop_body_index, loop_body_state, .. }
        | State::WhileAll { condition_state, loop_body_index, loop_body_state, .. } => match step.index {
            0 => held(condition_state, rest),
            index => index == 1 + *loop_body_index && held(loop_body_state, rest),
        },
        State::WhenAll(states) | State::WhenAny(states) | State::Race(states) => match &states[step.index] {
            Some(state) => held(state, rest),
            None => true,
        },
        State::After { states, .. } => held(&states[step.index], rest),
    }
}

/// Replaces the branch at the end of the way wherever bonsai stores it as a Behavior.
pub fn exchange(bt: &mut BT<Act, ()>, way: &[Step], branch: &Behavior<Act>) {
    in_state(&mut bt.state, way, branch);
    in_behavior(&mut bt.initial_behavior, way, branch);
}

fn in_state(state: &mut State<Act>, way: &[Step], branch: &Behavior<Act>) {
    let [step, rest @ ..] = way else {
        return; // not reached: this State would be that of the branch
    };
    match state {
        State::Action(_) | State::Wait { .. } | State::WaitForever => {}
        State::Invert(below) | State::AlwaysSucceed(below) | State::Timeout { child: below, .. } => {
            in_state(below, rest, branch);
        }
        State::If { on_success, on_failure, status, current_state } => {
            match step.index {
                0 => {} // stored nowhere but above
                1 => in_behavior(on_success, rest, branch),
                _ => in_behavior(on_failure, rest, branch),
            }
            if step.index == chosen(*status) {
                in_state(current_state, rest, branch);
            }
        }
        State::Select { behaviors, current_index, current_state }
        | State::Sequence { behaviors, current_index, current_state } => {
            in_behavior(&mut behaviors[step.index], rest, branch);
            if step.index == (*current_index).min(behaviors.len() - 1) {
                in_state(current_state, rest, branch);
            }
        }
        State::MemorylessSequence { behaviors, cursor } | State::MemorylessSelector { behaviors, cursor } => {
            in_behavior(&mut behaviors[step.index], rest, branch);
            if step.at_cursor {
                in_state(cursor, rest, branch);
            }
        }
        State::While { condition_state, loop_body, loop_body_index, loop_body_state }
        | State::WhileAll { condition_state, loop_body, loop_body_index, loop_body_state, .. } => match step.index {
            0 => in_state(condition_state, rest, branch),
            index => {
                in_behavior(&mut loop_body[index - 1], rest, branch);
                if index == 1 + *loop_body_index {
                    in_state(loop_body_state, rest, branch);
                }
            }
        },
        State::WhenAll(states) | State::WhenAny(states) | State::Race(states) => {
            if let Some(state) = &mut states[step.index] {
                in_state(state, rest, branch);
            }
        }
        State::After { states, .. } => in_state(&mut states[step.index], rest, branch),
    }
}

fn in_behavior(behavior: &mut Behavior<Act>, way: &[Step], branch: &Behavior<Act>) {
    let [step, rest @ ..] = way else {
        behavior.clone_from(branch);
        return;
    };
    let below = match behavior {
        Behavior::Action(_) | Behavior::Wait(_) | Behavior::WaitForever => return, // nothing is below
        Behavior::Invert(child) | Behavior::AlwaysSucceed(child) | Behavior::Timeout(_, child) => child,
        Behavior::If(condition, on_success, on_failure) => match step.index {
            0 => condition,
            1 => on_success,
            _ => on_failure,
        },
        Behavior::While(condition, body) | Behavior::WhileAll(condition, body) => match step.index {
            0 => condition,
            index => &mut body[index - 1],
        },
        Behavior::Select(children)
        | Behavior::Sequence(children)
        | Behavior::MemorylessSequence(children)
        | Behavior::MemorylessSelector(children)
        | Behavior::WhenAll(children)
        | Behavior::WhenAny(children)
        | Behavior::After(children)
        | Behavior::Race(children) => &mut children[step.index],
    };
    in_behavior(below, rest, branch);
}
