//! What can be wrong with a tree, an event or an answer.

use crate::kind::Kind;
use std::error::Error;
use std::fmt;

/// Why a call was not carried out. The tree is then as it was before the call. Places count from 0
/// in preorder.
#[derive(Clone, Copy, Debug, PartialEq)]
pub enum Refusal {
    /// The tree has ended: [`restart`](crate::BT::restart) starts it again, and so does a tick after
    /// [`reset_bt`](crate::BT::reset_bt).
    Finished,
    /// A tree that can't be ticked.
    BadTree {
        /// The first faulty behavior.
        place: usize,
        /// What it is.
        kind: Kind,
        /// What is wrong with it.
        fault: Fault,
    },
    /// An update by a time that is not finite or is below zero. Minus zero is taken as plus zero.
    BadTime {
        /// The time.
        dt: f64,
    },
    /// An action left over a time that is not finite or is below zero.
    BadAnswer {
        /// Which of the tick's questions, counted from 0.
        index: usize,
        /// What it left over.
        leftover: f64,
    },
    /// The tick would visit more behaviors than its fuel allows; bonsai goes on, perhaps forever.
    OutOfFuel {
        /// The fuel it had.
        fuel: u32,
        /// The questions that were asked until then. What the actions did has happened.
        questions: usize,
    },
    /// No bound can be worked out.
    NoBound(NoBound),
    /// A state that was saved of a tree with another number of behaviors.
    OtherTree {
        /// The behaviors of this tree.
        len: usize,
        /// The cells of the state.
        cells: usize,
    },
    /// A state with a cell that its behavior can't have.
    BadCell {
        /// The first such behavior.
        place: usize,
        /// What it is.
        kind: Kind,
    },
    /// The tree has no such place.
    NoSuchPlace {
        /// The place.
        place: usize,
        /// The behaviors of this tree.
        len: usize,
    },
    /// A branch that can't be ticked, for an [`exchange`](crate::BT::exchange).
    BadBranch {
        /// The first faulty behavior, counted in the branch.
        place: usize,
        /// What it is.
        kind: Kind,
        /// What is wrong with it.
        fault: Fault,
    },
    /// The tree holds state for the behavior, so it can't be exchanged.
    StateHeld {
        /// The behavior.
        place: usize,
        /// What it is.
        kind: Kind,
    },
    /// With the new branch the tree would have more than 256 behaviors, or be deeper than 16.
    TooLarge {
        /// The behaviors that it would have.
        len: usize,
        /// How deep it would be; a root alone is 1 deep.
        depth: usize,
    },
    /// An answer that the memory kept by this crate does not bring about.
    Unexpected {
        /// The refusal's number.
        no: u8,
        /// Its place or index.
        extra: usize,
    },
}

/// What is wrong with a behavior of a tree that can't be ticked.
#[derive(Clone, Copy, Debug, PartialEq)]
pub enum Fault {
    /// A `Select` or `Sequence` without children, or a `While` or `WhileAll` without a body.
    Empty,
    /// It is the first that lies deeper than 16, where the root is 1 deep.
    TooDeep,
    /// It is the 257th.
    TooMany,
    /// A limit that is not finite or is below zero.
    Limit {
        /// The limit.
        limit: f64,
    },
}

/// Why no finish bound can be worked out.
#[derive(Clone, Copy, Debug, PartialEq)]
pub enum NoBound {
    /// The step is not a whole number from 1 to 2^40.
    Step {
        /// The step.
        step: f64,
    },
    /// A limit is not a whole number up to 2^40.
    Limit {
        /// The first such behavior.
        place: usize,
        /// Its limit.
        limit: f64,
    },
    /// An `After` has no children.
    EmptyAfter {
        /// The first such behavior.
        place: usize,
    },
}

impl fmt::Display for Refusal {
    fn fmt(&self, f: &mut fmt::Formatter<'_>) -> fmt::Result {
        match self {
            Refusal::Finished => write!(f, "the tree is finished; a restart starts it again"),
            Refusal::BadTree { place, kind, fault } => write!(f, "behavior {place} in preorder ({kind}) {fault}"),
            Refusal::BadTime { dt } => write!(f, "an update by {dt:?}: {A_TIME}"),
            Refusal::BadAnswer { index, leftover } => {
                write!(f, "question {index} of this tick left over {leftover:?}: {A_TIME}")
            }
            Refusal::OutOfFuel { fuel, questions } => {
                write!(f, "the tick would make more than {fuel} visits (questions asked until then: {questions})")
            }
            Refusal::NoBound(why) => write!(f, "no bound: {why}"),
            Refusal::OtherTree { len, cells } => write!(f, "a state of {cells} cells for a tree of {len} behaviors"),
            Refusal::BadCell { place, kind } => {
                write!(f, "behavior {place} in preorder ({kind}) can't have the cell that the state has for it")
            }
            Refusal::NoSuchPlace { place, len } => write!(f, "place {place} in a tree of {len} behaviors"),
            Refusal::BadBranch { place, kind, fault } => {
                write!(f, "behavior {place} of the branch in preorder ({kind}) {fault}")
            }
            Refusal::StateHeld { place, kind } => {
                write!(f, "behavior {place} in preorder ({kind}) can't be exchanged: the tree holds state for it")
            }
            Refusal::TooLarge { len, depth } => {
                write!(f, "the tree would have {len} behaviors and be {depth} deep: at most 256 and 16")
            }
            Refusal::Unexpected { no, extra } => write!(f, "refusal {no} ({extra})"),
        }
    }
}

const A_TIME: &str = "a time has to be finite, and not below zero";

impl fmt::Display for Fault {
    fn fmt(&self, f: &mut fmt::Formatter<'_>) -> fmt::Result {
        match self {
            Fault::Empty => write!(f, "is empty: Select and Sequence need a child, While and WhileAll a body"),
            Fault::TooDeep => write!(f, "lies deeper than 16"),
            Fault::TooMany => write!(f, "is one too many: a tree has at most 256"),
            Fault::Limit { limit } => write!(f, "has the limit {limit:?}: {A_TIME}"),
        }
    }
}

impl fmt::Display for NoBound {
    fn fmt(&self, f: &mut fmt::Formatter<'_>) -> fmt::Result {
        match self {
            NoBound::Step { step } => write!(f, "the step {step:?} is not a whole number from 1 to 2^40"),
            NoBound::Limit { place, limit } => {
                write!(f, "the limit {limit:?} of behavior {place} in preorder is not a whole number up to 2^40")
            }
            NoBound::EmptyAfter { place } => write!(f, "behavior {place} in preorder is an After without children"),
        }
    }
}

impl Error for Refusal {}
