//! Behavior trees in the shape of [bonsai](https://github.com/Sollimann/bonsai), ticked by an
//! evaluator that is proved: every tick returns, and gives what bonsai gives.
//!
//! A tree is built from a [`Behavior`], kept in a [`BT`] and ticked with an event and a closure
//! that is called for each action, as in bonsai. What differs:
//!
//! - [`BT::new`] and [`BT::tick`] return a [`Result`]. Where bonsai panics (an empty `Sequence`,
//!   `Select` or loop), never returns (a loop that succeeds at once) or says `None` (a finished
//!   tree), there is a [`Refusal`], and the tree is as before the call.
//! - A tree has at most 256 behaviors and is at most 16 deep. The evaluator is for x86-64 Linux.
//! - [`BT::finish_bound`] says after how many ticks a tree has ended at the latest.
//! - [`BT::restart`] starts a tree again and ticks it in one call; [`BT::reset_bt`] makes the next tick one.
//! - [`BT::without_recursion`] walks a tree in less than 4 KiB of stack, however deep it is, and changes nothing else.
//! - [`BT::exchange`] puts a new branch in place of one that has not been started, while the tree is under way.
//! - [`BT::state`] and [`BT::restore`] carry a tree over a halt of the host; `println!("{bt}")`, [`BT::nodes`]
//!   and [`BT::dot`] show a tick, and for how many ticks each branch has stood ([`BT::age`]);
//!   [`Behavior::from_words`] reads a tree from a file.
//!
//! The crate's README has a table for moving from bonsai, line by line.
//!
//! # Example
//!
//! A number goes up twice, one second apart, and down again half a second later.
//!
//! ```
//! use lemboraw::{Action, Event, Sequence, Success, UpdateArgs, Wait, BT};
//!
//! #[derive(Clone, Debug, Copy)]
//! enum Actions {
//!     Inc,
//!     Dec,
//! }
//! use Actions::{Dec, Inc};
//!
//! fn tick(mut acc: i32, dt: f64, bt: &mut BT<Actions, ()>) -> i32 {
//!     let e: Event = UpdateArgs { dt }.into();
//!     let (_status, _dt) = bt
//!         .tick(&e, &mut |args, _| match *args.action {
//!             Inc => {
//!                 acc += 1;
//!                 (Success, args.dt)
//!             }
//!             Dec => {
//!                 acc -= 1;
//!                 (Success, args.dt)
//!             }
//!         })
//!         .unwrap();
//!     acc
//! }
//!
//! let behavior = Sequence(vec![Wait(1.0), Action(Inc), Wait(1.0), Action(Inc), Wait(0.5), Action(Dec)]);
//! let mut bt = BT::new(behavior, ()).unwrap();
//!
//! let a = tick(0, 0.5, &mut bt);
//! assert_eq!(a, 0);
//! let a = tick(a, 0.5, &mut bt);
//! assert_eq!(a, 1);
//! let a = tick(a, 0.5, &mut bt);
//! assert_eq!(a, 1);
//! let a = tick(a, 0.5, &mut bt);
//! assert_eq!(a, 2);
//! let a = tick(a, 0.5, &mut bt);
//! assert_eq!(a, 1);
//! assert!(bt.is_finished());
//! bt.reset_bt(); // the next tick starts again
//! ```
//!
//! # A tree that gives up
//!
//! ```
//! use lemboraw::{Action, Fault, FinishBound, Invert, Kind, Refusal, Sequence, Timeout, Wait, BT};
//!
//! // Scan, but give up after 30: whatever the scanner answers, three ticks of 10 are enough.
//! let bt = BT::new(Timeout(30.0, Box::new(Action("scan"))), ()).unwrap();
//! assert_eq!(bt.finish_bound(10.0), Ok(FinishBound::Ticks(3)));
//!
//! // Without the timeout nothing bounds it.
//! let bt = BT::new(Sequence(vec![Wait(1.0), Action("scan")]), ()).unwrap();
//! assert_eq!(bt.finish_bound(10.0), Ok(FinishBound::None));
//!
//! // bonsai panics on this one; here the second behavior is named.
//! let refused = BT::<&str, ()>::new(Invert(Box::new(Sequence(vec![]))), ()).unwrap_err();
//! assert_eq!(refused, Refusal::BadTree { place: 1, kind: Kind::Sequence, fault: Fault::Empty });
//! ```
//!
//! What the bound needs of the ticks is said at [`BT::finish_bound`]: updates by whole times from the
//! step up to 2^40, and whole leftovers.
//!
//! # What asking costs
//!
//! The evaluator takes the answers of a tick's actions as a list, and stops where the list ends.
//! For a tick that meets `k` actions [`BT::tick`] therefore walks `k + 1` times, each time one
//! action further; the closure is called only once for each. A loop whose actions succeed at once
//! and leave all of their time asks until the [fuel](BT::fuel) is used up: the tick is then refused,
//! the tree stays as it was, and what the actions did has happened. [`BT::last_questions`] and
//! [`BT::last_visits`] tell what a tick took, so that fuel can be set by what was seen.
//!
//! # Floating-point settings
//!
//! The evaluator's proofs speak of IEEE 754 arithmetic: round to nearest, no flush-to-zero, no
//! denormals-are-zero, exceptions masked. That is how a thread starts, unless the program was linked
//! with `-ffast-math` or something sets them. Each call of this crate looks at the settings, and if
//! they are others it sets them and puts them back; [`floats_are_usual`] tells.

#![warn(missing_docs)]

mod behavior;
mod bt;
mod event;
mod exchange;
mod floats;
mod kind;
pub mod raw;
mod refusal;
mod show;
mod state;
mod status;
mod timer;
mod tree;
mod words;

pub use behavior::Behavior::{
    self, Action, After, AlwaysSucceed, If, Invert, Race, Select, Sequence, Timeout, Wait, WaitForever, WhenAll,
    WhenAny, While, WhileAll,
};
pub use bt::{ActionArgs, FinishBound, BT};
pub use event::{Event, UpdateArgs, UpdateEvent};
pub use floats::floats_are_usual;
pub use kind::Kind;
pub use refusal::{Fault, NoBound, Refusal};
pub use show::Node;
pub use state::{Cell, State};
pub use status::Status::{self, Failure, Running, Success};
pub use timer::Timer;
pub use words::WordsError;

/// The type of times, as bonsai names it.
pub type Float = f64;

/// What an action that is still running answers.
pub const RUNNING: (Status, Float) = (Running, 0.0);

/// The examples of the README.
#[cfg(doctest)]
#[doc = include_str!("../README.md")]
struct Readme;
