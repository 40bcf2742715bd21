//! What a tree is built from.

use crate::kind::Kind;
use crate::raw;

/// Describes a behavior, with the names and shapes of bonsai's `Behavior`.
#[derive(Clone, Debug, PartialEq)]
pub enum Behavior<A> {
    /// Succeeds once that much time has passed.
    Wait(f64),
    /// Runs forever.
    WaitForever,
    /// Asks the host, who answers with a status and the time left over.
    Action(A),
    /// Exchanges `Success` and `Failure`.
    Invert(Box<Behavior<A>>),
    /// Turns `Failure` into `Success`.
    AlwaysSucceed(Box<Behavior<A>>),
    /// Fails if the child runs longer than the limit.
    Timeout(f64, Box<Behavior<A>>),
    /// Runs one after the other until one succeeds. Needs a child.
    Select(Vec<Behavior<A>>),
    /// `If(condition, on_success, on_failure)`.
    If(Box<Behavior<A>>, Box<Behavior<A>>, Box<Behavior<A>>),
    /// Runs one after the other until one fails. Needs a child.
    Sequence(Vec<Behavior<A>>),
    /// A `Sequence` that starts from its first child in every tick: `Sequence(..).memory(false)`.
    #[doc(hidden)]
    MemorylessSequence(Vec<Behavior<A>>),
    /// A `Select` that starts from its first child in every tick: `Select(..).memory(false)`.
    #[doc(hidden)]
    MemorylessSelector(Vec<Behavior<A>>),
    /// Repeats the body while the condition runs. Needs a body.
    While(Box<Behavior<A>>, Vec<Behavior<A>>),
    /// Repeats the body while the condition runs, and asks the condition only before each round.
    /// Needs a body.
    WhileAll(Box<Behavior<A>>, Vec<Behavior<A>>),
    /// Runs all side by side until all have succeeded or one fails.
    WhenAll(Vec<Behavior<A>>),
    /// Runs all side by side until all have failed or one succeeds.
    WhenAny(Vec<Behavior<A>>),
    /// Runs all side by side; they must succeed in order.
    After(Vec<Behavior<A>>),
    /// Runs all side by side; the first that ends decides.
    Race(Vec<Behavior<A>>),
}

impl<A> Behavior<A> {
    /// Sets whether a `Sequence` or `Select` resumes its running child in the next tick (`true`,
    /// as built) or starts from its first child in every tick. No effect on other behaviors.
    #[must_use]
    pub fn memory(self, on: bool) -> Self {
        let kind = raw::memory(self.kind().number(), on);
        match self {
            Behavior::Select(c)
            | Behavior::Sequence(c)
            | Behavior::MemorylessSequence(c)
            | Behavior::MemorylessSelector(c) => match Kind::ALL[usize::from(kind)] {
                Kind::Select => Behavior::Select(c),
                Kind::Sequence => Behavior::Sequence(c),
                Kind::MemorylessSequence => Behavior::MemorylessSequence(c),
                _ => Behavior::MemorylessSelector(c),
            },
            other => other,
        }
    }

    /// What it is, without what is in it.
    pub fn kind(&self) -> Kind {
        match self {
            Behavior::Wait(_) => Kind::Wait,
            Behavior::WaitForever => Kind::WaitForever,
            Behavior::Action(_) => Kind::Action,
            Behavior::Invert(_) => Kind::Invert,
            Behavior::AlwaysSucceed(_) => Kind::AlwaysSucceed,
            Behavior::Timeout(..) => Kind::Timeout,
            Behavior::Select(_) => Kind::Select,
            Behavior::If(..) => Kind::If,
            Behavior::Sequence(_) => Kind::Sequence,
            Behavior::MemorylessSequence(_) => Kind::MemorylessSequence,
            Behavior::MemorylessSelector(_) => Kind::MemorylessSelector,
            Behavior::While(..) => Kind::While,
            Behavior::WhileAll(..) => Kind::WhileAll,
            Behavior::WhenAll(_) => Kind::WhenAll,
            Behavior::WhenAny(_) => Kind::WhenAny,
            Behavior::After(_) => Kind::After,
            Behavior::Race(_) => Kind::Race,
        }
    }
}
