//! What a behavior is, without what is in it.

use std::fmt;

/// The kinds of behavior, by bonsai's names and the evaluator's numbers.
#[allow(missing_docs)]
#[derive(Clone, Copy, Debug, PartialEq, Eq, Hash)]
#[repr(u8)]
pub enum Kind {
    Wait,
    WaitForever,
    Action,
    Invert,
    AlwaysSucceed,
    Timeout,
    Select,
    If,
    Sequence,
    MemorylessSequence,
    MemorylessSelector,
    While,
    WhileAll,
    WhenAll,
    WhenAny,
    After,
    Race,
}

impl Kind {
    /// Every kind, at the place of its number.
    pub const ALL: [Kind; 17] = [
        Kind::Wait,
        Kind::WaitForever,
        Kind::Action,
        Kind::Invert,
        Kind::AlwaysSucceed,
        Kind::Timeout,
        Kind::Select,
        Kind::If,
        Kind::Sequence,
        Kind::MemorylessSequence,
        Kind::MemorylessSelector,
        Kind::While,
        Kind::WhileAll,
        Kind::WhenAll,
        Kind::WhenAny,
        Kind::After,
        Kind::Race,
    ];

    /// Its number in a table.
    pub fn number(self) -> u8 {
        self as u8
    }

    /// Whether it has a limit, and time that passes.
    pub fn timed(self) -> bool {
        matches!(self, Kind::Wait | Kind::Timeout)
    }
}

impl fmt::Display for Kind {
    fn fmt(&self, f: &mut fmt::Formatter<'_>) -> fmt::Result {
        fmt::Debug::fmt(self, f)
    }
}
