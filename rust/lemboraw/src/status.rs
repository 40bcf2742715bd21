/// The result of a behavior or action.
#[derive(Copy, Clone, PartialEq, Eq, Debug)]
pub enum Status {
    /// It succeeded.
    Success,
    /// It failed.
    Failure,
    /// It is still running.
    Running,
}

impl Status {
    pub(crate) fn number(self) -> u8 {
        match self {
            Status::Running => 1,
            Status::Success => 2,
            Status::Failure => 3,
        }
    }

    pub(crate) fn from_number(number: u8) -> Option<Status> {
        match number {
            1 => Some(Status::Running),
            2 => Some(Status::Success),
            3 => Some(Status::Failure),
            _ => None,
        }
    }
}
