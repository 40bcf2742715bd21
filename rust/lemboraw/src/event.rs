//! Events, with the names and shapes of bonsai's.

/// How far in time an update moves the tree.
#[derive(Copy, Clone, PartialEq, PartialOrd, Debug)]
pub struct UpdateArgs {
    /// Delta time; any unit, the same as in `Wait` and `Timeout`.
    pub dt: f64,
}

impl UpdateArgs {
    /// An update of no time.
    pub fn zero_dt() -> UpdateArgs {
        Self { dt: 0.0 }
    }
}

/// An update, or anything else that happens. A host with richer events implements [`UpdateEvent`]
/// for its own type.
#[derive(Copy, Clone, PartialEq, Debug)]
pub enum Event {
    /// Time passes.
    Update(UpdateArgs),
    /// Something happens at an instant.
    Other,
}

impl Event {
    /// An update of no time.
    pub fn zero_dt_args() -> Self {
        UpdateArgs::zero_dt().into()
    }
}

impl From<UpdateArgs> for Event {
    fn from(args: UpdateArgs) -> Self {
        Event::Update(args)
    }
}

/// What a tree has to know of an event: whether it is an update, and by how much.
///
/// A tree takes the time from [`update_args`](UpdateEvent::update_args) once a tick, and from then on
/// goes by its own numbers: an action is handed `from_dt(dt, event)`, where `event` is the one that the
/// tree was ticked with and `dt` the time that is left for that action, as in
/// [`ActionArgs::dt`](crate::ActionArgs::dt). Where bonsai unwraps what `from_dt` gives, and panics if that
/// is `None`, here the action is handed the tree's own event, and `ActionArgs::dt` is right all the same.
pub trait UpdateEvent: Sized {
    /// Creates an update event.
    fn from_update_args(args: &UpdateArgs, old_event: &Self) -> Option<Self>;
    /// Creates an update event with delta time.
    fn from_dt(dt: f64, old_event: &Self) -> Option<Self> {
        UpdateEvent::from_update_args(&UpdateArgs { dt }, old_event)
    }
    /// Calls the closure if this is an update event.
    fn update<U, F>(&self, f: F) -> Option<U>
    where
        F: FnMut(&UpdateArgs) -> U;
    /// Returns update arguments.
    fn update_args(&self) -> Option<UpdateArgs> {
        self.update(|args| *args)
    }
}

impl UpdateEvent for Event {
    fn from_update_args(args: &UpdateArgs, _old_event: &Self) -> Option<Self> {
        Some(Event::Update(*args))
    }

    fn update<U, F>(&self, mut f: F) -> Option<U>
    where
        F: FnMut(&UpdateArgs) -> U,
    {
        match self {
            Event::Update(args) => Some(f(args)),
            Event::Other => None,
        }
    }
}
