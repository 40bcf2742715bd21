//! A tree's state as plain data.

/// What a tree carries from one tick to the next: for a host that keeps it while it is not running.
///
/// [`BT::state`](crate::BT::state) gives it and [`BT::restore`](crate::BT::restore) takes it back.
/// The tree itself, its blackboard, its fuel and the statuses of its last tick are not part of it.
///
/// ```
/// use lemboraw::{Cell, Event, Sequence, State, Success, UpdateArgs, Wait, BT};
/// # fn main() -> Result<(), Box<dyn std::error::Error>> {
/// let tree = || BT::<(), ()>::new(Sequence(vec![Wait(200.0), Wait(100.0)]), ());
/// let mut bt = tree()?;
/// bt.tick(&UpdateArgs { dt: 250.0 }.into(), &mut |_: lemboraw::ActionArgs<Event, ()>, _: &mut ()| (Success, 0.0))?;
///
/// // A line for each cell, written by its bits, and one in front of them.
/// let state = bt.state();
/// let mut text = format!("{} {} {}\n", state.finished, state.ticks, state.restart);
/// for cell in &state.cells {
///     text += &format!("{} {} {} {}\n", cell.time.to_bits(), cell.place, cell.mark, cell.since);
/// }
///
/// let mut words = text.split_whitespace();
/// let mut next = || words.next().unwrap_or("");
/// let mut read =
///     State { finished: next().parse()?, ticks: next().parse()?, restart: next().parse()?, cells: vec![] };
/// for _ in text.lines().skip(1) {
///     let time = f64::from_bits(next().parse()?);
///     read.cells.push(Cell { time, place: next().parse()?, mark: next().parse()?, since: next().parse()? });
/// }
///
/// let mut later = tree()?;
/// later.restore(&read)?;
/// assert_eq!(later.state(), state);
/// # Ok(())
/// # }
/// ```
#[derive(Clone, Debug, Default, PartialEq)]
pub struct State {
    /// Whether the last tick ended in success or failure.
    pub finished: bool,
    /// The ticks carried out.
    pub ticks: u64,
    /// Whether the next tick is to be a restart, as [`BT::reset_bt`](crate::BT::reset_bt) asks for.
    pub restart: bool,
    /// The cells of the behaviors in preorder.
    pub cells: Vec<Cell>,
}

/// The state of one behavior; the default is that of one in a new tree.
#[derive(Clone, Copy, Debug, Default, PartialEq)]
pub struct Cell {
    /// The time that has passed in a `Wait` or `Timeout`.
    pub time: f64,
    /// Which child is in progress.
    pub place: u16,
    /// Whether it is an ended child of a `WhenAll` or `WhenAny`.
    pub mark: bool,
    /// The number of the tick that last made it fresh, of which [`BT::age`](crate::BT::age) tells; no tick
    /// depends on it.
    pub since: u64,
}
