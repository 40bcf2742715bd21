//! A tree with its state.

use crate::behavior::Behavior;
use crate::raw::{self, Cells, CellsRef, Record, Said, LEVELS};
use crate::state::{Cell, State};
use crate::tree::Tree;
use crate::{Refusal, Status, UpdateEvent};

/// Fuel that is there unless [`BT::set_fuel`] says otherwise: so many visits for each behavior.
const FUEL_EACH: u32 = 16;
/// And this many at least.
const FUEL_LEAST: u32 = 1024;

/// The arguments in the action callback.
pub struct ActionArgs<'a, E: 'a, A: 'a> {
    /// The event, with the time that is left for this action.
    pub event: &'a E,
    /// The time that is left for this action; 0 for an event that is no update.
    pub dt: f64,
    /// The action running.
    pub action: &'a A,
}

/// How many ticks a tree takes at most; see [`BT::finish_bound`].
#[derive(Clone, Copy, Debug, PartialEq, Eq)]
pub enum FinishBound {
    /// It has finished at or before that tick.
    Ticks(u64),
    /// There is no bound.
    None,
    /// There is one, but it is above 2^53.
    Above,
}

/// The execution state of a behavior tree, along with a "blackboard" that the actions share.
#[derive(Clone, Debug)]
pub struct BT<A, B> {
    pub(crate) tree: Tree<A>,
    pub(crate) record: Record,
    /// Whether the next tick is to be a restart.
    pub(crate) again: bool,
    pub(crate) cells: Room,
    pub(crate) spare: Room,
    pub(crate) board: Vec<u8>,
    /// The answers of the tick under way; kept so that their memory is used again.
    statuses: Vec<u8>,
    leftovers: Vec<f64>,
    /// There for walks without recursion.
    levels: Option<Levels>,
    /// What was set; none for that of the tree's size.
    fuel: Option<u32>,
    visits: u32,
    bb: B,
}

/// Memory for the open behaviors of a walk without recursion.
#[derive(Clone, Debug, Default)]
struct Levels {
    opens: [u64; LEVELS],
    counts: [u32; LEVELS],
    wholes: [f64; LEVELS],
    rests: [f64; LEVELS],
}

impl Levels {
    fn lend(&mut self) -> raw::Levels<'_> {
        raw::Levels {
            opens: &mut self.opens,
            counts: &mut self.counts,
            wholes: &mut self.wholes,
            rests: &mut self.rests,
        }
    }
}

/// Memory for the cells of a tree.
#[derive(Clone, Debug)]
pub(crate) struct Room {
    pub times: Vec<f64>,
    pub places: Vec<u16>,
    pub marks: Vec<u8>,
    pub sinces: Vec<u64>,
}

impl Room {
    pub fn new(len: usize) -> Self {
        Room { times: vec![0.0; len], places: vec![0; len], marks: vec![0; len], sinces: vec![0; len] }
    }

    fn of(cells: &[Cell]) -> Self {
        Room {
            times: cells.iter().map(|cell| cell.time).collect(),
            places: cells.iter().map(|cell| cell.place).collect(),
            marks: cells.iter().map(|cell| cell.mark.into()).collect(),
            sinces: cells.iter().map(|cell| cell.since).collect(),
        }
    }

    pub fn lend(&mut self) -> Cells<'_> {
        Cells { times: &mut self.times, places: &mut self.places, marks: &mut self.marks, sinces: &mut self.sinces }
    }

    pub fn lend_to_read(&self) -> CellsRef<'_> {
        CellsRef { times: &self.times, places: &self.places, marks: &self.marks, sinces: &self.sinces }
    }

    pub fn truncate(&mut self, len: usize) {
        self.times.truncate(len);
        self.places.truncate(len);
        self.marks.truncate(len);
        self.sinces.truncate(len);
    }
}

impl<A, B> BT<A, B> {
    /// A fresh tree. Refused is what bonsai panics on, what is larger than 256 behaviors or deeper
    /// than 16, and what has a limit that is negative or not finite.
    pub fn new(behavior: Behavior<A>, blackboard: B) -> Result<Self, Refusal> {
        let tree = Tree::new(behavior);
        let len = tree.kinds.len();
        let mut bt = BT {
            tree,
            record: Record::default(),
            again: false,
            cells: Room::new(len),
            spare: Room::new(len),
            board: vec![0; len],
            statuses: vec![],
            leftovers: vec![],
            levels: None,
            fuel: None,
            visits: 0,
            bb: blackboard,
        };
        bt.look()?;
        Ok(bt)
    }

    /// Ticks the tree with an event, and calls `f` for each action that is met, once each and in
    /// order. `f` returns the action's status and the time it leaves over. The answer is the
    /// root's status and the time that the tree leaves over.
    ///
    /// After a refusal, or a panic in `f`, the tree is as it was before the call. What `f` did until
    /// then has happened all the same, also where the tick then ran out of fuel: ticked again, the
    /// tree asks again.
    ///
    /// Each question costs a walk: a tick with `k` of them walks `k + 1` times from the root, each
    /// time one question further. So a tick makes at most about `fuel * fuel / 2` visits in all, which
    /// with the fuel that a tree starts with took 5 ms (1,024) to 90 ms (4,096, a tree of 256).
    pub fn tick<E, F>(&mut self, e: &E, f: &mut F) -> Result<(Status, f64), Refusal>
    where
        E: UpdateEvent,
        F: FnMut(ActionArgs<E, A>, &mut B) -> (Status, f64),
    {
        self.carry_out(self.again, e, f)
    }

    /// A restart and its first tick in one call: ticks the tree as from a fresh one, finished or not. The
    /// tick count goes up by one and the blackboard stays.
    ///
    /// After a refusal, or a panic in `f`, the tree is as it was before the call, finished included: a
    /// display never sees a tree that was reset and not ticked.
    ///
    /// ```
    /// use lemboraw::{Action, ActionArgs, Event, Refusal, Sequence, Success, UpdateArgs, Wait, BT};
    ///
    /// let mut bt = BT::new(Sequence(vec![Wait(2.0), Action("send")]), ())?;
    /// let e: Event = UpdateArgs { dt: 3.0 }.into();
    /// let mut act = |args: ActionArgs<Event, &str>, _: &mut ()| (Success, args.dt);
    /// assert_eq!(bt.tick(&e, &mut act), Ok((Success, 1.0)));
    /// assert_eq!(bt.tick(&e, &mut act), Err(Refusal::Finished));
    /// assert_eq!(bt.restart(&e, &mut act), Ok((Success, 1.0)));
    /// assert_eq!(bt.tick_count(), 2);
    /// # Ok::<(), Refusal>(())
    /// ```
    pub fn restart<E, F>(&mut self, e: &E, f: &mut F) -> Result<(Status, f64), Refusal>
    where
        E: UpdateEvent,
        F: FnMut(ActionArgs<E, A>, &mut B) -> (Status, f64),
    {
        self.carry_out(true, e, f)
    }

    /// A tick or a restart, walked until it has all its answers.
    fn carry_out<E, F>(&mut self, restart: bool, e: &E, f: &mut F) -> Result<(Status, f64), Refusal>
    where
        E: UpdateEvent,
        F: FnMut(ActionArgs<E, A>, &mut B) -> (Status, f64),
    {
        let dt = e.update_args().map(|args| args.dt);
        self.forget();
        loop {
            let said = self.walk(restart, dt, self.fuel());
            match (said.no, Status::from_number(said.status), self.tree.actions.get(said.extra)) {
                (0, Some(status), _) => {
                    self.again = false;
                    self.visits = said.visits;
                    return Ok((status, said.time));
                }
                (1, _, Some(action)) => {
                    // An action sees an update event with the time that is left for it.
                    let left = dt.and_then(|_| E::from_dt(said.time, e));
                    let args = ActionArgs { event: left.as_ref().unwrap_or(e), dt: said.time, action };
                    let (status, leftover) = f(args, &mut self.bb);
                    self.statuses.push(status.number());
                    self.leftovers.push(leftover);
                }
                _ => return Err(self.refusal(said, dt.unwrap_or(0.0))),
            }
        }
    }

    /// Makes the next tick a [`restart`](BT::restart), as in bonsai: that tick starts from a fresh tree. The
    /// tick count and the blackboard stay.
    ///
    /// What is shown of the tree (`println!("{bt}")`, [`nodes`](BT::nodes), [`last_status`](BT::last_status),
    /// [`age`](BT::age)) stays until that tick is carried out; a refused one leaves it asked for.
    pub fn reset_bt(&mut self) {
        self.again = true;
    }

    /// Whether the last tick ended in success or failure, and no [`reset_bt`](BT::reset_bt) came since.
    pub fn is_finished(&self) -> bool {
        self.record.finished && !self.again
    }

    /// The ticks carried out, restarts among them.
    pub fn tick_count(&self) -> u64 {
        self.record.ticks
    }

    /// At most how many ticks a fresh tree takes to finish, whatever statuses the actions give.
    ///
    /// The number holds for ticks of this kind, counted from a fresh tree on; a restart is the first of
    /// them:
    ///
    /// - each is an update, by a whole time from `step` to 2^40 (milliseconds, say; [`Timer`](crate::Timer)
    ///   gives these);
    /// - each action leaves over a whole time up to 2^40.
    ///
    /// Refused ticks do not count and do no harm. Asked for is a whole step from 1 to 2^40, and a tree
    /// whose limits are whole and at most 2^40 and in which no `After` is empty; else the refusal says
    /// what stands in the way. A bare `Action` or `WaitForever` has no bound, and gives none to what
    /// waits for it: put a `Timeout` around it.
    pub fn finish_bound(&self, step: f64) -> Result<FinishBound, Refusal> {
        let bound = raw::bound(self.tree.table(), step);
        match (bound.no, bound.kind, self.tree.no_bound(step)) {
            (0, 0, _) => Ok(FinishBound::Ticks(bound.ticks)),
            (0, 1, _) => Ok(FinishBound::None),
            (0, 2, _) => Ok(FinishBound::Above),
            (8, _, Some(why)) => Err(Refusal::NoBound(why)),
            (no, ..) => Err(Refusal::Unexpected { no, extra: bound.place }),
        }
    }

    /// How many behaviors the tree has.
    #[allow(clippy::len_without_is_empty)] // a tree has one at least
    pub fn len(&self) -> usize {
        self.tree.kinds.len()
    }

    /// The status of a behavior's last visit in the last tick carried out. If it was not visited
    /// then, that with which it has ended: success under `WhenAll`, and before the child that is due
    /// in `Sequence` and `After`; failure under `WhenAny`, and before that child in `Select`. Else
    /// none, also for the behaviors below one that has ended. Behaviors count from 0 in preorder; a
    /// place past the last is refused.
    pub fn last_status(&self, place: usize) -> Result<Option<Status>, Refusal> {
        match self.board.get(place) {
            Some(&seen) => Ok(Status::from_number(seen)),
            None => Err(Refusal::NoSuchPlace { place, len: self.len() }),
        }
    }

    /// For how many ticks a behavior has stood: the tick count less the number of the tick that last made
    /// it fresh, where a tick's number is the count after it. So 0 says that the last tick made it fresh; a
    /// new tree is as old as its tick count. A place past the last is refused.
    ///
    /// A behavior is made fresh, with all that is below it: by a restart; by a `Sequence`, `Select`, `While`
    /// or `WhileAll` that moves on, which does so to the child it leaves and to the one it goes to; by an
    /// `If` that is decided, to its condition and to the branch chosen; by a memoryless behavior that is
    /// visited, to all its children; by a `WhenAll` or `WhenAny`, to a child that has ended for it.
    ///
    /// ```
    /// use lemboraw::{Action, ActionArgs, Event, Refusal, Running, Sequence, UpdateArgs, Wait, BT};
    ///
    /// let mut bt = BT::new(Sequence(vec![Wait(2.0), Action("scan")]), ())?;
    /// for _ in 0..5 {
    ///     bt.tick(&UpdateArgs { dt: 1.0 }.into(), &mut |_: ActionArgs<Event, &str>, _: &mut ()| (Running, 0.0))?;
    /// }
    /// // The scan began in the second tick of five.
    /// assert_eq!((bt.age(0), bt.age(2)), (Ok(5), Ok(3)));
    /// # Ok::<(), Refusal>(())
    /// ```
    pub fn age(&self, place: usize) -> Result<u64, Refusal> {
        match self.cells.sinces.get(place) {
            Some(&since) => Ok(raw::age(self.record.ticks, since)),
            None => Err(Refusal::NoSuchPlace { place, len: self.len() }),
        }
    }

    /// The visits that the last tick made; 0 if it was refused.
    pub fn last_visits(&self) -> u32 {
        self.visits
    }

    /// The questions that the last tick asked, also if it was then refused.
    pub fn last_questions(&self) -> usize {
        self.statuses.len()
    }

    /// The most visits that one tick may make: unless it was set, 16 for each behavior and at least
    /// 1,024.
    pub fn fuel(&self) -> u32 {
        // A tree has at most 256 behaviors.
        self.fuel.unwrap_or_else(|| FUEL_LEAST.max(FUEL_EACH.saturating_mul(self.len() as u32)))
    }

    /// Sets the most visits that one tick may make. A tree without loops needs no more than it has
    /// behaviors; for one with loops [`last_visits`](BT::last_visits) tells what a tick took.
    pub fn set_fuel(&mut self, fuel: u32) {
        self.fuel = Some(fuel);
    }

    /// From here on the tree is walked without recursion, for a thread with little stack: the evaluator then takes less
    /// than 4 KiB of it, however deep the tree is, and up to 8 KiB otherwise. What the closure takes does not add to
    /// that: it runs between two walks.
    ///
    /// Nothing else changes, in answers, questions, visits or state. The behaviors that are open stand in memory of the
    /// tree's own.
    ///
    /// ```
    /// use lemboraw::{Action, ActionArgs, Event, Invert, Refusal, Sequence, Success, UpdateArgs, Wait, BT};
    ///
    /// let behavior = Sequence(vec![Wait(2.0), Invert(Box::new(Invert(Box::new(Action("send")))))]);
    /// let mut bt = BT::new(behavior, ())?.without_recursion();
    /// let e: Event = UpdateArgs { dt: 3.0 }.into();
    /// let mut act = |args: ActionArgs<Event, &str>, _: &mut ()| (Success, args.dt);
    /// assert_eq!(bt.tick(&e, &mut act), Ok((Success, 1.0)));
    /// # Ok::<(), Refusal>(())
    /// ```
    pub fn without_recursion(mut self) -> Self {
        self.levels = Some(Levels::default());
        self
    }

    /// The tree's state, to keep; also whether a [`reset_bt`](BT::reset_bt) waits for its tick.
    pub fn state(&self) -> State {
        let Room { times, places, marks, sinces } = &self.cells;
        let cells = times.iter().zip(places).zip(marks).zip(sinces);
        let kept = |(((&time, &place), &mark), &since)| Cell { time, place, mark: mark == 1, since };
        State {
            finished: self.record.finished,
            ticks: self.record.ticks,
            restart: self.again,
            cells: cells.map(kept).collect(),
        }
    }

    /// Goes on from a state that was kept of a tree like this one. A state that no such tree can have
    /// is refused, with its first bad place; one of another tree whose cells happen to fit is not told
    /// apart. No behavior counts as visited until the next tick.
    pub fn restore(&mut self, state: &State) -> Result<(), Refusal> {
        if state.cells.len() != self.len() {
            return Err(Refusal::OtherTree { len: self.len(), cells: state.cells.len() });
        }
        let cells = std::mem::replace(&mut self.cells, Room::of(&state.cells));
        let record = std::mem::take(&mut self.record);
        if let Err(refusal) = self.look() {
            self.cells = cells;
            self.record = record;
            return Err(refusal);
        }
        self.record = Record { finished: state.finished, ticks: state.ticks };
        self.again = state.restart;
        self.board.fill(0);
        Ok(())
    }

    /// The blackboard.
    pub fn blackboard(&self) -> &B {
        &self.bb
    }

    /// The blackboard, to write to.
    pub fn blackboard_mut(&mut self) -> &mut B {
        &mut self.bb
    }

    /// Gives the blackboard back.
    pub fn into_inner(self) -> B {
        self.bb
    }

    /// Forgets what was asked and answered in the last tick.
    fn forget(&mut self) {
        self.statuses.clear();
        self.leftovers.clear();
        self.visits = 0;
    }

    /// Whether table and cells can be ticked: a tick without fuel looks at both, and leaves them.
    fn look(&mut self) -> Result<(), Refusal> {
        self.forget();
        let said = self.walk(false, None, 0);
        match said.no {
            7 => Ok(()),
            _ => Err(self.refusal(said, 0.0)),
        }
    }

    /// One walk, with the answers there are.
    fn walk(&mut self, restart: bool, dt: Option<f64>, fuel: u32) -> Said {
        raw::carry_out(
            restart,
            &mut self.record,
            self.tree.table(),
            self.cells.lend(),
            self.spare.lend(),
            &mut self.board,
            dt,
            fuel,
            &self.statuses,
            &self.leftovers,
            self.levels.as_mut().map(Levels::lend),
        )
    }

    fn refusal(&self, said: Said, dt: f64) -> Refusal {
        let at = said.extra;
        match said.no {
            2 => Refusal::Finished,
            3 => self.tree.bad_tree(at),
            5 => Refusal::BadTime { dt },
            6 => Refusal::BadAnswer { index: at, leftover: self.leftovers.get(at).copied().unwrap_or(0.0) },
            7 => Refusal::OutOfFuel { fuel: self.fuel(), questions: self.statuses.len() },
            9 => Refusal::BadCell { place: at, kind: self.tree.kind(at) },
            no => Refusal::Unexpected { no, extra: at },
        }
    }
}
