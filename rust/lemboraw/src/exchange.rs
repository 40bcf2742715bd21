//! The exchange of a branch that has not been started.

use crate::behavior::Behavior;
use crate::bt::Room;
use crate::kind::Kind;
use crate::raw::{self, Exchanged, Record};
use crate::tree::Tree;
use crate::{Refusal, BT};
use std::ops::Range;

impl<A, B> BT<A, B> {
    /// Puts a new branch in place of a behavior and all below it, while the tree is under way. Behaviors
    /// count from 0 in preorder.
    ///
    /// The new branch is fresh, and its [age](BT::age) is 0. All other behaviors stand as they stood, and the
    /// tick count, the blackboard and the fuel stay. The new branch shows no [status](BT::last_status) until
    /// the next tick. After a refusal the tree is as it was.
    ///
    /// It is allowed where the tree holds no state for the behavior. That is so where it is, or lies below,
    ///
    /// - a child of a `Select` or `Sequence` other than the one that is due; when all are done, other than the last;
    /// - a child in the body of a `While` or `WhileAll` that is not in progress; before the first round of a
    ///   `WhileAll` and between two, the first is in progress;
    /// - a branch of an `If` that is not chosen, so both before it is decided, or the condition once it is;
    ///
    /// and neither has ended for a `WhenAll` or `WhenAny` above it nor lies in what has. So never for the root.
    ///
    /// Where a [`reset_bt`](BT::reset_bt) waits for its tick, the tree counts as fresh, as in bonsai.
    ///
    /// ```
    /// use lemboraw::{Action, ActionArgs, Event, Refusal, Running, Sequence, Success, UpdateArgs, Wait, BT};
    ///
    /// let mut bt = BT::new(Sequence(vec![Wait(2.0), Action("lane 1"), Action("send")]), ())?;
    /// let mut asked = vec![];
    /// let mut act = |args: ActionArgs<Event, &'static str>, _: &mut ()| {
    ///     asked.push(*args.action);
    ///     (Success, args.dt)
    /// };
    /// assert_eq!(bt.tick(&UpdateArgs { dt: 1.0 }.into(), &mut act), Ok((Running, 0.0)));
    ///
    /// // The wait is under way; the lane behind it is not.
    /// assert!(matches!(bt.exchange(1, Wait(3.0)), Err(Refusal::StateHeld { place: 1, .. })));
    /// bt.exchange(2, Sequence(vec![Wait(0.5), Action("lane 2")]))?;
    ///
    /// assert_eq!(bt.tick(&UpdateArgs { dt: 2.0 }.into(), &mut act), Ok((Success, 0.5)));
    /// assert_eq!(asked, ["lane 2", "send"]);
    /// # Ok::<(), Refusal>(())
    /// ```
    pub fn exchange(&mut self, place: usize, branch: Behavior<A>) -> Result<(), Refusal> {
        let branch = Tree::new(branch);
        let added = branch.kinds.len();
        // More than the result has, which is without one behavior at least.
        let room = self.len() + added;
        let mut table = Tree { kinds: vec![0; room], ns: vec![0; room], limits: vec![0.0; room], actions: vec![] };
        let mut cells = Room::new(room);
        let said = self.replaced(place, &branch, &mut table, &mut cells);
        if said.no != 0 {
            return Err(self.not_exchanged(said, place, &branch));
        }
        table.truncate(said.nodes);
        cells.truncate(said.nodes);

        let removed = place..place + room - said.nodes;
        self.board.splice(removed.clone(), vec![0; added]);
        table.actions = std::mem::take(&mut self.tree.actions);
        let (before, gone) = (self.actions_in(0..place), self.actions_in(removed));
        table.actions.splice(before..before + gone, branch.actions);
        table.number_actions();
        self.tree = table;
        self.cells = cells;
        self.spare = Room::new(said.nodes);
        Ok(())
    }

    /// The exchange of the archive, for a tree that counts as fresh where the next tick is a restart.
    fn replaced(&self, place: usize, branch: &Tree<A>, table: &mut Tree<A>, cells: &mut Room) -> Exchanged {
        let fresh;
        let (record, standing) = if self.again {
            fresh = Room { sinces: self.cells.sinces.clone(), ..Room::new(self.len()) };
            (Record { finished: false, ..self.record }, &fresh)
        } else {
            (self.record, &self.cells)
        };
        raw::exchange(
            &record,
            self.tree.table(),
            standing.lend_to_read(),
            place,
            branch.table(),
            table.lend(),
            cells.lend(),
        )
    }

    /// How many actions are among these behaviors.
    fn actions_in(&self, places: Range<usize>) -> usize {
        places.filter(|&place| self.tree.kind(place) == Kind::Action).count()
    }

    fn not_exchanged(&self, said: Exchanged, place: usize, branch: &Tree<A>) -> Refusal {
        match (said.no, said.table) {
            (2, _) => Refusal::Finished,
            (3, 1) => {
                let (kind, fault) = branch.fault(said.place);
                Refusal::BadBranch { place: said.place, kind, fault }
            }
            (17, _) => Refusal::NoSuchPlace { place, len: self.len() },
            (18, _) => Refusal::StateHeld { place, kind: self.tree.kind(place) },
            (19, _) => {
                let end = self.tree.end(place);
                let above = self.tree.depths().nth(place).map_or(0, |depth| depth - 1);
                let deepest = |tree: &Tree<A>| tree.depths().max().unwrap_or(0);
                let others = self.tree.depths().enumerate().filter(|(at, _)| !(place..end).contains(at));
                let depth = others.map(|(_, depth)| depth).max().unwrap_or(0).max(above + deepest(branch));
                Refusal::TooLarge { len: self.len() - (end - place) + branch.kinds.len(), depth }
            }
            (no, _) => Refusal::Unexpected { no, extra: said.place },
        }
    }
}
