//! The Rust crate over the library, as a host uses it.

use crate::exchange;
use crate::theirs::{Ev, Theirs, Trace};
use crate::tree::Tree;
use crate::Status;
use lemboraw::{ActionArgs, Behavior, Cell, Event, Refusal, State, UpdateArgs, BT};

/// A tree in the crate; an action is told by its number.
pub struct Wrapped(BT<u16, ()>);

/// What is asked of the crate.
#[derive(Clone, Copy, Debug, PartialEq)]
pub enum How {
    Tick,
    Restart,
    ResetAndTick,
}

impl Wrapped {
    /// A tree as new as bonsai's; every other one is walked without recursion.
    pub fn new(tree: &Tree, theirs: &Theirs) -> Result<Self, String> {
        let cells = theirs.since.numbers.iter().map(|&since| Cell { since, ..Cell::default() }).collect();
        let state = State { ticks: theirs.bt.tick_count, cells, ..State::default() };
        let bt = BT::new(behavior(tree, 0), ()).and_then(|mut bt| bt.restore(&state).map(|()| bt));
        let bt = bt.map(|bt| if tree.len() % 2 == 1 { bt } else { bt.without_recursion() });
        bt.map(Wrapped).map_err(|refusal| refusal.to_string())
    }

    /// Ticks, or restarts by one of two ways, with a callback that answers as in the trace: each action must be asked once, in the
    /// same order and with the same dt, the tick must end in the same way, and each node be as old as in bonsai after it.
    pub fn call(&mut self, how: How, ev: Ev, trace: &Trace, theirs: &Theirs) -> Result<(), String> {
        let event = ev.dt().map_or(Event::Other, |dt| UpdateArgs { dt }.into());
        let mut asked = vec![];
        let mut act = |args: ActionArgs<Event, u16>, _: &mut ()| {
            let given = trace.answers.get(asked.len()).copied();
            asked.push((*args.action, args.dt.to_bits()));
            given.map_or((lemboraw::Running, 0.0), |(status, left)| (convert(status), left))
        };
        if how == How::ResetAndTick {
            self.0.reset_bt();
        }
        let got = match how {
            How::Restart => self.0.restart(&event, &mut act),
            How::Tick | How::ResetAndTick => self.0.tick(&event, &mut act),
        };
        let must = trace.end.map(|((status, left), _)| (convert(status), left.to_bits()));
        let asks: Vec<_> = trace.asks.iter().map(|ask| (ask.number, ask.dt.to_bits())).collect();
        let ages: Vec<_> = self.0.nodes().map(|node| node.age).collect();
        let old: Vec<_> = theirs.since.numbers.iter().map(|&since| theirs.bt.tick_count.wrapping_sub(since)).collect();
        if got.ok().map(|(status, left)| (status, left.to_bits())) == must && asked == asks && ages == old {
            Ok(())
        } else {
            Err(format!(
                "the Rust crate: {how:?} {ev:?}\nanswered {got:?}, asked {asked:x?}, ages {ages:?}\nmust be {must:x?}, {asks:x?}, {old:?}\n"
            ))
        }
    }
}

impl Wrapped {
    /// Exchanges a branch, which must be refused as bonsai's state has it and then leave the tree, or be carried out.
    pub fn exchange(&mut self, at: usize, branch: &Tree, theirs: &Theirs, tree: &Tree) -> Result<(), String> {
        let (said, _) = exchange::said(theirs, tree, at, branch, usize::MAX);
        let before = (self.0.state(), self.0.to_string());
        let got = self.0.exchange(at, behavior(branch, 0));
        let good = match (said.no, got) {
            (0, Ok(())) => self.0.len() == said.nodes,
            (no, Err(refusal)) => {
                let same = (self.0.state(), self.0.to_string()) == before;
                same && match refusal {
                    Refusal::Finished => no == 2,
                    Refusal::NoSuchPlace { place, len } => no == 17 && place == at && len == tree.len(),
                    Refusal::StateHeld { place, .. } => no == 18 && place == at,
                    Refusal::TooLarge { len, depth } => {
                        let result = exchange::replaced(tree, at, branch);
                        let deepest = result.depths.iter().max().map_or(0, |&depth| usize::from(depth));
                        no == 19 && len == result.len() && depth == deepest
                    }
                    _ => false,
                }
            }
            _ => false,
        };
        if good {
            Ok(())
        } else {
            Err(format!("the Rust crate: exchange at {at} of\n{branch}said {got:?}\nmust be {said:?}\n"))
        }
    }
}

fn convert(status: Status) -> lemboraw::Status {
    match status {
        Status::Running => lemboraw::Running,
        Status::Success => lemboraw::Success,
        Status::Failure => lemboraw::Failure,
    }
}

fn behavior(tree: &Tree, place: usize) -> Behavior<u16> {
    let mut children: Vec<_> =
        (0..tree.children(place)).map(|index| behavior(tree, tree.child(place, index))).collect();
    let limit = tree.limits[place];
    let mut first = || Box::new(children.remove(0));
    match tree.kinds[place] {
        0 => Behavior::Wait(limit),
        1 => Behavior::WaitForever,
        2 => Behavior::Action(tree.ns[place]),
        3 => Behavior::Invert(first()),
        4 => Behavior::AlwaysSucceed(first()),
        5 => Behavior::Timeout(limit, first()),
        6 => Behavior::Select(children),
        7 => Behavior::If(first(), first(), first()),
        8 => Behavior::Sequence(children),
        9 => Behavior::Sequence(children).memory(false),
        10 => Behavior::Select(children).memory(false),
        11 => Behavior::While(first(), children),
        12 => Behavior::WhileAll(first(), children),
        13 => Behavior::WhenAll(children),
        14 => Behavior::WhenAny(children),
        15 => Behavior::After(children),
        _ => Behavior::Race(children),
    }
}
