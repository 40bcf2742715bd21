//! What a host sees: answers, the order of actions, refusals, and what they leave behind.

use lemboraw::{
    Action, ActionArgs, After, AlwaysSucceed, Behavior, Event, Failure, Fault, FinishBound, If, Invert, Kind, NoBound,
    Race, Refusal, Running, Select, Sequence, Status, Success, Timeout, UpdateArgs, UpdateEvent, Wait, WaitForever,
    WhenAll, WhenAny, While, WhileAll, BT,
};
use std::panic::{catch_unwind, AssertUnwindSafe};

type Tree = BT<&'static str, ()>;

fn tree(behavior: Behavior<&'static str>) -> Tree {
    BT::new(behavior, ()).unwrap()
}

fn update(dt: f64) -> Event {
    UpdateArgs { dt }.into()
}

/// Ticks a tree that asks nothing.
fn quiet(bt: &mut Tree, e: Event) -> Result<(Status, f64), Refusal> {
    bt.tick(&e, &mut |_: ActionArgs<Event, _>, _: &mut ()| panic!("no action here"))
}

fn once(behavior: Behavior<&'static str>, dt: f64) -> (Status, f64) {
    quiet(&mut tree(behavior), update(dt)).unwrap()
}

fn boxed(behavior: Behavior<&'static str>) -> Box<Behavior<&'static str>> {
    Box::new(behavior)
}

#[test]
fn every_kind_ticks() {
    assert_eq!(once(Wait(2.0), 1.0), (Running, 0.0));
    assert_eq!(once(Wait(2.0), 3.0), (Success, 1.0));
    assert_eq!(once(WaitForever, 3.0), (Running, 0.0));
    assert_eq!(once(Invert(boxed(Wait(1.0))), 3.0), (Failure, 2.0));
    assert_eq!(once(AlwaysSucceed(boxed(Invert(boxed(Wait(1.0))))), 3.0), (Success, 2.0));
    assert_eq!(once(Timeout(3.0, boxed(Wait(5.0))), 4.0), (Failure, 1.0));
    assert_eq!(once(Timeout(3.0, boxed(Wait(4.0))), 4.0), (Success, 0.0));
    assert_eq!(once(Select(vec![Invert(boxed(Wait(1.0))), Wait(1.0)]), 3.0), (Success, 1.0));
    assert_eq!(once(If(boxed(Wait(1.0)), boxed(Wait(1.0)), boxed(WaitForever)), 3.0), (Success, 1.0));
    assert_eq!(once(Sequence(vec![Wait(1.0), Wait(1.0)]), 3.0), (Success, 1.0));
    assert_eq!(once(Sequence(vec![]).memory(false), 3.0), (Success, 3.0));
    assert_eq!(once(Select(vec![]).memory(false), 3.0), (Failure, 3.0));
    assert_eq!(once(While(boxed(Wait(2.0)), vec![Wait(1.0)]), 3.0), (Success, 1.0));
    assert_eq!(once(WhileAll(boxed(Wait(2.0)), vec![Wait(0.0)]), 1.0), (Success, 0.0));
    assert_eq!(once(WhenAll(vec![Wait(1.0), Wait(2.0)]), 3.0), (Success, 1.0));
    assert_eq!(once(WhenAll(vec![]), 4.0), (Success, 4.0));
    assert_eq!(once(WhenAny(vec![]), 4.0), (Failure, 4.0));
    assert_eq!(once(After(vec![Wait(1.0), Wait(1.0)]), 3.0), (Failure, 2.0));
    assert_eq!(once(After(vec![Wait(1.0), Wait(2.0)]), 3.0), (Success, 1.0));
    assert_eq!(once(After(vec![]), 3.0), (Success, f64::MAX));
    assert_eq!(once(Race(vec![WaitForever, Wait(2.0)]), 3.0), (Success, 1.0));
}

#[test]
fn state_is_kept_and_reset() {
    let mut bt = tree(Sequence(vec![Wait(2.0), Wait(1.0)]));
    assert_eq!(quiet(&mut bt, update(1.0)), Ok((Running, 0.0)));
    assert_eq!(bt.last_status(1), Ok(Some(Running)));
    assert_eq!(bt.last_status(2), Ok(None));
    assert_eq!(bt.last_status(3), Err(Refusal::NoSuchPlace { place: 3, len: 3 }));
    assert_eq!((bt.len(), bt.last_visits(), bt.last_questions()), (3, 2, 0));
    assert_eq!(quiet(&mut bt, Event::Other), Ok((Running, 0.0)));
    assert_eq!(quiet(&mut bt, update(3.0)), Ok((Success, 1.0)));
    assert!(bt.is_finished());
    assert_eq!(quiet(&mut bt, update(1.0)), Err(Refusal::Finished));
    assert_eq!(bt.tick_count(), 3);
    bt.reset_bt();
    assert!(!bt.is_finished());
    assert_eq!(bt.tick_count(), 3);
    assert_eq!(quiet(&mut bt, update(1.0)), Ok((Running, 0.0)));
    assert_eq!(bt.tick_count(), 4);
    // It was for one tick.
    assert_eq!(quiet(&mut bt, update(3.0)), Ok((Success, 1.0)));
    assert_eq!(quiet(&mut bt, update(3.0)), Err(Refusal::Finished));
}

#[test]
fn a_restart_resets_and_ticks_in_one_call() {
    let mut bt = tree(Sequence(vec![Wait(2.0), Action("a")]));
    let mut good = |args: ActionArgs<Event, &str>, _: &mut ()| (Success, args.dt);
    let mut bad = |_: ActionArgs<Event, &str>, _: &mut ()| (Success, -1.0);
    let mut unended = |_: ActionArgs<Event, &str>, _: &mut ()| (Running, 0.0);
    // Under way or finished, it starts again.
    assert_eq!(quiet(&mut bt, update(1.0)), Ok((Running, 0.0)));
    assert_eq!(bt.restart(&update(1.0), &mut good), Ok((Running, 0.0)));
    assert_eq!(bt.tick(&update(3.0), &mut good), Ok((Success, 2.0)));
    assert_eq!((bt.is_finished(), bt.tick_count()), (true, 3));

    // Refused, it leaves the tree as it was, finished included.
    let (ended, shown) = (bt.state(), bt.to_string());
    assert_eq!(bt.restart(&update(3.0), &mut bad), Err(Refusal::BadAnswer { index: 0, leftover: -1.0 }));
    assert!(matches!(bt.restart(&update(-1.0), &mut good), Err(Refusal::BadTime { .. })));
    bt.set_fuel(2);
    assert_eq!(bt.restart(&update(3.0), &mut good), Err(Refusal::OutOfFuel { fuel: 2, questions: 0 }));
    bt.set_fuel(3);
    assert_eq!((bt.state(), bt.to_string()), (ended.clone(), shown.clone()));
    assert_eq!(bt.tick(&update(3.0), &mut good), Err(Refusal::Finished));

    // Asked for by reset_bt, it is shown when it is ticked, and also where the tree is kept and taken back.
    bt.reset_bt();
    assert_eq!((bt.is_finished(), bt.to_string()), (false, shown.clone()));
    assert_eq!(bt.tick(&update(3.0), &mut bad), Err(Refusal::BadAnswer { index: 0, leftover: -1.0 }));
    assert_eq!((bt.is_finished(), bt.to_string()), (false, shown));
    let mut later = tree(Sequence(vec![Wait(2.0), Action("a")]));
    later.restore(&bt.state()).unwrap();
    assert_eq!((later.is_finished(), later.state()), (false, bt.state()));
    assert_eq!(bt.tick(&update(3.0), &mut unended), Ok((Running, 0.0)));
    assert_eq!(later.tick(&update(3.0), &mut unended), Ok((Running, 0.0)));
    assert_eq!(later.state(), bt.state());
    assert_eq!((bt.is_finished(), bt.tick_count(), bt.last_questions()), (false, 4, 1));

    // A state that is taken back is not restarted.
    bt.reset_bt();
    bt.restore(&ended).unwrap();
    assert!(bt.is_finished());
    assert_eq!(bt.tick(&update(3.0), &mut good), Err(Refusal::Finished));
}

#[test]
fn each_action_is_called_once_and_in_order() {
    let mut bt = tree(Sequence(vec![
        Action("a"),
        Select(vec![Action("b"), Action("c")]),
        WhenAll(vec![Action("d"), Wait(9.0), Action("e")]),
    ]));
    let mut asked = vec![];
    let result = bt.tick(&update(8.0), &mut |args: ActionArgs<Event, &str>, _: &mut ()| {
        asked.push((*args.action, args.dt));
        assert_eq!(args.event.update_args(), Some(UpdateArgs { dt: args.dt }));
        match *args.action {
            "b" => (Failure, args.dt - 1.0),
            "e" => (Running, 7.0),
            _ => (Success, args.dt - 1.0),
        }
    });
    assert_eq!(result, Ok((Running, 0.0)));
    assert_eq!(asked, [("a", 8.0), ("b", 7.0), ("c", 6.0), ("d", 5.0), ("e", 5.0)]);

    // What an action answers is passed on as it is, also a leftover while Running.
    let mut bt = tree(Action("a"));
    assert_eq!(
        bt.tick(&Event::Other, &mut |_: ActionArgs<Event, &str>, _: &mut ()| (Running, 7.0)),
        Ok((Running, 7.0))
    );

    // Other events are used up by the first action that succeeds.
    let mut bt = tree(Sequence(vec![Action("a"), Action("b")]));
    let mut asked = vec![];
    for _ in 0..2 {
        bt.tick(&Event::Other, &mut |args: ActionArgs<Event, &str>, _: &mut ()| {
            asked.push((*args.action, args.dt));
            (Success, 0.0)
        })
        .unwrap();
    }
    assert_eq!(asked, [("a", 0.0), ("b", 0.0)]);
    assert!(bt.is_finished());
}

#[test]
fn a_child_that_has_ended_shows_how() {
    let statuses = |bt: &Tree| -> Vec<_> { (0..bt.len()).map(|place| bt.last_status(place).unwrap()).collect() };
    let mut all = tree(WhenAll(vec![Wait(1.0), Wait(3.0)]));
    for seen in [[Running, Success, Running], [Running, Success, Running], [Success, Success, Success]] {
        quiet(&mut all, update(1.0)).unwrap();
        assert_eq!(statuses(&all), seen.map(Some));
    }
    // Not the behaviors below it.
    let failing = Timeout(1.0, boxed(WaitForever));
    for behavior in [Select(vec![failing.clone(), WaitForever]), WhenAny(vec![failing, WaitForever])] {
        let mut any = tree(behavior);
        quiet(&mut any, update(1.0)).unwrap();
        quiet(&mut any, update(1.0)).unwrap();
        assert_eq!(statuses(&any), [Some(Running), Some(Failure), None, Some(Running)]);
    }
}

#[test]
fn the_blackboard_is_shared() {
    let mut bt = BT::new(WhenAll(vec![Action(2), Action(3)]), vec![]).unwrap();
    let mut act = |args: ActionArgs<Event, i32>, board: &mut Vec<i32>| {
        board.push(*args.action);
        (Success, args.dt)
    };
    assert_eq!(bt.tick(&update(1.0), &mut act), Ok((Success, 1.0)));
    bt.blackboard_mut().push(4);
    assert_eq!(bt.blackboard(), &[2, 3, 4]);
    assert_eq!(bt.into_inner(), [2, 3, 4]);
}

#[test]
fn memory_goes_off_and_on() {
    let mut act = |args: ActionArgs<Event, &'static str>, asked: &mut Vec<&str>| {
        asked.push(*args.action);
        (if *args.action == "a" { Success } else { Running }, args.dt)
    };
    for (memory, asks) in [(true, vec!["a", "b", "b"]), (false, vec!["a", "b", "a", "b"])] {
        let behavior = Sequence(vec![Action("a"), Action("b")]).memory(false).memory(memory);
        let mut bt = BT::new(behavior, vec![]).unwrap();
        bt.tick(&update(1.0), &mut act).unwrap();
        bt.tick(&update(1.0), &mut act).unwrap();
        assert_eq!(bt.into_inner(), asks);
    }
    assert_eq!(Select::<()>(vec![]).memory(false), Behavior::MemorylessSelector(vec![]));
    assert_eq!(Select::<()>(vec![]).memory(false).memory(true), Select(vec![]));
    assert_eq!(Wait::<()>(1.0).memory(false), Wait(1.0));
}

fn refused(behavior: Behavior<&'static str>) -> Refusal {
    BT::new(behavior, ()).err().unwrap()
}

#[test]
fn trees_are_refused_where_they_are_faulty() {
    let at = |place, kind, fault| Refusal::BadTree { place, kind, fault };
    assert_eq!(refused(Sequence(vec![])), at(0, Kind::Sequence, Fault::Empty));
    assert_eq!(refused(Select(vec![])), at(0, Kind::Select, Fault::Empty));
    let body = |behavior| WhenAny(vec![Wait(1.0), behavior]);
    assert_eq!(refused(body(While(boxed(WaitForever), vec![]))), at(2, Kind::While, Fault::Empty));
    assert_eq!(refused(body(WhileAll(boxed(WaitForever), vec![]))), at(2, Kind::WhileAll, Fault::Empty));
    for limit in [f64::INFINITY, f64::NEG_INFINITY, -1.0, -5e-324] {
        assert_eq!(refused(body(Wait(limit))), at(2, Kind::Wait, Fault::Limit { limit }));
        assert_eq!(refused(Timeout(limit, boxed(WaitForever))), at(0, Kind::Timeout, Fault::Limit { limit }));
    }
    assert!(
        matches!(refused(Wait(f64::NAN)), Refusal::BadTree { fault: Fault::Limit { limit }, .. } if limit.is_nan())
    );
    let deep = |levels| (1..levels).fold(Wait(1.0), |below, _| Invert(Box::new(below)));
    assert!(BT::new(deep(16), ()).is_ok());
    assert_eq!(refused(deep(17)), at(16, Kind::Wait, Fault::TooDeep));
    // So deep that taking it apart by recursion would end in a stack overflow.
    assert_eq!(refused(deep(1_000_000)), at(16, Kind::Invert, Fault::TooDeep));
    // Actions have numbers and no children, so the wait lies behind a path that is too deep.
    let beside = |levels| (1..levels).fold(Action("a"), |below, _| Sequence(vec![Action("b"), below]));
    assert_eq!(refused(beside(17)), at(31, Kind::Action, Fault::TooDeep));
    let wide = |n| WhenAll((0..n).map(|_| Wait(1.0)).collect());
    assert!(BT::new(wide(255), ()).is_ok());
    assert_eq!(refused(wide(256)), at(256, Kind::Wait, Fault::TooMany));
    assert_eq!(refused(wide(70_000)), at(256, Kind::Wait, Fault::TooMany));
}

#[test]
fn minus_zero_is_taken_as_plus_zero() {
    // The wait has ended, and its cell is looked at again.
    let mut bt = tree(After(vec![Wait(-0.0), Timeout(-0.0, boxed(Action("a")))]));
    let mut seen = vec![];
    let mut answer = |args: ActionArgs<Event, &str>, _: &mut ()| {
        seen.push(args.dt.to_bits());
        (Success, -0.0)
    };
    assert_eq!(bt.tick(&update(-0.0), &mut answer), Ok((Failure, 0.0)));
    assert_eq!(seen, [0]);
    assert!(bt.state().cells.iter().all(|cell| cell.time.to_bits() == 0));
    assert!(bt.nodes().all(|node| node.limit.unwrap_or(0.0).to_bits() == 0));
    let mut bt = tree(Action("a"));
    let left = |bt: &mut BT<&'static str, ()>, answer| {
        let (_, left) = bt.tick(&update(1.0), &mut |_: ActionArgs<Event, &str>, _: &mut ()| answer).unwrap();
        left.to_bits()
    };
    assert_eq!(left(&mut bt, (Running, -0.0)), 0);
    assert_eq!(bt.finish_bound(1.0), Ok(FinishBound::None));
    assert_eq!(tree(Wait(-0.0)).finish_bound(1.0), Ok(FinishBound::Ticks(1)));
}

#[test]
fn a_refused_tick_leaves_the_tree() {
    let mut bt = tree(Sequence(vec![Wait(2.0), Action("a")]));
    quiet(&mut bt, update(1.0)).unwrap();
    for dt in [f64::NAN, f64::INFINITY, -1.0, -5e-324] {
        assert!(matches!(quiet(&mut bt, update(dt)), Err(Refusal::BadTime { .. })));
    }
    let mut bad = |_: ActionArgs<Event, &str>, _: &mut ()| (Success, -1.0);
    assert_eq!(bt.tick(&update(2.0), &mut bad), Err(Refusal::BadAnswer { index: 0, leftover: -1.0 }));
    let thrown = catch_unwind(AssertUnwindSafe(|| {
        bt.tick(&update(2.0), &mut |_: ActionArgs<Event, &str>, _: &mut ()| std::panic::resume_unwind(Box::new(())))
    }));
    assert!(thrown.is_err());
    assert_eq!(bt.tick_count(), 1);
    // The wait still has one to go.
    let mut good = |args: ActionArgs<Event, &str>, _: &mut ()| (Success, args.dt);
    assert_eq!(bt.tick(&update(3.0), &mut good), Ok((Success, 2.0)));
}

#[test]
fn fuel_ends_a_loop_that_never_does() {
    let out = |fuel, questions| Err(Refusal::OutOfFuel { fuel, questions });
    let mut bt = tree(While(boxed(WaitForever), vec![Wait(0.0)]));
    assert_eq!(quiet(&mut bt, update(1.0)), out(1024, 0));
    let mut bt = tree(While(boxed(WaitForever), vec![Wait(1.0)]));
    bt.set_fuel(5);
    assert_eq!(quiet(&mut bt, update(3.0)), out(5, 0));
    assert_eq!(bt.last_visits(), 0);
    bt.set_fuel(6);
    assert_eq!(quiet(&mut bt, update(3.0)), Ok((Running, 0.0)));
    assert_eq!(bt.last_visits(), 6);
}

/// A loop whose action succeeds at once: it asks until the fuel is used up, and that is soon.
#[test]
fn fuel_ends_a_loop_that_asks() {
    let mut bt = tree(While(boxed(WaitForever), vec![Action("a")]));
    let mut calls = 0;
    let mut eager = |args: ActionArgs<Event, &str>, _: &mut ()| {
        calls += 1;
        (Success, args.dt)
    };
    // Two visits before the first question, and one for each after it.
    assert_eq!(bt.tick(&update(1.0), &mut eager), Err(Refusal::OutOfFuel { fuel: 1024, questions: 1022 }));
    assert_eq!(bt.last_questions(), 1022);
    assert_eq!(calls, 1022);
    assert_eq!(bt.tick_count(), 0);
}

#[test]
fn fuel_grows_with_the_tree() {
    let wide = |n| tree(WhenAll((0..n).map(|_| Wait(1.0)).collect()));
    assert_eq!(wide(3).fuel(), 1024);
    assert_eq!(wide(63).fuel(), 1024);
    assert_eq!(wide(64).fuel(), 16 * 65);
    assert_eq!(wide(255).fuel(), 4096);
}

#[test]
fn bounds_are_told() {
    let bound = |behavior, step| tree(behavior).finish_bound(step);
    assert_eq!(bound(WhileAll(boxed(Wait(2.0)), vec![Wait(3.0)]), 1.0), Ok(FinishBound::Ticks(6)));
    assert_eq!(bound(Timeout(5.0, boxed(Action("a"))), 2.0), Ok(FinishBound::Ticks(3)));
    assert_eq!(bound(Action("a"), 1.0), Ok(FinishBound::None));
    let long = 1024f64.powi(4);
    let longest = WhileAll(boxed(Wait(long)), vec![Wait(long)]);
    assert_eq!(bound(longest, 1.0), Ok(FinishBound::Above));
}

#[test]
fn no_bound_has_a_reason() {
    let none = |behavior, step| tree(behavior).finish_bound(step).err();
    let step = |step| Some(Refusal::NoBound(NoBound::Step { step }));
    for bad in [0.0, -0.0, 0.5, 1.5, -1.0, 1024f64.powi(4) + 1.0, f64::INFINITY] {
        assert_eq!(none(After(vec![]), bad), step(bad));
    }
    assert!(matches!(none(Wait(1.0), f64::NAN), Some(Refusal::NoBound(NoBound::Step { step })) if step.is_nan()));
    let limit = |place, limit| Some(Refusal::NoBound(NoBound::Limit { place, limit }));
    assert_eq!(none(Wait(0.5), 1.0), limit(0, 0.5));
    let later = |time| WhenAll(vec![Wait(1.0), Timeout(time, boxed(Wait(2.5))), After(vec![])]);
    assert_eq!(none(later(1024f64.powi(4) + 1.0), 1.0), limit(2, 1024f64.powi(4) + 1.0));
    assert_eq!(none(later(1024f64.powi(4)), 1.0), limit(3, 2.5));
    let empty = |place| Some(Refusal::NoBound(NoBound::EmptyAfter { place }));
    assert_eq!(none(After(vec![]), 1.0), empty(0));
    assert_eq!(none(WhenAll(vec![After(vec![Wait(1.0)]), After(vec![]), Wait(0.5)]), 1.0), empty(3));
}

#[test]
fn a_host_may_have_events_of_its_own() {
    #[derive(Clone, Debug, PartialEq)]
    enum Mine {
        Scanned(&'static str),
        Passed(f64),
    }
    impl UpdateEvent for Mine {
        fn from_update_args(args: &UpdateArgs, _old: &Self) -> Option<Self> {
            Some(Mine::Passed(args.dt))
        }
        fn update<U, F: FnMut(&UpdateArgs) -> U>(&self, mut f: F) -> Option<U> {
            match self {
                Mine::Passed(dt) => Some(f(&UpdateArgs { dt: *dt })),
                Mine::Scanned(_) => None,
            }
        }
    }
    let mut bt = BT::new(Sequence(vec![Wait(1.0), Action(())]), vec![]).unwrap();
    let mut act = |args: ActionArgs<Mine, ()>, seen: &mut Vec<Mine>| {
        seen.push(args.event.clone());
        (if *args.event == Mine::Scanned("rack") { Success } else { Running }, 0.0)
    };
    assert_eq!(bt.tick(&Mine::Passed(3.0), &mut act), Ok((Running, 0.0)));
    assert_eq!(bt.tick(&Mine::Scanned("rack"), &mut act), Ok((Success, 0.0)));
    assert_eq!(bt.into_inner(), [Mine::Passed(2.0), Mine::Scanned("rack")]);
}

/// A host's event that can't be made anew: bonsai panics where time is passed on, and here the action gets
/// the tree's own event, beside the time that is left.
#[test]
fn an_event_that_cannot_be_made_is_handed_on() {
    struct Clock(f64);
    impl UpdateEvent for Clock {
        fn from_update_args(_args: &UpdateArgs, _old: &Self) -> Option<Self> {
            None
        }
        fn update<U, F: FnMut(&UpdateArgs) -> U>(&self, mut f: F) -> Option<U> {
            Some(f(&UpdateArgs { dt: self.0 }))
        }
    }
    let mut bt = tree(Sequence(vec![Wait(1.0), Action("a")]));
    let mut seen = vec![];
    let ticked = bt.tick(&Clock(3.0), &mut |args: ActionArgs<Clock, &str>, _: &mut ()| {
        seen.push((args.event.0, args.dt));
        (Success, 0.5)
    });
    assert_eq!(ticked, Ok((Success, 0.5)));
    assert_eq!(seen, [(3.0, 2.0)]);
}

#[test]
fn refusals_say_what_and_where() {
    let deep = (0..16).fold(Wait(1.0), |below, _| Invert(Box::new(below)));
    let wide = WhenAll((0..256).map(|_| Wait(1.0)).collect());
    let unbounded = |behavior, step| tree(behavior).finish_bound(step).unwrap_err();
    let time = quiet(&mut tree(Wait(1.0)), update(-1.0)).unwrap_err();
    for (refusal, text) in [
        (
            refused(Sequence(vec![])),
            "behavior 0 in preorder (Sequence) is empty: Select and Sequence need a child, While and WhileAll a body",
        ),
        (refused(deep), "behavior 16 in preorder (Wait) lies deeper than 16"),
        (refused(wide), "behavior 256 in preorder (Wait) is one too many: a tree has at most 256"),
        (
            refused(Wait(f64::NAN)),
            "behavior 0 in preorder (Wait) has the limit NaN: a time has to be finite, and not below zero",
        ),
        (time, "an update by -1.0: a time has to be finite, and not below zero"),
        (
            Refusal::BadAnswer { index: 2, leftover: -2.0 },
            "question 2 of this tick left over -2.0: a time has to be finite, and not below zero",
        ),
        (
            Refusal::OutOfFuel { fuel: 9, questions: 4 },
            "the tick would make more than 9 visits (questions asked until then: 4)",
        ),
        (unbounded(Wait(1.0), 0.5), "no bound: the step 0.5 is not a whole number from 1 to 2^40"),
        (
            unbounded(Wait(0.5), 1.0),
            "no bound: the limit 0.5 of behavior 0 in preorder is not a whole number up to 2^40",
        ),
        (unbounded(After(vec![]), 1.0), "no bound: behavior 0 in preorder is an After without children"),
        (Refusal::NoSuchPlace { place: 3, len: 3 }, "place 3 in a tree of 3 behaviors"),
        (Refusal::OtherTree { len: 3, cells: 2 }, "a state of 2 cells for a tree of 3 behaviors"),
        (
            Refusal::BadCell { place: 1, kind: Kind::Wait },
            "behavior 1 in preorder (Wait) can't have the cell that the state has for it",
        ),
    ] {
        assert_eq!(refusal.to_string(), text);
    }
    let error: Box<dyn std::error::Error> = Box::new(Refusal::Finished);
    assert_eq!(error.to_string(), "the tree is finished; a restart starts it again");
}
