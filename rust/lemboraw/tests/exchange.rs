//! A branch that has not been started is exchanged, and everything else stays.

use lemboraw::{
    Action, ActionArgs, After, AlwaysSucceed, Behavior, Event, Failure, Fault, FinishBound, If, Invert, Kind, Race,
    Refusal, Running, Select, Sequence, Status, Success, Timeout, UpdateArgs, Wait, WaitForever, WhenAll, WhenAny,
    While, WhileAll, BT,
};

type Tree = BT<&'static str, Vec<&'static str>>;

fn tree(behavior: Behavior<&'static str>) -> Tree {
    BT::new(behavior, vec![]).unwrap()
}

/// Ticks by 1 and notes who was asked on the blackboard.
fn tick(bt: &mut Tree, answers: &[(Status, f64)]) -> Result<(Status, f64), Refusal> {
    let mut answers = answers.iter();
    bt.tick(&UpdateArgs { dt: 1.0 }.into(), &mut |args: ActionArgs<Event, _>, asked: &mut Vec<_>| {
        asked.push(*args.action);
        *answers.next().unwrap()
    })
}

fn boxed(behavior: Behavior<&'static str>) -> Box<Behavior<&'static str>> {
    Box::new(behavior)
}

fn held(bt: &mut Tree, place: usize) -> bool {
    let before = (bt.state(), bt.to_string());
    match bt.clone().exchange(place, WaitForever) {
        Ok(()) => false,
        Err(refusal) => {
            assert!(matches!(refusal, Refusal::StateHeld { place: at, .. } if at == place), "{refusal}");
            assert!(bt.exchange(place, WaitForever).is_err());
            assert_eq!((bt.state(), bt.to_string()), before);
            true
        }
    }
}

/// The places for which a tree holds state.
fn all_held(bt: &mut Tree) -> Vec<usize> {
    (0..bt.len()).filter(|&place| held(bt, place)).collect()
}

#[test]
fn each_action_is_asked_for_by_what_stands_in_its_place() {
    let inner = Sequence(vec![Action("b"), Action("c")]);
    let mut bt = tree(Sequence(vec![Action("a"), inner, Action("d"), Action("e"), Action("f")]));
    assert_eq!(tick(&mut bt, &[(Running, 0.0)]), Ok((Running, 0.0)));
    // More actions, then fewer, then none; those behind keep theirs.
    bt.exchange(2, Sequence(vec![Action("x"), Action("y"), Action("z")])).unwrap();
    bt.exchange(7, Wait(0.0)).unwrap();
    bt.exchange(6, Action("w")).unwrap();
    assert_eq!(bt.len(), 9);
    let shown: Vec<_> = bt.nodes().filter_map(|node| node.action.copied()).collect();
    assert_eq!(shown, ["a", "x", "y", "z", "w", "f"]);
    assert_eq!(tick(&mut bt, &[(Success, 1.0); 6]), Ok((Success, 1.0)));
    assert_eq!(bt.blackboard()[1..], shown);
    // A restart is of the new tree.
    bt.reset_bt();
    bt.blackboard_mut().clear();
    tick(&mut bt, &[(Success, 1.0); 6]).unwrap();
    assert_eq!(bt.into_inner(), shown);
}

#[test]
fn all_else_stays() {
    let mut bt =
        tree(Select(vec![Timeout(9.0, boxed(Sequence(vec![Wait(2.0), Action("b")]))), Action("c"), Wait(5.0)]));
    for _ in 0..3 {
        tick(&mut bt, &[(Running, 0.0)]).unwrap();
    }
    bt.set_fuel(77);
    let before = bt.state();
    bt.exchange(5, Invert(boxed(Action("new")))).unwrap();
    let after = bt.state();
    assert_eq!((after.finished, after.ticks, after.restart), (false, 3, false));
    assert_eq!(after.cells[..5], before.cells[..5]);
    assert_eq!(after.cells[7], before.cells[6]);
    assert_eq!((bt.age(5), bt.age(6), bt.age(7), bt.age(0)), (Ok(0), Ok(0), Ok(3), Ok(3)));
    assert_eq!((bt.last_status(4), bt.last_status(5), bt.last_status(6)), (Ok(Some(Running)), Ok(None), Ok(None)));
    assert_eq!((bt.fuel(), bt.last_visits(), bt.last_questions()), (77, 4, 1));
    assert_eq!(bt.finish_bound(1.0), Ok(FinishBound::None));
}

#[test]
fn fuel_follows_the_size_unless_it_was_set() {
    let mut bt = tree(Sequence(vec![Wait(1.0), Wait(1.0)]));
    assert_eq!(bt.fuel(), 1024);
    bt.exchange(2, WhenAll((0..250).map(|_| WaitForever).collect())).unwrap();
    assert_eq!((bt.len(), bt.fuel()), (253, 16 * 253));
}

#[test]
fn it_is_allowed_where_no_state_is_held() {
    // Select and Sequence: not the child at the place.
    let mut bt = tree(Sequence(vec![Wait(1.0), Wait(1.0), Invert(boxed(Wait(1.0)))]));
    assert_eq!(all_held(&mut bt), [0, 1]);
    tick(&mut bt, &[]).unwrap();
    assert_eq!(all_held(&mut bt), [0, 2]);
    // At its end: not the last.
    let mut bt = tree(After(vec![Sequence(vec![WaitForever, Wait(0.0), Wait(1.0)]), WaitForever]));
    assert_eq!(all_held(&mut bt), [0, 1, 2, 5]);
    bt = tree(After(vec![Sequence(vec![Wait(0.0), Wait(1.0)]), WaitForever]));
    tick(&mut bt, &[]).unwrap();
    assert_eq!(all_held(&mut bt), [0, 1, 3, 4]);
    let mut bt = tree(Select(vec![Action("a"), Action("b")]));
    tick(&mut bt, &[(Failure, 0.0), (Running, 0.0)]).unwrap();
    assert_eq!(all_held(&mut bt), [0, 2]);

    // If: undecided both branches, decided the condition and the other one.
    let branches = || If(boxed(Action("if")), boxed(Invert(boxed(Action("then")))), boxed(Action("else")));
    let mut bt = tree(branches());
    assert_eq!(all_held(&mut bt), [0, 1]);
    tick(&mut bt, &[(Success, 0.0), (Running, 0.0)]).unwrap();
    assert_eq!(all_held(&mut bt), [0, 2, 3]);
    let mut bt = tree(branches());
    tick(&mut bt, &[(Failure, 0.0), (Running, 0.0)]).unwrap();
    assert_eq!(all_held(&mut bt), [0, 4]);

    // Loops: not the condition, and not the child in progress; a WhileAll before its condition has the first.
    let mut bt = tree(While(boxed(WaitForever), vec![Wait(1.0), Wait(1.0)]));
    assert_eq!(all_held(&mut bt), [0, 1, 2]);
    tick(&mut bt, &[]).unwrap();
    assert_eq!(all_held(&mut bt), [0, 1, 3]);
    let mut bt = tree(WhileAll(boxed(WaitForever), vec![Wait(1.0), Wait(1.0)]));
    assert_eq!(all_held(&mut bt), [0, 1, 2]);
    tick(&mut bt, &[]).unwrap();
    assert_eq!(all_held(&mut bt), [0, 1, 3]);

    // All others hold theirs, whether they are visited or not; below a spot everything is free.
    let two = || vec![WaitForever, WaitForever];
    for node in [WhenAll(two()), WhenAny(two()), After(two()), Race(two()), Sequence(two()).memory(false)] {
        assert_eq!(all_held(&mut tree(node.clone())), [0, 1, 2]);
        assert_eq!(all_held(&mut tree(Sequence(vec![WaitForever, node]))), [0, 1]);
    }
    assert_eq!(all_held(&mut tree(AlwaysSucceed(boxed(Timeout(1.0, boxed(WaitForever)))))), [0, 1, 2]);

    // What has ended for a WhenAll is held as a whole.
    let mut bt = tree(WhenAll(vec![Sequence(vec![Wait(0.0), Wait(0.0)]), WaitForever]));
    assert_eq!(all_held(&mut bt), [0, 1, 2, 4]);
    tick(&mut bt, &[]).unwrap();
    assert_eq!(all_held(&mut bt), [0, 1, 2, 3, 4]);
}

#[test]
fn refusals_say_what_is_wrong() {
    let mut bt = tree(Sequence(vec![Wait(1.0), Action("a")]));
    let before = bt.state();
    let bad = Refusal::BadBranch { place: 1, kind: Kind::Select, fault: Fault::Empty };
    assert_eq!(bt.exchange(0, Invert(boxed(Select(vec![])))), Err(bad));
    let bad = Refusal::BadBranch { place: 0, kind: Kind::Wait, fault: Fault::Limit { limit: -1.0 } };
    assert_eq!(bt.exchange(9, Wait(-1.0)), Err(bad));
    assert_eq!(bt.exchange(3, Wait(1.0)), Err(Refusal::NoSuchPlace { place: 3, len: 3 }));
    assert_eq!(bt.exchange(1, Wait(1.0)), Err(Refusal::StateHeld { place: 1, kind: Kind::Wait }));
    let wide = |n: usize| WhenAll((0..n).map(|_| WaitForever).collect());
    assert_eq!(bt.exchange(2, wide(254)), Err(Refusal::TooLarge { len: 257, depth: 3 }));
    let deep = (0..15).fold(Wait(1.0), |below, _| Invert(boxed(below)));
    assert_eq!(bt.exchange(2, deep), Err(Refusal::TooLarge { len: 18, depth: 17 }));
    let bad = Refusal::BadBranch { place: 256, kind: Kind::WaitForever, fault: Fault::TooMany };
    assert_eq!(bt.exchange(2, wide(300)), Err(bad));
    assert_eq!(bt.state(), before);
    assert_eq!(
        Refusal::StateHeld { place: 1, kind: Kind::Wait }.to_string(),
        "behavior 1 in preorder (Wait) can't be exchanged: the tree holds state for it"
    );

    tick(&mut bt, &[(Success, 0.0)]).unwrap();
    assert_eq!(bt.exchange(1, Wait(1.0)), Err(Refusal::Finished));
    // With a reset waiting it counts as fresh, and is shown as it stood.
    bt.reset_bt();
    assert_eq!(bt.exchange(1, Wait(3.0)), Err(Refusal::StateHeld { place: 1, kind: Kind::Wait }));
    bt.exchange(2, Action("b")).unwrap();
    assert_eq!((bt.is_finished(), bt.tick_count(), bt.last_status(1)), (false, 1, Ok(Some(Success))));
    tick(&mut bt, &[(Success, 0.0)]).unwrap();
    assert_eq!((bt.tick_count(), bt.into_inner()), (2, vec!["a", "b"]));
    assert_eq!(tree(Sequence(vec![Wait(1.0), Wait(1.0)])).exchange(2, wide(253)), Ok(()));
}
