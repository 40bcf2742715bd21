//! A state that is kept and taken up again.

use lemboraw::{
    Action, ActionArgs, Behavior, Cell, Event, Kind, Refusal, Running, Sequence, State, Status, Success, UpdateArgs,
    Wait, WhenAll, BT,
};

fn behavior() -> Behavior<u8> {
    Sequence(vec![Wait(2.0), WhenAll(vec![Wait(1.0), Wait(5.0), Action(1)])])
}

fn tick(bt: &mut BT<u8, ()>, dt: f64, status: Status) -> Result<(Status, f64), Refusal> {
    bt.tick(&UpdateArgs { dt }.into(), &mut |args: ActionArgs<Event, u8>, _: &mut ()| (status, args.dt))
}

fn cell(time: f64, place: u16, mark: bool) -> Cell {
    Cell { time, place, mark, since: 0 }
}

#[test]
fn a_restored_tree_goes_on_as_the_first_would() {
    let mut first = BT::new(behavior(), ()).unwrap();
    tick(&mut first, 1.0, Running).unwrap();
    tick(&mut first, 2.0, Running).unwrap();
    let kept = first.state();
    // The second tick moved on: it made the first Wait and the WhenAll fresh, with all that is below.
    let anew = Cell { since: 2, ..Cell::default() };
    let (marked, waiting) = (Cell { mark: true, ..anew }, Cell { time: 1.0, ..anew });
    let cells = vec![cell(0.0, 1, false), anew, anew, marked, waiting, anew];
    assert_eq!(kept, State { finished: false, ticks: 2, restart: false, cells });

    let mut second = BT::new(behavior(), ()).unwrap();
    second.restore(&kept).unwrap();
    assert_eq!(second.state(), kept);
    for dt in [2.0, 2.0, 1.0] {
        assert_eq!(tick(&mut second, dt, Success), tick(&mut first, dt, Success));
        assert_eq!(second.state(), first.state());
    }
    assert!(second.is_finished());
    assert_eq!(second.tick_count(), 4);

    // A finished tree stays finished, and a fresh state is that of a new tree.
    let mut third = BT::new(behavior(), ()).unwrap();
    let new = third.state();
    third.restore(&second.state()).unwrap();
    assert_eq!(tick(&mut third, 1.0, Success), Err(Refusal::Finished));
    third.restore(&new).unwrap();
    assert_eq!(tick(&mut third, 1.0, Success), Ok((Running, 0.0)));
}

#[test]
fn a_restored_tree_has_its_ages_also_where_the_count_goes_round() {
    let mut bt = BT::new(behavior(), ()).unwrap();
    // Any number is taken: the root has stood for 3 ticks, the last Wait for 2^63.
    let mut state = State { ticks: u64::MAX - 1, cells: vec![cell(0.0, 0, false); 6], ..bt.state() };
    state.cells[0].since = u64::MAX - 4;
    state.cells[4].since = u64::MAX / 2 - 1;
    bt.restore(&state).unwrap();
    assert_eq!((bt.age(0), bt.age(1), bt.age(4)), (Ok(3), Ok(u64::MAX - 1), Ok(1 << 63)));
    assert_eq!(bt.age(6), Err(Refusal::NoSuchPlace { place: 6, len: 6 }));

    // Refused, it stays; carried out, the count goes round and what was made fresh is 0 old.
    assert!(tick(&mut bt, -1.0, Running).is_err());
    assert_eq!(bt.state(), state);
    tick(&mut bt, 1.0, Running).unwrap();
    tick(&mut bt, 1.0, Running).unwrap();
    assert_eq!((bt.tick_count(), bt.age(0), bt.age(1), bt.age(4)), (0, Ok(5), Ok(0), Ok(0)));
    tick(&mut bt, 1.0, Running).unwrap();
    assert_eq!(bt.nodes().map(|node| node.age).collect::<Vec<_>>(), [6, 1, 1, 0, 1, 1]);
    bt.reset_bt();
    assert_eq!(bt.age(0), Ok(6));
    tick(&mut bt, 1.0, Running).unwrap();
    assert!(bt.nodes().all(|node| node.age == 0));
}

#[test]
fn a_restored_tree_was_not_visited() {
    let mut bt = BT::new(behavior(), ()).unwrap();
    tick(&mut bt, 3.0, Running).unwrap();
    assert_eq!(bt.last_status(0), Ok(Some(Running)));
    bt.restore(&bt.state()).unwrap();
    assert_eq!(bt.last_status(0), Ok(None));
    assert_eq!((bt.last_visits(), bt.last_questions()), (0, 0));
}

#[test]
fn a_bad_state_is_refused_at_its_place() {
    let mut bt = BT::new(behavior(), ()).unwrap();
    tick(&mut bt, 3.0, Running).unwrap();
    let kept = bt.state();
    for (place, kind, bad) in [
        (0, Kind::Sequence, cell(0.0, 3, false)),
        (0, Kind::Sequence, cell(0.0, 1, true)),
        (1, Kind::Wait, cell(-0.0, 0, false)),
        (1, Kind::Wait, cell(f64::NAN, 0, false)),
        (2, Kind::WhenAll, cell(1.0, 0, false)),
        (3, Kind::Wait, cell(1.0, 0, true)),
        (5, Kind::Action, cell(0.0, 1, false)),
    ] {
        let mut state = kept.clone();
        state.cells[place] = bad;
        // Also where a later cell is bad, and where the last tick left answers that are.
        state.cells[5].place = 1;
        assert!(tick(&mut bt, -1.0, Running).is_err());
        assert_eq!(bt.restore(&state), Err(Refusal::BadCell { place, kind }));
        assert_eq!(bt.state(), kept);
    }
    let mut short = kept.clone();
    short.cells.pop();
    assert_eq!(bt.restore(&short), Err(Refusal::OtherTree { len: 6, cells: 5 }));
    assert_eq!(bt.restore(&State::default()), Err(Refusal::OtherTree { len: 6, cells: 0 }));
    assert_eq!(bt.state(), kept);

    // An action that answered with no time does not stand in a later restore's way.
    let mut act = |_: ActionArgs<Event, u8>, _: &mut ()| (Running, -1.0);
    assert!(matches!(bt.tick(&UpdateArgs { dt: 1.0 }.into(), &mut act), Err(Refusal::BadAnswer { .. })));
    assert_eq!(bt.restore(&kept), Ok(()));
}
