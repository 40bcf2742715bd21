//! A seat line whose rear lane is changed in the middle of a shift. Sets of seats are made up one after the other until the
//! shift ends. After the second tick the office moves the rear seats to lane 3. Rear seats are being picked then, and nobody
//! touches that branch: the exchange is refused, and tried again after each tick. Times are milliseconds.
//!
//!     cargo run --example lane

use lemboraw::{
    Action, ActionArgs, Behavior, Event, FinishBound, Refusal, Running, Select, Success, Timeout, UpdateArgs, Wait,
    While, BT,
};

type Job = &'static str;

/// Pick from a lane, and after 3 s without an answer by hand.
fn seats(lane: Job, by_hand: Job) -> Behavior<Job> {
    Select(vec![Timeout(3000.0, Box::new(Action(lane))), Action(by_hand)])
}

/// For 8 s: take the broadcast, pick front and rear seats, send the set.
fn shift() -> Behavior<Job> {
    let front = seats("front seats, lane 1", "front seats by hand");
    let rear = seats("rear seats, lane 2", "rear seats by hand");
    While(Box::new(Wait(8000.0)), vec![Action("take the broadcast"), front, rear, Action("send the set")])
}

/// Where the rear seats stand: While, Wait, Action, four behaviors of the front seats.
const REAR: usize = 7;

fn main() -> Result<(), Refusal> {
    let mut line = BT::new(shift(), 0)?;
    let lane_3 = || Select(vec![seats("rear seats, lane 3", "rear seats by hand"), Action("stop the line")]);
    // The blackboard counts the ticks for which a pick has gone on: each takes two.
    let mut act = |args: ActionArgs<Event, Job>, picking: &mut u32| {
        if args.action.contains("lane") && *picking == 0 {
            *picking = 1;
            println!("  {}: picking", args.action);
            return (Running, 0.0);
        }
        *picking = 0;
        println!("  {}: done", args.action);
        (Success, if args.action.contains("lane") { 0.0 } else { args.dt })
    };

    let mut changed = false;
    while !line.is_finished() {
        println!("tick {}", line.tick_count() + 1);
        line.tick(&UpdateArgs { dt: 1000.0 }.into(), &mut act)?;
        if line.tick_count() >= 2 && !changed {
            match line.exchange(REAR, lane_3()) {
                Ok(()) => {
                    changed = true;
                    println!("the rear lane is changed:\n{line}");
                }
                Err(refusal) => println!("not yet: {refusal}"),
            }
        }
    }
    // The new tree has the bound of the old one: a While ends with its condition, whatever its body does.
    assert_eq!(line.finish_bound(1000.0)?, FinishBound::Ticks(8));
    println!("the shift has ended at tick {}", line.tick_count());
    Ok(())
}
