//! A sample of bonsai's answers as frames of the bench program, one tree a file.
//!
//! Random small trees are run through bonsai. Of the runs those are kept that together show most:
//! a kind's status under an event, what a child's status made of it, how its place and a child's mark
//! moved. This library takes no part.

use crate::ours::Cells;
use crate::random::Random;
use crate::theirs::{number, Answer, Ev, Theirs};
use crate::tree::Tree;
use crate::Status;
use std::collections::HashSet;
use std::fmt::Write;
use std::path::Path;
use std::{fs, io};

const FUEL: u32 = 0x40;
const SEED: u64 = 2026;
const TRIES: u64 = 20_000;
const MOST: usize = 40;

/// What a run shows: kind, event, and up to four more numbers.
type Shown = HashSet<[u16; 6]>;

#[derive(Default)]
struct Run {
    stdin: String,
    stdout: String,
    shown: Shown,
}

/// Writes the pairs NN.stdin and NN.stdout into a folder.
pub fn write(folder: &Path) -> io::Result<()> {
    let runs: Vec<_> = (0..TRIES).filter_map(|number| run(&mut Random::new(SEED, number))).collect();
    let all: Shown = runs.iter().flat_map(|run| &run.shown).copied().collect();
    let mut shown = Shown::new();
    fs::create_dir_all(folder)?;
    for i in 0..MOST {
        // The run that adds most.
        let Some(run) = runs.iter().max_by_key(|run| run.shown.difference(&shown).count()) else {
            break;
        };
        shown.extend(&run.shown);
        fs::write(folder.join(format!("{i:02}.stdin")), &run.stdin)?;
        fs::write(folder.join(format!("{i:02}.stdout")), &run.stdout)?;
    }
    // Kind, event and status alone are the least that the sample must have.
    let missing = all.iter().filter(|thing| thing[3] == 0 && !shown.contains(*thing)).count();
    println!("{} of {} things that {} runs of bonsai showed", shown.len(), all.len(), runs.len());
    println!("{missing} pairs of a kind and an event lack a status");
    Ok(())
}

fn time(random: &mut Random) -> f64 {
    match random.below(12) {
        0 => random.pick(&[0.0, -0.0]),
        1 => random.pick(&[0.1, 0.25, 2.7]),
        2 => random.pick(&[f64::MAX, 1e308, f64::from_bits(1), f64::from_bits(3)]),
        _ => random.below(5) as f64,
    }
}

/// One tree and some events; none if bonsai asks too much or does not return.
fn run(random: &mut Random) -> Option<Run> {
    let most = 3 + random.below(6);
    let tree = Tree::random(random, most, &mut time);
    let mut theirs = Theirs::new(&tree);
    let mut run = Run::default();
    for place in 0..tree.len() {
        let bits = tree.limits[place].to_bits();
        line(&mut run.stdin, format_args!("01 {:02x} {:04x} {bits:016x}", tree.kinds[place], tree.ns[place]));
    }
    for _ in 0..3 + random.below(3) {
        let ev = if random.one_in(3) { Ev::Other } else { Ev::Update(time(random)) };
        let restart = theirs.bt.finished;
        if restart {
            // The Rust says None; then it is reset and ticked.
            call(&mut run.stdin, "02", ev, &[]);
            line(&mut run.stdout, format_args!("82 02 00 {:016x} {:08x} 0000 0000", 0, 0));
            theirs.reset();
        }
        let before = theirs.left(&tree).cells;
        let (asks, says) = if restart { ("03", "83") } else { ("02", "82") };
        let watched = theirs.watch(&tree, ev, FUEL, &mut |_| {
            (random.pick(&[Status::Running, Status::Success, Status::Failure]), random.pick(&[-0.0, 0.0, 1.0, 2.0]))
        });
        let trace = &watched.trace;
        let ((status, left), visits) = trace.end.filter(|_| trace.asks.len() <= 4)?;
        for (k, ask) in trace.asks.iter().enumerate() {
            call(&mut run.stdin, asks, ev, &trace.answers[..k]);
            let bits = ask.dt.to_bits();
            line(&mut run.stdout, format_args!("{says} 01 00 {bits:016x} 00000000 0000 {:04x}", ask.number));
        }
        call(&mut run.stdin, asks, ev, &trace.answers);
        let (bits, used) = (left.to_bits(), trace.asks.len());
        line(
            &mut run.stdout,
            format_args!("{says} 00 {:02x} {bits:016x} {visits:08x} {used:04x} 0000", number(status)),
        );
        theirs.tick(&tree, ev, &watched).ok()?;
        let after = theirs.left(&tree).cells;
        show(&mut run.shown, &tree, ev, &theirs.seen.board, &before, &after);
    }
    Some(run)
}

fn line(text: &mut String, frame: std::fmt::Arguments) {
    // Writing to a string does not fail.
    let _ = writeln!(text, "{frame}");
}

fn call(text: &mut String, head: &str, ev: Ev, answers: &[Answer]) {
    let (event, dt) = match ev {
        Ev::Update(dt) => (1, dt),
        Ev::Other => (0, 0.0),
    };
    let mut frame = format!("{head} {event:02x} {:016x} {FUEL:08x} {:04x}", dt.to_bits(), answers.len());
    for (status, left) in answers {
        frame += &format!(" {:02x} {:016x}", number(*status), left.to_bits());
    }
    line(text, format_args!("{frame}"));
}

/// Notes what one tick shows of each node that it visited.
fn show(shown: &mut Shown, tree: &Tree, ev: Ev, board: &[u8], before: &Cells, after: &Cells) {
    let event = u16::from(ev == Ev::Other);
    for place in (0..tree.len()).filter(|&place| board[place] != 0) {
        let (kind, status) = (u16::from(tree.kinds[place]), u16::from(board[place]));
        shown.insert([kind, event, status, 0, 0, 0]);
        shown.insert([kind, event, status, 1, before.places[place].min(3), after.places[place].min(3)]);
        for index in 0..tree.children(place) {
            let child = tree.child(place, index);
            let last = index + 1 == tree.children(place);
            let index = if last { 9 } else { index.min(1) as u16 };
            shown.insert([kind, event, status, 2, index, u16::from(board[child])]);
            shown.insert([kind, event, status, 3, u16::from(before.marks[child]), u16::from(after.marks[child])]);
        }
    }
}
