//! Runs bonsai's Rust beside this library and compares everything after every call.
//!
//! The crate's root declares bonsai's modules and re-exports what they look for in their own root,
//! since they are built as they are.

mod bound;
mod branch;
mod cases;
mod exchange;
mod exchanges;
mod expect;
mod figures;
mod levels;
mod ours;
mod random;
mod sample;
mod share;
mod sides;
mod since;
mod small;
mod spoil;
mod stack;
mod theirs;
mod tree;
mod walk;
mod wrapped;

include!(concat!(env!("OUT_DIR"), "/bonsai.rs"));

pub use behavior::Behavior;
pub use bt::BT;
pub use event::{UpdateArgs, UpdateEvent};
pub use state::{ActionArgs, RUNNING};
pub use status::Status;

pub type Float = f64;

use share::{share, Job};
use std::process::ExitCode;
use std::time::Instant;

/// How many jobs were done, and how many calls compared in them, by what they said.
#[derive(Clone, Copy, Default)]
pub struct Count {
    jobs: u64,
    done: u64,
    asked: u64,
    fuel: u64,
    refused: u64,
    restarts: u64,
    flat: u64,
    few_levels: u64,
    bounds: u64,
    exchanged: u64,
    held: u64,
    not_exchanged: u64,
}

impl Count {
    /// A call and what it said.
    fn said(&mut self, restart: bool, no: u8) {
        self.restarts += u64::from(restart);
        match no {
            0 => self.done += 1,
            1 => self.asked += 1,
            7 => self.fuel += 1,
            _ => self.refused += 1,
        }
    }

    /// An exchange and what it said.
    fn exchange(&mut self, no: u8) {
        match no {
            0 => self.exchanged += 1,
            18 => self.held += 1,
            _ => self.not_exchanged += 1,
        }
    }

    fn add(&mut self, mut other: Count) {
        for (field, more) in self.fields().into_iter().zip(other.fields()) {
            *field += *more;
        }
    }

    fn fields(&mut self) -> [&mut u64; 12] {
        let Count {
            jobs,
            done,
            asked,
            fuel,
            refused,
            restarts,
            flat,
            few_levels,
            bounds,
            exchanged,
            held,
            not_exchanged,
        } = self;
        [jobs, done, asked, fuel, refused, restarts, flat, few_levels, bounds, exchanged, held, not_exchanged]
    }
}

const USAGE: &str = "usage: compare [--full] [--seed N]
       compare sample FOLDER
       compare times | stack | list
       compare repeat TREE TREES SIDE ROUNDS
       compare trace TREE";

fn main() -> ExitCode {
    let args: Vec<String> = std::env::args().skip(1).collect();
    let args: Vec<&str> = args.iter().map(String::as_str).collect();
    let good = match args[..] {
        ["sample", folder] => match sample::write(folder.as_ref()) {
            Ok(()) => true,
            Err(error) => {
                eprintln!("{folder}: {error}");
                false
            }
        },
        ["times"] => {
            figures::times();
            true
        }
        ["stack"] => {
            stack::print();
            true
        }
        ["list"] => figures::list(),
        ["repeat", tree, trees, side, rounds] => match (trees.parse(), rounds.parse()) {
            (Ok(trees), Ok(rounds)) => figures::repeat(tree, trees, side, rounds),
            _ => usage(),
        },
        ["trace", tree] => figures::trace(tree),
        _ => match options(&args) {
            Some((full, seed)) => compare(full, seed),
            None => usage(),
        },
    };
    if good {
        ExitCode::SUCCESS
    } else {
        ExitCode::FAILURE
    }
}

fn usage() -> bool {
    eprintln!("{USAGE}");
    false
}

fn options(args: &[&str]) -> Option<(bool, u64)> {
    let mut options = (false, 1);
    let mut rest = args.iter();
    while let Some(&arg) = rest.next() {
        match arg {
            "--full" => options.0 = true,
            "--seed" => options.1 = rest.next()?.parse().ok()?,
            _ => return None,
        }
    }
    Some(options)
}

fn compare(full: bool, seed: u64) -> bool {
    println!("seed {seed}, {}", if full { "full" } else { "short" });
    let (nodes, batches) = if full { (4, 16_000) } else { (3, 400) };
    let mut total = Count::default();
    let start = Instant::now();
    let trees: Vec<_> = (1..=nodes).flat_map(small::trees).collect();
    let every = |i: u64, count: &mut Count| small::explore(&trees[i as usize], count);
    let random = |i: u64, count: &mut Count| walk::batch(seed, i, count);
    for (name, jobs, job) in [
        (format!("every tree of up to {nodes} nodes"), trees.len() as u64, &every as Job),
        ("random trees".to_string(), batches, &random),
    ] {
        match share(jobs, job) {
            Ok(count) => {
                println!(
                    "{name}: {} ticks done, {} branches exchanged, {} seconds",
                    count.done,
                    count.exchanged,
                    start.elapsed().as_secs()
                );
                total.add(count);
            }
            Err(wrong) => {
                println!("{name}: DIFFERENT (seed {seed})\n{wrong}");
                return false;
            }
        }
    }
    println!(
        "all the same: {} ticks done, {} stopped to ask, {} out of fuel, {} refused ({} of all these were restarts); \
         {} calls the same without recursion, {} more refused for too few levels; {} bounds, \
         {} branches exchanged, {} not, for state held, {} not, for something else",
        total.done,
        total.asked,
        total.fuel,
        total.refused,
        total.restarts,
        total.flat,
        total.few_levels,
        total.bounds,
        total.exchanged,
        total.held,
        total.not_exchanged
    );
    true
}
