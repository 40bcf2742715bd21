//! Shares jobs between processes, one for each core.
//!
//! Not between threads: in an emulator, one process with two took 2.6 times the processor time of one without.

use crate::Count;
use std::env::current_exe;
use std::fs::File;
use std::io::{self, stdout, ErrorKind, Read, Seek, SeekFrom, Write};
use std::os::unix::net::UnixStream;
use std::os::unix::process::parent_id;
use std::panic::{catch_unwind, AssertUnwindSafe};
use std::process::{exit, id};
use std::ptr::null_mut;
use std::thread::available_parallelism;
use std::time::Duration;

pub type Job<'a> = &'a dyn Fn(u64, &mut Count) -> Result<(), String>;

/// How long one worker is listened to before the next.
const TURN: Duration = Duration::from_millis(20);

const SIGKILL: i32 = 9;

extern "C" {
    fn fork() -> i32;
    fn kill(process: i32, signal: i32) -> i32;
    fn waitpid(process: i32, status: *mut i32, options: i32) -> i32;
}

/// Does the jobs 0 to n on every core, until one finds a difference.
pub fn share(jobs: u64, job: Job) -> Result<Count, String> {
    let failed = |error| format!("a worker can't be started: {error}");
    let numbers = Numbers::new().map_err(failed)?;
    let parent = id();
    let work = || {
        let mut count = Count::default();
        loop {
            let i = numbers.take().map_err(|error| error.to_string())?;
            // It also stops when nobody waits for it.
            if i >= jobs || parent_id() != parent {
                return Ok(count);
            }
            job(i, &mut count)?;
            count.jobs += 1;
        }
    };
    let cores = available_parallelism().map_or(1, |n| n.get());
    let mut workers = (0..cores).map(|_| Worker::start(&work)).collect::<Result<Vec<_>, _>>().map_err(failed)?;
    let mut total = Count::default();
    while !workers.is_empty() {
        for i in (0..workers.len()).rev() {
            if workers[i].has_ended() {
                total.add(workers.swap_remove(i).found()?);
            }
        }
    }
    if total.jobs != jobs {
        return Err(format!("{} jobs of {jobs} were done", total.jobs));
    }
    Ok(total)
}

/// The numbers from 0 on, of which each process takes the next: the place in an open file is one for all of them.
struct Numbers(File);

impl Numbers {
    fn new() -> io::Result<Self> {
        Ok(Numbers(File::open(current_exe()?)?))
    }

    fn take(&self) -> io::Result<u64> {
        Ok((&self.0).seek(SeekFrom::Current(1))? - 1)
    }
}

/// A process at work. When it is dropped it ends.
struct Worker {
    process: i32,
    stream: UnixStream,
    /// What it has written so far.
    told: Vec<u8>,
}

impl Worker {
    fn start(work: &dyn Fn() -> Result<Count, String>) -> io::Result<Self> {
        let (stream, mut there) = UnixStream::pair()?;
        stream.set_read_timeout(Some(TURN))?;
        // What is not yet printed would be printed by both.
        stdout().flush()?;
        // SAFETY: this process has one thread, so everything in the copy is whole.
        match unsafe { fork() } {
            -1 => Err(io::Error::last_os_error()),
            0 => {
                // It ends here, also by a panic: what called it is the parent's.
                let told = catch_unwind(AssertUnwindSafe(|| there.write_all(tell(work()).as_bytes())));
                exit(i32::from(!matches!(told, Ok(Ok(())))))
            }
            process => Ok(Worker { process, stream, told: vec![] }),
        }
    }

    /// Listens for a while.
    fn has_ended(&mut self) -> bool {
        match self.stream.read_to_end(&mut self.told) {
            Err(error) => !matches!(error.kind(), ErrorKind::WouldBlock | ErrorKind::TimedOut),
            Ok(_) => true,
        }
    }

    fn found(self) -> Result<Count, String> {
        hear(&String::from_utf8_lossy(&self.told))
    }
}

impl Drop for Worker {
    fn drop(&mut self) {
        // SAFETY: nobody has waited for the process before, so the number is still its own.
        unsafe {
            kill(self.process, SIGKILL);
            waitpid(self.process, null_mut(), 0);
        }
    }
}

/// What a worker writes. One that fails writes nothing.
fn tell(found: Result<Count, String>) -> String {
    match found {
        Ok(mut count) => format!("same {}", count.fields().map(|n| n.to_string()).join(" ")),
        Err(wrong) => format!("different {wrong}"),
    }
}

/// What it has found.
fn hear(told: &str) -> Result<Count, String> {
    let failed = || "a worker failed".to_string();
    match told.split_once(' ') {
        Some(("same", numbers)) => {
            let mut count = Count::default();
            let mut numbers = numbers.split(' ').map_while(|number| number.parse().ok());
            for field in count.fields() {
                *field = numbers.next().ok_or_else(failed)?;
            }
            Ok(count)
        }
        Some(("different", wrong)) => Err(wrong.to_string()),
        _ => Err(failed()),
    }
}
