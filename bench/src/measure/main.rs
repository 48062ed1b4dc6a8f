//! `measure`: the component beside the oracle's `fast` solver on the same questions in one process, turn by turn, and the times of the other entries
//! on large inputs. Results are compared before anything is timed. Prints two tables; `bench/run` makes all that it needs.

mod entries;
mod inputs;
mod questions;
mod runs;

use std::time::Duration;

fn main() {
    let cores = std::thread::available_parallelism().map_or(0, usize::from);
    println!("{} with {cores} cores\n", std::env::consts::ARCH);
    runs::measure();
    println!();
    oracle::on_deep_stack(entries::measure);
}

/// How long the work takes.
fn timed(work: impl FnOnce()) -> Duration {
    let start = own_time();
    work();
    own_time() - start
}

#[repr(C)]
struct Timespec {
    seconds: i64,
    nanoseconds: i64,
}

extern "C" {
    fn clock_gettime(clock: i32, time: *mut Timespec) -> i32;
}

/// The processor time of this thread, which other work on the machine does not lengthen. Linux on a 64-bit processor.
fn own_time() -> Duration {
    const THREAD: i32 = 3;
    let mut time = Timespec {
        seconds: 0,
        nanoseconds: 0,
    };
    // SAFETY: the structure is the one that the function fills.
    let status = unsafe { clock_gettime(THREAD, &mut time) };
    assert_eq!(status, 0, "no clock of the thread's own time");
    Duration::new(time.seconds as u64, time.nanoseconds as u32)
}

fn median(mut times: Vec<Duration>) -> Duration {
    times.sort();
    times[times.len() / 2]
}
