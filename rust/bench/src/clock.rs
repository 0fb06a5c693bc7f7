//! Processor time, so that other work on the machine does not count.

/// Seconds and what is beyond them, in nanoseconds or microseconds.
#[repr(C)]
#[derive(Clone, Copy, Default)]
struct Time {
    seconds: i64,
    beyond: i64,
}

/// What a process has used; only its times are read.
#[repr(C)]
#[derive(Default)]
struct Usage {
    user: Time,
    system: Time,
    rest: [i64; 14],
}

extern "C" {
    fn clock_gettime(clock: i32, time: *mut Time) -> i32;
    fn getrusage(who: i32, usage: *mut Usage) -> i32;
}

/// The clock of the processor time of a thread.
const THREAD_CLOCK: i32 = 3;
/// All processes that this one has started and that have ended.
const ENDED_CHILDREN: i32 = -1;

/// The processor time of this thread in nanoseconds.
pub fn of_thread() -> f64 {
    let mut time = Time::default();
    // SAFETY: the pointer is that of a time.
    unsafe { clock_gettime(THREAD_CLOCK, &mut time) };
    1e9 * time.seconds as f64 + time.beyond as f64
}

/// The processor time of the ended children in nanoseconds.
pub fn of_children() -> f64 {
    let mut usage = Usage::default();
    // SAFETY: the pointer is that of a usage.
    unsafe { getrusage(ENDED_CHILDREN, &mut usage) };
    let of = |time: Time| 1e9 * time.seconds as f64 + 1e3 * time.beyond as f64;
    of(usage.user) + of(usage.system)
}

/// How long and in which rows a call is measured.
#[derive(Clone, Copy)]
pub struct Effort {
    pub milliseconds: u32,
    /// Calls in a row between two looks at the clock.
    pub batch: u32,
}

/// The nanoseconds of one call in the fastest row.
pub fn best(effort: Effort, mut call: impl FnMut()) -> f64 {
    let time = 1e6 * f64::from(effort.milliseconds);
    let (mut best, mut rows, began) = (f64::INFINITY, 0, of_thread());
    while rows < 2 || of_thread() - began < time {
        let row_began = of_thread();
        for _ in 0..effort.batch {
            call();
        }
        best = best.min((of_thread() - row_began) / f64::from(effort.batch));
        rows += 1;
    }
    best
}
