//! Taking times, and printing them: lines for a reader, or rows for a program.
//!
//! A time is the thread's processor time, that of the system's work for it included: both sides run on one thread, and
//! other work on the machine interrupts a run of a second many times.

/// The clock of the thread's processor time, by its number on Linux.
const THREAD_CLOCK: i32 = 3;

#[repr(C)]
struct Reading {
    seconds: i64,
    nanoseconds: i64,
}

extern "C" {
    fn clock_gettime(clock: i32, reading: *mut Reading) -> i32;
}

/// Nanoseconds of processor time that this thread has taken.
fn now() -> f64 {
    let mut reading = Reading { seconds: 0, nanoseconds: 0 };
    let status = unsafe { clock_gettime(THREAD_CLOCK, &mut reading) };
    assert_eq!(status, 0, "the thread's clock");
    1e9 * reading.seconds as f64 + reading.nanoseconds as f64
}

/// How the times are printed.
#[derive(Clone, Copy, PartialEq, Eq)]
pub enum Form {
    /// Lines with headings, for a reader.
    Lines,
    /// One line for each time of the library, `name<TAB>ratio<TAB>nanoseconds`, and nothing else.
    Rows,
}

impl Form {
    /// A line that is no row.
    pub fn note(self, text: &str) {
        if self == Form::Lines {
            println!("{text}");
        }
    }

    /// A time of the library: its line for a reader, or its name, its ratio and the nanoseconds for a program.
    pub fn row(self, line: &str, name: &str, ratio: f64, nanoseconds: f64) {
        match self {
            Form::Lines => println!("{line}"),
            Form::Rows => println!("{name}\t{ratio:.9}\t{nanoseconds:.0}"),
        }
    }
}

/// Nanoseconds of one run.
pub fn time(run: impl FnOnce()) -> f64 {
    let start = now();
    run();
    now() - start
}

/// Nanoseconds of one of many runs under one reading of the clock: reading it takes longer than a tenth of a short run.
pub fn time_short(mut run: impl FnMut()) -> f64 {
    const RUNS: usize = 50;
    time(|| (0..RUNS).for_each(|_| run())) / RUNS as f64
}

/// The best of some times of each, by turns.
pub fn best(repetitions: usize, mut first: impl FnMut() -> f64, mut second: impl FnMut() -> f64) -> (f64, f64) {
    let (mut a, mut b) = (f64::INFINITY, f64::INFINITY);
    for _ in 0..repetitions {
        a = a.min(first());
        b = b.min(second());
    }
    (a, b)
}

/// The least of some times.
pub fn least(times: impl Iterator<Item = f64>) -> f64 {
    times.fold(f64::INFINITY, f64::min)
}

/// The middle one of some times.
pub fn median(times: impl Iterator<Item = f64>) -> f64 {
    let mut times: Vec<f64> = times.collect();
    times.sort_by(f64::total_cmp);
    times[times.len() / 2]
}
