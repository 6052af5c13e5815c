//! Times of calls, and the lines of the report.

use std::hint::black_box;

/// A sample of a case lasts at least so many nanoseconds, and so many are taken; the fastest counts.
const SAMPLE: f64 = 3e6;
const SAMPLES: usize = 15;

/// Prints a line for each row, or only for those whose names have the wanted words in them.
pub struct Report {
    wanted: String,
    /// The title of a section none of whose rows is printed yet.
    title: Option<String>,
}

impl Report {
    /// A report with its heading.
    pub fn new(wanted: String) -> Report {
        let columns = ["library ns", "Rust ns", "fast ns", "lib/Rust", "lib/fast"].map(str::to_string);
        print_line("case", &columns);
        Report { wanted, title: None }
    }

    /// Begins a section.
    pub fn section(&mut self, title: &str) {
        self.title = Some(title.to_string());
    }

    /// Whether a row is printed, so that one that is not need not be worked out.
    pub fn wants(&self, case: &str) -> bool {
        case.contains(&self.wanted)
    }

    /// Times the library and Rust in turn and prints a line.
    pub fn compare<A, B>(&mut self, case: &str, mut library: impl FnMut() -> A, mut rust: impl FnMut() -> B) {
        if self.wants(case) {
            let [library, rust] = best([&mut || drop(black_box(library())), &mut || drop(black_box(rust()))]);
            self.line(case, library, rust, None);
        }
    }

    /// Times the library, Rust and the fast version in turn and prints a line.
    pub fn compare_fast<A, B, C>(
        &mut self,
        case: &str,
        mut library: impl FnMut() -> A,
        mut rust: impl FnMut() -> B,
        mut fast: impl FnMut() -> C,
    ) {
        if self.wants(case) {
            let [library, rust, fast] =
                best([&mut || drop(black_box(library())), &mut || drop(black_box(rust())), &mut || drop(black_box(fast()))]);
            self.line(case, library, rust, Some(fast));
        }
    }

    /// Times the library and Rust on the same case in two forms, all four in turn, and prints a line for each. The library's time on the first
    /// form stands beside the second in the columns of the fast version.
    pub fn compare_forms(&mut self, cases: [&str; 2], calls: [[Call<'_>; 2]; 2]) {
        if cases.iter().any(|case| self.wants(case)) {
            let [[first, first_rust], [second, second_rust]] = calls;
            let [first, first_rust, second, second_rust] = best([first, first_rust, second, second_rust]);
            self.line(cases[0], first, first_rust, None);
            self.line(cases[1], second, second_rust, Some(first));
        }
    }

    /// Prints a line of nanoseconds and ratios.
    pub fn line(&mut self, case: &str, library: f64, rust: f64, fast: Option<f64>) {
        if !self.wants(case) {
            return;
        }
        if let Some(title) = self.title.take() {
            println!("-- {title}");
        }
        let [fast_time, to_fast] = match fast {
            Some(fast) => [whole(fast), hundredths(library / fast)],
            None => ["-".to_string(), "-".to_string()],
        };
        let columns = [whole(library), whole(rust), fast_time, hundredths(library / rust), to_fast];
        print_line(&format!("  {case}"), &columns);
    }
}

fn whole(number: f64) -> String {
    format!("{number:.0}")
}

fn hundredths(number: f64) -> String {
    format!("{number:.2}")
}

fn print_line(case: &str, [library, rust, fast, to_rust, to_fast]: &[String; 5]) {
    println!("{case:60} {library:>12} {rust:>12} {fast:>12} {to_rust:>9} {to_fast:>9}");
}

/// A call that is timed; what it answers is dropped.
pub type Call<'a> = &'a mut dyn FnMut();

/// Nanoseconds of each call, taken in turn: the fastest sample counts.
fn best<const N: usize>(mut calls: [Call<'_>; N]) -> [f64; N] {
    let rounds = calls.each_mut().map(|call| rounds(call));
    let mut best = [f64::INFINITY; N];
    for _ in 0..SAMPLES {
        for (index, call) in calls.iter_mut().enumerate() {
            best[index] = best[index].min(sample(call, rounds[index]));
        }
    }
    best
}

fn rounds(call: &mut dyn FnMut()) -> u32 {
    let mut rounds = 1;
    while sample(call, rounds) * f64::from(rounds) < SAMPLE {
        rounds *= 2;
    }
    rounds
}

/// Nanoseconds a call.
fn sample(call: &mut dyn FnMut(), rounds: u32) -> f64 {
    let start = processor_time();
    for _ in 0..rounds {
        call();
    }
    (processor_time() - start) / f64::from(rounds)
}

/// The nanoseconds for which this thread has run, so that other programs on the machine count little.
pub fn processor_time() -> f64 {
    #[repr(C)]
    struct Time {
        seconds: i64,
        nanoseconds: i64,
    }
    extern "C" {
        fn clock_gettime(clock: i32, time: *mut Time) -> i32;
    }
    const THREAD_TIME: i32 = 3;
    let mut time = Time { seconds: 0, nanoseconds: 0 };
    // SAFETY: the C library's function writes the time it is lent.
    let status = unsafe { clock_gettime(THREAD_TIME, &mut time) };
    assert_eq!(status, 0, "Linux has this clock");
    time.seconds as f64 * 1e9 + time.nanoseconds as f64
}

/// The nanoseconds for which the programs that were run have run.
pub fn programs_time() -> f64 {
    /// The C library's `struct rusage`: the time of the programs, that of the system for them, and fourteen counts.
    #[repr(C)]
    struct Usage {
        times: [[i64; 2]; 2],
        counts: [i64; 14],
    }
    extern "C" {
        fn getrusage(whose: i32, usage: *mut Usage) -> i32;
    }
    const CHILDREN: i32 = -1;
    let mut usage = Usage { times: [[0; 2]; 2], counts: [0; 14] };
    // SAFETY: the C library's function writes the usage it is lent.
    let status = unsafe { getrusage(CHILDREN, &mut usage) };
    assert_eq!(status, 0, "Linux has these times");
    usage.times.iter().map(|[seconds, micros]| *seconds as f64 * 1e9 + *micros as f64 * 1e3).sum()
}
