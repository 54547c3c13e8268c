//! Samples of calls: a sample is a run of calls that takes long enough for the clock.
//! The clock is the time that this program had the processor: a call that takes a
//! second would else be charged with all that ran beside it, and a short one not.

use std::time::Duration;

#[repr(C)]
struct Timespec {
    seconds: i64,
    nanoseconds: i64,
}

const PROCESS_TIME: i32 = 2; // CLOCK_PROCESS_CPUTIME_ID of Linux

extern "C" {
    fn clock_gettime(clock: i32, time: *mut Timespec) -> i32;
}

fn now() -> Duration {
    let mut time = Timespec { seconds: 0, nanoseconds: 0 };
    let failed = unsafe { clock_gettime(PROCESS_TIME, &mut time) };
    assert_eq!(failed, 0, "there is no clock of the program's time");
    Duration::new(time.seconds as u64, time.nanoseconds as u32)
}

/// How many samples, and how long one takes at least.
#[derive(Clone, Copy)]
pub struct Plan {
    pub samples: usize,
    pub sample_time: Duration,
}

/// How long `calls` calls take.
fn time(calls: u32, call: &mut dyn FnMut()) -> Duration {
    let start = now();
    for _ in 0..calls {
        call();
    }
    now() - start
}

/// One of the sides on one file.
pub struct Series<'a> {
    call: Box<dyn FnMut() + 'a>,
    calls: u32, // in a sample
    times: Vec<f64>,
}

impl<'a> Series<'a> {
    pub fn new(plan: Plan, call: impl FnMut() + 'a) -> Self {
        let mut call: Box<dyn FnMut() + 'a> = Box::new(call);
        let mut calls = 1;
        while time(calls, &mut call) < plan.sample_time {
            calls *= 2;
        }
        Series { call, calls, times: Vec::new() }
    }

    fn sample(&mut self) {
        let nanoseconds = time(self.calls, &mut self.call).as_nanos() as f64;
        self.times.push(nanoseconds / f64::from(self.calls));
    }

    fn median(&mut self) -> f64 {
        self.times.sort_by(f64::total_cmp);
        self.times[self.times.len() / 2]
    }
}

/// Prints the medians of all sides for each path. Each round takes one sample of
/// all, so that a busy moment of the machine falls on all alike.
pub fn print<const N: usize>(plan: Plan, mut rows: Vec<(&str, [Series; N])>) {
    for _ in 0..plan.samples {
        rows.iter_mut().for_each(|(_, sides)| sides.iter_mut().for_each(Series::sample));
    }
    for (path, sides) in &mut rows {
        let medians: Vec<String> = sides.iter_mut().map(|side| side.median().to_string()).collect();
        println!("{path}\t{}", medians.join("\t"));
    }
}
