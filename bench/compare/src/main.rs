//! compare WHAT SAMPLES MICROSECONDS FILE...: times the library and what a host would
//! use instead on each file, and prints the median of either in nanoseconds. WHAT is
//! `canonical`, with texts, or `load`, `judge` or `resolve`, with stores (see load.rs,
//! judge.rs, resolve.rs). A sample takes MICROSECONDS at least.

mod canonical;
mod host;
mod judge;
mod load;
mod resolve;
mod timing;

use std::time::Duration;

fn main() {
    let words: Vec<String> = std::env::args().skip(1).collect();
    let [what, samples, microseconds, paths @ ..] = &words[..] else {
        panic!("compare WHAT SAMPLES MICROSECONDS FILE...")
    };
    let plan = timing::Plan {
        samples: samples.parse().expect("a number of samples"),
        sample_time: Duration::from_micros(microseconds.parse().expect("a number of microseconds")),
    };
    match &what[..] {
        "canonical" => canonical::run(plan, paths),
        "load" => load::run(plan, paths),
        "judge" => judge::run(plan, paths),
        "resolve" => resolve::run(plan, paths),
        _ => panic!("canonical, load, judge or resolve"),
    }
}
