//! acon_judge beside the host's own code. A file is given without its ending: the
//! store stands in FILE.store.

use crate::host::{self, Refused};
use crate::timing::{print, Plan, Series};
use std::hint::black_box;

extern "C" {
    fn acon_judge(
        store: *const u8,
        store_len: usize,
        used: usize,
        report: *mut u8,
        report_len: usize,
    ) -> u64;
}

/// Longer than any report.
const SPACE: usize = 8_192;

/// With so few samples a call takes long, and other buffers are left out.
const FEW: usize = 20;

/// The number of pairs, or the number of the refusal.
fn acon(store: &[u8], used: usize, report: &mut [u8]) -> Result<usize, u8> {
    let answer = unsafe {
        acon_judge(store.as_ptr(), store.len(), used, report.as_mut_ptr(), report.len())
    };
    match answer as u8 {
        0 => Ok((answer >> 8 & 0xff_ffff) as usize),
        number => Err(number),
    }
}

/// Judges by both, which have to give the same answer and the same bytes.
fn both(path: &str, store: &[u8], used: usize, size: usize) -> Result<usize, u8> {
    let (mut one, mut other) = (vec![0xee; size], vec![0xee; size]);
    let library = acon(store, used, &mut one);
    let host = host::judge(store, used, &mut other);
    let same = match (library, host) {
        (Ok(m), Ok(n)) => m == n,
        (Err(number), Err(refused)) => match refused {
            Refused::Store => number == 11,
            Refused::NoSpace => number == 20,
            _ => false,
        },
        _ => false,
    };
    assert!(same, "{path}: the library answers {library:?}, the host {host:?}");
    assert!(one == other, "{path}: different bytes");
    library
}

pub fn run(plan: Plan, paths: &[String]) {
    let read = |path: &String| std::fs::read(format!("{path}.store")).expect("a file to read");
    let stores: Vec<Vec<u8>> = paths.iter().map(read).collect();
    let mut rows = Vec::new();
    for (path, store) in paths.iter().zip(&stores) {
        let used = store.len();
        let pairs = both(path, store, used, SPACE)
            .unwrap_or_else(|number| panic!("{path} is refused by {number}"));
        if plan.samples > FEW && pairs > 0 {
            assert_eq!(both(path, store, used, 2 * pairs), Ok(pairs), "{path}");
            assert_eq!(both(path, store, used, 2 * pairs - 1), Err(20), "{path}");
            assert_eq!(both(path, store, used - 1, SPACE), Err(11), "{path}");
        }

        let (mut one, mut other) = ([0; SPACE], [0; SPACE]);
        let library = Series::new(plan, move || {
            let _ = black_box(acon(black_box(store), used, &mut one));
        });
        let host = Series::new(plan, move || {
            let _ = black_box(host::judge(black_box(store), used, &mut other));
        });
        rows.push((&path[..], [library, host]));
    }
    print(plan, rows);
}
