//! acon_load beside the host's own code. A file is given without its ending: the
//! store stands in FILE.store, the image that is loaded in FILE.id and FILE.json.

use crate::host::{self, Refused};
use crate::timing::{print, Plan, Series};
use std::hint::black_box;

extern "C" {
    fn acon_load(
        id: *const u8,
        id_len: usize,
        manifest: *const u8,
        manifest_len: usize,
        buffer: *mut u8,
        buffer_len: usize,
        used: usize,
    ) -> u64;
}

/// Longer than any record.
const SPACE: usize = 16_600;

/// The shortest manifest.
pub const PLAIN: &[u8] = b"{\"aconSpecVersion\":[1,0]}";

/// The new count, or the number of the refusal.
pub fn acon(id: &[u8], text: &[u8], buffer: &mut [u8], used: usize) -> Result<usize, u8> {
    let answer = unsafe {
        acon_load(
            id.as_ptr(),
            id.len(),
            text.as_ptr(),
            text.len(),
            buffer.as_mut_ptr(),
            buffer.len(),
            used,
        )
    };
    match answer as u8 {
        0 => Ok((answer >> 8 & 0xff_ffff) as usize),
        number => Err(number),
    }
}

fn is_number(refused: Refused, number: u8) -> bool {
    match refused {
        Refused::Manifest => (1..=9).contains(&number),
        Refused::Id => number == 10,
        Refused::Store => number == 11,
        Refused::SameId => number == 12,
        Refused::Clash => number == 13,
        Refused::Full => number == 14,
        _ => false,
    }
}

/// Loads by both, which have to give the same answer and the same bytes; gives the
/// library's.
fn both(
    path: &str,
    id: &[u8],
    text: &[u8],
    buffer: &[u8],
    used: usize,
) -> (Result<usize, u8>, Vec<u8>) {
    let (mut one, mut other) = (buffer.to_vec(), buffer.to_vec());
    let library = acon(id, text, &mut one, used);
    let host = host::load(id, text, &mut other, used);
    let same = match (library, host) {
        (Ok(m), Ok(n)) => m == n,
        (Err(number), Err(refused)) => is_number(refused, number),
        _ => false,
    };
    assert!(same, "{path}: the library answers {library:?}, the host {host:?}");
    assert!(one == other, "{path}: different bytes");
    (library, one)
}

/// Loads that one of the checks refuses, each of them by the library's number.
fn refusals(
    path: &str,
    id: &[u8],
    text: &[u8],
    buffer: &[u8],
    used: usize,
    loaded: &[u8],
    count: usize,
) {
    let expect = |number: u8, id: &[u8], text: &[u8], buffer: &[u8], used: usize| {
        assert_eq!(both(path, id, text, buffer, used).0, Err(number), "{path}");
    };
    let mut other_id = id.to_vec();
    if let Some(digit) = other_id.last_mut() {
        *digit = if *digit == b'0' { b'1' } else { b'0' };
    }
    let mut broken = buffer.to_vec();
    broken[used - 1] = b' ';
    expect(3, id, &text[..text.len() - 2], buffer, used);
    expect(7, id, b"{}", buffer, used);
    expect(10, &id[1..], text, buffer, used);
    expect(11, id, text, buffer, used - 1);
    expect(11, id, text, &broken, used);
    expect(12, id, text, loaded, count);
    expect(13, &other_id, text, loaded, count);
    expect(14, id, text, &buffer[..count - 1], used);
}

struct Case {
    id: Vec<u8>,
    text: Vec<u8>,
    buffer: Vec<u8>,
    used: usize,
}

fn read(path: &str) -> Case {
    let part = |ending: &str| std::fs::read(format!("{path}{ending}")).expect("a file to read");
    let mut buffer = part(".store");
    let used = buffer.len();
    buffer.resize(used + SPACE, 0);
    Case { id: part(".id"), text: part(".json"), buffer, used }
}

pub fn run(plan: Plan, paths: &[String]) {
    let cases: Vec<Case> = paths.iter().map(|path| read(path)).collect();
    let mut rows = Vec::new();
    for (path, Case { id, text, buffer, used }) in paths.iter().zip(&cases) {
        let (answer, loaded) = both(path, id, text, buffer, *used);
        let count = answer.unwrap_or_else(|number| panic!("{path} is refused by {number}"));
        if *used < 1 << 17 {
            refusals(path, id, text, buffer, *used, &loaded, count);
        }

        // Each call finds the store as it was; what the last one appended is not cleared.
        let (mut one, mut other) = (buffer.clone(), buffer.clone());
        let library = Series::new(plan, move || {
            let _ = black_box(acon(black_box(id), black_box(text), &mut one, *used));
        });
        let host = Series::new(plan, move || {
            let _ = black_box(host::load(black_box(id), black_box(text), &mut other, *used));
        });
        rows.push((&path[..], [library, host]));
    }
    print(plan, rows);
}
