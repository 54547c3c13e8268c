//! acon_canonical beside serde_json.

use crate::timing::{print, Plan, Series};
use std::hint::black_box;

extern "C" {
    fn acon_canonical(text: *const u8, text_len: usize, out: *mut u8, out_len: usize) -> u64;
}

/// The form's length. The buffer is used again for each call and never cleared.
fn acon(text: &[u8], out: &mut [u8]) -> usize {
    let answer = unsafe { acon_canonical(text.as_ptr(), text.len(), out.as_mut_ptr(), out.len()) };
    assert_eq!(answer & 0xff, 0, "acon_canonical refuses");
    (answer >> 8 & 0xff_ffff) as usize
}

/// Reads into a tree whose objects are sorted maps and writes it into a new vector.
fn serde(text: &[u8]) -> Vec<u8> {
    let value: serde_json::Value = serde_json::from_slice(text).expect("serde_json refuses");
    serde_json::to_vec(&value).expect("serde_json writes")
}

pub fn run(plan: Plan, paths: &[String]) {
    let texts: Vec<Vec<u8>> =
        paths.iter().map(|path| std::fs::read(path).expect("a file to read")).collect();
    let mut rows = Vec::new();
    for (path, text) in paths.iter().zip(&texts) {
        // Both have to give the same bytes, else there is nothing to compare.
        let mut out = vec![0; text.len()];
        let len = acon(text, &mut out);
        assert!(out[..len] == serde(text)[..], "{path}: different forms");

        let library = Series::new(plan, move || {
            black_box(acon(black_box(text), &mut out));
        });
        let other = Series::new(plan, move || {
            black_box(serde(black_box(text)));
        });
        rows.push((&path[..], [library, other]));
    }
    print(plan, rows);
}
