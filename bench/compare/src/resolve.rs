//! acon_resolve beside the host's own code, and beside what checking the store takes: a load
//! that is refused since the store holds the image. A file is given without its ending: the
//! store stands in FILE.store, the layer list in FILE.layers, the place of the image whose
//! layers are resolved in FILE.place.

use crate::host::{self, Refused};
use crate::load;
use crate::timing::{print, Plan, Series};
use std::hint::black_box;

extern "C" {
    fn acon_resolve(
        store: *const u8,
        store_len: usize,
        used: usize,
        layers: *const u8,
        layers_len: usize,
        image: usize,
        out: *mut u8,
        out_len: usize,
    ) -> u64;
}

/// As long as any output.
const SPACE: usize = 64 * 49;

/// With so few samples a call takes long, and other inputs are left out.
const FEW: usize = 20;

/// The output's length, or the number of the refusal and the index that comes with it.
fn acon(store: &[u8], list: &[u8], image: usize, out: &mut [u8]) -> Result<usize, (u8, usize)> {
    let answer = unsafe {
        acon_resolve(
            store.as_ptr(),
            store.len(),
            store.len(),
            list.as_ptr(),
            list.len(),
            image,
            out.as_mut_ptr(),
            out.len(),
        )
    };
    let value = (answer >> 8 & 0xff_ffff) as usize;
    match answer as u8 {
        0 => Ok(value),
        number => Err((number, value)),
    }
}

/// The number and the index of the library for a refusal of the host's code.
fn number(refused: Refused) -> (u8, usize) {
    match refused {
        Refused::Store => (11, 0),
        Refused::List => (15, 0),
        Refused::Place => (16, 0),
        Refused::Undefined(index) => (17, index),
        Refused::Endless(index) => (18, index),
        Refused::Absent(index) => (19, index),
        Refused::NoSpace => (20, 0),
        _ => (0, 0),
    }
}

/// Resolves by both, which have to give the same answer and the same bytes.
fn both(
    path: &str,
    store: &[u8],
    list: &[u8],
    image: usize,
    size: usize,
) -> Result<usize, (u8, usize)> {
    let (mut one, mut other) = (vec![0xee; size], vec![0xee; size]);
    let library = acon(store, list, image, &mut one);
    let host = host::resolve(store, store.len(), list, image, &mut other).map_err(number);
    assert_eq!(library, host, "{path}: the library and the host differ");
    assert!(one == other, "{path}: different bytes");
    library
}

/// Other inputs on which both have to agree: every image of the store, and refusals of
/// each kind.
fn others(path: &str, case: &Case, length: usize) {
    let Case { store, list, image, .. } = case;
    let number = |store: &[u8], list: &[u8], image: usize, size: usize| {
        both(path, store, list, image, size).map_or_else(|(number, _)| number, |_| 0)
    };
    let expect = |given: u8, store: &[u8], list: &[u8], image: usize, size: usize| {
        assert_eq!(number(store, list, image, size), given, "{path}");
    };
    expect(11, &store[..store.len() - 1], list, *image, SPACE);
    expect(15, store, &list[..list.len() - 1], *image, SPACE);
    expect(16, store, list, 64, SPACE);
    expect(19, store, &[], *image, SPACE);
    expect(20, store, list, *image, length - 1);
    expect(0, store, list, *image, length);
    let all: Vec<u8> = (0..=*image).map(|place| number(store, list, place, SPACE)).collect();
    for number in [0, 17, 18] {
        assert!(all.contains(&number), "{path}: no image gets {number}");
    }
}

struct Case {
    store: Vec<u8>,
    list: Vec<u8>,
    image: usize,
    id: Vec<u8>, // of the first image
}

fn read(path: &str) -> Case {
    let part = |ending: &str| std::fs::read(format!("{path}{ending}")).expect("a file to read");
    let place = String::from_utf8(part(".place")).expect("a place");
    let (store, list) = (part(".store"), part(".layers"));
    let id = host::first_id(&store).expect("a store with an image");
    Case { store, list, image: place.parse().expect("a place"), id }
}

pub fn run(plan: Plan, paths: &[String]) {
    let cases: Vec<Case> = paths.iter().map(|path| read(path)).collect();
    let mut rows = Vec::new();
    for (path, case) in paths.iter().zip(&cases) {
        let Case { store, list, image, id } = case;
        let length = both(path, store, list, *image, SPACE)
            .unwrap_or_else(|(number, _)| panic!("{path} is refused by {number}"));
        if plan.samples > FEW {
            others(path, case, length);
        }

        let (mut one, mut other, mut buffer) = ([0; SPACE], [0; SPACE], store.clone());
        assert_eq!(load::acon(id, load::PLAIN, &mut buffer, store.len()), Err(12), "{path}");
        let library = Series::new(plan, move || {
            let _ = black_box(acon(black_box(store), black_box(list), *image, &mut one));
        });
        let host = Series::new(plan, move || {
            let list = black_box(list);
            let _ = black_box(host::resolve(black_box(store), store.len(), list, *image, &mut other));
        });
        let check = Series::new(plan, move || {
            let _ = black_box(load::acon(black_box(id), load::PLAIN, &mut buffer, store.len()));
        });
        rows.push((&path[..], [library, host, check]));
    }
    print(plan, rows);
}
