//! Tests of each method and of each refusal, on the library that is linked.

mod chain;
mod chain_threads;
mod dear_races;
mod lists;
mod masks;
mod objects;
mod operations;
mod passes;
mod races;
mod refusals;
mod terms;
mod threads;

use std::collections::BTreeMap;
use std::path::Path;
use std::process::Command;
use std::sync::Barrier;
use std::{env, fs, thread};
use trowelheath::{Element, Matrix, Object, Pass, Store, Vector};

/// The one pass of a store with room enough for a test.
fn open() -> Pass {
    let [pass] = Store::open_array(1_000).unwrap();
    pass
}

/// A matrix that stores these entries.
fn matrix<T: Element>(
    pass: &mut Pass,
    (nrows, ncols): (u64, u64),
    entries: &[(u64, u64, T)],
) -> Matrix<T> {
    let a = pass.new_matrix(nrows, ncols).unwrap();
    for &(i, j, value) in entries {
        pass.set(a, (i, j), value).unwrap();
    }
    a
}

/// A vector that stores these entries.
fn vector<T: Element>(pass: &mut Pass, size: u64, entries: &[(u64, T)]) -> Vector<T> {
    let v = pass.new_vector(size).unwrap();
    for &(i, value) in entries {
        pass.set(v, i, value).unwrap();
    }
    v
}

/// What an object stores, in order.
fn stored<O: Object>(pass: &mut Pass, object: O) -> Vec<O::Entry> {
    pass.entries(object).unwrap().into_iter().collect()
}

/// What a thread for each of these items gives, in their order. All threads begin at one moment.
fn at_once<T: Send, R: Send>(items: Vec<T>, work: impl Fn(T) -> R + Sync) -> Vec<R> {
    let (ready, work) = (&Barrier::new(items.len()), &work);
    thread::scope(|scope| {
        let begin = |item| {
            scope.spawn(move || {
                ready.wait();
                work(item)
            })
        };
        let threads: Vec<_> = items.into_iter().map(begin).collect();
        threads
            .into_iter()
            .map(|thread| thread.join().unwrap())
            .collect()
    })
}

/// How many tests of each module this program runs, by what it lists.
fn tests_by_module() -> BTreeMap<String, usize> {
    let program = env::current_exe().unwrap();
    let listing = Command::new(program).arg("--list").output().unwrap();
    let text = String::from_utf8(listing.stdout).unwrap();
    let mut counts = BTreeMap::new();
    for name in text.lines().filter_map(|line| line.strip_suffix(": test")) {
        let module = name.split_once("::").map_or("main", |(module, _)| module);
        *counts.entry(module.to_string()).or_default() += 1;
    }
    counts
}

/// A file without its `mod` above is compiled by nobody.
#[test]
fn each_test_of_each_file_in_this_folder_is_run() {
    let folder = Path::new(env!("CARGO_MANIFEST_DIR")).join("tests/store");
    let mut written = BTreeMap::new();
    for file in fs::read_dir(folder).unwrap() {
        let path = file.unwrap().path();
        if path.extension() != Some("rs".as_ref()) {
            continue;
        }
        let module = path.file_stem().unwrap().to_string_lossy().into_owned();
        let text = fs::read_to_string(&path).unwrap();
        let count = text.lines().filter(|line| line.trim() == "#[test]").count();
        written.insert(module, count);
    }
    assert_eq!(tests_by_module(), written);
}
