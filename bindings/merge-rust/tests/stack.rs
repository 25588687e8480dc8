//! Each call on a thread with just the stack that is said to suffice, and on one of 192 KiB in all. What less would do is tried in bindings/c/merge_test.c.

use ial::Table;
use merge::{Limit, Store, Test, APPLIANCES, JOIN_STACK, LOOK_STACK, RECORDS_STACK, RECORD_STACK};

/// What a thread needs for itself: its guard page, its locals and the frames below the call.
const THREAD: usize = 16 * 1024;

/// A thread of so many bytes in all can make every call.
const EVERY: usize = 192 * 1024;

fn on_thread<T: Send>(bytes: usize, call: impl FnOnce() -> T + Send) -> T {
    std::thread::scope(|scope| std::thread::Builder::new().stack_size(bytes).spawn_scoped(scope, call).unwrap().join().unwrap())
}

/// Each call on a thread of as many bytes as its stated stack comes to by `bytes`.
fn each_call(bytes: fn(usize) -> usize) {
    let table = Table::read(include_bytes!("../../../examples/limit.ial")).unwrap();
    let limit = Limit { table: &table, function: 0, budget: 1_000 };
    let tests: Vec<Test> = (0..4_000).map(|i| Test { appliance: i * 701 % 1_024, time: i, tablet: 1, reading: 170 }).collect();
    let mut store = on_thread(bytes(LOOK_STACK), Store::empty);
    assert_eq!(on_thread(bytes(RECORD_STACK), || store.record(&limit, tests[5])), Ok(()));
    assert_eq!(on_thread(bytes(RECORDS_STACK), || store.records(&limit, &tests)), Ok(()));
    let other = store.clone();
    assert_eq!(on_thread(bytes(JOIN_STACK), || store.join(&other)), Ok(()));
    assert_eq!(on_thread(bytes(LOOK_STACK), || store.look(701)).map(|record| record.test.time), Some(1 + 3 * 1_024));
    assert_eq!(on_thread(bytes(LOOK_STACK), || store.iter().count()), APPLIANCES);
}

#[test]
fn each_call_has_enough() {
    each_call(|stated| stated + THREAD);
}

#[test]
fn a_small_thread_makes_every_call() {
    each_call(|_| EVERY);
}

#[test]
fn the_header_says_the_same() {
    let header = include_str!("../../c/merge.h");
    for (name, bytes) in [("RECORD", RECORD_STACK), ("RECORDS", RECORDS_STACK), ("STORE", JOIN_STACK), ("LOOK", LOOK_STACK)] {
        assert!(header.contains(&format!("#define MERGE_{name}_STACK ({} * 1024)", bytes / 1024)), "{name}");
    }
}
