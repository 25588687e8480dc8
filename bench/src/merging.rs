//! The merge: 100,000 records into a store of 1,024 appliances, one by one, where each side checks the table at every record, and at once; and
//! full stores joined.

use crate::{race, race_on};
use ::merge::raw::{merge_record, merge_records, merge_store};
use ial_baseline::merge::{self, APPLIANCES, STORE};
use ial_baseline::TABLE;

/// Readings from -50 to 20 pass, in eight steps; those above take six.
const LIMIT: &str = "function ssa uint limit(int64 reading) { register int64 most; register int64 least; register uint c; register uint d; register uint e;
    block entry { most = load.i64 (20); least = load.i64 (-50); c = cmp.lteq reading, most; jump.cond c (low, out); }
    block low { d = cmp.gteq reading, least; jump (out); }
    block out { e = phi (c, d); return e; } }";
const EXAMPLE: &str = include_str!("../../examples/limit.ial");
const BUDGET: u64 = 1_000;

fn table(text: &str) -> Vec<u8> {
    let mut t = vec![0; TABLE];
    ial_baseline::read(text.as_bytes(), &mut t).unwrap();
    t
}

/// So many records of 1,024 appliances, whose times, tablets and readings tie now and then.
fn records(count: u64) -> Vec<u64> {
    let mut state = 1u64;
    let mut random = |below: u64| {
        state = state.wrapping_mul(6_364_136_223_846_793_005).wrapping_add(1_442_695_040_888_963_407);
        (state >> 33) % below
    };
    (0..count).flat_map(|_| [7_919 * random(APPLIANCES as u64), random(64), random(8), random(200)]).collect()
}

fn verified_one_by_one(s: &mut [u8], t: &[u8], numbers: &[u64]) {
    for &[appliance, time, tablet, reading] in numbers.as_chunks().0 {
        let a = unsafe { merge_record(s.as_mut_ptr(), s.len(), t.as_ptr(), t.len(), 0, BUDGET, appliance, time, tablet, reading) };
        assert_eq!((a.number, a.place), (0, 0));
    }
}

fn plain_one_by_one(s: &mut [u8], t: &[u8], numbers: &[u64]) {
    for &record in numbers.as_chunks().0 {
        merge::record(s, t, 0, BUDGET, record).unwrap();
    }
}

fn verified_at_once(s: &mut [u8], t: &[u8], numbers: &[u64]) {
    let a = unsafe { merge_records(s.as_mut_ptr(), s.len(), t.as_ptr(), t.len(), 0, BUDGET, numbers.as_ptr(), numbers.len()) };
    assert_eq!((a.number, a.place), (0, 0));
}

fn plain_at_once(s: &mut [u8], t: &[u8], numbers: &[u64]) {
    merge::records(s, t, 0, BUDGET, numbers).unwrap();
}

fn verified_join(s: &mut [u8], other: &[u8]) {
    let a = unsafe { merge_store(s.as_mut_ptr(), s.len(), other.as_ptr(), other.len()) };
    assert_eq!((a.number, a.place), (0, 0));
}

fn plain_join(s: &mut [u8], other: &[u8]) {
    merge::store(s, other).unwrap();
}

/// Both calls, from the same bytes, leave the same.
fn agree(start: &[u8], verified: impl Fn(&mut [u8]), plain: impl Fn(&mut [u8])) {
    let (mut a, mut b) = (start.to_vec(), start.to_vec());
    verified(&mut a);
    plain(&mut b);
    assert!(a == b);
}

fn merge_records_into_a_store() {
    let numbers = records(100_000);
    let empty = vec![0; STORE];
    let (limit, example) = (table(LIMIT), table(EXAMPLE));
    let t = &limit;
    agree(&empty, |s| verified_one_by_one(s, t, &numbers), |s| plain_one_by_one(s, t, &numbers));
    race_on("merge 100,000 records one by one, check included", 20, &empty, |s| verified_one_by_one(s, t, &numbers), |s| plain_one_by_one(s, t, &numbers));
    for (name, t) in [("merge 100,000 records at once", &limit), ("merge 100,000 records at once, the example's limit", &example)] {
        agree(&empty, |s| verified_at_once(s, t, &numbers), |s| plain_at_once(s, t, &numbers));
        race_on(name, 100, &empty, |s| verified_at_once(s, t, &numbers), |s| plain_at_once(s, t, &numbers));
    }
    // One record: the cost of a call, whose table is small.
    let one = &numbers[..4];
    let (mut a, mut b) = (empty.clone(), empty);
    race("merge one record, check included", 20_000, || verified_one_by_one(&mut a, t, one), || plain_one_by_one(&mut b, t, one));
}

/// A store of so many appliances: the multiples of `step` from `first` on.
fn filled(first: u64, step: u64, count: usize, time: u64) -> Vec<u8> {
    let mut s = vec![0; STORE];
    let numbers: Vec<u64> = (0..count as u64).flat_map(|i| [first + step * i, time + i * 7 % 3, i % 5, i % 60]).collect();
    plain_at_once(&mut s, &table(LIMIT), &numbers);
    s
}

fn join_stores() {
    let works = [
        ("join two stores of the same 1,024 appliances", filled(0, 1, APPLIANCES, 1), filled(0, 1, APPLIANCES, 2)),
        ("join two stores of 512 appliances each, by turns", filled(0, 2, APPLIANCES / 2, 1), filled(1, 2, APPLIANCES / 2, 1)),
    ];
    for (name, start, other) in works {
        agree(&start, |s| verified_join(s, &other), |s| plain_join(s, &other));
        race_on(name, 20_000, &start, |s| verified_join(s, &other), |s| plain_join(s, &other));
    }
}

pub fn merge_and_join() {
    merge_records_into_a_store();
    join_stores();
}
