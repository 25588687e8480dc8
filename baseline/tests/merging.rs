//! The merge: the outside vectors of document 02's A8, and cases of its words.

mod outside;

use ial_baseline::merge::{empty, look, nth, record, records, store, Record, APPLIANCES, STORE};
use ial_baseline::{check, read, Refusal, TABLE};
use outside::{all, Expected};
use std::collections::HashMap;

fn table(text: &[u8]) -> Vec<u8> {
    let mut out = vec![7; TABLE];
    assert_eq!(read(text, &mut out), Ok(()));
    out
}

/// 1 for a reading from 0 to 100.
fn limit() -> Vec<u8> {
    table(
        b"function ssa uint limit(int64 reading) { register int64 least; register int64 most; register uint a; register uint b; register uint c;
        block entry { least = load.i64 (0); most = load.i64 (100); a = cmp.gteq reading, least; jump.cond a (high, out); }
        block high { b = cmp.lteq reading, most; jump (out); }
        block out { c = phi (a, b); return c; } }",
    )
}

fn nothing() -> Vec<u8> {
    let mut bytes = vec![255; STORE];
    assert_eq!(empty(&mut bytes), Ok(()));
    bytes
}

/// The bytes of a store of these records.
fn bytes(records: &[Record]) -> Vec<u8> {
    let mut numbers = vec![records.len() as u64];
    numbers.extend(records.iter().flat_map(|r| [r.appliance, r.time, u64::from(r.fail), r.tablet, r.reading as u64]));
    numbers.resize(STORE / 8, 0);
    numbers.iter().flat_map(|number| number.to_le_bytes()).collect()
}

/// A record from the words appliance, time, tablet, reading and verdict.
fn expected_record(words: &[&str]) -> Record {
    let number = |i: usize| words[i].parse().unwrap();
    Record { appliance: number(0), time: number(1), fail: words[4] == "fail", tablet: number(2), reading: words[3].parse().unwrap() }
}

fn answer(answer: Result<(), Refusal>) -> (u64, u64) {
    answer.err().unwrap_or((0, 0))
}

/// A line `record`. That of an accepted one is merged into an empty store too, which shows the verdict.
fn record_line(table: &[u8], into: &mut Vec<u8>, words: &[&str]) {
    let number = |i: usize| words[i].parse().unwrap();
    let numbers = [number(2), number(3), number(4), words[5].parse::<i64>().unwrap() as u64];
    let before = into.clone();
    let answered = answer(record(into, table, number(0), number(1), numbers));
    assert_eq!(answered, (number(6), number(7)));
    if words[8] == "-" {
        assert!(*into == before, "a refusal leaves the store unchanged");
        return;
    }
    let mut alone = nothing();
    record(&mut alone, table, number(0), number(1), numbers).unwrap();
    assert!(alone == bytes(&[expected_record(&[&words[2..6], &words[8..]].concat())]), "the verdict");
    let merged = into.clone();
    assert_eq!(record(into, table, number(0), number(1), numbers), Ok(()));
    assert!(*into == merged, "a record merged twice changes nothing");
}

fn merge_line(stores: &mut HashMap<String, Vec<u8>>, words: &[&str]) {
    let other = stores.entry(words[1].to_string()).or_insert_with(nothing).clone();
    let into = stores.entry(words[0].to_string()).or_insert_with(nothing);
    let before = into.clone();
    let answered = answer(store(into, &other));
    assert_eq!(answered, (words[2].parse().unwrap(), words[3].parse().unwrap()));
    assert!(answered.0 == 0 || *into == before, "a refusal leaves the store unchanged");
}

fn look_line(store: &[u8], words: &[&str]) {
    let wanted = words[0].parse().unwrap();
    let expected = (words[1] != "none").then(|| expected_record(words));
    assert_eq!(look(store, wanted), Ok(expected));
}

/// A line `store` with those after it: all of the store's bytes, and what the look-ups say.
fn store_lines(store: &[u8], count: usize, expected: &mut Expected) {
    let held: Vec<Record> = (0..count).map(|_| expected_record(&expected.line().split('\t').collect::<Vec<_>>())).collect();
    assert!(store == bytes(&held), "the store's bytes");
    for (n, &held) in held.iter().enumerate() {
        assert_eq!(nth(store, n as u64), Ok(Some(held)));
        assert_eq!(look(store, held.appliance), Ok(Some(held)));
    }
    assert_eq!(nth(store, count as u64), Ok(None));
}

/// One vector; the number of lines compared.
fn vector(text: &[u8], expected: &[u8]) -> usize {
    let table = table(text);
    let mut expected = Expected(expected);
    let mut stores = HashMap::new();
    let mut compared = 0;
    while !expected.0.is_empty() {
        let words: Vec<&str> = expected.line().split('\t').collect();
        if words[0] == "merge" {
            merge_line(&mut stores, &words[1..]);
        } else {
            let store = stores.entry(words[1].to_string()).or_insert_with(nothing);
            match words[0] {
                "record" => record_line(&table, store, &words[2..]),
                "look" => look_line(store, &words[2..]),
                "store" => store_lines(store, words[2].parse().unwrap(), &mut expected),
                other => panic!("unknown line {other}"),
            }
        }
        compared += 1;
    }
    compared
}

#[test]
fn all_vectors() {
    all("requests/a8", vector);
}

/// What a store holds after these records, merged one by one.
fn merged(records: &[[u64; 4]]) -> Vec<u8> {
    let (table, mut into) = (limit(), nothing());
    for &numbers in records {
        assert_eq!(record(&mut into, &table, 0, 100, numbers), Ok(()));
    }
    into
}

#[test]
fn the_later_fail_of_the_kettle_wins_in_either_order() {
    let (morning, afternoon) = ([17, 570, 1, 80], [17, 850, 2, 130]);
    let fail = Record { appliance: 17, time: 850, fail: true, tablet: 2, reading: 130 };
    for order in [[morning, afternoon], [afternoon, morning]] {
        assert_eq!(look(&merged(&order), 17), Ok(Some(fail)));
        assert_eq!(look(&merged(&order), 16), Ok(None));
        let mut one = merged(&order[..1]);
        assert_eq!(store(&mut one, &merged(&order[1..])), Ok(()));
        assert!(one == bytes(&[fail]));
    }
}

#[test]
fn each_rule_decides_where_those_before_it_tie() {
    let low = i64::MIN as u64;
    // Each wins over all that follow it.
    let falling = [
        [3, u64::MAX, 9, 50],
        [3, 8, 9, low],
        [3, 7, 5, 101],
        [3, 7, 6, 101],
        [3, 7, 6, u64::MAX],
        [3, 7, 6, low],
        [3, 7, 0, 100],
        [3, 7, 0, 99],
        [3, 7, u64::MAX, 100],
    ];
    for (i, &winner) in falling.iter().enumerate() {
        for &loser in &falling[i..] {
            assert!(merged(&[winner, loser]) == merged(&[winner]), "{winner:?} {loser:?}");
            assert!(merged(&[loser, winner]) == merged(&[winner]), "{winner:?} {loser:?}");
        }
    }
}

#[test]
fn any_order_and_grouping_gives_the_same_bytes() {
    let records: Vec<[u64; 4]> = (0..60u64).map(|i| [i * 7 % 13, i * 5 % 4, i * 3 % 5, i * 11 % 200]).collect();
    let (table, whole) = (limit(), merged(&records));
    for turn in 1..records.len() {
        let mut turned = records.clone();
        turned.rotate_left(turn);
        let (first, second) = turned.split_at(turn / 2);
        let mut joined = merged(second);
        assert_eq!(store(&mut joined, &merged(first)), Ok(()));
        assert!(joined == whole);
        let same = joined.clone();
        assert_eq!(store(&mut joined, &same), Ok(()));
        assert!(joined == whole);
        let mut at_once = merged(first);
        assert_eq!(self::records(&mut at_once, &table, 0, 100, second.as_flattened()), Ok(()));
        assert!(at_once == whole);
    }
}

/// So many appliances, every third number.
fn many(count: u64) -> Vec<[u64; 4]> {
    (0..count).map(|i| [3 * (i * 701 % count), 5, 1, 7]).collect()
}

#[test]
fn a_full_store_takes_no_new_appliance() {
    let table = limit();
    let full = merged(&many(APPLIANCES as u64));
    for appliance in [1, 1_000, 3 * 1_024, u64::MAX] {
        let mut into = full.clone();
        assert_eq!(record(&mut into, &table, 0, 100, [appliance, 9, 1, 7]), Err((60, 0)));
        assert_eq!(store(&mut into, &merged(&[[appliance, 9, 1, 7]])), Err((60, 0)));
        // All or nothing: the first record would be taken.
        assert_eq!(records(&mut into, &table, 0, 100, &[0, 9, 1, 7, appliance, 9, 1, 7]), Err((60, 0)));
        assert!(into == full);
        assert_eq!(record(&mut into, &table, 0, 100, [0, 9, 1, 7]), Ok(()));
        assert!(into != full);
    }
    let mut half = merged(&many(512));
    let second: Vec<[u64; 4]> = (0..512).map(|i| [1 + 3 * i, 5, 1, 7]).collect();
    let last = merged(&[[2, 5, 1, 7]]);
    assert_eq!(store(&mut half, &merged(&second)), Ok(()));
    let before = half.clone();
    assert_eq!(store(&mut half, &last), Err((60, 0)));
    assert!(half == before);
    assert_eq!(store(&mut half, &before), Ok(()));
    assert!(half == before);
}

#[test]
fn refusals_come_in_order_and_leave_the_store() {
    let good = limit();
    let others = table(
        b"function uint none() { register uint r; block entry { return r; } }
        function uint two(int64 a, int64 b) { register uint r; block entry { return r; } }
        function uint unsigned(uint64 a) { register uint r; block entry { return r; } }
        function uint narrow(int32 a) { register uint r; block entry { return r; } }
        function uint machine(int a) { register uint r; block entry { return r; } }
        function int signed(int64 a) { register int r; block entry { return r; } }
        function uint64 wide(int64 a) { register uint64 r; block entry { return r; } }
        function void nothing(int64 a) { block entry { leave; } }
        function uint right(int64 a) { register uint r; block entry { return r; } }",
    );
    let mut broken = others.clone();
    broken[1] = 2;
    let unfinished = table(b"function uint right(int64 a) { block entry { nop; } }");
    assert_eq!(check(&unfinished), Err((10, 0)));
    let full = merged(&many(APPLIANCES as u64));
    let fifth = [1, 5, 5, 5];
    for length in [0, 1, STORE - 1, STORE, STORE + 1] {
        let mut into = full.clone();
        into.resize(length, 3);
        let before = into.clone();
        let last = if length == STORE { 60 } else { 22 };
        let mut tried = |table: &[u8], function: u64, expected: Refusal| {
            assert_eq!(record(&mut into, table, function, 100, fifth), Err(expected));
            assert_eq!(records(&mut into, table, function, 100, &fifth), Err(expected));
            let uneven = if expected.0 == 60 { (22, 0) } else { expected };
            assert_eq!(records(&mut into, table, function, 100, &fifth[..3]), Err(uneven));
            assert!(into == before, "a refusal leaves the store unchanged");
        };
        tried(&good[1..], 0, (9, 0));
        tried(&broken, 99, (9, 0));
        tried(&unfinished, 99, (10, 0));
        for function in (0..8).chain([9, 10, 255, 256, 1 << 32, u64::MAX]) {
            tried(&others, function, (61, 0));
        }
        tried(&others, 8, (last, 0));
        tried(&good, 0, (last, 0));
    }
}

#[test]
fn lengths_other_than_a_store_are_22() {
    let (mut right, before) = (merged(&many(5)), merged(&many(5)));
    for length in [0, 8, STORE - 1, STORE + 1] {
        let mut wrong = vec![1; length];
        assert_eq!(empty(&mut wrong), Err((22, 0)));
        assert_eq!(store(&mut wrong, &right), Err((22, 0)));
        assert_eq!(store(&mut right, &wrong), Err((22, 0)));
        assert_eq!(look(&wrong, 0), Err((22, 0)));
        assert_eq!(nth(&wrong, 0), Err((22, 0)));
        assert!(wrong.iter().all(|&byte| byte == 1) && right == before);
    }
}

#[test]
fn stops_and_other_results_are_fails() {
    let table = table(
        b"function uint divide(int64 a) { register int64 ten; register int64 q; register uint r; block entry { ten = load.i64 (10); q = ari.div ten, a; r = conv q; return r; } }
        function uint for_ever(int64 a) { block entry { jump (entry_too); } block entry_too { jump (entry_too); } }",
    );
    let verdict = |function: u64, budget: u64, reading: i64| {
        let mut into = nothing();
        assert_eq!(record(&mut into, &table, function, budget, [4, 4, 4, reading as u64]), Ok(()));
        look(&into, 4).unwrap().unwrap().fail
    };
    let fails = |readings: &[i64], fail: bool| readings.iter().for_each(|&reading| assert_eq!(verdict(0, 4, reading), fail, "{reading}"));
    fails(&[6, 10], false);
    fails(&[0, 1, 5, 11, -6, -10, i64::MIN, i64::MAX], true);
    assert!(verdict(0, 3, 6) && verdict(0, 0, 6) && verdict(1, 1_000, 6));
}

#[test]
fn any_bytes_are_answered_and_refusals_leave_them() {
    let table = limit();
    let mut state = 1u64;
    let mut random = || {
        state = state.wrapping_mul(6_364_136_223_846_793_005).wrapping_add(1_442_695_040_888_963_407);
        state >> 33
    };
    for round in 0..200 {
        let mut forged: Vec<u8> = (0..STORE).map(|_| (random() >> 8) as u8 & if round % 2 == 0 { 255 } else { 1 }).collect();
        let count = [0, 1, 7, 1_023, 1_024, 1_025, u64::MAX][random() as usize % 7];
        forged[..8].copy_from_slice(&count.to_le_bytes());
        let other = forged.clone();
        let numbers = [random() % 3, random(), random(), random()];
        look(&forged, numbers[0]).unwrap();
        nth(&forged, random() % 1_100).unwrap();
        let refused = |answer: Result<(), Refusal>, after: &[u8]| assert!(answer.is_ok() || answer == Err((60, 0)) && after == other);
        let answered = record(&mut forged, &table, 0, 100, numbers);
        refused(answered, &forged);
        forged.clone_from(&other);
        let answered = records(&mut forged, &table, 0, 100, &numbers);
        refused(answered, &forged);
        forged.clone_from(&other);
        let answered = store(&mut forged, &merged(&many(500)));
        refused(answered, &forged);
    }
}
