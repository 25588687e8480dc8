//! Outside vectors of the merge, some of each of ten kinds: the text of a limit function and a history of calls, as vectors/README.md has them.
//! IAL_VECTORS names another folder laid out like vectors/.

use merge::{Limit, Record, Refused, Store, Test, Verdict, STORE};
use std::collections::HashMap;
use std::path::{Path, PathBuf};

fn number(word: &str) -> u64 {
    word.parse().unwrap()
}

/// A test from the words appliance, time, tablet and reading.
fn test(words: &[&str]) -> Test {
    Test { appliance: number(words[0]), time: number(words[1]), tablet: number(words[2]), reading: words[3].parse().unwrap() }
}

fn record(words: &[&str], verdict: &str) -> Record {
    let verdict = match verdict {
        "pass" => Verdict::Pass,
        "fail" => Verdict::Fail,
        other => panic!("no verdict: {other}"),
    };
    Record { test: test(words), verdict }
}

/// A number and a place, 0 0 for an accepted call.
fn expected(words: &[&str]) -> Result<(), Refused> {
    let refused = Refused { number: number(words[0]), place: number(words[1]) };
    if refused.number == 0 { Ok(()) } else { Err(refused) }
}

/// The bytes of a store of these records, as bindings/c/merge.h has them.
fn bytes(records: &[Record]) -> Vec<u8> {
    let mut numbers = vec![records.len() as u64];
    for Record { test, verdict } in records {
        numbers.extend([test.appliance, test.time, u64::from(*verdict == Verdict::Fail), test.tablet, test.reading as u64]);
    }
    numbers.resize(STORE / 8, 0);
    numbers.iter().flat_map(|number| number.to_le_bytes()).collect()
}

/// A line `record`: the same alone, twice, and among many gives the same.
fn record_line(table: &ial::Table, store: &mut Store, words: &[&str]) {
    let limit = Limit { table, function: number(words[0]), budget: number(words[1]) };
    let test = test(&words[2..]);
    let before = store.clone();
    let answer = store.record(&limit, test);
    assert_eq!(answer, expected(&words[6..]));
    let mut at_once = before.clone();
    assert_eq!(at_once.records(&limit, &[test, test]), answer);
    assert!(at_once == *store, "at once it is the same");
    if words[8] == "-" {
        assert!(*store == before, "a refusal leaves the store unchanged");
        return;
    }
    let record = record(&words[2..], words[8]);
    let mut alone = Store::empty();
    assert_eq!(alone.record(&limit, test), Ok(()));
    assert_eq!(alone.bytes()[..], bytes(&[record]));
    let mut twice = before;
    assert_eq!(twice.join(&alone), Ok(()));
    assert_eq!(twice.join(&alone), Ok(()));
    assert!(twice == *store, "joined, and again, it is the same");
}

fn store_lines<'a>(store: &Store, count: usize, lines: &mut impl Iterator<Item = Vec<&'a str>>) {
    let held: Vec<Record> = (0..count)
        .map(|_| {
            let words = lines.next().unwrap();
            record(&words, words[4])
        })
        .collect();
    assert_eq!(store.iter().collect::<Vec<_>>(), held);
    assert!(store.bytes()[..] == bytes(&held), "the store's bytes");
    assert!(held.iter().all(|record| store.look(record.test.appliance) == Some(*record)));
}

/// One vector; the number of lines compared.
fn vector(text: &[u8], answers: &str) -> usize {
    let table = ial::Table::read(text).unwrap();
    let mut stores: HashMap<&str, Store> = HashMap::new();
    let mut lines = answers.lines().map(|line| line.split('\t').collect::<Vec<_>>());
    let mut compared = 0;
    while let Some(words) = lines.next() {
        let store = stores.entry(words[1]).or_default();
        match words[0] {
            "record" => record_line(&table, store, &words[2..]),
            "look" if words[3] == "none" => assert_eq!(store.look(number(words[2])), None),
            "look" => assert_eq!(store.look(number(words[2])), Some(record(&words[2..], words[6]))),
            "store" => store_lines(store, number(words[2]) as usize, &mut lines),
            "merge" => {
                let before = store.clone();
                let other = stores.entry(words[2]).or_default().clone();
                let store = stores.get_mut(words[1]).unwrap();
                let answer = store.join(&other);
                assert_eq!(answer, expected(&words[3..]));
                assert!(answer.is_ok() || *store == before, "a refusal leaves the store unchanged");
            }
            other => panic!("unknown line {other}"),
        }
        compared += 1;
    }
    compared
}

#[test]
fn all_vectors() {
    let own = Path::new(env!("CARGO_MANIFEST_DIR")).join("../../vectors");
    let folder = std::env::var_os("IAL_VECTORS").map_or(own, PathBuf::from).join("requests/a8");
    let mut paths: Vec<PathBuf> = std::fs::read_dir(folder).unwrap().map(|entry| entry.unwrap().path()).collect();
    paths.retain(|path| path.extension().is_some_and(|extension| extension == "ial"));
    paths.sort();
    let (mut failed, mut compared) = (Vec::new(), 0);
    for path in &paths {
        let text = std::fs::read(path).unwrap();
        let answers = std::fs::read_to_string(path.with_extension("expect")).unwrap();
        match std::panic::catch_unwind(|| vector(&text, &answers)) {
            Ok(lines) => compared += lines,
            Err(_) => failed.push(path.file_name().unwrap().to_owned()),
        }
    }
    println!("{} vectors, {compared} lines compared", paths.len());
    assert!(failed.is_empty() && !paths.is_empty(), "vectors that differ: {failed:?}");
}
