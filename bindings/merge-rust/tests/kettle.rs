//! The interface over the library, on the inspector's kettle and on what it refuses. What the answers are is proved; what is tested
//! here is that they arrive.

use ial::Table;
use merge::{Limit, Record, Refused, Store, Test, Verdict, APPLIANCES, STORE};

const MORNING: Test = Test { appliance: 417, time: 570, tablet: 1, reading: 170 };
const AFTERNOON: Test = Test { appliance: 417, time: 850, tablet: 2, reading: 230 };
const FAIL: Record = Record { test: AFTERNOON, verdict: Verdict::Fail };

fn table() -> Table {
    Table::read(include_bytes!("../../../examples/limit.ial")).unwrap()
}

fn refused<T>(number: u64) -> Result<T, Refused> {
    Err(Refused { number, place: 0 })
}

#[test]
fn the_later_fail_wins_in_either_order() {
    let table = table();
    let limit = Limit { table: &table, function: 0, budget: 1_000 };
    for order in [[MORNING, AFTERNOON], [AFTERNOON, MORNING]] {
        let mut stores = [Store::empty(), Store::empty()];
        for (store, test) in stores.iter_mut().zip(order) {
            assert_eq!(store.record(&limit, test), Ok(()));
        }
        let [mut first, second] = stores;
        let verdict = if order[0] == MORNING { Verdict::Pass } else { Verdict::Fail };
        assert_eq!(first.look(417), Some(Record { test: order[0], verdict }));
        assert_eq!(first.join(&second), Ok(()));
        assert_eq!(first.look(417), Some(FAIL));
        assert_eq!(first.look(18), None);
        let mut whole = Store::default();
        assert_eq!(whole.records(&limit, &order), Ok(()));
        assert_eq!(whole, first);
        assert_eq!(whole.records(&limit, &[]), Ok(()));
        assert_eq!(whole.iter().collect::<Vec<_>>(), [FAIL]);
    }
}

/// A translation whose copies are not parallel would say fail of this reading, and so would too few steps.
#[test]
fn the_verdict_is_that_of_the_function_and_of_its_translation() {
    let source = table();
    let translation = source.translate(0).unwrap();
    for (table, budget, verdict) in [(&source, 62, Verdict::Pass), (&source, 61, Verdict::Fail), (&translation, 92, Verdict::Pass)] {
        let mut store = Store::empty();
        assert_eq!(store.record(&Limit { table, function: 0, budget }, MORNING), Ok(()));
        assert_eq!(store.look(417), Some(Record { test: MORNING, verdict }));
    }
}

#[test]
fn bytes_go_out_and_come_back() {
    let table = table();
    let limit = Limit { table: &table, function: 0, budget: 1_000 };
    let mut store = Store::empty();
    assert!(store.bytes().iter().all(|&byte| byte == 0));
    let lowest = Test { appliance: u64::MAX, time: u64::MAX, tablet: u64::MAX, reading: i64::MIN };
    assert_eq!(store.records(&limit, &[lowest, AFTERNOON]), Ok(()));
    assert_eq!(store.bytes()[..56], [2u64, 417, 850, 1, 2, 230, u64::MAX].map(u64::to_le_bytes).concat());
    assert_eq!(Store::from_bytes(store.bytes()), Ok(store.clone()));
    assert_eq!(store.iter().last(), Some(Record { test: lowest, verdict: Verdict::Fail }));
    for length in [0, STORE - 1, STORE + 1] {
        assert_eq!(Store::from_bytes(&vec![0; length]), refused(22));
    }
    assert_eq!(format!("{:?}", Store::empty()), "[]");
}

#[test]
fn refusals_arrive_and_leave_the_store() {
    let table = table();
    let limit = Limit { table: &table, function: 0, budget: 1_000 };
    let mut store = Store::empty();
    let tests: Vec<Test> = (0..APPLIANCES as u64).map(|i| Test { appliance: 2 * i, ..MORNING }).collect();
    assert_eq!(store.records(&limit, &tests), Ok(()));
    let full = store.clone();
    assert_eq!(store.record(&limit, MORNING), refused(60));
    assert_eq!(store.records(&limit, &[Test { appliance: 0, ..AFTERNOON }, MORNING]), refused(60));
    let mut kettle = Store::empty();
    assert_eq!(kettle.record(&limit, MORNING), Ok(()));
    assert_eq!(store.join(&kettle), refused(60));
    assert_eq!(store.record(&Limit { function: 1, ..limit }, MORNING), refused(61));
    let turn = Table::read(include_bytes!("../../../examples/turn.ial")).unwrap();
    assert_eq!(store.record(&Limit { table: &turn, ..limit }, MORNING), refused(61));
    let unfinished = Table::read(b"function void f() { block entry { leave; } } function void g() { block entry { nop; } }").unwrap();
    let answer = store.record(&Limit { table: &unfinished, ..limit }, MORNING);
    assert_eq!(answer, Err(Refused { number: 10, place: 2_048 }));
    assert_eq!(store, full);
}

#[test]
fn refusals_say_what_was_wrong() {
    let said = |number: u64, place: u64| Refused { number, place }.to_string();
    assert_eq!(said(60, 0), "refused 60: store full and appliance new");
    assert_eq!(said(61, 0), "refused 61: limit function missing or of another signature");
    assert_eq!(said(22, 0), "refused 22: store of another length");
    assert_eq!(said(11, 4_101), "refused 11: types wrong, or leave outside a void function, in function 2, row 5");
}
