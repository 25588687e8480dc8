//! The verified merge and the plain one behind one interface: an answer's number, and the store as it is afterwards.

use ::merge::raw as c;
use ial_baseline::merge::{self, Record};
use ial_baseline::Refusal;

const _: () = assert!(::merge::STORE == merge::STORE);

/// The function that gives verdicts, and its budget.
#[derive(Clone, Copy)]
pub struct Limit<'a> {
    pub table: &'a [u8],
    pub function: u64,
    pub budget: u64,
}

/// A call that changes a store.
pub enum Call<'a> {
    Empty,
    Record(Limit<'a>, [u64; 4]),
    Records(Limit<'a>, &'a [u64]),
    Store(&'a [u8]),
}

/// Pointers and lengths are those of live slices.
fn verified(s: &mut [u8], call: &Call) -> Refusal {
    let (p, n) = (s.as_mut_ptr(), s.len());
    let a = match *call {
        Call::Empty => unsafe { c::merge_empty(p, n) },
        Call::Record(l, [a, b, c, d]) => unsafe { c::merge_record(p, n, l.table.as_ptr(), l.table.len(), l.function, l.budget, a, b, c, d) },
        Call::Records(l, k) => unsafe { c::merge_records(p, n, l.table.as_ptr(), l.table.len(), l.function, l.budget, k.as_ptr(), k.len()) },
        Call::Store(other) => unsafe { c::merge_store(p, n, other.as_ptr(), other.len()) },
    };
    (a.number, a.place)
}

fn plain(s: &mut [u8], call: &Call) -> Refusal {
    let answer = match *call {
        Call::Empty => merge::empty(s),
        Call::Record(l, record) => merge::record(s, l.table, l.function, l.budget, record),
        Call::Records(l, numbers) => merge::records(s, l.table, l.function, l.budget, numbers),
        Call::Store(other) => merge::store(s, other),
    };
    answer.err().unwrap_or((0, 0))
}

/// The bytes around a lent store, which no call may touch.
const AROUND: usize = 64;

/// The verified call on a store of any bytes: it returns, leaves what is around, and after a refusal the store.
pub fn forged(store: &mut Vec<u8>, call: &Call) -> Result<Refusal, String> {
    let mut room = vec![0xa5; AROUND + store.len() + AROUND];
    room[AROUND..][..store.len()].copy_from_slice(store);
    let answer = verified(&mut room[AROUND..][..store.len()], call);
    let (before, rest) = room.split_at(AROUND);
    let (own, after) = rest.split_at(store.len());
    if before.iter().chain(after).any(|&byte| byte != 0xa5) {
        return Err(format!("{answer:?}, but bytes around the store changed"));
    }
    if answer.0 != 0 && own != store {
        return Err(format!("{answer:?}, but the store changed"));
    }
    store.copy_from_slice(own);
    Ok(answer)
}

/// Both calls on the same store: the same answer and the same bytes.
pub fn change(store: &mut Vec<u8>, call: &Call) -> Result<u64, String> {
    let mut other = store.clone();
    let a = forged(store, call)?;
    let b = plain(&mut other, call);
    if a != b {
        return Err(format!("verified {a:?}, plain {b:?}"));
    }
    match (0..store.len()).find(|&k| store[k] != other[k]) {
        Some(k) => Err(format!("{a:?}, but byte {k} of the store differs")),
        None => Ok(a.0),
    }
}

fn looked(record: Result<Option<Record>, Refusal>) -> c::Look {
    match record {
        Err((number, _)) => c::Look { number, ..Default::default() },
        Ok(None) => c::Look::default(),
        Ok(Some(Record { appliance, time, fail, tablet, reading })) => {
            c::Look { number: 0, found: 1, appliance, time, fail: fail.into(), tablet, reading: reading as u64 }
        }
    }
}

fn same(what: &str, a: c::Look, b: c::Look) -> Result<u64, String> {
    if a == b { Ok(a.number) } else { Err(format!("{what}: verified {a:?}, plain {b:?}")) }
}

pub fn look(store: &[u8], appliance: u64) -> Result<u64, String> {
    let a = unsafe { c::merge_look(store.as_ptr(), store.len(), appliance) };
    same("look", a, looked(merge::look(store, appliance)))
}

pub fn nth(store: &[u8], n: u64) -> Result<u64, String> {
    let a = unsafe { c::merge_nth(store.as_ptr(), store.len(), n) };
    same("nth", a, looked(merge::nth(store, n)))
}

/// Looks at bytes that no merge left: only that they return.
pub fn forged_looks(store: &[u8], number: u64) {
    unsafe {
        c::merge_look(store.as_ptr(), store.len(), number);
        c::merge_nth(store.as_ptr(), store.len(), number);
    }
}
