//! The merge (document 02, A8): of the records that many tablets bring, the one that counts for each appliance.

use crate::checker::checked;
use crate::machine::{Machine, Room};
use crate::table::Function;
use crate::words::{INT64, UINT};
use crate::{Ran, Refusal};
use std::cmp::{Ordering, Reverse};

/// The most appliances of a store.
pub const APPLIANCES: usize = 1024;
/// The one length of a store: how many records, and room for all of them, in numbers of eight bytes, low byte first.
pub const STORE: usize = 8 + APPLIANCES * RECORD;
const RECORD: usize = 40;

const _: () = assert!(STORE == 40_968);

/// One test of an appliance.
#[derive(Clone, Copy, Debug, PartialEq, Eq)]
pub struct Record {
    pub appliance: u64,
    pub time: u64,
    pub fail: bool,
    pub tablet: u64,
    pub reading: i64,
}

type Cells = [u8; RECORD];

impl Record {
    fn of(cells: &Cells) -> Record {
        let number = |at: usize| u64::from_le_bytes(*cells[8 * at..].first_chunk().unwrap());
        Record { appliance: number(0), time: number(1), fail: number(2) != 0, tablet: number(3), reading: number(4) as i64 }
    }

    fn cells(&self) -> Cells {
        let mut cells = [0; RECORD];
        let numbers = [self.appliance, self.time, u64::from(self.fail), self.tablet, self.reading as u64];
        for (cell, number) in cells.as_chunks_mut().0.iter_mut().zip(numbers) {
            *cell = number.to_le_bytes();
        }
        cells
    }

    /// Whether this one wins over another of the same appliance: "the later test time wins; then fail over pass; then the lower tablet
    /// number; then the larger reading by meaning".
    fn beats(&self, other: &Record) -> bool {
        let rank = |r: &Record| (r.time, r.fail, Reverse(r.tablet), r.reading);
        rank(self) > rank(other)
    }
}

fn appliance(cells: &Cells) -> u64 {
    u64::from_le_bytes(*cells.first_chunk().unwrap())
}

const OTHER_LENGTH: Refusal = (22, 0);
const FULL: Refusal = (60, 0);
const NO_LIMIT: Refusal = (61, 0);

/// The records of a store, by rising appliance number, and the room past them, which is zero.
struct Store<'a> {
    count: &'a mut [u8; 8],
    room: &'a mut [Cells],
}

impl<'a> Store<'a> {
    fn of(bytes: &'a mut [u8; STORE]) -> Store<'a> {
        let (count, room) = bytes.split_first_chunk_mut().unwrap();
        Store { count, room: room.as_chunks_mut().0 }
    }

    fn len(&self) -> usize {
        count(self.count)
    }

    fn set_len(&mut self, n: usize) {
        *self.count = (n as u64).to_le_bytes();
    }

    fn merge(&mut self, record: Record) -> Result<(), Refusal> {
        let n = self.len();
        let at = place(&self.room[..n], record.appliance);
        if at < n && appliance(&self.room[at]) == record.appliance {
            if record.beats(&Record::of(&self.room[at])) {
                self.room[at] = record.cells();
            }
            return Ok(());
        }
        if n == APPLIANCES {
            return Err(FULL);
        }
        self.room.copy_within(at..n, at + 1);
        self.room[at] = record.cells();
        self.set_len(n + 1);
        Ok(())
    }
}

/// How many records the first eight bytes of a store say; more than there is room for are none that a merge leaves.
fn count(cells: &[u8; 8]) -> usize {
    u64::from_le_bytes(*cells).min(APPLIANCES as u64) as usize
}

/// How many records are of lower appliances.
fn place(records: &[Cells], wanted: u64) -> usize {
    records.partition_point(|cells| appliance(cells) < wanted)
}

/// The records of a store of the right length.
fn records_of(store: &[u8]) -> Result<&[Cells], Refusal> {
    let store = <&[u8; STORE]>::try_from(store).map_err(|_| OTHER_LENGTH)?;
    let (cells, room) = store.split_first_chunk().unwrap();
    Ok(&room.as_chunks().0[..count(cells)])
}

/// The function that gives verdicts.
struct Limit<'a> {
    machine: Machine<'a>,
    budget: u64,
    room: Room,
}

impl<'a> Limit<'a> {
    /// 9 to 17, then 61.
    fn of(table: &'a [u8], function: u64, budget: u64) -> Result<Limit<'a>, Refusal> {
        let table = checked(table)?;
        if function >= u64::from(table[0]) {
            return Err(NO_LIMIT);
        }
        let i = function as usize;
        let function = Function::of(table, i);
        if function.parameters() != 1 || function.register_type(0) != INT64 || function.result() != UINT {
            return Err(NO_LIMIT);
        }
        Ok(Limit { machine: Machine::of(i, function), budget, room: Room::new() })
    }

    /// The record with its verdict: "Result 1 is pass; any stop or other result is fail."
    fn judge(&mut self, [appliance, time, tablet, reading]: [u64; 4]) -> Record {
        let ran = self.machine.run(&[reading], self.budget, &mut self.room);
        let fail = !matches!(ran, Ran::Returned { value: 1, .. });
        Record { appliance, time, fail, tablet, reading: reading as i64 }
    }
}

/// Makes a store that holds nothing. Refuses with 22.
pub fn empty(store: &mut [u8]) -> Result<(), Refusal> {
    if store.len() != STORE {
        return Err(OTHER_LENGTH);
    }
    store.fill(0);
    Ok(())
}

/// Merges a record (appliance, time, tablet, reading), with the verdict that the limit function gives of the reading. Refuses with 9
/// to 17, 61, 22, 60; the store then stays as it is.
pub fn record(store: &mut [u8], table: &[u8], function: u64, budget: u64, record: [u64; 4]) -> Result<(), Refusal> {
    let mut limit = Limit::of(table, function, budget)?;
    let store = <&mut [u8; STORE]>::try_from(store).map_err(|_| OTHER_LENGTH)?;
    Store::of(store).merge(limit.judge(record))
}

/// Merges many records, four numbers each, or none of them. Refuses like `record`, and with 22 also for numbers that are no multiple of four.
pub fn records(store: &mut [u8], table: &[u8], function: u64, budget: u64, records: &[u64]) -> Result<(), Refusal> {
    let mut limit = Limit::of(table, function, budget)?;
    let store = <&mut [u8; STORE]>::try_from(store).map_err(|_| OTHER_LENGTH)?;
    let (records, []) = records.as_chunks() else {
        return Err(OTHER_LENGTH);
    };
    let mut copy = *store;
    let mut merged = Store::of(&mut copy);
    for &record in records {
        merged.merge(limit.judge(record))?;
    }
    *store = copy;
    Ok(())
}

/// Merges all records of another store, or none. Refuses with 22, then with 60 exactly if the two hold more than 1,024 appliances together.
pub fn store(store: &mut [u8], other: &[u8]) -> Result<(), Refusal> {
    let (mut ours, mut theirs) = (records_of(store)?, records_of(other)?);
    let mut joined = [0; STORE];
    let mut out = Store::of(&mut joined);
    let mut n = 0;
    while let (Some(our), Some(their)) = (ours.first(), theirs.first()) {
        let order = appliance(our).cmp(&appliance(their));
        let theirs_wins = match order {
            Ordering::Less => false,
            Ordering::Equal => Record::of(their).beats(&Record::of(our)),
            Ordering::Greater => true,
        };
        *out.room.get_mut(n).ok_or(FULL)? = if theirs_wins { *their } else { *our };
        n += 1;
        ours = &ours[usize::from(order.is_le())..];
        theirs = &theirs[usize::from(order.is_ge())..];
    }
    // One of them is used up.
    for rest in [ours, theirs] {
        out.room.get_mut(n..n + rest.len()).ok_or(FULL)?.copy_from_slice(rest);
        n += rest.len();
    }
    out.set_len(n);
    store.copy_from_slice(&joined);
    Ok(())
}

/// The record of an appliance, if there is one. Refuses with 22.
pub fn look(store: &[u8], wanted: u64) -> Result<Option<Record>, Refusal> {
    let records = records_of(store)?;
    let found = records.get(place(records, wanted)).map(Record::of);
    Ok(found.filter(|record| record.appliance == wanted))
}

/// The n-th record by rising appliance number, from 0, if there are so many. Refuses with 22.
pub fn nth(store: &[u8], n: u64) -> Result<Option<Record>, Refusal> {
    let records = records_of(store)?;
    Ok(usize::try_from(n).ok().and_then(|n| records.get(n)).map(Record::of))
}
