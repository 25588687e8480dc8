//! Histories of the merge made here: limit functions of the right signature and of others, records that tie, stores near their limit, and the same
//! records in other orders and groupings.

use crate::rng::Rng;
use crate::stores::{change, forged, forged_looks, look, nth, Call, Limit};
use crate::{disturb, texts};
use ial_baseline::merge::{APPLIANCES, STORE};
use ial_baseline::TABLE;

/// Bodies of limit functions, with `K` for a number: some stop, return other numbers than 0 and 1, or need many steps.
const BODIES: [&str; 6] = [
    "register int64 k; register uint c; block entry { k = load.i64 (K); c = cmp.lteq a, k; return c; }",
    "register int64 k; register int64 q; register uint c; block entry { k = load.i64 (K); q = ari.div k, a; c = conv q; return c; }",
    "register int64 k; register int64 q; register uint c; block entry { k = load.i64 (K); q = ari.div a, k; c = conv q; return c; }",
    "register uint c; block entry { c = conv a; c = shr c, c; return c; }",
    "register uint c; block entry { c = conv a; return c; }",
    "register int64 k; register uint c; register uint x; register uint y; register uint t; block entry { k = load.i64 (1); x = conv k; jump (head); }
     block head { c = cmp.lt a, k; jump.cond c (out, body); } block body { t = copy x; x = copy y; y = copy t; a = ari.sub a, k; jump (head); } block out { return x; }",
];

/// Parameters and results that are not a limit function's, beside those that are.
const OTHERS: [(&str, &str, &str); 9] = [
    ("uint", "uint64 a", "return r;"),
    ("uint", "int a", "return r;"),
    ("uint", "int32 a", "return r;"),
    ("uint", "", "return r;"),
    ("uint", "int64 a, int64 b", "return r;"),
    ("int", "int64 a", "return r;"),
    ("uint64", "int64 a", "return r;"),
    ("uint8", "int64 a", "return r;"),
    ("void", "int64 a", "leave;"),
];

/// A text of one to four functions; now and then one that texts::program makes.
fn text(rng: &mut Rng) -> Vec<u8> {
    if rng.once_in(12) {
        return texts::program(rng);
    }
    let mut text = String::new();
    for i in 0..1 + rng.below(4) {
        if rng.once_in(8) {
            text += &include_str!("../../examples/limit.ial").replace("limit(", &format!("limit{i}("));
        } else if rng.once_in(4) {
            let (result, parameters, end) = rng.of(&OTHERS);
            let kind = if *result == "void" { "uint" } else { result };
            text += &format!("function {result} f{i}({parameters}) {{ register {kind} r; block entry {{ {end} }} }}\n");
        } else {
            let k = if rng.once_in(3) { rng.number() as i64 } else { rng.below(9) as i64 - 4 };
            let body = rng.of(&BODIES).replace("(K)", &format!("({k})"));
            text += &format!("function uint f{i}(int64 a) {{ {body} }}\n");
        }
    }
    text.into_bytes()
}

/// A number that ties often: near 0, or near one of the ends of 64 bits and of `int64`.
fn tying(rng: &mut Rng) -> u64 {
    let near = rng.below(4) as u64;
    match rng.below(6) {
        0 => near.wrapping_neg(),
        1 => (1 << 63) - 2 + near,
        2 => rng.number(),
        _ => near,
    }
}

fn record(appliances: usize, rng: &mut Rng) -> [u64; 4] {
    // Odd multiples, so that the numbers differ and their order is another than that of their making.
    let appliance = (rng.below(appliances) as u64).wrapping_mul(0x9E37_79B9_7F4A_7C15);
    [if rng.once_in(20) { tying(rng) } else { appliance }, tying(rng), tying(rng), tying(rng)]
}

fn records(appliances: usize, count: usize, rng: &mut Rng) -> Vec<u64> {
    (0..count).flat_map(|_| record(appliances, rng)).collect()
}

/// A length that is not a store's.
fn other_length(rng: &mut Rng) -> usize {
    *rng.of(&[0, 1, 8, 48, STORE - 8, STORE - 1, STORE + 1, STORE + 40])
}

/// What a history has come to, and how often each number was answered.
struct History<'a> {
    limit: Limit<'a>,
    stores: Vec<Vec<u8>>,
    /// How many appliances the records are of.
    appliances: usize,
    seen: &'a mut [u64; 64],
}

impl<'a> History<'a> {
    fn count(&mut self, number: Result<u64, String>) -> Result<u64, String> {
        let number = number?;
        self.seen[number as usize] += 1;
        Ok(number)
    }

    /// The history's limit, or now and then another function or budget.
    fn limit(&self, rng: &mut Rng) -> Limit<'a> {
        let mut limit = self.limit;
        if rng.once_in(16) {
            limit.function = if rng.once_in(3) { rng.number() } else { rng.below(6) as u64 };
        }
        if rng.once_in(16) {
            limit.budget = rng.below(30) as u64;
        }
        limit
    }

    /// Many records at once: a few, as many as may fill the store, or a part of one too many.
    fn batch(&self, rng: &mut Rng) -> Vec<u64> {
        let count = if self.appliances > 100 { rng.below(60) } else { rng.below(8) };
        let mut numbers = records(self.appliances, count, rng);
        if rng.once_in(8) {
            numbers.resize(numbers.len() + 1 + rng.below(3), 5);
        }
        numbers
    }

    /// One call on one of the stores.
    fn call(&mut self, rng: &mut Rng) -> Result<(), String> {
        let (i, j) = (rng.below(self.stores.len()), rng.below(self.stores.len()));
        let mut store = std::mem::take(&mut self.stores[i]);
        let numbers = self.batch(rng);
        let limit = self.limit(rng);
        let call = match rng.below(20) {
            0 if self.appliances < 100 => Call::Empty,
            1..=5 => Call::Records(limit, &numbers),
            6..=8 => Call::Store(&self.stores[j]),
            _ => Call::Record(limit, record(self.appliances, rng)),
        };
        // A store merged into itself is taken away here and so of no bytes, which is 22; a copy of it is merged as well.
        let answer = if rng.once_in(30) { change(&mut vec![rng.next() as u8; other_length(rng)], &call) } else { change(&mut store, &call) };
        let copy = store.clone();
        let again = if rng.once_in(8) { change(&mut store, &Call::Store(&copy)) } else { Ok(0) };
        self.stores[i] = store;
        self.count(answer)?;
        if self.count(again)? != 0 || self.stores[i] != copy {
            return Err("a store merged into itself is another".to_string());
        }
        self.looks(i, rng)
    }

    fn looks(&mut self, i: usize, rng: &mut Rng) -> Result<(), String> {
        let held = u64::from_le_bytes(*self.stores[i].first_chunk().unwrap());
        let n = rng.below(held as usize + 2) as u64;
        let past = if rng.once_in(4) { rng.number() } else { held };
        let there = u64::from_le_bytes(*self.stores[i][8 + 40 * (n as usize).min(APPLIANCES - 1)..].first_chunk().unwrap());
        let [new, ..] = record(self.appliances, rng);
        for appliance in [there, there.wrapping_add(1), new] {
            let answer = look(&self.stores[i], appliance);
            self.count(answer)?;
        }
        for n in [n, past] {
            let answer = nth(&self.stores[i], n);
            self.count(answer)?;
        }
        if rng.once_in(10) {
            let wrong = vec![1; other_length(rng)];
            let answers = (look(&wrong, new), nth(&wrong, n), change(&mut self.stores[i], &Call::Store(&wrong)));
            self.count(answers.0)?;
            self.count(answers.1)?;
            self.count(answers.2)?;
        }
        Ok(())
    }

    /// The same records in two orders and groupings, some of them twice: if neither way is refused, and neither is unless they are of too many
    /// appliances, the bytes are the same.
    fn regroup(&mut self, rng: &mut Rng) -> Result<(), String> {
        let limit = self.limit;
        let count = if self.appliances > 100 { *rng.of(&[1_500, 3_000, 5_000]) } else { 40 };
        let numbers = records(self.appliances, count, rng);
        let mut whole = vec![0; STORE];
        let answer = change(&mut whole, &Call::Records(limit, &numbers));
        let number = self.count(answer)?;
        let mut shuffled: Vec<[u64; 4]> = numbers.as_chunks().0.to_vec();
        shuffled.extend_from_within(..rng.below(count));
        for k in (1..shuffled.len()).rev() {
            shuffled.swap(k, rng.below(k + 1));
        }
        let mut groups: Vec<Vec<u8>> = vec![];
        let mut refused = 0;
        while !shuffled.is_empty() {
            let part = shuffled.split_off(shuffled.len() - 1 - rng.below(shuffled.len()));
            let mut store = vec![0; STORE];
            let answer = change(&mut store, &Call::Records(limit, part.as_flattened()));
            refused = refused.max(self.count(answer)?);
            groups.push(store);
        }
        while groups.len() > 1 {
            let one = groups.swap_remove(rng.below(groups.len()));
            let other = rng.below(groups.len());
            let answer = change(&mut groups[other], &Call::Store(&one));
            refused = refused.max(self.count(answer)?);
        }
        if number != refused || number == 0 && groups[0] != whole {
            return Err(format!("another order or grouping: {number} and {refused}"));
        }
        Ok(())
    }
}

/// Bytes that no merge left: random ones, or a store of which some are changed.
fn forge(store: &[u8], rng: &mut Rng) -> Vec<u8> {
    let mut bytes = store.to_vec();
    let sparse = rng.once_in(2);
    for chunk in bytes.chunks_mut(8) {
        if !sparse || rng.once_in(50) {
            chunk.copy_from_slice(&rng.number().to_le_bytes());
        }
    }
    if rng.once_in(2) {
        let count = *rng.of(&[0, 1, 5, 1_023, 1_024, 1_025, 5_121, 1 << 32, 1 << 61, u64::MAX]);
        bytes[..8].copy_from_slice(&count.to_le_bytes());
    }
    bytes
}

/// Calls on such bytes, and with them: each is done, or refused with 60 or for its limit.
fn forgeries(store: &[u8], limit: Limit, rng: &mut Rng) -> Result<(), String> {
    let by_limit = change(&mut vec![0; STORE], &Call::Records(limit, &[]))?;
    let mut bytes = forge(store, rng);
    let other = forge(store, rng);
    let numbers = records(50, rng.below(20), rng);
    let one = record(50, rng);
    let join = Call::Store(&other);
    for (call, first) in [(Call::Record(limit, one), by_limit), (Call::Records(limit, &numbers), by_limit), (Call::Store(store), 0), (join, 0)] {
        let (number, _) = forged(&mut bytes, &call)?;
        if number != first && (first, number) != (0, 60) {
            return Err(format!("forged bytes: {number}"));
        }
        forged_looks(&bytes, one[0]);
        forged_looks(&bytes, rng.below(1_100) as u64);
    }
    forged(&mut store.to_vec(), &Call::Store(&other))?;
    Ok(())
}

/// A store of so many appliances that are multiples of `step`, from `first` on.
fn filled(limit: Limit, first: u64, step: u64, count: usize) -> Result<Vec<u8>, String> {
    let numbers: Vec<u64> = (0..count as u64).flat_map(|i| [first + step * i, 1, 1, i]).collect();
    let mut store = vec![0; STORE];
    change(&mut store, &Call::Records(limit, &numbers))?;
    Ok(store)
}

/// Stores that together hold just as many appliances as there is room for, or one more or less; some are in both.
fn brim(limit: Limit, seen: &mut [u64; 64], rng: &mut Rng) -> Result<(), String> {
    let both = rng.below(3);
    let one = rng.below(APPLIANCES + 1);
    let other = (APPLIANCES - one + both + rng.below(3)).saturating_sub(1);
    let first = filled(limit, 0, 2, one)?;
    let second = filled(limit, if both == 0 { 1 } else { 2 * one.saturating_sub(both) as u64 }, 2, other.min(APPLIANCES))?;
    for (mut store, merged) in [(first.clone(), &second), (second.clone(), &first)] {
        seen[change(&mut store, &Call::Store(merged))? as usize] += 1;
        for appliance in [1, 2, 2 * one as u64 + 1, u64::MAX] {
            seen[change(&mut store, &Call::Record(limit, [appliance, 2, 1, 1]))? as usize] += 1;
        }
    }
    Ok(())
}

/// One history of calls.
pub fn history(rng: &mut Rng, seen: &mut [u64; 64]) -> Result<(), String> {
    let mut table = vec![0; TABLE];
    if ial_baseline::read(&text(rng), &mut table).is_err() {
        return Ok(());
    }
    if rng.once_in(8) {
        disturb(&mut table, rng);
    }
    let function = rng.below(usize::from(table[0]).min(4)) as u64;
    let limit = Limit { table: &table, function, budget: if rng.once_in(4) { rng.below(30) as u64 } else { 2_000 } };
    let appliances = *rng.of(&[1, 3, 12, 12, 40, 990, 1_100]);
    let mut stores = vec![vec![0; STORE]; 3];
    if appliances > 100 {
        let numbers: Vec<u64> = (0..APPLIANCES as u64 - rng.below(40) as u64).flat_map(|i| [i.wrapping_mul(0x9E37_79B9_7F4A_7C15), 0, 0, 0]).collect();
        seen[change(&mut stores[0], &Call::Records(limit, &numbers))? as usize] += 1;
        brim(limit, seen, rng)?;
    }
    let mut history = History { limit, stores, appliances, seen };
    for _ in 0..20 {
        history.call(rng)?;
    }
    history.regroup(rng)?;
    forgeries(&history.stores[0], limit, rng)
}
