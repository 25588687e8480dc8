//! The predecessors in the blocks' records: made wrong in every way, and put right again where the rows have changed.

use crate::rng::Rng;
use ial_baseline::table::{function_at, predecessors_at, Function, Table, BLOCKS, FUNCTION, FUNCTIONS, ROWS};

const JUMP: u8 = 32;
const JUMP_COND: u8 = 33;

/// Whether the last row of block p names block b.
fn names(f: &Function, p: usize, b: usize) -> bool {
    if f.block_rows(p) == 0 || f.block_first(p) + f.block_rows(p) > ROWS {
        return false;
    }
    let last = f.row(f.block_first(p) + f.block_rows(p) - 1);
    let named = |block: u8| usize::from(block) == b;
    match last.instruction() {
        JUMP => named(last.block()),
        JUMP_COND => named(last.block()) || named(last.other_block()),
        _ => false,
    }
}

/// The cell of the count, and the list, of each block of a table that its rows give.
fn by_rows(table: &[u8]) -> Vec<(usize, Vec<u8>)> {
    let Ok(cells) = <&Table>::try_from(table) else { return vec![] };
    let mut lists = vec![];
    for i in 0..usize::from(cells[0]).min(FUNCTIONS) {
        let f = Function::of(cells, i);
        let blocks = f.blocks().min(BLOCKS);
        for b in 0..blocks {
            let list = (0..blocks).filter(|&p| names(&f, p, b)).map(|p| p as u8).collect();
            lists.push((predecessors_at(function_at(i), b), list));
        }
    }
    lists
}

fn put(table: &mut [u8], at: usize, list: &[u8]) {
    table[at] = list.len() as u8;
    table[at + 1..][..list.len()].copy_from_slice(list);
}

/// Puts down the lists that the rows give, so that other rows are judged by the rules behind 9 as well.
pub fn put_right(table: &mut [u8]) {
    for (at, list) in by_rows(table) {
        put(table, at, &list);
    }
}

/// What may be wrong with a list.
#[derive(Clone, Copy, Debug, PartialEq)]
pub enum Wrong {
    Nothing,
    Short,
    Long,
    Order,
    Twice,
    Number,
    Count,
}

impl Wrong {
    pub const ALL: [Wrong; 7] = [Wrong::Nothing, Wrong::Short, Wrong::Long, Wrong::Order, Wrong::Twice, Wrong::Number, Wrong::Count];
}

/// A list that is wrong like this, from the right one.
fn wrong_list(right: &[u8], blocks: usize, wrong: Wrong, rng: &mut Rng) -> Vec<u8> {
    let mut list = right.to_vec();
    let k = rng.below(list.len());
    // Another place than k, if there is one.
    let other = (k + 1 + rng.below(list.len().saturating_sub(1))) % list.len().max(1);
    match wrong {
        Wrong::Nothing | Wrong::Count => {}
        Wrong::Short => drop(list.remove(k)),
        Wrong::Long => list.insert(rng.below(list.len() + 1), rng.below(blocks) as u8),
        Wrong::Order => list.swap(k, other),
        Wrong::Twice if list.len() == 1 || list.len() < BLOCKS && rng.once_in(2) => list.insert(k, list[k]),
        Wrong::Twice => list[k] = list[other],
        Wrong::Number if rng.once_in(4) => list[k] = list[k].wrapping_add(1 + rng.below(255) as u8),
        Wrong::Number => list[k] = (blocks + rng.below(256 - blocks)) as u8,
    }
    list
}

/// Makes one list of a table that was read or translated wrong: in which function, and how. The cells past the count are filled as well, and these alone where
/// nothing is wrong.
pub fn make_wrong(table: &mut [u8], rng: &mut Rng) -> Option<(u64, Wrong)> {
    let wrong = *rng.of(&Wrong::ALL);
    let lengths = match wrong {
        Wrong::Order => 2..=BLOCKS,
        Wrong::Short | Wrong::Twice | Wrong::Number => 1..=BLOCKS,
        Wrong::Long => 0..=BLOCKS - 1,
        Wrong::Nothing | Wrong::Count => 0..=BLOCKS,
    };
    let mut lists = by_rows(table);
    lists.retain(|(_, list)| lengths.contains(&list.len()));
    if lists.is_empty() {
        return None;
    }
    let (at, right) = rng.of(&lists);
    let function = (*at - 1) / FUNCTION;
    let blocks = Function::of((&*table).try_into().unwrap(), function).blocks();
    if wrong == Wrong::Nothing || rng.once_in(2) {
        let limit = *rng.of(&[256, blocks]);
        table[at + 1..][..BLOCKS].fill_with(|| rng.below(limit) as u8);
    }
    put(table, *at, &wrong_list(right, blocks, wrong, rng));
    if wrong == Wrong::Count {
        let any = 1 + rng.below(255) as u8;
        table[*at] = table[*at].wrapping_add(*rng.of(&[1, 255, any]));
    }
    Some((function as u64, wrong))
}
