//! The predecessors in the blocks' records: put down by reading and translating, compared by the check.

use ial_baseline::table::{function_at, predecessors_at, Function};
use ial_baseline::{check, read, run, translate, write, Ran, TABLE};

/// An unreachable block, a `jump.cond` that names one block twice, and a block that is its own predecessor.
const WEB: &str = "function ssa uint web(uint a) {
 register uint x;
 block lost { jump (head); }
 block entry { jump.cond a (head, head); }
 block head { x = phi (a, a, x); jump.cond x (head, out); }
 block out { return x; }
}";
const HEAD: usize = 2;

fn table(text: &str) -> Vec<u8> {
    let mut out = vec![7; TABLE];
    assert_eq!(read(text.as_bytes(), &mut out), Ok(()), "{text}");
    out
}

fn lists(table: &[u8], i: usize) -> Vec<Vec<u8>> {
    let function = Function::of(table.try_into().unwrap(), i);
    (0..function.blocks()).map(|b| function.predecessors(b).to_vec()).collect()
}

#[test]
fn reading_puts_them_down() {
    let web = table(&(WEB.to_string() + &WEB.replace(" web(", " other(")));
    for i in 0..2 {
        assert_eq!(lists(&web, i), [vec![], vec![], vec![0, 1, 2], vec![2]]);
    }
    assert_eq!(check(&web), Ok(()));
}

#[test]
fn translating_puts_them_down() {
    let mut translation = vec![7; TABLE];
    assert_eq!(translate(&table(WEB), 0, &mut translation), Ok(()));
    assert_eq!(lists(&translation, 0), [vec![], vec![], vec![4, 5, 6], vec![2], vec![0], vec![1], vec![2]]);
    assert_eq!(check(&translation), Ok(()));
}

#[test]
fn a_block_may_have_them_all() {
    let mut text = String::from("function void f() {");
    for b in 0..64 {
        text += &if b == 0 { "block entry { jump (b63); }".to_string() } else { format!("block b{b} {{ jump (b63); }}") };
    }
    let mut full = table(&(text + "}"));
    assert_eq!(lists(&full, 0)[63], (0..64).collect::<Vec<u8>>());
    assert!(lists(&full, 0)[..63].iter().all(Vec::is_empty));
    assert_eq!(check(&full), Ok(()));
    for count in [0, 63, 65, 255] {
        full[predecessors_at(function_at(0), 63)] = count;
        assert_eq!(check(&full), Err((9, 0)), "{count}");
    }
}

#[test]
fn only_the_last_row_names_blocks() {
    let early = table("function void f() { block entry { jump (b); leave; } block b { leave; } }");
    assert_eq!(lists(&early, 0), [[], []]);
    assert_eq!(check(&early), Err((10, 0)));
    assert_eq!(check(&listed(&early, 0, 1, &[0])), Err((9, 0)));
}

/// The table with this list of one block's predecessors.
fn listed(table: &[u8], function: usize, b: usize, list: &[u8]) -> Vec<u8> {
    let at = predecessors_at(function_at(function), b);
    let mut table = table.to_vec();
    table[at] = list.len() as u8;
    table[at + 1..][..list.len()].copy_from_slice(list);
    table
}

#[test]
fn another_list_is_9_at_its_function() {
    let web = table(&(WEB.to_string() + &WEB.replace(" web(", " other(")));
    let wrong: [&[u8]; 12] = [
        &[],
        &[0, 1],
        &[1, 2],
        &[0, 1, 2, 3],
        &[0, 1, 1, 2],
        &[1, 0, 2],
        &[2, 1, 0],
        &[0, 1, 1],
        &[0, 1, 3],
        &[0, 1, 4],
        &[0, 1, 64],
        &[255, 1, 2],
    ];
    for i in 0..2 {
        for list in wrong {
            let other = listed(&web, i, HEAD, list);
            let place = i as u64;
            assert_eq!(check(&other), Err((9, place)), "{list:?}");
            let mut registers = [9; 9];
            assert_eq!(run(&other, 0, &[0], 99, &mut registers), Ran::Refused { number: 9, place });
            assert_eq!(registers, [0; 9]);
            let mut out = vec![9; TABLE];
            assert_eq!(translate(&other, 0, &mut out), Err((9, place)));
            assert_eq!(write(&other, &mut out), Err((9, place)));
            assert!(out.iter().all(|&cell| cell == 0));
        }
        assert_eq!(check(&listed(&web, i, HEAD, &[0, 1, 2])), Ok(()));
        assert_eq!(check(&listed(&web, i, 0, &[0])), Err((9, i as u64)));
    }
}

#[test]
fn a_count_alone_is_9() {
    let web = table(WEB);
    for count in (0..=255).filter(|&count| count != 3) {
        let mut other = web.clone();
        other[predecessors_at(function_at(0), HEAD)] = count;
        assert_eq!(check(&other), Err((9, 0)), "{count}");
    }
}

#[test]
fn nine_comes_before_ten() {
    let open = table(&WEB.replace("return x;", "nop;"));
    assert_eq!(check(&open), Err((10, 4)));
    assert_eq!(check(&listed(&open, 0, 3, &[])), Err((9, 0)));
}

#[test]
fn cells_past_the_count_are_ignored() {
    let web = table(WEB);
    let mut littered = web.clone();
    for (b, list) in lists(&web, 0).iter().enumerate() {
        let at = predecessors_at(function_at(0), b);
        littered[at + 1 + list.len()..at + 65].fill(0xa5);
    }
    assert_eq!(check(&littered), Ok(()));
    let (mut one, mut two) = (vec![7; TABLE], vec![7; TABLE]);
    assert_eq!(translate(&littered, 0, &mut one), Ok(()));
    assert_eq!(translate(&web, 0, &mut two), Ok(()));
    assert!(one == two);
    assert_eq!(run(&littered, 0, &[0], 99, &mut [9; 9]), run(&web, 0, &[0], 99, &mut [9; 9]));
}
