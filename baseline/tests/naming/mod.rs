//! Names put into a table.

use crate::outside::Expected;
use ial_baseline::table::{block_at, function_at, register_at};

/// Where a name's length cell is.
fn name_at(kind: &str, function: usize, index: usize) -> usize {
    let at = function_at(function);
    match kind {
        "function" => at + 8,
        "register" => register_at(at, index) + 1,
        _ => block_at(at, index) + 4,
    }
}

/// Replaces a name; of one too long the length is set and the first bytes are kept.
pub fn set_name(table: &mut [u8], kind: &str, function: usize, index: usize, name: &[u8]) {
    let at = name_at(kind, function, index);
    let kept = &name[..name.len().min(64)];
    table[at] = name.len() as u8;
    table[at + 1..at + 65].fill(0);
    table[at + 1..][..kept.len()].copy_from_slice(kept);
}

fn unhex(hex: &str) -> Vec<u8> {
    let hex = hex.trim_matches('-');
    (0..hex.len()).step_by(2).map(|i| u8::from_str_radix(&hex[i..i + 2], 16).unwrap()).collect()
}

/// The name that a line's last four fields put into a table.
pub fn name_line(table: &mut [u8], fields: &[&str]) {
    set_name(table, fields[0], fields[1].parse().unwrap(), fields[2].parse().unwrap(), &unhex(fields[3]));
}

/// The table with the names of so many lines that are expected next.
pub fn edited(table: &[u8], count: usize, expected: &mut Expected) -> Vec<u8> {
    let mut edited = table.to_vec();
    for _ in 0..count {
        name_line(&mut edited, &expected.line().split('\t').collect::<Vec<_>>()[1..]);
    }
    edited
}
