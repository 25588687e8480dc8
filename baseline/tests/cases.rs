//! Cases of document 01 and of its edges.

use ial_baseline::table::{block_at, function_at, predecessors_at, register_at, row_at};
use ial_baseline::{check, listing, read, run, translate, Answer, Ran, TABLE};

const TURN: &str = include_str!("../../examples/turn.ial");

fn table(text: &str) -> Vec<u8> {
    let mut out = vec![7; TABLE];
    assert_eq!(read(text.as_bytes(), &mut out), Ok(()), "{text}");
    out
}

fn lines(text: &str) -> String {
    String::from_utf8(listing(text.as_bytes())).unwrap()
}

fn go(table: &[u8], args: &[u64]) -> Ran {
    run(table, 0, args, 1_000_000, &mut [9; 300])
}

/// The result of one instruction on parameters of one type.
fn one(kind: &str, instruction: &str, args: &[u64]) -> Ran {
    let second = if instruction.contains("h") || instruction.starts_with("ro") { "uint" } else { kind };
    let (parameters, sources) = match args.len() {
        1 => (format!("{kind} a"), "a"),
        _ => (format!("{kind} a, {second} b"), "a, b"),
    };
    let text = format!(
        "function {kind} f({parameters}) {{ register {kind} r; block entry {{ r = {instruction} {sources}; return r; }} }}"
    );
    go(&table(&text), args)
}

fn two(value: u64) -> Ran {
    Ran::Returned { value, steps: 2 }
}

fn stop(number: u64) -> Ran {
    Ran::Stopped { number, place: 0, steps: 1 }
}

#[test]
fn p1_to_p3_turn_and_its_translation() {
    assert_eq!(lines(TURN), "turn\t1\t10\t4\t11\n");
    let source = table(TURN);
    let mut target = vec![7; TABLE];
    assert_eq!(translate(&source, 0, &mut target), Ok(()));
    assert_eq!(check(&target), Ok(()));
    for (n, value, steps, translated) in [(0, 7, 9, 13), (1, 9, 16, 24), (2, 7, 23, 35)] {
        assert_eq!(go(&source, &[7, 9, n]), Ran::Returned { value, steps });
        assert_eq!(go(&target, &[7, 9, n]), Ran::Returned { value, steps: translated });
    }
    let function = ial_baseline::table::Function::of((&target[..]).try_into().unwrap(), 0);
    assert_eq!((function.registers(), function.blocks(), function.rows()), (13, 6, 22));
}

#[test]
fn p4_to_p11_arithmetic() {
    assert_eq!(one("int8", "ari.add", &[100, 100]), two(200));
    assert_eq!(one("int8", "ari.div", &[249, 2]), two(253));
    assert_eq!(one("int8", "ari.rem", &[249, 2]), two(255));
    assert_eq!(one("int8", "ari.div", &[128, 255]), stop(42));
    assert_eq!(one("int8", "ari.rem", &[128, 255]), two(0));
    assert_eq!(one("int8", "shr", &[128, 7]), two(255));
    assert_eq!(one("uint8", "shl", &[1, 7]), two(128));
    assert_eq!(one("uint8", "shl", &[1, 8]), stop(41));
    assert_eq!(one("uint8", "rol", &[0x81, 1]), two(3));
    let conv = "function uint16 f(int8 a) { register uint16 r; block entry { r = conv a; return r; } }";
    assert_eq!(go(&table(conv), &[255]), two(65_535));
    assert_eq!(one("int8", "ari.neg", &[128]), two(128));
}

#[test]
fn p12_the_range_of_a_load() {
    let load = |number: &str| {
        format!("function uint8 f() {{ register uint8 r; block entry {{ r = load.ui8 ({number}); return r; }} }}")
    };
    assert_eq!(go(&table(&load("255")), &[]), two(255));
    let place = load("256").find("256").unwrap();
    assert_eq!(lines(&load("256")), format!("refused\t4\t{place}\n"));
}

#[test]
fn arithmetic_at_64_bits() {
    let least = 1 << 63;
    for kind in ["int", "int64"] {
        assert_eq!(one(kind, "ari.div", &[least, u64::MAX]), stop(42));
        assert_eq!(one(kind, "ari.rem", &[least, u64::MAX]), two(0));
        assert_eq!(one(kind, "ari.div", &[u64::MAX, 2]), two(0));
        assert_eq!(one(kind, "shr", &[least, 63]), two(u64::MAX));
    }
    assert_eq!(one("uint64", "ari.div", &[least, u64::MAX]), two(0));
    assert_eq!(one("uint64", "ari.rem", &[5, 0]), stop(40));
    assert_eq!(one("uint", "shr", &[least, 63]), two(1));
    assert_eq!(one("uint", "ror", &[1, 63]), two(2));
    assert_eq!(one("uint", "rol", &[1, 0]), two(1));
    assert_eq!(one("uint", "rol", &[1, 64]), stop(41));
}

#[test]
fn texts_refused_by_number_and_place() {
    for (text, refused) in [
        ("/", "2\t0"),
        ("function void 'a\\' () {", "2\t14"),
        ("function void '' () {", "2\t14"),
        ("function void f() { }", "8\t20"),
        ("function void f() { block a { leave; } }", "8\t39"),
        ("function void f() { block entry { } }", "3\t34"),
        ("function void f() { block entry { x = nop; } }", "7\t34"),
        ("function void f(int x) { block entry { x = nop; } }", "3\t43"),
        ("function void f(int x) { block entry { ari.add x, x; } }", "3\t39"),
        ("function void f(int x) { block entry { x = phi (); } }", "3\t48"),
        ("function void f(int x) { block entry { jump (a, b); } }", "3\t46"),
        ("function void f(int x) { block entry { jump (a); } }", "7\t45"),
        ("function void f(int x, int x) {", "6\t27"),
        ("function void f() { block entry { leave; } block entry", "6\t49"),
        ("function void f() { block entry { leave; } } function void f", "6\t59"),
        ("function void f() { block entry { leave; } register", "3\t43"),
        ("function void f(int x) { block entry { x = load.i64 (12ab); } }", "2\t53"),
        ("function void f(int x) { block entry { x = load.i8 (0xFF); } }", "4\t52"),
        ("function void f(int x) { block entry { x = load.i8 (-0x81); } }", "4\t52"),
        ("function void f(int x) { block entry { x = load.ui8 (-1); } }", "4\t53"),
        ("function void f(int x) { block entry { x = load.i64 (99999999999999999999999); } }", "4\t53"),
        ("function", "3\t8"),
    ] {
        assert_eq!(lines(text), format!("refused\t{refused}\n"), "{text}");
    }
    assert_eq!(listing(&[b' '; 65_537]), b"refused\t1\t0\n");
    assert_eq!(listing(&[b' '; 65_536]), b"");
}

#[test]
fn hexadecimal_and_signs_are_values() {
    let load = |number: &str| {
        format!("function int8 f() {{ register int8 r; block entry {{ r = load.i8 ({number}); return r; }} }}")
    };
    for (number, value) in [("-0x80", 128), ("+0007", 7), ("-0", 0), ("0x7F", 127), ("-1", 255)] {
        assert_eq!(go(&table(&load(number)), &[]), two(value));
    }
}

/// A chain of 64 blocks, the last of which holds `rows`.
fn chain(rows: &str) -> String {
    let mut text = String::from("function ssa uint f(uint a) { register uint x; register uint y; block entry { jump (b1); }");
    for b in 1..63 {
        text += &format!("block b{b} {{ jump (b{}); }}", b + 1);
    }
    text + &format!("block b63 {{ {rows} }} }}")
}

#[test]
fn a_use_before_its_assignment_behind_every_block() {
    assert_eq!(lines(&chain("x = ari.add a, a; y = ari.add x, a; return y;")), "f\t1\t3\t64\t66\n");
    assert_eq!(lines(&chain("y = ari.add x, a; x = ari.add a, a; return y;")), "refused\t17\t63\n");
    assert_eq!(lines(&chain("x = ari.add x, a; return x;")), "refused\t17\t63\n");
}

#[test]
fn an_unreachable_block_has_no_path() {
    let text = "function ssa uint f(uint a) { register uint x; register uint y; block entry { return a; }
        block b { x = ari.add y, y; y = ari.add x, x; return y; } }";
    assert_eq!(lines(text), "f\t1\t3\t2\t4\n");
    assert_eq!(lines(&text.replace("y = ari.add x, x;", "")), "refused\t16\t1\n");
}

#[test]
fn budgets_count_every_step() {
    let source = table(TURN);
    let mut registers = [9; 12];
    for (budget, row, x) in [(0, 0, 0), (3, 3, 0), (5, 5, 0), (6, 6, 7), (8, 10, 7)] {
        let ran = run(&source, 0, &[7, 9, 0], budget, &mut registers);
        assert_eq!(ran, Ran::Stopped { number: 43, place: row, steps: budget });
        assert_eq!((registers[3], registers[10], registers[11]), (x, 0, 0), "{budget}");
    }
    assert_eq!(run(&source, 0, &[7, 9, 0], 9, &mut registers), Ran::Returned { value: 7, steps: 9 });
    assert_eq!(Answer::from(Ran::Left { steps: 4 }), Answer { steps: 4, ..Answer::default() });
}

#[test]
fn refusals_in_order_zero_what_is_lent() {
    let source = table(TURN);
    let refused = |number, place| Ran::Refused { number, place };
    let with = |function, args: &[u64], room: usize| {
        let mut registers = vec![9; room];
        let ran = run(&source, function, args, 100, &mut registers);
        assert!(registers.iter().all(|&r| r == 0));
        ran
    };
    assert_eq!(with(1, &[], 0), refused(21, 0));
    assert_eq!(with(u64::MAX, &[], 300), refused(21, 0));
    assert_eq!(with(0, &[1, 2], 0), refused(20, 2));
    assert_eq!(with(0, &[1, 2, 256], 0), refused(20, 2));
    assert_eq!(with(0, &[1, 2, 3], 9), refused(22, 0));
    assert_eq!(run(&source[1..], 0, &[], 0, &mut []), refused(9, 0));

    let zeroed = |length: usize, source: &[u8], function| {
        let mut out = vec![9; length];
        let answer = translate(source, function, &mut out);
        assert!(out.iter().all(|&cell| cell == 0));
        answer
    };
    let plain = table(&TURN.replace("ssa ", "").replace("phi (a, y)", "copy y").replace("phi (b, x)", "copy x").replace("phi (n, m)", "copy m"));
    assert_eq!(zeroed(TABLE, &source, 1), Err((21, 0)));
    assert_eq!(zeroed(5, &plain, 0), Err((30, 0)));
    assert_eq!(zeroed(TABLE + 1, &source, 0), Err((22, 0)));
    assert_eq!(zeroed(0, &[], 0), Err((9, 0)));

    for length in [0, 5, TABLE, TABLE + 1] {
        let mut out = vec![9; length];
        assert_eq!(read(b"function )", &mut out), Err((3, 9)));
        assert!(out.iter().all(|&cell| cell == 0));
    }
    let mut out = vec![9; TABLE - 1];
    assert_eq!(read(TURN.as_bytes(), &mut out), Err((22, 0)));
    assert!(out.iter().all(|&cell| cell == 0));
}

#[test]
fn a_translation_too_large_is_31() {
    // 130 phi in a block with one predecessor: 260 registers and more.
    let mut text = String::from("function ssa void f(uint a) {");
    (0..130).for_each(|n| text += &format!("register uint r{n};"));
    text += "block entry { jump (b); } block b {";
    (0..130).for_each(|n| text += &format!("r{n} = phi (a);"));
    text += "leave; } }";
    assert_eq!(translate(&table(&text), 0, &mut []), Err((31, 0)));
}

#[test]
fn tables_refused_by_number_and_place() {
    let source = table(&(TURN.to_string() + &TURN.replace(" turn(", " burn(")));
    let (first, second) = (function_at(0), function_at(1));
    let register = |r: usize| register_at(first, r);
    let block = |b: usize| block_at(first, b);
    let row = |k: usize| row_at(first, k);
    let list = |b: usize| predecessors_at(first, b);
    let cases: Vec<(Vec<(usize, u8)>, Result<(), (u64, u64)>)> = vec![
        (vec![], Ok(())),
        (vec![(0, 17)], Err((9, 0))),
        (vec![(second, 2)], Err((9, 1))),
        (vec![(1 + 1, 11)], Err((9, 0))),
        (vec![(1 + 2, 11)], Err((9, 0))),
        (vec![(1 + 5, 1)], Err((9, 0))),
        (vec![(1 + 6, 0)], Err((9, 0))),
        (vec![(1 + 6, 65)], Err((9, 0))),
        (vec![(1 + 7, 4)], Err((9, 0))),
        (vec![(1 + 8, 0)], Err((9, 0))),
        (vec![(1 + 8, 65)], Err((9, 0))),
        (vec![(1 + 9, b'v'), (1 + 10, b'o'), (1 + 11, b'i'), (1 + 12, b'd')], Ok(())),
        (vec![(1 + 9, b'\''), (1 + 10, b'\\'), (1 + 12, b'\'')], Ok(())),
        (vec![(1 + 12, b'\\')], Err((9, 0))),
        (vec![(second + 9, b't')], Err((9, 1))),
        (vec![(register(0), 10)], Err((9, 0))),
        (vec![(register(0) + 2, b'b')], Err((9, 0))),
        (vec![(register(0) + 1, 0), (register(1) + 1, 0)], Ok(())),
        (vec![(block(0) + 4, 1), (block(0) + 5, b'a')], Err((9, 0))),
        (vec![(block(1) + 4, 0), (block(2) + 4, 0)], Ok(())),
        (vec![(block(1), 4)], Err((9, 0))),
        (vec![(block(3) + 3, 4)], Err((9, 0))),
        (vec![(row(0), 36)], Err((9, 0))),
        (vec![(row(0) + 1, 10)], Err((9, 0))),
        (vec![(row(0) + 5, 1)], Err((9, 0))),
        (vec![(row(0) + 2, 10), (row(0) + 3, 10)], Ok(())),
        (vec![(row(2) + 4, 4)], Err((9, 0))),
        (vec![(row(4) + 4, 0)], Err((9, 0))),
        (vec![(row(5) + 7, 4)], Err((9, 0))),
        (vec![(row_at(second, 10), 36)], Err((9, 1))),
        (vec![(block(3) + 2, 0)], Err((10, 10))),
        (vec![(row(0), 35)], Err((10, 0))),
        (vec![(row(2), 0), (list(1), 1), (list(1) + 1, 2)], Err((10, 2))),
        (vec![(row_at(second, 10), 35)], Err((11, 2048 + 10))),
        (vec![(row(1) + 1, 6)], Err((12, 1))),
        (vec![(row(0), 30), (row(0) + 2, 2)], Err((13, 0))),
        (vec![(1, 0)], Err((13, 3))),
        (vec![(1 + 7, 1), (block(1) + 4, 0)], Err((14, 3))),
        (vec![(row(5) + 6, 0)], Err((15, 5))),
        (vec![(row(0), 0)], Err((16, 8))),
        (vec![(row(10) + 2, 4)], Ok(())),
        // A `jump.cond` that names one block twice.
        (vec![(row(7) + 4, 2), (list(3), 0)], Ok(())),
    ];
    for (edits, expected) in cases {
        let mut edited = source.clone();
        edits.iter().for_each(|&(at, cell)| edited[at] = cell);
        assert_eq!(check(&edited), expected, "{edits:?}");
    }
}

/// A small generator of numbers, the same in every run.
struct Random(u64);

impl Random {
    fn below(&mut self, limit: usize) -> usize {
        self.0 = self.0.wrapping_mul(6_364_136_223_846_793_005).wrapping_add(1_442_695_040_888_963_407);
        (self.0 >> 33) as usize % limit
    }
}

/// Puts down the predecessors that the first function's rows give; it has the blocks of `turn`.
fn relist(table: &mut [u8]) {
    let at = function_at(0);
    let last = |table: &[u8], b: usize| {
        let block = block_at(at, b);
        row_at(at, usize::from(table[block] + table[block + 2] - 1))
    };
    for b in 0..4 {
        let names = |p: &u8| {
            let row = last(table, usize::from(*p));
            let count = match table[row] {
                32 => 1,
                33 => 2,
                _ => 0,
            };
            table[row + 4..][..count].contains(&(b as u8))
        };
        let list: Vec<u8> = (0..4).filter(names).collect();
        table[predecessors_at(at, b)] = list.len() as u8;
        table[predecessors_at(at, b) + 1..][..list.len()].copy_from_slice(&list);
    }
}

/// All entry points agree on a table, whatever it holds.
fn try_table(table: &[u8]) {
    let checked = check(table);
    let mut registers = [9; 256];
    let ran = run(table, 0, &[1, 2, 3], 500, &mut registers);
    let mut out = vec![9; TABLE];
    let translated = translate(table, 0, &mut out);
    if let Err((number, place)) = checked {
        assert!((9..=17).contains(&number));
        assert_eq!(ran, Ran::Refused { number, place });
        assert_eq!(translated, Err((number, place)));
    } else if translated.is_ok() {
        assert_eq!(check(&out), Ok(()));
    }
}

#[test]
fn damaged_tables_are_answered() {
    let source = table(&(TURN.to_string() + &TURN.replace(" turn(", " other(")));
    let used: Vec<usize> = (0..TABLE).filter(|&at| source[at] != 0).collect();
    let mut random = Random(1);
    for _ in 0..1_500 {
        let mut damaged = source.clone();
        for _ in 0..1 + random.below(3) {
            let at = (used[random.below(used.len())] + random.below(3)).min(TABLE - 1);
            damaged[at] = if random.below(2) == 0 { random.below(256) } else { random.below(12) } as u8;
        }
        try_table(&damaged);
    }
}

#[test]
fn random_cells_and_lengths_are_answered() {
    let mut random = Random(2);
    for length in [0, 1, 2, TABLE - 1, TABLE + 1, TABLE, TABLE, TABLE] {
        for limit in [2, 4, 64, 256] {
            let cells: Vec<u8> = (0..length).map(|_| random.below(limit) as u8).collect();
            try_table(&cells);
            if length == TABLE {
                let mut small = cells.clone();
                small[0] %= 17;
                try_table(&small);
            }
        }
    }
}

#[test]
fn random_rows_are_answered() {
    let source = table(TURN);
    let mut random = Random(3);
    for _ in 0..1_500 {
        let mut table = source.clone();
        for _ in 0..1 + random.below(4) {
            let row = row_at(function_at(0), random.below(11));
            table[row] = random.below(36) as u8;
            (1..4).for_each(|cell| table[row + cell] = random.below(10) as u8);
            (4..6).for_each(|cell| table[row + cell] = random.below(4) as u8);
        }
        try_table(&table);
        relist(&mut table);
        try_table(&table);
    }
}
