//! The verified libraries against the plain Rust implementation (and, for runs, other interpreters: `interpreters.rs` says how): same
//! machine, same input, both built for release, one run. Calls of the
//! two alternate, figures are medians, and time is the processor time of the thread: on the wall a call of milliseconds that is interrupted
//! counts the other work too, and the longer side is interrupted more often. Every call is lent the table that the last one left: each
//! `read` clears it itself, and so is timed with it.

mod interpreters;
mod merging;

use ial::raw::{ial_check, ial_read, ial_run, ial_translate, ial_write};
use ial_baseline::table::{function_at, FUNCTION, FUNCTIONS};

fn verified_check(t: &[u8]) -> u64 {
    unsafe { ial_check(t.as_ptr(), t.len()) }.number
}

fn verified_run(t: &[u8], args: &[u64], budget: u64, g: &mut [u64]) -> (u64, u64, u64) {
    let a = unsafe { ial_run(t.as_ptr(), t.len(), 0, args.as_ptr(), args.len(), budget, g.as_mut_ptr(), g.len()) };
    (a.number, a.value, a.steps)
}

fn plain_run(t: &[u8], args: &[u64], budget: u64, g: &mut [u64]) -> (u64, u64, u64) {
    let a = ial_baseline::Answer::from(ial_baseline::run(t, 0, args, budget, g));
    (a.number, a.value, a.steps)
}

fn verified_translate(t: &[u8], out: &mut [u8]) -> u64 {
    unsafe { ial_translate(t.as_ptr(), t.len(), 0, out.as_mut_ptr(), out.len()) }.number
}

/// A table of one function of 1,024 rows, 64 blocks and 256 registers: each block but the last has fourteen additions and a comparison and goes on or past
/// the next one; the last ends like this.
fn large_function(f: usize, end: &str) -> Vec<u8> {
    let mut s = format!("function uint64 large_{f}(uint64 a, uint64 n) {{ register uint more;");
    (0..253).for_each(|r| s += &format!("register uint64 r{r};"));
    for b in 0..64 {
        s += &if b == 0 { "block entry {".to_string() } else { format!("block b{b} {{") };
        (0..14).for_each(|k| s += &format!("r{}=ari.add r{},a;", (b * 14 + k) % 253, (b * 7 + k * 3) % 253));
        s += &if b == 63 { format!("r0=ari.add r1,a;{end};}}") } else { format!("more=cmp.lt r{},n;jump.cond more(b{},b{});}}", b, b + 1, (b + 2).min(63)) };
    }
    let mut cells = vec![0u8; ial_baseline::TABLE];
    ial_baseline::read((s + "}").as_bytes(), &mut cells).unwrap();
    cells
}

/// Sixteen of them.
fn large_table() -> Vec<u8> {
    let mut cells = vec![0u8; ial_baseline::TABLE];
    for f in 0..FUNCTIONS {
        cells[function_at(f)..][..FUNCTION].copy_from_slice(&large_function(f, "return r0")[function_at(0)..][..FUNCTION]);
    }
    cells[0] = FUNCTIONS as u8;
    cells
}

/// Short runs of a large function that goes through all its rows over and over: which of them pay for preparing it. The table's check is in each, and
/// alone in the first.
fn short_runs() {
    let t = large_function(0, "jump(entry)");
    let (mut g, mut h) = ([0u64; 256], [0u64; 256]);
    for budget in [0, 1_024, 4_096, 8_192, 32_768] {
        let args = [1, u64::MAX];
        let answer = verified_run(&t, &args, budget, &mut g);
        assert_eq!(answer, plain_run(&t, &args, budget, &mut h));
        assert!(answer == (43, 0, budget) && g == h);
        let name = format!("run, 1,024 rows and 64 blocks, {budget} steps, check included");
        race(&name, 5000, || { verified_run(&t, &args, budget, &mut g); }, || { plain_run(&t, &args, budget, &mut h); });
    }
}

/// Check, runs and the translation, each side's answers compared first.
fn judge_run_translate() {
    let mut turn = vec![0u8; ial_baseline::TABLE];
    ial_baseline::read(TURN.as_bytes(), &mut turn).unwrap();
    let large = large_table();
    for (name, t, rounds) in [("check, 16 functions of 1,024 rows and 64 blocks", &large, 2000), ("check, turn", &turn, 20000)] {
        assert_eq!((verified_check(t), ial_baseline::check(t).is_ok()), (0, true));
        race(name, rounds, || { verified_check(t); }, || { ial_baseline::check(t).unwrap(); });
    }
    interpreters::run_loops();
    short_runs();
    let (mut g, mut h) = ([0u64; 256], [0u64; 256]);
    race("run, turn(7, 9, 2), check included", 20000, || { verified_run(&turn, &[7, 9, 2], u64::MAX, &mut g); }, || { plain_run(&turn, &[7, 9, 2], u64::MAX, &mut h); });
    let (mut a, mut b) = (vec![0u8; ial_baseline::TABLE], vec![0u8; ial_baseline::TABLE]);
    assert_eq!((verified_translate(&turn, &mut a), ial_baseline::translate(&turn, 0, &mut b).is_ok()), (0, true));
    assert!(a == b);
    race("translate, turn", 5000, || { verified_translate(&turn, &mut a); }, || { ial_baseline::translate(&turn, 0, &mut b).unwrap(); });
}

fn verified_write(t: &[u8], out: &mut [u8]) -> (u64, usize) {
    let a = unsafe { ial_write(t.as_ptr(), t.len(), out.as_mut_ptr(), out.len()) };
    (a.number, a.value as usize)
}

fn plain_write(t: &[u8], out: &mut [u8]) -> (u64, usize) {
    ial_baseline::write(t, out).map_or_else(|(number, _)| (number, 0), |length| (0, length))
}

/// A function with sixty phi in a block of six predecessors: its translation has 60 registers and 6 blocks without a name, and 735 rows.
fn phi_text() -> String {
    let mut s = "function ssa uint64 merged(uint64 reading, uint bound) {\n".to_string();
    (0..60).for_each(|r| s += &format!(" register uint64 value_{r};\n"));
    s += " block entry { jump (step_0); }\n";
    (0..5).for_each(|b| s += &format!(" block step_{b} {{ jump.cond bound (out, step_{}); }}\n", b + 1));
    s += " block step_5 { jump (out); }\n block out {\n";
    (0..60).for_each(|r| s += &format!("  value_{r} = phi (reading{});\n", ", reading".repeat(5)));
    s + "  return value_0;\n }\n}\n"
}

/// Writing, the check included: the texts above and translations, each in a buffer of the longest text, which is zeroed past the text; `turn` also
/// in one that is just as long.
fn write_texts(long: &str, quoted: &str) {
    let table = |text: &str| {
        let mut t = vec![0u8; ial_baseline::TABLE];
        ial_baseline::read(text.as_bytes(), &mut t).unwrap();
        t
    };
    let translation = |text: &str| {
        let mut t = vec![0u8; ial_baseline::TABLE];
        ial_baseline::translate(&table(text), 0, &mut t).unwrap();
        t
    };
    let whole = ial::TEXT;
    let exact = plain_write(&table(TURN), &mut vec![0u8; whole]).1;
    let works = [
        ("the 64 KB text", table(long), whole, 2000),
        ("the 64 KB text of quoted names", table(quoted), whole, 2000),
        ("turn", table(TURN), whole, 10000),
        ("turn, no room to spare", table(TURN), exact, 10000),
        ("turn translated", translation(TURN), whole, 10000),
        ("sixty phi by six ways, translated", translation(&phi_text()), whole, 5000),
    ];
    for (name, t, room, rounds) in works {
        let (mut a, mut b) = (vec![255u8; room], vec![255u8; room]);
        let (number, length) = verified_write(&t, &mut a);
        assert_eq!((number, length), plain_write(&t, &mut b));
        assert!(number == 0 && a == b);
        let time = race(&format!("write, {name}, {length} bytes"), rounds, || { verified_write(&t, &mut a); }, || { plain_write(&t, &mut b); });
        println!("  verified {:.0} MB/s of text", length as f64 * 1000.0 / time);
    }
}

fn verified_read(text: &[u8], out: &mut [u8]) -> (u64, u64) {
    // The library takes any input: pointer and length of two live slices.
    let a = unsafe { ial_read(text.as_ptr(), text.len(), out.as_mut_ptr(), out.len()) };
    assert_eq!((a.value, a.steps), (0, 0));
    (a.number, a.place)
}

fn plain_read(text: &[u8], out: &mut [u8]) -> (u64, u64) {
    match ial_baseline::read(text, out) {
        Ok(()) => (0, 0),
        Err((n, p)) => (n, p),
    }
}

const TURN: &str = include_str!("../../examples/turn.ial");

/// A text of nearly 65,536 bytes: 16 functions of 52 registers and 8 blocks.
fn long_text() -> String {
    let mut s = String::new();
    for f in 0..16 {
        s += &format!("function uint64 limit_{f}(uint64 reading, uint64 bound) {{\n");
        for r in 0..50 {
            s += &format!(" register uint64 value_{r};\n");
        }
        for b in 0..8 {
            s += &if b == 0 { " block entry {\n".to_string() } else { format!(" block step_{b} {{\n") };
            for i in 0..7 {
                let (t, l) = ((b * 7 + i) % 50, (b * 7 + i + 49) % 50);
                s += &format!("  value_{t} = ari.add reading, value_{l};\n");
            }
            s += &if b < 7 { format!("  jump (step_{});\n }}\n", b + 1) } else { "  return value_0;\n }\n".to_string() };
        }
        s += "}\n";
    }
    assert!(s.len() <= 65536, "{}", s.len());
    s
}

/// A text of nearly as many bytes whose names but one are in quotes, and need them: 12 functions of 32 registers and 8 blocks. Registers, the most of its names by far, are
/// called like this, with a number behind it.
fn quoted_text(register: &str) -> String {
    let mut s = String::new();
    for f in 0..12 {
        s += &format!("function uint64 'limit no. {f}'(uint64 'a reading', uint64 bound) {{\n");
        (0..30).for_each(|r| s += &format!(" register uint64 '{register} {r}';\n"));
        for b in 0..8 {
            s += &if b == 0 { " block entry {\n".to_string() } else { format!(" block 'step no. {b}' {{\n") };
            for i in 0..7 {
                let (t, l) = ((b * 7 + i) % 30, (b * 7 + i + 29) % 30);
                s += &format!("  '{register} {t}' = ari.add 'a reading', '{register} {l}';\n");
            }
            s += &if b < 7 { format!("  jump ('step no. {}');\n }}\n", b + 1) } else { format!("  return '{register} 0';\n }}\n") };
        }
        s += "}\n";
    }
    assert!(s.len() <= 65536, "{}", s.len());
    s
}

/// A text of nearly as many bytes that is words and marks: 16 functions with registers of every type, and in each of eight blocks every instruction but
/// three of those that end one. Names have one letter: they are too short for a word.
fn words_text() -> String {
    const TYPES: [&str; 10] = ["int8", "int16", "int32", "int64", "uint8", "uint16", "uint32", "uint64", "int", "uint"];
    const TWO: [&str; 18] = [
        "ari.add", "ari.sub", "ari.mul", "ari.div", "ari.rem", "bit.and", "bit.or", "bit.xor", "shl", "shr", "rol", "ror", "cmp.eq", "cmp.neq", "cmp.gt", "cmp.lt",
        "cmp.gteq", "cmp.lteq",
    ];
    const LOADS: [&str; 8] = ["load.i8", "load.ui8", "load.i16", "load.ui16", "load.i32", "load.ui32", "load.i64", "load.ui64"];
    let mut rows = vec!["nop;".to_string(), "a=phi(b);".to_string()];
    rows.extend(LOADS.iter().map(|w| format!("a={w}(1);")));
    rows.extend(TWO.iter().map(|w| format!("a={w} b,c;")));
    rows.extend(["ari.neg", "bit.neg", "conv", "copy"].iter().map(|w| format!("a={w} b;")));
    let letter = |n: usize| char::from(b'a' + n as u8);
    let mut s = String::new();
    for f in 0..16 {
        s += &format!("function void {}(){{", letter(f));
        (0..26).for_each(|r| s += &format!("register {} {};", TYPES[r % 10], letter(r)));
        for b in 0..8 {
            s += &if b == 0 { "block entry{".to_string() } else { format!("block {}{{", letter(b)) };
            (0..32).for_each(|k| s += &rows[(b * 7 + k * 5) % rows.len()]);
            s += ["jump(b);}", "jump.cond a(b,c);}", "return a;}", "leave;}"][b % 4];
        }
        s += "}";
    }
    assert!(s.len() <= 65536, "{}", s.len());
    s
}

fn median(mut times: Vec<f64>) -> f64 {
    times.sort_by(f64::total_cmp);
    times[times.len() / 2]
}

#[repr(C)]
struct Time {
    seconds: i64,
    nanoseconds: i64,
}

extern "C" {
    fn clock_gettime(clock: i32, time: *mut Time) -> i32;
}

/// CLOCK_THREAD_CPUTIME_ID of Linux, in nanoseconds.
fn thread_time() -> f64 {
    let mut time = Time { seconds: 0, nanoseconds: 0 };
    assert_eq!(unsafe { clock_gettime(3, &mut time) }, 0);
    time.seconds as f64 * 1e9 + time.nanoseconds as f64
}

fn nanoseconds(work: &mut impl FnMut()) -> f64 {
    let start = thread_time();
    work();
    thread_time() - start
}

/// The medians of so many rounds, each a call of one side and then of the other; the ratio is the median of the rounds' own. Our time is
/// handed back.
fn race(name: &str, rounds: usize, mut verified: impl FnMut(), mut plain: impl FnMut()) -> f64 {
    race_on(name, rounds, &[], |_| verified(), |_| plain())
}

/// The same for calls that change what they are lent: each begins with these bytes, which are put there before its time begins.
fn race_on(name: &str, rounds: usize, start: &[u8], mut verified: impl FnMut(&mut [u8]), mut plain: impl FnMut(&mut [u8])) -> f64 {
    let mut lent = start.to_vec();
    let times: Vec<_> = (0..rounds)
        .map(|_| {
            lent.copy_from_slice(start);
            let v = nanoseconds(&mut || verified(&mut lent));
            lent.copy_from_slice(start);
            (v, nanoseconds(&mut || plain(&mut lent)))
        })
        .collect();
    report(name, "plain", &times)
}

/// Prints what rounds of our time and the other's come to, and hands our median back.
fn report(name: &str, other: &str, rounds: &[(f64, f64)]) -> f64 {
    let of = |part: fn(&(f64, f64)) -> f64| median(rounds.iter().map(part).collect());
    let ours = of(|r| r.0);
    println!("{name}: verified {:.1} us, {other} {:.1} us, ratio {:.2}", ours / 1000.0, of(|r| r.1) / 1000.0, of(|r| r.1 / r.0));
    ours
}

fn main() {
    // With a backslash in the name of each register, and with none.
    let (quoted, unescaped) = (quoted_text("client\\'s value"), quoted_text("a client: value"));
    let (long, words) = (long_text(), words_text());
    let comment = format!("//{}", "lexed and never taken ".repeat(2978));
    let (mut a, mut b) = (vec![255u8; ial_baseline::TABLE], vec![255u8; ial_baseline::TABLE]);
    for text in [long.as_bytes(), quoted.as_bytes(), unescaped.as_bytes(), words.as_bytes(), comment.as_bytes(), TURN.as_bytes(), b"", b"function void f() {"] {
        assert_eq!(verified_read(text, &mut a), plain_read(text, &mut b));
        assert!(a == b);
    }
    println!("texts of {}, with quoted names {}, of words {} bytes", long.len(), quoted.len(), words.len());
    let works = [
        ("read, 64 KB", long.as_bytes(), 2000),
        ("read, 64 KB of quoted names, most with an escape", quoted.as_bytes(), 2000),
        ("read, a comment of 64 KB", comment.as_bytes(), 4000),
        ("read, turn", TURN.as_bytes(), 10000),
        ("read, nothing (a table cleared)", &b""[..], 10000),
        ("read, 64 KB of words", words.as_bytes(), 2000),
        ("read, 64 KB of quoted names without escapes", unescaped.as_bytes(), 2000),
    ];
    let times = works.map(|(name, text, rounds)| {
        assert_eq!(verified_read(text, &mut a), (0, 0));
        race(name, rounds, || { verified_read(text, &mut a); }, || { plain_read(text, &mut b); })
    });
    println!("lex, a comment of {} bytes: verified {:.0} MB/s", comment.len(), comment.len() as f64 * 1000.0 / (times[2] - times[4]));
    judge_run_translate();
    write_texts(&long, &quoted);
    merging::merge_and_join();
}
