//! The four loops of `loops/`: the verified library against plain Rust, and against Lua 5.4 and LuaJIT with its compiler off where they are
//! installed. A script beside each loop does the same work. It times each of its calls itself, so that no start and no compiling is counted.
//! Calls of two processes do not alternate one by one: a round is some calls of one side and then as many of the other.

use crate::{median, nanoseconds, plain_run, race, report, verified_run};
use std::io::ErrorKind;
use std::process::Command;

struct Loop {
    name: &'static str,
    /// In `loops/`, with `.ial` and with `.lua`.
    file: &'static str,
    arguments: &'static [u64],
    /// Some of its numbers are above 2^53 and no doubles.
    wide: bool,
}

const LOOPS: [Loop; 4] = [
    Loop { name: "a counting loop", file: "count", arguments: &[100_000], wide: false },
    Loop { name: "turn's loop", file: "turns", arguments: &[7, 9, 50_000], wide: false },
    Loop { name: "a loop with eight phi", file: "eight", arguments: &[7, 50_000], wide: false },
    Loop { name: "a loop of multiplications and divisions", file: "divide", arguments: &[100_000], wide: true },
];

struct Interpreter {
    name: &'static str,
    program: &'static str,
    options: &'static [&'static str],
    /// Its plain numbers are doubles: with boxed integers a wide loop would be another computation.
    doubles: bool,
}

const INTERPRETERS: [Interpreter; 2] = [
    Interpreter { name: "Lua 5.4", program: "lua5.4", options: &[], doubles: false },
    Interpreter { name: "LuaJIT's interpreter", program: "luajit", options: &["-joff"], doubles: true },
];

const FOLDER: &str = concat!(env!("CARGO_MANIFEST_DIR"), "/loops");
const ROUNDS: usize = 20;
/// In a round, of each side.
const CALLS: usize = 10;

/// Only a program that is not there is left out: one that fails is an error, where its script is run.
fn installed(other: &&Interpreter) -> bool {
    let missing = Command::new(other.program).arg("-v").output().is_err_and(|e| e.kind() == ErrorKind::NotFound);
    if missing {
        println!("{} is not installed: left out", other.name);
    }
    !missing
}

/// The median time of the script's calls, whose result has to be this one.
fn script_time(other: &Interpreter, l: &Loop, result: u64) -> f64 {
    let mut command = Command::new(other.program);
    command.args(other.options).args([format!("{FOLDER}/timed.lua"), format!("{FOLDER}/{}.lua", l.file), CALLS.to_string()]);
    let output = command.args(l.arguments.iter().map(u64::to_string)).output().unwrap();
    assert!(output.status.success(), "{}", String::from_utf8_lossy(&output.stderr));
    let said = String::from_utf8(output.stdout).unwrap();
    let (value, seconds) = said.trim_end().split_once('\t').unwrap();
    assert_eq!(value, result.to_string());
    seconds.parse::<f64>().unwrap() * 1e9
}

fn race_script(other: &Interpreter, l: &Loop, t: &[u8], g: &mut [u64]) {
    if other.doubles && l.wide {
        println!("run, {}: the plain numbers of {} are doubles, left out", l.name, other.name);
        return;
    }
    let result = verified_run(t, l.arguments, u64::MAX, g).1;
    let mut verified = || median((0..CALLS).map(|_| nanoseconds(&mut || { verified_run(t, l.arguments, u64::MAX, g); })).collect());
    let rounds: Vec<_> = (0..ROUNDS).map(|_| (verified(), script_time(other, l, result))).collect();
    report(&format!("run, {}", l.name), other.name, &rounds);
}

/// Each loop against plain Rust first, the answers compared, and then against each of the others.
pub fn run_loops() {
    let others: Vec<&Interpreter> = INTERPRETERS.iter().filter(installed).collect();
    let (mut g, mut h) = ([0u64; 256], [0u64; 256]);
    for l in &LOOPS {
        let text = std::fs::read(format!("{FOLDER}/{}.ial", l.file)).unwrap();
        let mut t = vec![0u8; ial_baseline::TABLE];
        ial_baseline::read(&text, &mut t).unwrap();
        let answer = verified_run(&t, l.arguments, u64::MAX, &mut g);
        assert_eq!(answer, plain_run(&t, l.arguments, u64::MAX, &mut h));
        assert!(answer.0 == 0 && g == h);
        let name = format!("run, {}, {} steps", l.name, answer.2);
        race(&name, ROUNDS * CALLS, || { verified_run(&t, l.arguments, u64::MAX, &mut g); }, || { plain_run(&t, l.arguments, u64::MAX, &mut h); });
        others.iter().for_each(|other| race_script(other, l, &t, &mut g));
    }
}
