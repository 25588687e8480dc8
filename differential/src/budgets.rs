//! Runs of loops by every budget, and of more loops by some. A long run of the library goes by plain steps, by the prepared form and by plain steps again:
//! what it answers and leaves in the registers must not tell where it changed.

use crate::library;
use crate::loops::{self, Loop, Part};
use crate::rng::Rng;
use ial_baseline::table::{Function, Table};
use ial_baseline::{Answer, TABLE};

/// As in crates/interpreter/src/tiers.rt: a run goes by plain steps for so many steps of each row, and to its end if its budget is not this much longer;
/// from there on by the prepared form, and for about the last steps of the budget by plain ones.
const WARM: u64 = 4;
const LONG: u64 = 2_048;
const SLACK: u64 = 1_025;

/// Every budget is compared up to so many past the first that the prepared form is for, or to the run's end.
const PREPARED: u64 = 3_000;
/// A run of more steps is taken for endless.
const ENDLESS: u64 = 40_000;
/// Budgets one after the other at a place further on.
const WINDOW: u64 = 50;
/// Heads with so many phi or more are counted together.
const MANY_PHI: usize = 21;
/// The answers of runs.
const NUMBERS: [u64; 5] = [0, 40, 41, 42, 43];

/// What was compared: loops, those among them by every budget, written without ssa or translated, the phi of their heads, and what they were made of;
/// budgets, those among them that the prepared form is for, and the answers.
#[derive(Default)]
pub struct Counts {
    loops: u64,
    whole: u64,
    plain: u64,
    translated: u64,
    phis: [u64; MANY_PHI + 1],
    parts: [u64; Part::ALL.len()],
    budgets: u64,
    prepared: u64,
    answers: [u64; NUMBERS.len()],
}

impl Counts {
    pub fn add(&mut self, more: &Counts) {
        self.loops += more.loops;
        self.whole += more.whole;
        self.plain += more.plain;
        self.translated += more.translated;
        self.budgets += more.budgets;
        self.prepared += more.prepared;
        add_each(&mut self.phis, &more.phis);
        add_each(&mut self.parts, &more.parts);
        add_each(&mut self.answers, &more.answers);
    }
}

fn add_each(sums: &mut [u64], more: &[u64]) {
    sums.iter_mut().zip(more).for_each(|(sum, n)| *sum += n);
}

impl std::fmt::Display for Counts {
    fn fmt(&self, f: &mut std::fmt::Formatter) -> std::fmt::Result {
        let list = |pairs: Vec<String>| pairs.join(", ");
        let answers = list(NUMBERS.iter().zip(self.answers).map(|(number, n)| format!("{number}: {n}")).collect());
        let parts = list(Part::ALL.iter().zip(self.parts).map(|(part, n)| format!("{part:?}: {n}")).collect());
        let phis = list(self.phis.iter().enumerate().map(|(k, n)| format!("{k}{}: {n}", if k == MANY_PHI { " or more" } else { "" })).collect());
        write!(f, "{} budgets agree, {} of them with the prepared form; answers by number: {answers}; ", self.budgets, self.prepared)?;
        write!(f, "{} loops, {} of them by every budget, {} without ssa, {} translated; ", self.loops, self.whole, self.plain, self.translated)?;
        write!(f, "by phi of the head: {phis}; by parts: {parts}")
    }
}

/// A table of one function, arguments for it, its rows, and how many steps its run takes.
struct Subject {
    table: Vec<u8>,
    args: Vec<u64>,
    rows: u64,
    registers: usize,
    steps: Option<u64>,
}

impl Subject {
    fn of(table: Vec<u8>, args: Vec<u64>) -> Subject {
        let cells = <&Table>::try_from(table.as_slice()).expect("a table has this length");
        let function = Function::of(cells, 0);
        let (rows, registers) = (function.rows() as u64, function.registers());
        let steps = match Answer::from(ial_baseline::run(&table, 0, &args, ENDLESS, &mut vec![0; registers])) {
            Answer { number: 43, .. } => None,
            Answer { steps, .. } => Some(steps),
        };
        Subject { table, args, rows, registers, steps }
    }

    /// The longest budget that the prepared form is not for.
    fn short(&self) -> u64 {
        WARM * self.rows + LONG
    }

    /// Whether the prepared form is entered and left again before the end.
    fn is_long(&self) -> bool {
        self.steps.is_none_or(|steps| self.short() + SLACK < steps)
    }

    /// Every budget from 0 on, and windows further on: around the end and where it is SLACK away, or anywhere.
    fn budgets(&self, rng: &mut Rng) -> Vec<u64> {
        let whole = self.short() + PREPARED;
        let to = self.steps.map_or(whole, |steps| whole.min(steps + WINDOW));
        let starts = match self.steps {
            Some(steps) => vec![steps - SLACK, steps, steps + SLACK, u64::MAX - SLACK, u64::MAX - WINDOW],
            None => (0..4).map(|_| whole + rng.below((ENDLESS - whole) as usize) as u64).collect(),
        };
        let window = |start: u64| start - WINDOW / 2..=start.saturating_add(WINDOW / 2);
        (0..=to).chain(starts.into_iter().flat_map(window).filter(|&budget| budget > to)).collect()
    }

    /// A run by each of these budgets: answers, registers and the cells past them.
    fn compare(&self, budgets: &[u64], rng: &mut Rng, counts: &mut Counts) -> Result<(), String> {
        let room = self.registers + rng.below(4);
        let (mut g, mut h) = (vec![0; room], vec![0; room]);
        for &budget in budgets {
            g.fill(7);
            h.fill(7);
            let a = library::run(&self.table, 0, &self.args, budget, &mut g, &mut h).map_err(|what| format!("budget {budget}: {what}"))?;
            let k = NUMBERS.iter().position(|&number| number == a.number).ok_or_else(|| format!("budget {budget}: {a:?}"))?;
            counts.answers[k] += 1;
        }
        counts.budgets += budgets.len() as u64;
        counts.prepared += budgets.iter().filter(|&&budget| self.short() < budget).count() as u64;
        Ok(())
    }

    /// Runs on many arguments, by some of these budgets.
    fn compare_each(&self, budgets: &[u64], rng: &mut Rng) -> Result<(), String> {
        let [turns] = *self.args else { return Ok(()) };
        let mut g = vec![0; self.registers];
        for _ in 0..5 {
            let budget = (*rng.of(budgets)).min(ENDLESS);
            library::run_each(&self.table, 0, &[turns, turns / 2, turns], budget, &mut g).map_err(|what| format!("budget {budget}: {what}"))?;
        }
        Ok(())
    }
}

/// The loop's table, or that of its translation.
fn read(made: &Loop, translated: bool) -> Result<Option<Vec<u8>>, String> {
    let (mut one, mut two) = (vec![0; TABLE], vec![0; TABLE]);
    let a = library::read(made.text.as_bytes(), &mut one, &mut two)?;
    if a.number != 0 || library::check(&one)?.number != 0 {
        return Err(format!("refused: {a:?}"));
    }
    if translated {
        let table = one.clone();
        if library::translate(&table, 0, &mut one, &mut two)?.number != 0 {
            return Ok(None);
        }
    }
    Ok(Some(one))
}

/// A loop whose run is long, by every budget or by one in a hundred.
pub fn compare(rng: &mut Rng, counts: &mut Counts) -> Result<(), String> {
    loop {
        let made = loops::make(rng);
        let translated = made.ssa && rng.once_in(4);
        let tell = |what: String| format!("budgets: {what}; {}arguments {:?}\n{}", if translated { "translated, " } else { "" }, made.args, made.text);
        let Some(table) = read(&made, translated).map_err(tell)? else { continue };
        let subject = Subject::of(table, made.args.clone());
        if !subject.is_long() {
            continue;
        }
        let whole = rng.once_in(20);
        let mut budgets = subject.budgets(rng);
        budgets.retain(|_| whole || rng.once_in(100));
        subject.compare(&budgets, rng, counts).map_err(tell)?;
        subject.compare_each(&budgets, rng).map_err(tell)?;
        counts.loops += 1;
        counts.whole += u64::from(whole);
        counts.plain += u64::from(!made.ssa);
        counts.translated += u64::from(translated);
        counts.phis[made.phis.min(MANY_PHI)] += u64::from(made.ssa && !translated);
        add_each(&mut counts.parts, &made.parts);
        return Ok(());
    }
}
