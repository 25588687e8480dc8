//! A differential test: the verified libraries against the plain implementation on generated inputs. Every answer and every lent
//! cell must agree; of stores that no merge left, only that they get an answer and are not harmed by a refusal.
//! Now and then a round has a loop too, which is run by many budgets or by every one.
//! `ial-differential [ROUNDS [FIRST]]`; a failure prints the round, and ROUNDS 1 FIRST that number repeats it.

mod budgets;
mod histories;
mod library;
mod lists;
mod loops;
mod near_words;
mod quoted;
mod readings;
mod rng;
mod stores;
mod texts;
mod writings;

use ial_baseline::table::{
    block_at, entry_at, function_at, predecessors_at, register_at, row_at, Function, BLOCK_PREDECESSORS, FIRST_REGISTER, FUNCTIONS, REGISTER_SIZE, ROW_SIZE,
};
use ial_baseline::{Answer, TABLE};
use lists::Wrong;
use rng::Rng;

/// Two tables that hold the same rubbish; how often each number was answered, of all calls, of texts for reading alone, of texts of names in quotes, and of checks of
/// tables with other names; how often a list was made wrong in each way; and what was run by many budgets.
struct Bench {
    one: Vec<u8>,
    two: Vec<u8>,
    seen: [u64; 64],
    read: [u64; 64],
    quoted: [u64; 64],
    stored: [u64; 64],
    lists: [u64; Wrong::ALL.len()],
    budgets: budgets::Counts,
}

impl Bench {
    fn count(&mut self, a: Answer) -> Answer {
        self.seen[a.number as usize] += 1;
        a
    }

    /// An output of the right length, or now and then of another, with rubbish in its first cells.
    fn lend(&mut self, rng: &mut Rng) {
        let n = if rng.once_in(12) { *rng.of(&[0, 1, TABLE - 1, TABLE + 1, TABLE / 2]) } else { TABLE };
        self.one.resize(n, 0);
        for cell in self.one.iter_mut().take(64) {
            *cell = rng.next() as u8;
        }
        self.two.clone_from(&self.one);
    }

    fn runs(&mut self, table: &[u8], f: u64, rng: &mut Rng) -> Result<(), String> {
        let params = params(table, f);
        for _ in 0..3 {
            let count = if rng.once_in(10) { rng.below(6) } else { params.len() };
            let args: Vec<u64> = (0..count)
                .map(|i| if rng.once_in(12) { rng.number() } else { rng.number() & params.get(i).copied().unwrap_or(u64::MAX) })
                .collect();
            let mut g = vec![7; if rng.once_in(8) { rng.below(40) } else { 256 + rng.below(3) }];
            let budget = if rng.once_in(2) { 2_000 } else { rng.below(40) as u64 };
            let a = library::run(table, f, &args, budget, &mut g.clone(), &mut g)?;
            self.count(a);
            let many: Vec<u64> = (0..rng.below(5)).map(|_| if rng.once_in(4) { rng.number() } else { rng.number() & params.first().copied().unwrap_or(u64::MAX) }).collect();
            library::run_each(table, f, &many, budget, &mut g)?;
        }
        Ok(())
    }

    /// What both make of a table: the check, its text, runs of its functions, their translations, and texts and runs of these.
    fn table(&mut self, table: &[u8], rng: &mut Rng) -> Result<(), String> {
        let a = library::check(table)?;
        let accepted = self.count(a).number == 0;
        self.writes(table, rng)?;
        let functions = if accepted { u64::from(table[0]) + 1 } else { 1 };
        for f in 0..functions {
            self.runs(table, f, rng)?;
            self.lend(rng);
            let (mut one, mut two) = (std::mem::take(&mut self.one), std::mem::take(&mut self.two));
            let a = library::translate(table, f, &mut one, &mut two)?;
            if self.count(a).number == 0 {
                self.runs(&one, 0, rng)?;
                self.writes(&one, rng)?;
                self.wrong_list(&one, rng)?;
            }
            (self.one, self.two) = (one, two);
        }
        Ok(())
    }

    /// What both make of a table that was read or translated with one list of predecessors wrong: 9 at that function, or what was wrong before it. Cells past
    /// the count change nothing.
    fn wrong_list(&mut self, table: &[u8], rng: &mut Rng) -> Result<(), String> {
        let right = library::check(table)?;
        let mut other = table.to_vec();
        let Some((function, wrong)) = lists::make_wrong(&mut other, rng) else { return Ok(()) };
        self.lists[wrong as usize] += 1;
        let before = right.number != 0 && right.place / 2_048 < function;
        let expected = if wrong == Wrong::Nothing || before { right } else { Answer { number: 9, place: function, ..right } };
        let a = library::check(&other)?;
        if self.count(a) != expected {
            return Err(format!("lists: {wrong:?} in function {function}: {a:?}, and {right:?} before"));
        }
        if wrong == Wrong::Nothing || rng.once_in(8) {
            self.runs(&other, function, rng)?;
            self.lend(rng);
            let (mut one, mut two) = (std::mem::take(&mut self.one), std::mem::take(&mut self.two));
            let a = library::translate(&other, function, &mut one, &mut two)?;
            (self.one, self.two) = (one, two);
            self.count(a);
            self.writes(&other, rng)?;
        }
        Ok(())
    }

    fn round(&mut self, rng: &mut Rng) -> Result<(), String> {
        let mut text = texts::program(rng);
        if rng.once_in(3) {
            text = texts::damaged(&text, rng);
        }
        if rng.once_in(60) {
            text.resize(65_530 + rng.below(12), b' ');
        }
        self.lend(rng);
        let (mut one, mut two) = (std::mem::take(&mut self.one), std::mem::take(&mut self.two));
        let read = library::read(&text, &mut one, &mut two);
        let a = self.count(read?);
        if a.number == 0 {
            let mut table = one.clone();
            self.table(&table, rng)?;
            for _ in 0..3 {
                self.wrong_list(&table, rng)?;
            }
            let mut renamed = table.clone();
            writings::rename(&mut renamed, rng);
            self.table(&renamed, rng)?;
            for _ in 0..3 {
                disturb(&mut table, rng);
                self.table(&table, rng)?;
                if rng.once_in(2) {
                    lists::put_right(&mut table);
                    self.table(&table, rng)?;
                }
            }
        }
        (self.one, self.two) = (one, two);
        if rng.once_in(8) {
            histories::history(rng, &mut self.seen).map_err(|what| format!("merge: {what}"))?;
        }
        if rng.once_in(4) {
            budgets::compare(rng, &mut self.budgets)?;
        }
        if rng.once_in(2) {
            self.reads(rng)?;
        }
        self.names(rng).map_err(|what| format!("names: {what}"))
    }

    /// What both make of a text of names in quotes and of its table, and of this with contents of any kind put in.
    fn names(&mut self, rng: &mut Rng) -> Result<(), String> {
        let text = quoted::text(rng);
        let (mut one, mut two) = (vec![0xa5; TABLE], vec![0xa5; TABLE]);
        let a = library::read(&text, &mut one, &mut two)?;
        self.quoted[a.number as usize] += 1;
        if a.number != 0 {
            return Ok(());
        }
        self.table(&one, rng)?;
        for _ in 0..2 {
            let mut renamed = one.clone();
            quoted::rename(&mut renamed, rng);
            self.stored[library::check(&renamed)?.number as usize] += 1;
            self.table(&renamed, rng).map_err(|what| format!("stored: {what}"))?;
        }
        Ok(())
    }

    /// What both make of a text for outputs of many lengths.
    fn reads(&mut self, rng: &mut Rng) -> Result<(), String> {
        let text = readings::text(rng);
        for length in readings::OUTPUTS {
            for lent in [&mut self.one, &mut self.two] {
                lent.clear();
                lent.resize(length, 0xa5);
            }
            let a = library::read(&text, &mut self.one, &mut self.two)?;
            self.read[a.number as usize] += 1;
        }
        Ok(())
    }
}

impl Bench {
    /// A table's text in buffers of many lengths; read back it is the table with the made names, and writes the same text.
    fn writes(&mut self, table: &[u8], rng: &mut Rng) -> Result<(), String> {
        let text = self.write(table, writings::LONGEST)?;
        let length = text.as_ref().map_or(rng.below(400), Vec::len);
        let rooms = [0, length.saturating_sub(1), length.saturating_sub(1), length, length + 1, rng.below(length + 1), writings::LONGEST + 1];
        for _ in 0..2 {
            self.write(table, *rng.of(&rooms))?;
        }
        let Some(text) = text.filter(|_| rng.once_in(2)) else { return Ok(()) };
        let (mut one, mut two) = (vec![255; TABLE], vec![255; TABLE]);
        if library::read(&text, &mut one, &mut two)?.number != 0 {
            return Err("write: the text is not read".to_string());
        }
        if one != writings::named(table) {
            return Err("write: the text is another table's".to_string());
        }
        if self.write(&one, text.len())? != Some(text) {
            return Err("write: written again it is another text".to_string());
        }
        Ok(())
    }

    /// The text that both put into a buffer of so many bytes that held rubbish, if it is not refused.
    fn write(&mut self, table: &[u8], room: usize) -> Result<Option<Vec<u8>>, String> {
        let (mut one, mut two) = (vec![0xa5; room], vec![0xa5; room]);
        let a = library::write(table, &mut one, &mut two)?;
        self.count(a);
        one.truncate(a.value as usize);
        Ok((a.number == 0).then_some(one))
    }
}

/// The largest argument of each parameter of a function, if there is such a function.
fn params(table: &[u8], f: u64) -> Vec<u64> {
    let Ok(cells) = <&[u8; TABLE]>::try_from(table) else { return vec![] };
    if f >= u64::from(cells[0]).min(FUNCTIONS as u64) {
        return vec![];
    }
    let function = Function::of(cells, f as usize);
    (0..function.parameters().min(256))
        .map(|r| {
            let kind = u32::from(function.register_type(r));
            u64::MAX >> (64 - if kind < 8 { 8 << (kind % 4) } else { 64 })
        })
        .collect()
}

/// Changes some cells, of those that are needed and of the others, or the length.
fn disturb(table: &mut Vec<u8>, rng: &mut Rng) {
    if rng.once_in(40) {
        let n = table.len();
        return table.resize(if rng.once_in(2) { n + 1 } else { n - 1 }, 0);
    }
    for _ in 0..1 + rng.below(3) {
        let f = function_at(rng.below(3));
        let at = match rng.below(9) {
            0 => rng.below(table.len()),
            1 => rng.below(2),
            2 => f + rng.below(FIRST_REGISTER),
            3 => register_at(f, 0) + rng.below(REGISTER_SIZE * 24),
            4 => block_at(f, rng.below(8)) + rng.below(BLOCK_PREDECESSORS),
            5 => entry_at(f, rng.below(24)),
            6 => predecessors_at(f, rng.below(8)) + rng.below(4),
            _ => row_at(f, 0) + rng.below(ROW_SIZE * 48),
        };
        let at = at.min(table.len() - 1);
        table[at] = if rng.once_in(3) { rng.next() as u8 } else { rng.below(40) as u8 };
    }
}

/// These rounds, and what was counted. A difference ends the program.
fn rounds(numbers: impl Iterator<Item = u64>) -> Bench {
    let none = [0; 64];
    let mut bench = Bench { one: vec![], two: vec![], seen: none, read: none, quoted: none, stored: none, lists: [0; Wrong::ALL.len()], budgets: Default::default() };
    for round in numbers {
        if let Err(what) = bench.round(&mut Rng::new(round + 1)) {
            println!("round {round}: {what}");
            std::process::exit(1);
        }
    }
    bench
}

fn main() {
    let mut words = std::env::args().skip(1).map(|w| w.parse::<u64>().expect("rounds and first round are numbers"));
    let count = words.next().unwrap_or(6_000);
    let first = words.next().unwrap_or(0);
    let threads = std::thread::available_parallelism().map_or(1, usize::from);
    let [mut seen, mut read, mut quoted, mut stored] = [[0; 64]; 4];
    let mut lists = [0; Wrong::ALL.len()];
    let mut budgets = budgets::Counts::default();
    std::thread::scope(|scope| {
        let part = |t: usize| scope.spawn(move || rounds((first..first + count).skip(t).step_by(threads)));
        let parts: Vec<_> = (0..threads).map(part).collect();
        for part in parts {
            let more = part.join().expect("no call panics");
            for (all, part) in [(&mut seen, more.seen), (&mut read, more.read), (&mut quoted, more.quoted), (&mut stored, more.stored)] {
                (0..64).for_each(|n| all[n] += part[n]);
            }
            (0..lists.len()).for_each(|n| lists[n] += more.lists[n]);
            budgets.add(&more.budgets);
        }
    });
    let numbers = |counts: [u64; 64]| (0..64).filter(|&n| counts[n] > 0).map(|n| format!("{n}: {}", counts[n])).collect::<Vec<_>>().join(", ");
    let lists: Vec<String> = Wrong::ALL.iter().zip(lists).map(|(wrong, n)| format!("{wrong:?}: {n}")).collect();
    println!("{count} rounds agree; answers by number: {}; lists of predecessors by what was wrong: {}", numbers(seen), lists.join(", "));
    println!("texts of many names read for outputs of {} lengths each; answers by number: {}", readings::OUTPUTS.len(), numbers(read));
    println!("texts of names in quotes; answers by number: {}; checks of their tables with other names: {}", numbers(quoted), numbers(stored));
    println!("{budgets}");
}
