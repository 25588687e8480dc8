//! Loops made here, whose runs take thousands of steps: with none to twenty phi and now and then more, with forks and loops within, branches of every
//! kind, and rows that stop after many turns; in ssa or without.

use crate::rng::Rng;
use crate::texts::{COMPARES, SHIFTS, TYPES, UINT};
use std::fmt::Write;

const BINARY: [&str; 6] = ["ari.add", "ari.sub", "ari.mul", "bit.and", "bit.or", "bit.xor"];
const DIVISIONS: [&str; 2] = ["ari.div", "ari.rem"];
const SIGNED: [usize; 5] = [0, 1, 2, 3, 8];

/// What a loop may be made of. Of branches: by the row before, by an earlier row of the block, by another row than the comparison before it, by a row of
/// the block before, by any register, by a number that no comparison gave; and with both edges into one block.
#[derive(Clone, Copy, Debug)]
pub enum Part {
    Adjacent,
    Apart,
    Other,
    Later,
    Register,
    Number,
    BothEdges,
    Fork,
    Inner,
    TestFirst,
    TestLast,
    Endless,
    Ring,
    Zero,
    Shift,
    Overflow,
}

impl Part {
    pub const ALL: [Part; 16] = [
        Part::Adjacent, Part::Apart, Part::Other, Part::Later, Part::Register, Part::Number, Part::BothEdges, Part::Fork, Part::Inner, Part::TestFirst,
        Part::TestLast, Part::Endless, Part::Ring, Part::Zero, Part::Shift, Part::Overflow,
    ];
}

/// A text of one function, arguments that fit, and how often it has each part.
pub struct Loop {
    pub text: String,
    pub args: Vec<u64>,
    pub ssa: bool,
    /// Those of the outer loop's head, if in ssa.
    pub phis: usize,
    pub parts: [u64; Part::ALL.len()],
}

enum End {
    Jump(usize),
    Branch(usize, usize, usize),
    Return(usize),
    Leave,
}

/// A block under construction: the targets of its phi, what each block that goes to it has for them, its rows and its end.
#[derive(Default)]
struct Block {
    targets: Vec<usize>,
    ways: Vec<(usize, Vec<usize>)>,
    rows: Vec<String>,
    end: Option<End>,
}

/// A function under construction. Its variables keep their number and type: in ssa each assignment is to a new register, else to one and the same.
struct Builder<'a> {
    rng: &'a mut Rng,
    ssa: bool,
    /// The most rows put at once.
    most: usize,
    /// The type of each register.
    kinds: Vec<usize>,
    blocks: Vec<Block>,
    /// The block that rows are put into.
    here: usize,
    /// The register of each variable, as it is here.
    variables: Vec<usize>,
    /// Registers that are assigned on every way to here and are no variable's: the bound, and results of comparisons.
    others: Vec<usize>,
    parts: [u64; Part::ALL.len()],
}

fn shuffle(list: &mut [usize], rng: &mut Rng) {
    (1..list.len()).for_each(|k| list.swap(k, rng.below(k + 1)));
}

fn bits(kind: usize) -> u32 {
    if kind < 8 { 8 << (kind % 4) } else { 64 }
}

/// The largest number that a register of this type holds, and the largest by meaning.
fn mask(kind: usize) -> u64 {
    u64::MAX >> (64 - bits(kind))
}

fn largest(kind: usize) -> u64 {
    if SIGNED.contains(&kind) { mask(kind) / 2 } else { mask(kind) }
}

/// From where to count, modulo 2^w: from 0, or so that the counter passes where a comparison with the other sign would differ.
fn start(kind: usize, turns: u64, rng: &mut Rng) -> u64 {
    let middle = if SIGNED.contains(&kind) { 0 } else { mask(kind) / 2 + 1 };
    if rng.once_in(2) { 0 } else { middle.wrapping_sub(turns / 2) & mask(kind) }
}

impl Builder<'_> {
    fn register(&mut self, kind: usize) -> usize {
        self.kinds.push(kind);
        self.kinds.len() - 1
    }

    fn block(&mut self) -> usize {
        self.blocks.push(Block::default());
        self.blocks.len() - 1
    }

    fn part(&mut self, part: Part) {
        self.parts[part as usize] += 1;
    }

    /// A row that assigns a new register.
    fn put(&mut self, kind: usize, word: String) -> usize {
        let r = self.register(kind);
        self.put_to(r, &word);
        r
    }

    fn put_to(&mut self, r: usize, word: &str) {
        self.blocks[self.here].rows.push(format!("r{r} = {word};"));
    }

    fn assign(&mut self, v: usize, word: String) {
        let r = self.variables[v];
        if self.ssa {
            self.variables[v] = self.put(self.kinds[r], word);
        } else {
            self.put_to(r, &word);
        }
    }

    /// A register that is loaded with this number, modulo 2^w.
    fn constant(&mut self, kind: usize, number: u64) -> usize {
        let wide = 64 - bits(kind);
        match kind {
            0..=3 => self.put(kind, format!("load.i{} ({})", bits(kind), (number << wide) as i64 >> wide)),
            4..=7 => self.put(kind, format!("load.ui{} ({})", bits(kind), number & mask(kind))),
            _ => {
                let r = self.constant(if kind == UINT { 7 } else { 3 }, number);
                self.put(kind, format!("conv r{r}"))
            }
        }
    }

    fn any(&mut self) -> usize {
        let n = self.rng.below(self.variables.len() + self.others.len());
        self.variables.get(n).copied().unwrap_or_else(|| self.others[n - self.variables.len()])
    }

    fn any_of(&mut self, kind: usize) -> usize {
        let same: Vec<usize> = self.variables.iter().chain(&self.others).copied().filter(|&r| self.kinds[r] == kind).collect();
        if same.is_empty() {
            let number = self.rng.number();
            return self.constant(kind, number);
        }
        *self.rng.of(&same)
    }

    fn comparison(&mut self) -> String {
        let a = self.any();
        let b = self.any_of(self.kinds[a]);
        format!("{} r{a}, r{b}", self.rng.of(&COMPARES))
    }

    /// What gives a value of this type and does not stop.
    fn word(&mut self, kind: usize) -> String {
        let a = self.any_of(kind);
        match self.rng.below(12) {
            0 => format!("{} r{a}", self.rng.of(&["ari.neg", "bit.neg"])),
            1 | 2 => format!("conv r{}", self.any()),
            3 => {
                let far = self.rng.below(8) as u64;
                let k = self.constant(UINT, far);
                format!("{} r{a}, r{k}", self.rng.of(&SHIFTS))
            }
            4 => {
                let by = 3 + self.rng.below(5) as u64;
                let by = if self.rng.once_in(2) { by } else { by.wrapping_neg() };
                let b = self.constant(kind, by);
                format!("{} r{a}, r{b}", self.rng.of(&DIVISIONS))
            }
            5 if kind == UINT => self.comparison(),
            6 if !self.ssa => format!("copy r{a}"),
            _ => format!("{} r{a}, r{}", self.rng.of(&BINARY), self.any_of(kind)),
        }
    }

    /// Up to so many rows, most of which assign one of these variables.
    fn rows(&mut self, free: &[usize], most: usize) {
        for _ in 0..self.rng.below(most + 1) {
            match self.rng.below(12) {
                0 => self.blocks[self.here].rows.push("nop;".into()),
                1 => {
                    let word = self.comparison();
                    let c = self.put(UINT, word);
                    self.others.push(c);
                }
                2.. if !free.is_empty() => {
                    let v = *self.rng.of(free);
                    let word = self.word(self.kinds[self.variables[v]]);
                    self.assign(v, word);
                }
                _ => {
                    let a = self.any();
                    let word = self.word(self.kinds[a]);
                    self.put(self.kinds[a], word);
                }
            }
        }
    }

    /// The register to branch by, here: of this comparison, or of any.
    fn condition(&mut self, test: Option<String>, free: &[usize]) -> usize {
        if test.is_none() && self.rng.once_in(4) {
            self.part(Part::Register);
            return self.any_of(UINT);
        }
        if test.is_none() && self.rng.once_in(4) {
            self.part(Part::Number);
            let a = self.any();
            let (a, one) = (self.put(UINT, format!("conv r{a}")), self.constant(UINT, 1));
            return self.put(UINT, format!("bit.and r{a}, r{one}"));
        }
        let word = test.unwrap_or_else(|| self.comparison());
        let c = self.put(UINT, word);
        match self.rng.below(6) {
            0 => {
                self.part(Part::Apart);
                self.blocks[self.here].rows.push("nop;".into());
                self.rows(free, 2);
            }
            1 => {
                self.part(Part::Other);
                let word = self.comparison();
                self.put(UINT, word);
            }
            2 => {
                self.part(Part::Later);
                let next = self.block();
                self.end(End::Jump(next));
                self.here = next;
                self.rows(free, 2);
            }
            _ => self.part(Part::Adjacent),
        }
        self.others.push(c);
        c
    }

    fn end(&mut self, end: End) {
        self.blocks[self.here].end = Some(end);
    }

    /// What this block has for the phi of a block that it goes to.
    fn arrive(&mut self, to: usize, changed: &[usize]) {
        let have = changed.iter().map(|&v| self.variables[v]).collect();
        self.blocks[to].ways.push((self.here, have));
    }

    /// On in a block; in ssa with a phi for each of these variables.
    fn open(&mut self, block: usize, changed: &[usize]) {
        self.here = block;
        for &v in if self.ssa { changed } else { &[] } {
            let target = self.register(self.kinds[self.variables[v]]);
            self.variables[v] = target;
            self.blocks[block].targets.push(target);
        }
    }

    /// Ends this block by a jump, or by a branch of which both edges go there.
    fn go(&mut self, to: usize, free: &[usize], changed: &[usize]) {
        if self.rng.once_in(4) {
            self.part(Part::BothEdges);
            let c = self.condition(None, free);
            self.end(End::Branch(c, to, to));
        } else {
            self.end(End::Jump(to));
        }
        self.arrive(to, changed);
    }

    fn some(&mut self, of: &[usize]) -> Vec<usize> {
        of.iter().copied().filter(|_| self.rng.once_in(2)).collect()
    }

    /// Two ways into one block, each with rows or straight there.
    fn fork(&mut self, free: &[usize], depth: usize) {
        let changed = self.some(free);
        let c = self.condition(None, free);
        let join = self.block();
        let sides = [0; 2].map(|_| (!self.rng.once_in(3)).then(|| self.block()));
        let [x, y] = sides.map(|side| side.unwrap_or(join));
        self.part(if x == y { Part::BothEdges } else { Part::Fork });
        self.end(End::Branch(c, x, y));
        if sides.contains(&None) {
            self.arrive(join, &changed);
        }
        let (variables, others) = (self.variables.clone(), self.others.len());
        for side in sides.into_iter().flatten() {
            self.here = side;
            self.pieces(&changed, depth + 1);
            self.end(End::Jump(join));
            self.arrive(join, &changed);
            self.variables.clone_from(&variables);
            self.others.truncate(others);
        }
        self.open(join, &changed);
    }

    /// A loop of some turns that has a counter of its own.
    fn inner(&mut self, free: &[usize], depth: usize) {
        self.part(Part::Inner);
        let (kind, turns) = (self.rng.below(TYPES.len()), 1 + self.rng.below(5) as u64);
        let start = start(kind, turns, self.rng);
        let (counter, bound) = (self.constant(kind, start), self.constant(kind, start.wrapping_add(turns)));
        let changed = self.some(free);
        self.variables.push(counter);
        self.turns(&changed, Some((self.variables.len() - 1, bound)), depth + 1, None);
        self.variables.pop();
    }

    /// Rows, forks, loops and blocks one after the other.
    fn pieces(&mut self, free: &[usize], depth: usize) {
        for _ in 0..1 + self.rng.below(3) {
            match self.rng.below(8) {
                0 | 1 if depth < 2 => self.fork(free, depth),
                2 if depth < 2 => self.inner(free, depth),
                3 => {
                    let (next, changed) = (self.block(), self.some(free));
                    self.go(next, free, &changed);
                    self.open(next, &changed);
                }
                _ => self.rows(free, self.most),
            }
        }
    }

    /// A row that stops at about this turn; the counter started from this number.
    fn trap(&mut self, i: usize, start: u64, at: u64) {
        let first = self.constant(self.kinds[i], start);
        let i = self.put(self.kinds[i], format!("ari.sub r{i}, r{first}"));
        match self.rng.below(3) {
            0 => {
                self.part(Part::Zero);
                let kind = self.kinds[i];
                let last = self.constant(kind, at);
                let left = self.put(kind, format!("ari.sub r{last}, r{i}"));
                let word = format!("{} r{i}, r{left}", self.rng.of(&DIVISIONS));
                self.put(kind, word);
            }
            1 => {
                self.part(Part::Shift);
                let a = self.any();
                let each = self.constant(UINT, (at / u64::from(bits(self.kinds[a]))).max(1));
                let i = self.put(UINT, format!("conv r{i}"));
                let far = self.put(UINT, format!("ari.div r{i}, r{each}"));
                let word = format!("{} r{a}, r{far}", self.rng.of(&SHIFTS));
                self.put(self.kinds[a], word);
            }
            _ => {
                // The least number by an odd one that goes down by two: past 1 it is -1.
                self.part(Part::Overflow);
                let kind = *self.rng.of(&SIGNED);
                let (least, odd) = (self.constant(kind, mask(kind) / 2 + 1), self.constant(kind, 2 * at + 1));
                let i = self.put(kind, format!("conv r{i}"));
                let twice = self.put(kind, format!("ari.add r{i}, r{i}"));
                let by = self.put(kind, format!("ari.sub r{odd}, r{twice}"));
                self.put(kind, format!("ari.div r{least}, r{by}"));
            }
        }
    }

    /// Ends this block: back to the loop's next block while the counter is not the bound, else out.
    fn test(&mut self, free: &[usize], (v, n): (usize, usize), on: usize, out: usize) {
        let i = self.variables[v];
        let (word, a, b, stays) =
            *self.rng.of(&[("lt", i, n, true), ("gt", n, i, true), ("neq", i, n, true), ("gteq", i, n, false), ("lteq", n, i, false), ("eq", n, i, false)]);
        let c = self.condition(Some(format!("cmp.{word} r{a}, r{b}")), free);
        self.end(if stays { End::Branch(c, on, out) } else { End::Branch(c, out, on) });
    }

    /// Variables of one type take each other's values, in any order.
    fn rotate(&mut self, free: &[usize]) {
        let kinds: Vec<usize> = free.iter().map(|&v| self.kinds[self.variables[v]]).collect();
        let kind = if kinds.is_empty() { 0 } else { *self.rng.of(&kinds) };
        let mut ring: Vec<usize> = free.iter().copied().filter(|&v| self.kinds[self.variables[v]] == kind).collect();
        if ring.len() < 2 {
            return;
        }
        shuffle(&mut ring, self.rng);
        self.part(Part::Ring);
        let registers: Vec<usize> = ring.iter().map(|&v| self.variables[v]).collect();
        if self.ssa {
            (0..ring.len()).for_each(|k| self.variables[ring[k]] = registers[(k + 1) % ring.len()]);
            return;
        }
        let kept = self.put(kind, format!("copy r{}", registers[0]));
        (1..ring.len()).for_each(|k| self.put_to(registers[k - 1], &format!("copy r{}", registers[k])));
        self.put_to(registers[ring.len() - 1], &format!("copy r{kept}"));
    }

    /// A loop with phi for these variables, until the counter is the bound or, without a counter, for ever; with a row that stops. Its rows assign
    /// some of them, or none: then their phi read each other's targets.
    fn turns(&mut self, kept: &[usize], counter: Option<(usize, usize)>, depth: usize, trap: Option<(u64, u64)>) {
        let mut changed: Vec<usize> = counter.iter().map(|&(v, _)| v).chain(kept.iter().copied()).collect();
        shuffle(&mut changed, self.rng);
        let free = &match self.rng.below(3) {
            0 => vec![],
            1 => self.some(kept),
            _ => kept.to_vec(),
        };
        let head = self.block();
        self.go(head, free, &changed);
        self.open(head, &changed);
        let others = self.others.len();
        self.rows(free, 2);
        let out = counter.map(|c| (c, self.block()));
        let mut left = None;
        match out.filter(|_| self.rng.once_in(2)) {
            Some((c, out)) => {
                self.part(Part::TestFirst);
                let inside = self.block();
                self.test(free, c, inside, out);
                left = Some(self.variables.clone());
                self.here = inside;
            }
            None => self.part(if counter.is_some() { Part::TestLast } else { Part::Endless }),
        }
        self.body(free, counter, depth, trap);
        for _ in 0..self.rng.below(3) {
            self.rotate(kept);
        }
        match out.filter(|_| left.is_none()) {
            Some((c, out)) => {
                self.test(free, c, head, out);
                self.arrive(head, &changed);
            }
            None => self.go(head, free, &changed),
        }
        self.others.truncate(others);
        if let Some((_, out)) = out {
            self.here = out;
            self.variables = left.unwrap_or_else(|| self.variables.clone());
        }
    }

    /// One turn: pieces, the row that stops, and the counting.
    fn body(&mut self, free: &[usize], counter: Option<(usize, usize)>, depth: usize, trap: Option<(u64, u64)>) {
        let late = self.rng.once_in(2);
        if late {
            self.pieces(free, depth);
        }
        if let (Some((v, _)), Some((start, at))) = (counter, trap) {
            self.trap(self.variables[v], start, at);
        }
        if !late {
            self.pieces(free, depth);
        }
        if let Some((v, _)) = counter {
            let one = self.constant(self.kinds[self.variables[v]], 1);
            self.assign(v, format!("ari.add r{}, r{one}", self.variables[v]));
        }
    }

    /// So many variables of these types: up to three parameters, whose arguments are handed back, and constants.
    fn declare(&mut self, count: usize, kinds: &[usize]) -> Vec<u64> {
        let lent = self.rng.below(count.min(3) + 1);
        let mut args = vec![];
        for v in 0..count {
            let (kind, number) = (*self.rng.of(kinds), self.rng.number());
            let r = if v < lent { self.register(kind) } else { self.constant(kind, number) };
            self.variables.push(r);
            args.extend((v < lent).then_some(number & mask(kind)));
        }
        args
    }

    /// Ends the last block: with a result, whose type is handed back, or without.
    fn finish(&mut self) -> Option<usize> {
        if self.rng.once_in(6) {
            self.end(End::Leave);
            return None;
        }
        let r = self.any();
        self.end(End::Return(r));
        Some(self.kinds[r])
    }

    fn fits(&self) -> bool {
        let rows: usize = self.blocks.iter().map(|b| b.targets.len() + b.rows.len() + 1).sum();
        self.kinds.len() <= 256 && self.blocks.len() <= 64 && rows <= 1024
    }

    /// The text, its blocks in this order. `entry` is number 0; a phi's entries come in the order of the blocks.
    fn spell(&self, params: usize, result: Option<usize>, order: &[usize]) -> String {
        let name = |b: usize| if b == 0 { "entry".to_string() } else { format!("b{b}") };
        let list: Vec<String> = (0..params).map(|r| format!("{} r{r}", TYPES[self.kinds[r]])).collect();
        let mut s = format!("function {}{} f({}) {{\n", if self.ssa { "ssa " } else { "" }, result.map_or("void", |t| TYPES[t]), list.join(", "));
        for r in params..self.kinds.len() {
            writeln!(s, " register {} r{r};", TYPES[self.kinds[r]]).unwrap();
        }
        for &b in order {
            let block = &self.blocks[b];
            write!(s, " block {} {{ ", name(b)).unwrap();
            for (k, target) in block.targets.iter().enumerate() {
                let ways = order.iter().flat_map(|&x| block.ways.iter().filter(move |way| way.0 == x));
                let entries: Vec<String> = ways.map(|way| format!("r{}", way.1[k])).collect();
                write!(s, "r{target} = phi ({}); ", entries.join(", ")).unwrap();
            }
            let end = match block.end.as_ref().expect("every block has an end") {
                End::Jump(x) => format!("jump ({})", name(*x)),
                End::Branch(c, x, y) => format!("jump.cond r{c} ({}, {})", name(*x), name(*y)),
                End::Return(r) => format!("return r{r}"),
                End::Leave => "leave".to_string(),
            };
            writeln!(s, "{} {end}; }}", block.rows.join(" ")).unwrap();
        }
        s + "}\n"
    }
}

/// A loop of so many variables, its counter among them, if it keeps within the sizes. Register 0, a parameter, is where the counter stops.
fn function(variables: usize, rng: &mut Rng) -> Option<Loop> {
    let ssa = !rng.once_in(4);
    let most = if !ssa && rng.once_in(8) { 150 } else { 5 };
    let mut f = Builder { rng, ssa, most, kinds: vec![], blocks: vec![], here: 0, variables: vec![], others: vec![0], parts: Default::default() };
    // One type for all, or the counter's and two others.
    let kinds = if f.rng.once_in(2) { [f.rng.below(TYPES.len()); 3] } else { [0; 3].map(|_| f.rng.below(TYPES.len())) };
    // Small loops are long by many turns.
    let most_turns = *f.rng.of(&[100, 400, 1_600]);
    let turns = (50 + f.rng.below(most_turns) as u64).min(largest(kinds[0]));
    let start = start(kinds[0], turns, f.rng);
    f.register(kinds[0]);
    f.block();
    let mut args = vec![start.wrapping_add(turns) & mask(kinds[0])];
    args.extend(f.declare(variables.saturating_sub(1), &kinds));
    let free: Vec<usize> = (0..f.variables.len()).collect();
    let counter = (variables > 0 && !f.rng.once_in(8)).then(|| {
        let r = f.constant(kinds[0], start);
        f.variables.push(r);
        (free.len(), 0)
    });
    let trap = f.rng.once_in(2).then(|| (start, turns / 2 + f.rng.below(turns as usize / 2) as u64));
    f.turns(&free, counter, 0, trap);
    let result = if counter.is_some() { f.finish() } else { None };
    let mut order: Vec<usize> = (0..f.blocks.len()).collect();
    if f.rng.once_in(2) {
        shuffle(&mut order, f.rng);
    }
    let phis = if ssa { f.variables.len() } else { 0 };
    f.fits().then(|| Loop { text: f.spell(args.len(), result, &order), args, ssa, phis, parts: f.parts })
}

/// A loop with none to twenty variables, now and then with more.
pub fn make(rng: &mut Rng) -> Loop {
    loop {
        let variables = match rng.below(16) {
            0 => 21 + rng.below(40),
            1..=7 => rng.below(10),
            _ => rng.below(21),
        };
        if let Some(made) = function(variables, rng) {
            return made;
        }
    }
}
