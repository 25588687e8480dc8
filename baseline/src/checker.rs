//! Answers 9 to 17.

use crate::flow::{members, Flow};
use crate::names::Names;
use crate::spelling::is_spellable;
use crate::table::{place, Function, Row, Table, BLOCKS, ENTRIES, FUNCTIONS, REGISTERS, ROWS};
use crate::words::*;
use crate::Refusal;

/// Checks all of a table, functions in order.
pub fn check(table: &[u8]) -> Result<(), Refusal> {
    checked(table).map(|_| ())
}

/// The table, if it is one and passes 9 to 17.
pub(crate) fn checked(table: &[u8]) -> Result<&Table, Refusal> {
    let table = <&Table>::try_from(table).map_err(|_| (9, 0))?;
    let count = usize::from(table[0]);
    if count > FUNCTIONS {
        return Err((9, 0));
    }
    let mut names = Names::new();
    for i in 0..count {
        let function = Function::of(table, i);
        if !fits(&function, &mut names) || (0..i).any(|j| Function::of(table, j).name() == function.name()) {
            return Err((9, i as u64));
        }
        let flow = Flow::of(&function);
        if !flow.is_stored(&function) {
            return Err((9, i as u64));
        }
        check_function(&function, &flow).map_err(|(number, row)| (number, place(i, row)))?;
    }
    Ok(table)
}

/// The number and row of a fault in one function.
type Fault = (u64, usize);

/// The lowest number met, at its earliest row if the rows come in order.
struct Lowest(Option<Fault>);

impl Lowest {
    fn note(&mut self, number: u64, row: usize) {
        if self.0.is_none_or(|(lowest, _)| number < lowest) {
            self.0 = Some((number, row));
        }
    }

    fn answer(self) -> Result<(), Fault> {
        self.0.map_or(Ok(()), Err)
    }
}

/// 9, but for a function declared twice and for the predecessors.
fn fits<'a>(f: &Function<'a>, names: &mut Names<'a>) -> bool {
    f.ssa() <= 1
        && f.result() <= VOID
        && f.registers() <= REGISTERS
        && f.parameters() <= f.registers()
        && f.blocks() <= BLOCKS
        && f.entry() < f.blocks()
        && is_spellable(f.name())
        && registers_fit(f, names)
        && blocks_fit(f, names)
        && rows_fit(f)
}

/// A name of a register or block: of no bytes, or one that a text can spell and that is new.
fn name_fits<'a>(name: &'a [u8], names: &mut Names<'a>) -> bool {
    name.is_empty() || is_spellable(name) && names.add(name, 0)
}

fn registers_fit<'a>(f: &Function<'a>, names: &mut Names<'a>) -> bool {
    names.clear();
    (0..f.registers()).all(|r| f.register_type(r) < TYPES && name_fits(f.register_name(r), names))
}

fn blocks_fit<'a>(f: &Function<'a>, names: &mut Names<'a>) -> bool {
    names.clear();
    let mut rows = 0;
    f.block_name(f.entry()).is_empty()
        && (0..f.blocks()).all(|b| {
            let first = rows;
            rows += f.block_rows(b);
            f.block_first(b) == first && rows <= ROWS && name_fits(f.block_name(b), names)
        })
}

fn rows_fit(f: &Function) -> bool {
    let mut entries = 0;
    (0..f.rows()).all(|k| row_fits(f, &f.row(k), &mut entries))
}

/// Whether each number of a row is in its range; `entries` counts those of the rows before.
fn row_fits(f: &Function, row: &Row, entries: &mut usize) -> bool {
    if row.instruction() >= INSTRUCTIONS {
        return false;
    }
    let shape = shape(row.instruction());
    let register = |r: u8| usize::from(r) < f.registers();
    let block = |b: u8| usize::from(b) < f.blocks();
    (!shape.target || register(row.target()))
        && (shape.sources < 1 || register(row.source()))
        && (shape.sources < 2 || register(row.second()))
        && match shape.operand {
            Operand::None => true,
            Operand::Number => row.number() <= mask(loaded(row.instruction())),
            Operand::Block => block(row.block()),
            Operand::TwoBlocks => block(row.block()) && block(row.other_block()),
            Operand::Registers => {
                let first = *entries;
                *entries += row.entry_count();
                row.first_entry() == first
                    && *entries <= ENTRIES
                    && f.entries(row).iter().all(|&r| register(r))
            }
        }
}

/// 10 to 17 of a function that passes 9.
fn check_function(f: &Function, flow: &Flow) -> Result<(), Fault> {
    terminators(f)?;
    let assigned = forms(f, flow)?;
    if f.ssa() == 1 {
        uses(f, flow, &assigned)?;
    }
    Ok(())
}

/// 10.
fn terminators(f: &Function) -> Result<(), Fault> {
    let ends = |k: usize| terminator(f.row(k).instruction());
    for b in 0..f.blocks() {
        let (first, rows) = (f.block_first(b), f.block_rows(b));
        if rows == 0 {
            return Err((10, first));
        }
        let last = first + rows - 1;
        if let Some(early) = (first..last).find(|&k| ends(k)) {
            return Err((10, early));
        }
        if !ends(last) {
            return Err((10, last));
        }
    }
    Ok(())
}

/// Where a register is assigned.
#[derive(Clone, Copy)]
enum Assigned {
    Never,
    AtEntry,
    At { block: u8, row: u16 },
}

/// 11 to 15; if there is no such fault, where each register of an ssa function is assigned.
fn forms(f: &Function, flow: &Flow) -> Result<[Assigned; REGISTERS], Fault> {
    let mut lowest = Lowest(None);
    let mut assigned = [Assigned::Never; REGISTERS];
    assigned[..f.parameters()].fill(Assigned::AtEntry);
    let ssa = f.ssa() == 1;
    for b in 0..f.blocks() {
        let predecessors = flow.predecessors[b].count_ones() as usize;
        let mut phi_allowed = b != f.entry();
        let first = f.block_first(b);
        for k in first..first + f.block_rows(b) {
            let row = f.row(k);
            let instruction = row.instruction();
            if !types_fit(f, &row) {
                lowest.note(11, k);
            }
            if ssa && shape(instruction).target {
                let target = &mut assigned[usize::from(row.target())];
                match target {
                    Assigned::Never => *target = Assigned::At { block: b as u8, row: k as u16 },
                    _ => lowest.note(12, k),
                }
            }
            if instruction == if ssa { COPY } else { PHI } {
                lowest.note(13, k);
            }
            if instruction != PHI {
                phi_allowed = false;
                continue;
            }
            if !phi_allowed {
                lowest.note(14, k);
            }
            if row.entry_count() != predecessors || predecessors == 0 {
                lowest.note(15, k);
            }
        }
    }
    lowest.answer().map(|()| assigned)
}

/// Whether a row does not break 11.
fn types_fit(f: &Function, row: &Row) -> bool {
    let kind = |r: u8| f.register_type(usize::from(r));
    let instruction = row.instruction();
    match instruction {
        LOAD_I8..=LOAD_UI64 => kind(row.target()) == loaded(instruction),
        NEG | FLIP | COPY => kind(row.target()) == kind(row.source()),
        ADD..=XOR => kind(row.target()) == kind(row.source()) && kind(row.target()) == kind(row.second()),
        SHL..=ROR => kind(row.target()) == kind(row.source()) && kind(row.second()) == UINT,
        EQ..=LTEQ => kind(row.target()) == UINT && kind(row.source()) == kind(row.second()),
        PHI => f.entries(row).iter().all(|&r| kind(r) == kind(row.target())),
        JUMP_COND => kind(row.source()) == UINT,
        RETURN => kind(row.source()) == f.result(),
        LEAVE => f.result() == VOID,
        _ => true,
    }
}

/// 16 and 17.
fn uses(f: &Function, flow: &Flow, assigned: &[Assigned; REGISTERS]) -> Result<(), Fault> {
    let reached = flow.reached(f.entry());
    let dominators = flow.dominators(&reached);
    let reachable = reached.iter().fold(0u64, |set, b| set | 1 << b);
    let mut lowest = Lowest(None);
    // A use placed at row k, in block b before row `until`, with all of the blocks in `before` behind it.
    let mut used = |register: u8, k: usize, b: usize, until: usize, before: u64| match assigned[usize::from(register)] {
        Assigned::Never => lowest.note(16, k),
        Assigned::AtEntry => {}
        Assigned::At { block, row } => {
            let here = usize::from(block) == b;
            let missed = if here { usize::from(row) >= until } else { before & 1 << block == 0 };
            if missed {
                lowest.note(17, k);
            }
        }
    };
    for b in 0..f.blocks() {
        let first = f.block_first(b);
        for k in first..first + f.block_rows(b) {
            let row = f.row(k);
            if row.instruction() == PHI {
                // An entry is used at its predecessor's end.
                for (&register, p) in f.entries(&row).iter().zip(members(flow.predecessors[b])) {
                    used(register, k, p, ROWS, dominators[p]);
                }
                continue;
            }
            // No path comes to an unreachable block.
            let until = if reachable & 1 << b != 0 { k } else { ROWS };
            let sources = shape(row.instruction()).sources;
            if sources > 0 {
                used(row.source(), k, b, until, dominators[b]);
            }
            if sources > 1 {
                used(row.second(), k, b, until, dominators[b]);
            }
        }
    }
    lowest.answer()
}
