//! The translation out of ssa.

use crate::checker::checked;
use crate::flow::Flow;
use crate::table::{Function, FunctionMut, Row, Table, BLOCKS, REGISTERS, ROWS};
use crate::words::*;
use crate::Refusal;

/// Translates a function of a table that passes the check. After a refusal `out` is all zero.
pub fn translate(table: &[u8], function: u64, out: &mut [u8]) -> Result<(), Refusal> {
    out.fill(0);
    let (function, plan) = accepted(table, function)?;
    let out = <&mut Table>::try_from(out).map_err(|_| (22, 0))?;
    out[0] = 1;
    write(&function, &plan, FunctionMut::of(out, 0));
    Ok(())
}

/// The function to translate and its pairs, or 9 to 17, 21, 30, 31.
fn accepted(table: &[u8], function: u64) -> Result<(Function<'_>, Plan), Refusal> {
    let table = checked(table)?;
    if function >= u64::from(table[0]) {
        return Err((21, 0));
    }
    let function = Function::of(table, function as usize);
    if function.ssa() == 0 {
        return Err((30, 0));
    }
    let plan = Plan::of(&function);
    if plan.registers > REGISTERS || plan.blocks > BLOCKS || plan.rows > ROWS {
        return Err((31, 0));
    }
    Ok((function, plan))
}

/// What a translation is made of.
struct Plan {
    flow: Flow,
    /// The phi rows of each block.
    phis: [usize; BLOCKS],
    /// The number of the first pair's block of each block with phi.
    edges: [usize; BLOCKS],
    registers: usize,
    blocks: usize,
    rows: usize,
}

impl Plan {
    fn of(f: &Function) -> Plan {
        let mut plan = Plan {
            flow: Flow::of(f),
            phis: [0; BLOCKS],
            edges: [0; BLOCKS],
            registers: f.registers(),
            blocks: f.blocks(),
            rows: f.rows(),
        };
        for b in 0..f.blocks() {
            let phis = f.phis(b);
            if phis > 0 {
                let pairs = plan.flow.predecessors[b].count_ones() as usize;
                plan.phis[b] = phis;
                plan.edges[b] = plan.blocks;
                plan.registers += phis;
                plan.blocks += pairs;
                plan.rows = plan.rows - phis + pairs * (2 * phis + 1);
            }
        }
        plan
    }

    /// The block to name in place of `to` in the terminator of `from`.
    fn edge(&self, from: usize, to: u8) -> u8 {
        let b = usize::from(to);
        if self.phis[b] == 0 {
            return to;
        }
        let before = self.flow.predecessors[b] & ((1 << from) - 1);
        (self.edges[b] + before.count_ones() as usize) as u8
    }
}

/// The rows written so far.
struct Output<'a> {
    cells: FunctionMut<'a>,
    rows: usize,
}

impl Output<'_> {
    fn row(&mut self, row: Row) {
        self.cells.set_row(self.rows, row);
        self.rows += 1;
    }
}

fn write(f: &Function, plan: &Plan, cells: FunctionMut) {
    let mut out = Output { cells, rows: 0 };
    out.cells.set_head(0, f.result(), f.name());
    out.cells.set_parameters(f.parameters());
    out.cells.set_registers(plan.registers);
    out.cells.set_blocks(plan.blocks, f.entry());
    for r in 0..f.registers() {
        out.cells.set_register(r, f.register_type(r), f.register_name(r));
    }
    for b in 0..f.blocks() {
        let first = out.rows;
        for k in f.block_first(b) + plan.phis[b]..f.block_first(b) + f.block_rows(b) {
            out.row(kept(&f.row(k), |to| plan.edge(b, to)));
        }
        out.cells.set_block(b, first, out.rows - first, f.block_name(b));
    }
    let mut fresh = f.registers();
    for b in 0..f.blocks() {
        write_edges(f, plan, b, fresh, &mut out);
        fresh += plan.phis[b];
    }
    Flow::of(&out.cells.function()).store(&mut out.cells);
}

/// The registers from `fresh` on and the edge blocks of one block with phi.
fn write_edges(f: &Function, plan: &Plan, b: usize, fresh: usize, out: &mut Output) {
    let phis = plan.phis[b];
    let phi = |n: usize| f.row(f.block_first(b) + n);
    for n in 0..phis {
        let kind = f.register_type(usize::from(phi(n).target()));
        out.cells.set_register(fresh + n, kind, &[]);
    }
    if phis == 0 {
        return;
    }
    for entry in 0..plan.flow.predecessors[b].count_ones() as usize {
        let first = out.rows;
        for n in 0..phis {
            out.row(copy((fresh + n) as u8, f.entries(&phi(n))[entry]));
        }
        for n in 0..phis {
            out.row(copy(phi(n).target(), (fresh + n) as u8));
        }
        let mut jump = Row::default();
        jump.0[0] = JUMP;
        jump.0[4] = b as u8;
        out.row(jump);
        out.cells.set_block(plan.edges[b] + entry, first, out.rows - first, &[]);
    }
}

fn copy(target: u8, source: u8) -> Row {
    let mut row = Row::default();
    row.0[..3].copy_from_slice(&[COPY, target, source]);
    row
}

/// The needed cells of a row that is no phi, with its blocks renamed.
fn kept(row: &Row, edge: impl Fn(u8) -> u8) -> Row {
    let shape = shape(row.instruction());
    let mut new = Row::default();
    new.0[0] = row.instruction();
    if shape.target {
        new.0[1] = row.target();
    }
    let sources = 2..2 + usize::from(shape.sources);
    new.0[sources.clone()].copy_from_slice(&row.0[sources]);
    match shape.operand {
        Operand::Number => new.set_number(row.number()),
        Operand::Block => new.0[4] = edge(row.block()),
        Operand::TwoBlocks => {
            new.0[4] = edge(row.block());
            new.0[5] = edge(row.other_block());
        }
        Operand::None | Operand::Registers => {}
    }
    new
}
