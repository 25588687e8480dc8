//! Tokens to a table: answers 1 to 8, then 22.

use crate::flow::Flow;
use crate::lexer::{Kind, Lexer, Token};
use crate::names::Names;
use crate::table::{FunctionMut, Row, Table, BLOCKS, ENTRIES, FUNCTIONS, REGISTERS, ROWS, TABLE};
use crate::words::{loaded, mask, shape, signed, Operand, Word, VOID};
use crate::Refusal;

/// The longest text.
pub const TEXT: usize = 65_536;

/// Reads a text into a table. After a refusal `out` is all zero.
pub fn read(text: &[u8], out: &mut [u8]) -> Result<(), Refusal> {
    out.fill(0);
    if text.len() > TEXT {
        return Err((1, 0));
    }
    let Ok(table) = <&mut Table>::try_from(&mut *out) else {
        let mut scratch = vec![0; TABLE];
        return program(text, (&mut scratch[..]).try_into().unwrap()).and(Err((22, 0)));
    };
    let done = program(text, table);
    if done.is_err() {
        out.fill(0);
    }
    done
}

/// Reads all functions of a text into a table of zeros.
fn program(text: &[u8], table: &mut Table) -> Result<(), Refusal> {
    let mut room = vec![0; text.len()];
    let mut reader = Reader::new(text, &mut room)?;
    while reader.token.kind != Kind::End {
        let i = reader.functions.len();
        reader.function(table)?;
        table[0] = i as u8 + 1;
    }
    Ok(())
}

/// A block named by a row, to be resolved at the closing brace; no bytes for `entry`.
struct Mention<'a> {
    row: usize,
    which: usize,
    at: usize,
    name: &'a [u8],
}

struct Reader<'a> {
    lexer: Lexer<'a>,
    /// The token looked at. It is judged before the next one is asked for, so that the earliest byte wins.
    token: Token<'a>,
    functions: Vec<&'a [u8]>,
    // Of the function being read:
    registers: Names<'a>,
    register_count: usize,
    blocks: Names<'a>,
    block_count: usize,
    entry: Option<usize>,
    rows: usize,
    entries: usize,
    mentions: Vec<Mention<'a>>,
}

impl<'a> Reader<'a> {
    fn new(text: &'a [u8], room: &'a mut [u8]) -> Result<Reader<'a>, Refusal> {
        let mut lexer = Lexer::new(text, room);
        let token = lexer.next()?;
        Ok(Reader {
            lexer,
            token,
            functions: Vec::with_capacity(FUNCTIONS),
            registers: Names::new(),
            register_count: 0,
            blocks: Names::new(),
            block_count: 0,
            entry: None,
            rows: 0,
            entries: 0,
            mentions: Vec::new(),
        })
    }

    fn advance(&mut self) -> Result<(), Refusal> {
        self.token = self.lexer.next()?;
        Ok(())
    }

    /// A refusal at the token looked at.
    fn refuse<T>(&self, number: u64) -> Result<T, Refusal> {
        Err((number, self.token.at as u64))
    }

    fn at_mark(&self, mark: u8) -> bool {
        self.token.kind == Kind::Mark(mark)
    }

    fn at_word(&self, word: Word) -> bool {
        self.token.kind == Kind::Word(word)
    }

    fn mark(&mut self, mark: u8) -> Result<(), Refusal> {
        if !self.at_mark(mark) {
            return self.refuse(3);
        }
        self.advance()
    }

    fn kind(&mut self) -> Result<u8, Refusal> {
        let Kind::Word(Word::Type(kind)) = self.token.kind else {
            return self.refuse(3);
        };
        self.advance()?;
        Ok(kind)
    }

    fn function(&mut self, table: &mut Table) -> Result<(), Refusal> {
        if !self.at_word(Word::Function) {
            return self.refuse(3);
        }
        if self.functions.len() == FUNCTIONS {
            return self.refuse(5);
        }
        let mut cells = FunctionMut::of(table, self.functions.len());
        self.begin();
        self.advance()?;
        self.head(&mut cells)?;
        self.parameters(&mut cells)?;
        self.mark(b'{')?;
        while self.at_word(Word::Register) {
            self.register(&mut cells)?;
        }
        cells.set_registers(self.register_count);
        while self.at_word(Word::Block) {
            self.block(&mut cells)?;
        }
        if !self.at_mark(b'}') {
            return self.refuse(3);
        }
        self.close(&mut cells)?;
        self.advance()
    }

    fn begin(&mut self) {
        self.registers.clear();
        self.register_count = 0;
        self.blocks.clear();
        self.block_count = 0;
        self.entry = None;
        self.rows = 0;
        self.entries = 0;
        self.mentions.clear();
    }

    fn head(&mut self, cells: &mut FunctionMut) -> Result<(), Refusal> {
        let ssa = self.at_word(Word::Ssa);
        if ssa {
            self.advance()?;
        }
        let result = match self.token.kind {
            Kind::Word(Word::Void) => VOID,
            Kind::Word(Word::Type(kind)) => kind,
            _ => return self.refuse(3),
        };
        self.advance()?;
        let Kind::Name(name) = self.token.kind else {
            return self.refuse(3);
        };
        if self.functions.contains(&name) {
            return self.refuse(6);
        }
        self.functions.push(name);
        cells.set_head(u8::from(ssa), result, name);
        self.advance()
    }

    fn parameters(&mut self, cells: &mut FunctionMut) -> Result<(), Refusal> {
        self.mark(b'(')?;
        if !self.at_mark(b')') {
            self.declare(cells)?;
            while self.at_mark(b',') {
                self.advance()?;
                let is_type = matches!(self.token.kind, Kind::Word(Word::Type(_)));
                if is_type && self.register_count == REGISTERS {
                    return self.refuse(5);
                }
                self.declare(cells)?;
            }
        }
        cells.set_parameters(self.register_count);
        self.mark(b')')
    }

    fn register(&mut self, cells: &mut FunctionMut) -> Result<(), Refusal> {
        if self.register_count == REGISTERS {
            return self.refuse(5);
        }
        self.advance()?;
        self.declare(cells)?;
        self.mark(b';')
    }

    /// The type and name of a parameter or another register.
    fn declare(&mut self, cells: &mut FunctionMut) -> Result<(), Refusal> {
        let kind = self.kind()?;
        let Kind::Name(name) = self.token.kind else {
            return self.refuse(3);
        };
        if !self.registers.add(name, self.register_count as u8) {
            return self.refuse(6);
        }
        cells.set_register(self.register_count, kind, name);
        self.register_count += 1;
        self.advance()
    }

    fn block(&mut self, cells: &mut FunctionMut) -> Result<(), Refusal> {
        if self.block_count == BLOCKS {
            return self.refuse(5);
        }
        self.advance()?;
        let (name, new): (&[u8], bool) = match self.token.kind {
            Kind::Word(Word::Entry) => (&[], self.entry.is_none()),
            Kind::Name(name) => (name, self.blocks.add(name, self.block_count as u8)),
            _ => return self.refuse(3),
        };
        if !new {
            return self.refuse(6);
        }
        if name.is_empty() {
            self.entry = Some(self.block_count);
        }
        self.advance()?;
        self.mark(b'{')?;
        let first = self.rows;
        self.instruction(cells)?;
        while !self.at_mark(b'}') {
            self.instruction(cells)?;
        }
        cells.set_block(self.block_count, first, self.rows - first, name);
        self.block_count += 1;
        self.advance()
    }

    fn instruction(&mut self, cells: &mut FunctionMut) -> Result<(), Refusal> {
        let mut row = Row::default();
        let instruction = self.target_and_word(&mut row)?;
        let shape = shape(instruction);
        row.0[0] = instruction;
        for n in 0..usize::from(shape.sources) {
            if n > 0 {
                self.mark(b',')?;
            }
            row.0[2 + n] = self.used()?;
        }
        if shape.operand != Operand::None {
            self.mark(b'(')?;
            match shape.operand {
                Operand::Number => row.set_number(self.number(loaded(instruction))?),
                Operand::Registers => self.phi_entries(cells, &mut row)?,
                Operand::Block => self.mention(0)?,
                _ => {
                    self.mention(0)?;
                    self.mark(b',')?;
                    self.mention(1)?;
                }
            }
            self.mark(b')')?;
        }
        cells.set_row(self.rows, row);
        self.rows += 1;
        self.mark(b';')
    }

    /// An optional target with `=`, and an instruction that has one or has none.
    fn target_and_word(&mut self, row: &mut Row) -> Result<u8, Refusal> {
        let targeted = matches!(self.token.kind, Kind::Name(_));
        if targeted {
            if self.rows == ROWS {
                return self.refuse(5);
            }
            row.0[1] = self.used()?;
            self.mark(b'=')?;
        }
        let Kind::Word(Word::Instruction(instruction)) = self.token.kind else {
            return self.refuse(3);
        };
        if shape(instruction).target != targeted {
            return self.refuse(3);
        }
        if self.rows == ROWS {
            return self.refuse(5);
        }
        self.advance()?;
        Ok(instruction)
    }

    /// The register named here.
    fn used(&mut self) -> Result<u8, Refusal> {
        let Kind::Name(name) = self.token.kind else {
            return self.refuse(3);
        };
        let Some(register) = self.registers.find(name) else {
            return self.refuse(7);
        };
        self.advance()?;
        Ok(register)
    }

    /// A number in the range of a type, as it is stored.
    fn number(&mut self, kind: u8) -> Result<u64, Refusal> {
        let Kind::Number { negative, magnitude } = self.token.kind else {
            return self.refuse(3);
        };
        let largest = match (signed(kind), negative) {
            (true, true) => mask(kind) / 2 + 1,
            (true, false) => mask(kind) / 2,
            (false, true) => 0,
            (false, false) => mask(kind),
        };
        let Some(magnitude) = magnitude.filter(|&m| m <= largest) else {
            return self.refuse(4);
        };
        self.advance()?;
        Ok(if negative { magnitude.wrapping_neg() & mask(kind) } else { magnitude })
    }

    fn phi_entries(&mut self, cells: &mut FunctionMut, row: &mut Row) -> Result<(), Refusal> {
        let first = self.entries;
        loop {
            if matches!(self.token.kind, Kind::Name(_)) && self.entries == ENTRIES {
                return self.refuse(5);
            }
            cells.set_entry_cell(self.entries % ENTRIES, self.used()?);
            self.entries += 1;
            if !self.at_mark(b',') {
                break;
            }
            self.advance()?;
        }
        row.set_entries(first, self.entries - first);
        Ok(())
    }

    fn mention(&mut self, which: usize) -> Result<(), Refusal> {
        let name: &[u8] = match self.token.kind {
            Kind::Word(Word::Entry) => &[],
            Kind::Name(name) => name,
            _ => return self.refuse(3),
        };
        self.mentions.push(Mention { row: self.rows, which, at: self.token.at, name });
        self.advance()
    }

    /// Resolves the block names at the closing brace: 8, then 7. Then the predecessors are known.
    fn close(&mut self, cells: &mut FunctionMut) -> Result<(), Refusal> {
        let Some(entry) = self.entry else {
            return self.refuse(8);
        };
        cells.set_blocks(self.block_count, entry);
        for mention in &self.mentions {
            let block = match mention.name {
                [] => entry as u8,
                name => self.blocks.find(name).ok_or((7, mention.at as u64))?,
            };
            cells.set_named_block(mention.row, mention.which, block);
        }
        Flow::of(&cells.function()).store(cells);
        Ok(())
    }
}
