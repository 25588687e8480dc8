//! The words of the language, and what is known of a type or an instruction by its number.

/// A plain spelling that is never a name.
#[derive(Clone, Copy, Debug, PartialEq, Eq)]
pub enum Word {
    Function,
    Ssa,
    Void,
    Register,
    Block,
    Entry,
    Type(u8),
    Instruction(u8),
}

const COUNT: usize = 52;
const FIRST_TYPE: u8 = 6;
const FIRST_INSTRUCTION: u8 = 16;

const SPELLINGS: [&[u8]; COUNT] = [
    b"function", b"ssa", b"void", b"register", b"block", b"entry",
    b"int8", b"int16", b"int32", b"int64", b"uint8", b"uint16", b"uint32", b"uint64", b"int", b"uint",
    b"nop",
    b"load.i8", b"load.ui8", b"load.i16", b"load.ui16", b"load.i32", b"load.ui32", b"load.i64", b"load.ui64",
    b"ari.add", b"ari.sub", b"ari.mul", b"ari.div", b"ari.rem", b"ari.neg",
    b"bit.and", b"bit.or", b"bit.xor", b"bit.neg",
    b"shl", b"shr", b"rol", b"ror",
    b"cmp.eq", b"cmp.neq", b"cmp.gt", b"cmp.lt", b"cmp.gteq", b"cmp.lteq",
    b"conv", b"copy", b"phi",
    b"jump", b"jump.cond", b"return", b"leave",
];

/// The shortest and longest spelling of a word.
const LENGTHS: std::ops::RangeInclusive<usize> = 3..=9;

/// Sends the first eight bytes of each word to a slot of its own.
const fn slot(key: u64) -> usize {
    (key.wrapping_mul(0x4a77_814e_a614_2e5b) >> 56) as usize
}

/// The first eight bytes of a spelling as a number, 0 where it is shorter.
const fn key(spelling: &[u8]) -> u64 {
    let mut key = 0;
    let mut i = 0;
    while i < spelling.len() && i < 8 {
        key |= (spelling[i] as u64) << (8 * i);
        i += 1;
    }
    key
}

/// Word number plus 1 in each word's slot, 0 in the others.
static SLOTS: [u8; 256] = {
    let mut slots = [0; 256];
    let mut n = 0;
    while n < COUNT {
        let s = slot(key(SPELLINGS[n]));
        assert!(slots[s] == 0);
        slots[s] = n as u8 + 1;
        n += 1;
    }
    slots
};

/// The word that a plain spelling is, if it is one.
pub fn word(spelling: &[u8]) -> Option<Word> {
    if !LENGTHS.contains(&spelling.len()) {
        return None;
    }
    let n = SLOTS[slot(key(spelling))].checked_sub(1)?;
    if SPELLINGS[n as usize] != spelling {
        return None;
    }
    Some(match n {
        0 => Word::Function,
        1 => Word::Ssa,
        2 => Word::Void,
        3 => Word::Register,
        4 => Word::Block,
        5 => Word::Entry,
        FIRST_TYPE..FIRST_INSTRUCTION => Word::Type(n - FIRST_TYPE),
        _ => Word::Instruction(n - FIRST_INSTRUCTION),
    })
}

/// The word of a type below `TYPES`.
pub fn type_spelling(kind: u8) -> &'static [u8] {
    SPELLINGS[usize::from(FIRST_TYPE + kind)]
}

/// The word of an instruction below `INSTRUCTIONS`.
pub fn instruction_spelling(instruction: u8) -> &'static [u8] {
    SPELLINGS[usize::from(FIRST_INSTRUCTION + instruction)]
}

pub const TYPES: u8 = 10;
pub const INT64: u8 = 3;
pub const UINT: u8 = 9;
/// The return type of a void function.
pub const VOID: u8 = 10;

/// The width of a type in bits.
pub const fn width(kind: u8) -> u32 {
    match kind {
        0 | 4 => 8,
        1 | 5 => 16,
        2 | 6 => 32,
        _ => 64,
    }
}

/// Whether a type is read as two's complement.
pub const fn signed(kind: u8) -> bool {
    matches!(kind, 0..=3 | 8)
}

/// The largest number below 2^w.
pub const fn mask(kind: u8) -> u64 {
    u64::MAX >> (64 - width(kind))
}

pub const INSTRUCTIONS: u8 = 36;
pub const NOP: u8 = 0;
pub const LOAD_I8: u8 = 1;
pub const LOAD_UI64: u8 = 8;
pub const ADD: u8 = 9;
pub const SUB: u8 = 10;
pub const MUL: u8 = 11;
pub const DIV: u8 = 12;
pub const REM: u8 = 13;
pub const NEG: u8 = 14;
pub const AND: u8 = 15;
pub const OR: u8 = 16;
pub const XOR: u8 = 17;
pub const FLIP: u8 = 18;
pub const SHL: u8 = 19;
pub const SHR: u8 = 20;
pub const ROL: u8 = 21;
pub const ROR: u8 = 22;
pub const EQ: u8 = 23;
pub const NEQ: u8 = 24;
pub const GT: u8 = 25;
pub const LT: u8 = 26;
pub const GTEQ: u8 = 27;
pub const LTEQ: u8 = 28;
pub const CONV: u8 = 29;
pub const COPY: u8 = 30;
pub const PHI: u8 = 31;
pub const JUMP: u8 = 32;
pub const JUMP_COND: u8 = 33;
pub const RETURN: u8 = 34;
pub const LEAVE: u8 = 35;

#[derive(Clone, Copy, Debug, PartialEq, Eq)]
pub enum Operand {
    None,
    Number,
    Block,
    TwoBlocks,
    Registers,
}

/// What an instruction is written with.
#[derive(Clone, Copy)]
pub struct Shape {
    pub target: bool,
    pub sources: u8,
    pub operand: Operand,
}

/// The shape of an instruction below `INSTRUCTIONS`.
pub const fn shape(instruction: u8) -> Shape {
    let (target, sources, operand) = match instruction {
        LOAD_I8..=LOAD_UI64 => (true, 0, Operand::Number),
        NEG | FLIP | CONV | COPY => (true, 1, Operand::None),
        ADD..=LTEQ => (true, 2, Operand::None),
        PHI => (true, 0, Operand::Registers),
        JUMP => (false, 0, Operand::Block),
        JUMP_COND => (false, 1, Operand::TwoBlocks),
        RETURN => (false, 1, Operand::None),
        _ => (false, 0, Operand::None),
    };
    Shape { target, sources, operand }
}

/// Whether an instruction ends a block.
pub const fn terminator(instruction: u8) -> bool {
    instruction >= JUMP
}

/// The type that a load gives: `load.i8` and on alternate between signed and unsigned.
pub const fn loaded(instruction: u8) -> u8 {
    let step = instruction - LOAD_I8;
    step / 2 + 4 * (step % 2)
}
