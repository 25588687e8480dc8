"""Where a table's cells are, by docs/TABLE.md. Offsets are those from where a function begins."""

FUNCTIONS, REGISTERS, BLOCKS, ROWS, ENTRIES, NAME = 16, 256, 64, 1024, 1024, 64
PREDECESSORS_OFFSET = 5 + NAME  # in a block, the count of its predecessors
REGISTER_LENGTH, BLOCK_LENGTH, ROW_LENGTH = 2 + NAME, PREDECESSORS_OFFSET + 1 + BLOCKS, 12
NAME_OFFSET = 8  # the length cell of the function's name
REGISTERS_OFFSET = NAME_OFFSET + 1 + NAME
BLOCKS_OFFSET = REGISTERS_OFFSET + REGISTERS * REGISTER_LENGTH
ROWS_OFFSET = BLOCKS_OFFSET + BLOCKS * BLOCK_LENGTH
ENTRIES_OFFSET = ROWS_OFFSET + ROWS * ROW_LENGTH
FUNCTION_LENGTH = ENTRIES_OFFSET + ENTRIES
TABLE = 1 + FUNCTIONS * FUNCTION_LENGTH


def function_at(i):
    return 1 + FUNCTION_LENGTH * i


def register_at(function, r):
    return function + REGISTERS_OFFSET + REGISTER_LENGTH * r


def block_at(function, b):
    return function + BLOCKS_OFFSET + BLOCK_LENGTH * b


def predecessors_at(function, b):
    return block_at(function, b) + PREDECESSORS_OFFSET


def row_at(function, k):
    return function + ROWS_OFFSET + ROW_LENGTH * k


def entry_at(function, e):
    return function + ENTRIES_OFFSET + e
