/* The verified IAL library for C. Link with libial.a, which `tools/libraries ial` writes to target/staticlib/.
 *
 * Every function takes any input: a text, a table, arguments, a budget and a buffer of any content and any length get an
 * answer. The only thing asked is C's own: each pointer leads to as many elements as the length beside it says, and lent
 * outputs overlap nothing else. A length may be 0, and its pointer is then not followed: NULL will do.
 *
 * Numbers of an answer (document 01, "Numbers we answer", and document 02), with the place of each:
 *     0         done
 *     1         refused: the text is too long; place 0
 *     2 to 8    refused: the text; a byte of it
 *     9         refused: a table's length, counts, numbers, names or lists of predecessors; a function's number, 0 for the function
 *               count or the length
 *     10 to 17  refused: the check; 2048 times the function's number plus the row
 *     20        refused: arguments; how many were given, or the first that does not fit, counted from 0
 *     21        refused: no such function; 0
 *     22        refused: a table output of another length (reading and translating), too few registers (running), other than four
 *               numbers for each argument (running many); 0
 *     30, 31    refused: a translation of a function that is not ssa, or that is too large when translated; 0
 *     32, 33    refused: a text longer than the buffer, or than IAL_TEXT bytes (writing); 0
 *     40 to 42  stopped: zero divisor, shift or rotation by w or more, least number divided by -1; 2048 times the function's
 *               number plus the row
 *     43        stopped: budget used up; likewise, the next row
 * After a refusal every lent output is all zero. Numbers that are not stated are 0.
 *
 * Names are kept and compared by their contents: of a name in quotes the bytes between them, without each backslash that stands
 * directly before a quote. So `x` and `'x'` are one name of one byte, and `'jump'` is a name although `jump` is a word. Contents have
 * 1 to 64 bytes; any byte may stand in them, but a backslash is not the last. docs/TABLE.md says where in a table they are. A text
 * that is written has a name in quotes only where plain spelling is not possible, with a backslash before each quote in it.
 */
#ifndef IAL_H
#define IAL_H

#include <stddef.h>
#include <stdint.h>

#ifdef __cplusplus
extern "C" {
#endif

/* The bytes of a table, the most registers a function has, and the most bytes of a text. */
#define IAL_TABLE 621713
#define IAL_REGISTERS 256
#define IAL_TEXT 65536

/* The stack that must be free at a call, in bytes: the library has no heap and no memory of its own. A call with less crashes
 * at the end of the stack. The numbers are those of the compiled library, for all inputs, with at least 8 KiB to
 * spare, in whole 16 KiB; a thread needs some KiB more for itself, and one of 192 KiB in all can make every call. */
#define IAL_READ_STACK (64 * 1024)
#define IAL_READ_SHORT_STACK IAL_READ_STACK /* an output of another length needs no more */
#define IAL_CHECK_STACK (16 * 1024)
#define IAL_SIGNATURE_STACK (16 * 1024)
#define IAL_RUN_STACK (32 * 1024)
#define IAL_RUN_EACH_STACK (32 * 1024)
#define IAL_TRANSLATE_STACK (16 * 1024)
#define IAL_WRITE_STACK (16 * 1024)

/* What a call answers: a number of document 01 or 02 or 0, its place, the value a run returned or the length of a text written, the
 * steps a run took. */
typedef struct ial_answer {
    uint64_t number;
    uint64_t place;
    uint64_t value;
    uint64_t steps;
} ial_answer;

/* Whether a run stopped: it was no refusal, its registers hold what the last finished step left. */
static inline int ial_stopped(ial_answer a) {
    return a.number >= 40 && a.number <= 43;
}

/* Whether a call was refused: every lent output is all zero. */
static inline int ial_refused(ial_answer a) {
    return a.number != 0 && !ial_stopped(a);
}

/* Reads a text into a table of IAL_TABLE bytes. Refuses with 1 to 8, and last with 22 for an output of another length.
 * Reading does not check: call ial_check. */
ial_answer ial_read(const uint8_t *text, size_t text_length, uint8_t *table, size_t table_length);

/* Checks all of a table: 0, or refuses with 9 to 17. */
ial_answer ial_check(const uint8_t *table, size_t table_length);

/* Whether a function of the table gives a result of type `result` and takes exactly parameters of `types`, in their order: 1, or 0,
 * also where there is no such function. Types by their numbers in a table: int8 to int64 0 to 3, uint8 to uint64 4 to 7, int 8, uint 9, and
 * as a result void 10. Nothing else of the table is checked: call ial_check, without which the answer says little. */
uint64_t ial_has_signature(const uint8_t *table, size_t table_length, uint64_t function, uint8_t result, const uint8_t *types,
                           size_t type_count);

/* Checks the table and runs one of its functions on arguments, for at most `budget` steps. `registers` needs as many cells
 * as the function has registers (IAL_REGISTERS always suffices); afterwards it holds them, and 0 in the cells past them.
 * Refuses with 9 to 17, then 21 (no such function), 20 (arguments), 22 (registers too few). Stops with 40 to 43. A run
 * that ends normally has number 0 and the returned value; a function with no result leaves value 0. Arguments and values
 * are numbers below 2^w; a signed type's are two's complement. */
ial_answer ial_run(const uint8_t *table, size_t table_length, uint64_t function, const uint64_t *arguments,
                   size_t argument_count, uint64_t budget, uint64_t *registers, size_t register_count);

/* Runs one function of a table on each of many arguments, each alone as the one argument of a run of its own, for at most `budget`
 * steps each. The table is checked once. `output` gets four numbers for each argument, one after the other: the number, place,
 * value and steps that ial_run answers for it, refusals 9 to 17, 21, 20, 22 and stops among them; so the call itself
 * answers 0. Refuses with 22 an output of other than four numbers for each argument, which is all zero then. `registers` as for
 * ial_run; afterwards they are all zero. */
ial_answer ial_run_each(const uint8_t *table, size_t table_length, uint64_t function, const uint64_t *arguments,
                        size_t argument_count, uint64_t budget, uint64_t *registers, size_t register_count, uint64_t *output,
                        size_t output_count);

/* Checks the table and translates one of its functions out of ssa, to a table of that function alone, number 0. Refuses with
 * 9 to 17, then 21, 30 (not ssa), 31 (too large when translated), 22 (an output of another length). */
ial_answer ial_translate(const uint8_t *table, size_t table_length, uint64_t function, uint8_t *output,
                         size_t output_length);

/* Checks the table and writes all of its functions as text: a line for each declaration, instruction, head with its `{` and `}`, one
 * space between tokens, shortest decimal numbers. Registers without a name are called `p.0`, `p.1` and so on, blocks `e.0`, `e.1`; numbers
 * that such names of the function use already are passed over. ial_read of the text gives the same table with these names. The
 * answer's value is the text's length, and the rest of the buffer is 0; there need be no rest. Refuses with 9 to 17, then 33 (the
 * text is longer than IAL_TEXT bytes), 32 (longer than the buffer). A buffer of IAL_TEXT bytes is never too short. */
ial_answer ial_write(const uint8_t *table, size_t table_length, uint8_t *buffer, size_t buffer_length);

#ifdef __cplusplus
}
#endif

#endif
