/* What the header says and no proof covers: the stack that each call needs, and that NULL will do for a length of 0. And its example of names.
 * `test measure` prints the least stack in KiB with which each call answers. */
#include "ial.h"
#include "stacks.h"

static uint8_t text[IAL_TEXT], table[IAL_TABLE], halves[IAL_TABLE], output[IAL_TABLE + 1];
static const uint8_t types[3] = {7, 7, 4};
static uint64_t arguments[3] = {7, 9, 2}, registers[IAL_REGISTERS], each[12];

/* Sixteen functions, each with a loop and the longest number, in a text of the largest size. */
static void write_text(void) {
    size_t n = 0;
    memset(text, ' ', sizeof text);
    for (int i = 0; i < 16; i++)
        n += (size_t)sprintf((char *)text + n,
                             "function ssa uint64 turn%d(uint64 a, uint64 b, uint8 n) { register uint64 x; register uint64 y;"
                             " register uint8 k; register uint8 one; register uint8 z; register uint8 m; register uint c;"
                             " register uint64 most; block entry { most = load.ui64 (18446744073709551615);"
                             " one = load.ui8 (1); z = load.ui8 (0); jump (head); }"
                             " block head { x = phi (a, y); y = phi (b, x); k = phi (n, m); c = cmp.eq k, z;"
                             " jump.cond c (out, body); } block body { m = ari.sub k, one; jump (head); }"
                             " block out { return x; } }", i);
    text[n] = ' ';
}

/* A function of one argument. */
static const char half[] = "function uint64 half(uint64 a) { register uint64 two; register uint64 h; block entry { two = load.ui64 (2);"
                           " h = ari.div a, two; return h; } }";

/* An answer's number, value and steps. */
static void keep(ial_answer a) {
    answered[0] = a.number;
    answered[1] = a.value;
    answered[2] = a.steps;
}

static void read_right(void) { keep(ial_read(text, sizeof text, output, IAL_TABLE)); }
static void read_longer(void) { keep(ial_read(text, sizeof text, output, IAL_TABLE + 1)); }
static void read_shorter(void) { keep(ial_read(text, sizeof text, output, IAL_TABLE - 1)); }
static void check(void) { keep(ial_check(table, IAL_TABLE)); }
static void run(void) { keep(ial_run(table, IAL_TABLE, 15, arguments, 3, 1000, registers, IAL_REGISTERS)); }
static void has_signature(void) { answered[1] = ial_has_signature(table, IAL_TABLE, 15, 7, types, 3); }
static void run_each(void) {
    keep(ial_run_each(halves, IAL_TABLE, 0, arguments, 3, 1000, registers, IAL_REGISTERS, each, 12));
    answered[1] = each[2] * 10000 + each[6] * 100 + each[10];
    answered[2] = each[3] + each[7] + each[11];
}
static void translate(void) { keep(ial_translate(table, IAL_TABLE, 15, output, IAL_TABLE)); }
static void write_long(void) { keep(ial_write(table, IAL_TABLE, output, IAL_TEXT)); }
static void write_short(void) { keep(ial_write(table, IAL_TABLE, output, 100)); }

/* The bytes of the table's text: 544 for each function, and the second digit of six names. */
#define WRITTEN (16 * 544 + 6)

static const struct entry entries[] = {
    {"ial_read", read_right, IAL_READ_STACK, 1, {0, 0, 0}},
    {"ial_read, output longer", read_longer, IAL_READ_STACK, 1, {22, 0, 0}},
    {"ial_read, output shorter", read_shorter, IAL_READ_SHORT_STACK, 1, {22, 0, 0}},
    {"ial_check", check, IAL_CHECK_STACK, 1, {0, 0, 0}},
    {"ial_has_signature", has_signature, IAL_SIGNATURE_STACK, 0, {0, 1, 0}},
    {"ial_run", run, IAL_RUN_STACK, 1, {0, 7, 24}},
    {"ial_run_each", run_each, IAL_RUN_EACH_STACK, 1, {0, 30401, 9}},
    {"ial_translate", translate, IAL_TRANSLATE_STACK, 1, {0, 0, 0}},
    {"ial_write", write_long, IAL_WRITE_STACK, 1, {0, WRITTEN, 0}},
    {"ial_write, buffer short", write_short, IAL_WRITE_STACK, 1, {32, 0, 0}},
};
enum { ENTRIES = sizeof entries / sizeof *entries };

static int is(const char *what, ial_answer a, uint64_t number, uint64_t place) {
    if (a.number == number && a.place == place)
        return 0;
    printf("%s: %llu at %llu\n", what, (unsigned long long)a.number, (unsigned long long)a.place);
    return 1;
}

/* NULL with length 0 is an empty text, table, list of arguments, output or buffer. */
static int nulls(void) {
    static const char nothing[] = "function void f() { block entry { leave; } }";
    static uint8_t other[IAL_TABLE];
    const uint8_t *f = (const uint8_t *)nothing;
    int wrong = is("no text", ial_read(NULL, 0, other, IAL_TABLE), 0, 0);
    wrong |= is("no text, no output", ial_read(NULL, 0, NULL, 0), 22, 0);
    wrong |= is("no output", ial_read(f, 8, NULL, 0), 3, 8);
    wrong |= is("no table", ial_check(NULL, 0), 9, 0);
    wrong |= is("no table to run", ial_run(NULL, 0, 0, NULL, 0, 0, NULL, 0), 9, 0);
    wrong |= is("no table to run on each", ial_run_each(NULL, 0, 0, arguments, 3, 0, NULL, 0, each, 12), 0, 0) | (each[4] != 9);
    wrong |= is("no arguments to run on", ial_run_each(NULL, 0, 0, NULL, 0, 0, NULL, 0, NULL, 0), 0, 0);
    wrong |= is("no room for numbers", ial_run_each(halves, IAL_TABLE, 0, arguments, 3, 0, NULL, 0, NULL, 0), 22, 0);
    wrong |= ial_has_signature(NULL, 0, 0, 10, NULL, 0) != 0;
    wrong |= is("no table to translate", ial_translate(NULL, 0, 0, NULL, 0), 9, 0);
    wrong |= is("a text with no register", ial_read(f, sizeof nothing - 1, other, IAL_TABLE), 0, 0);
    wrong |= ial_has_signature(other, IAL_TABLE, 0, 10, NULL, 0) != 1;
    wrong |= is("no arguments, no registers", ial_run(other, IAL_TABLE, 0, NULL, 0, 10, NULL, 0), 0, 0);
    wrong |= is("too few arguments", ial_run(table, IAL_TABLE, 0, NULL, 0, 10, NULL, 0), 20, 0);
    wrong |= is("too few registers", ial_run(table, IAL_TABLE, 0, arguments, 3, 10, NULL, 0), 22, 0);
    wrong |= is("no room for a translation", ial_translate(table, IAL_TABLE, 0, NULL, 0), 22, 0);
    wrong |= is("no table to write", ial_write(NULL, 0, NULL, 0), 9, 0);
    wrong |= is("no room for a text", ial_write(table, IAL_TABLE, NULL, 0), 32, 0);
    wrong |= is("no text", ial_read(NULL, 0, other, IAL_TABLE), 0, 0);
    wrong |= is("no room, and no function to write", ial_write(other, IAL_TABLE, NULL, 0), 0, 0);
    return wrong;
}

/* `x` and `'x'` are one name; the table has its contents, and a text that is written the plain spelling. */
static int names(void) {
    static const char quoted[] = "function uint 'f'(uint x) { block entry { return 'x'; } }";
    static const char plain[] = "function uint f ( uint x ) {\nblock entry {\nreturn x ;\n}\n}\n";
    static const char keyword[] = "function uint 'jump' ( uint x ) {";
    /* In docs/TABLE.md: the length of the first function's name, and of its first register's. */
    enum { FUNCTION = 1 + 8, REGISTER = 1 + 73 + 1 };
    static uint8_t other[IAL_TABLE], shown[IAL_TEXT];
    int wrong = is("x and 'x'", ial_read((const uint8_t *)quoted, sizeof quoted - 1, other, IAL_TABLE), 0, 0);
    wrong |= memcmp(other + FUNCTION, "\1f", 2) != 0 || memcmp(other + REGISTER, "\1x", 2) != 0;
    wrong |= is("x written", ial_write(other, IAL_TABLE, shown, IAL_TEXT), 0, 0) | (strcmp((char *)shown, plain) != 0);
    memcpy(other + FUNCTION, "\4jump", 5);
    wrong |= is("a word as a name", ial_write(other, IAL_TABLE, shown, IAL_TEXT), 0, 0) | (memcmp(shown, keyword, sizeof keyword - 1) != 0);
    other[FUNCTION + 4] = '\\';
    wrong |= is("a backslash at the end", ial_check(other, IAL_TABLE), 9, 0);
    if (wrong)
        printf("names are not as they should be\n");
    return wrong;
}

int main(int argc, char **argv) {
    write_text();
    if (is("the text", ial_read(text, sizeof text, table, IAL_TABLE), 0, 0)
        || is("half", ial_read((const uint8_t *)half, sizeof half - 1, halves, IAL_TABLE), 0, 0))
        return 1;
    if (argc == 2 && strcmp(argv[1], "measure") == 0)
        return measure(entries, ENTRIES);
    return stacks(entries, ENTRIES) | nulls() | names();
}
