/* What the header says and no proof covers: the stack that each call needs, and that NULL will do for a length of 0.
 * `merge_test measure` prints the least stack in KiB with which each call answers. */
#include "ial.h"
#include "merge.h"
#include "stacks.h"

enum { MANY = 4000, BUDGET = 1000 };

static uint8_t text[IAL_TEXT], table[IAL_TABLE], store[MERGE_STORE], other[MERGE_STORE];
static uint64_t numbers[4 * MANY];

/* Sixteen functions, of which the last is the limit, in a text of the largest size: its loop runs as often as the reading says, and it
 * returns 1 for readings that are not odd. */
static void write_text(void) {
    size_t n = 0;
    memset(text, ' ', sizeof text);
    for (int i = 0; i < 16; i++)
        n += (size_t)sprintf((char *)text + n,
                             "function ssa uint limit%d(int64 reading) { register uint x; register uint y; register uint t;"
                             " register uint f; register int64 k; register int64 one; register int64 m; register uint c;"
                             " block entry { one = load.i64 (1); t = cmp.eq one, one; f = cmp.neq one, one; jump (head); }"
                             " block head { x = phi (t, y); y = phi (f, x); k = phi (reading, m); c = cmp.lt k, one;"
                             " jump.cond c (out, body); } block body { m = ari.sub k, one; jump (head); }"
                             " block out { return x; } }", i);
    text[n] = ' ';
}

/* Each answer's number, and a second number that says something of what was done. */
static void keep(merge_answer a) {
    answered[0] = a.number;
    answered[1] = a.place;
}

static void empty(void) { keep(merge_empty(store, MERGE_STORE)); }
static void record(void) {
    keep(merge_record(store, MERGE_STORE, table, IAL_TABLE, 15, BUDGET, 1, 9, 9, 3));
    answered[1] = merge_look(store, MERGE_STORE, 1).fail;
}
static void record_full(void) { keep(merge_record(other, MERGE_STORE, table, IAL_TABLE, 15, BUDGET, 1, 9, 9, 3)); }
static void records(void) {
    keep(merge_records(store, MERGE_STORE, table, IAL_TABLE, 15, BUDGET, numbers, 4 * MANY));
    answered[1] = merge_nth(store, MERGE_STORE, 1023).appliance;
}
static void records_full(void) { keep(merge_records(other, MERGE_STORE, table, IAL_TABLE, 15, BUDGET, numbers, 4 * MANY)); }
static void records_short(void) { keep(merge_records(store, 8, table, IAL_TABLE, 15, BUDGET, numbers, 4 * MANY)); }
static void join(void) {
    keep(merge_store(store, MERGE_STORE, other, MERGE_STORE));
    answered[1] = merge_nth(store, MERGE_STORE, 1023).appliance;
}
static void look(void) {
    merge_look_answer a = merge_look(other, MERGE_STORE, 2046);
    answered[0] = a.number;
    answered[1] = a.time;
}
static void nth(void) {
    merge_look_answer a = merge_nth(other, MERGE_STORE, 1023);
    answered[0] = a.number;
    answered[1] = a.appliance;
}

static const struct entry entries[] = {
    {"merge_empty", empty, MERGE_LOOK_STACK, 0, {0, 0, 0}},
    {"merge_record", record, MERGE_RECORD_STACK, 1, {0, 1, 0}},
    {"merge_record, store full", record_full, MERGE_RECORD_STACK, 1, {60, 0, 0}},
    {"merge_records", records, MERGE_RECORDS_STACK, 1, {0, 3069, 0}},
    {"merge_records, store full", records_full, MERGE_RECORDS_STACK, 1, {60, 0, 0}},
    {"merge_records, store short", records_short, MERGE_RECORDS_STACK, 0, {22, 0, 0}},
    {"merge_store", join, MERGE_STORE_STACK, 1, {0, 2046, 0}},
    {"merge_look", look, MERGE_LOOK_STACK, 0, {0, 7, 0}},
    {"merge_nth", nth, MERGE_LOOK_STACK, 0, {0, 2046, 0}},
};
enum { ENTRIES = sizeof entries / sizeof *entries };

static int is(const char *what, merge_answer a, uint64_t expected) {
    if (a.number == expected && a.place == 0)
        return 0;
    printf("%s: %llu at %llu\n", what, (unsigned long long)a.number, (unsigned long long)a.place);
    return 1;
}

static int is_look(const char *what, merge_look_answer a) {
    static const merge_look_answer expected = {22, 0, 0, 0, 0, 0, 0};
    if (memcmp(&a, &expected, sizeof a) == 0)
        return 0;
    printf("%s: %llu\n", what, (unsigned long long)a.number);
    return 1;
}

/* NULL with length 0 is an empty table, store or list of numbers. */
static int nulls(void) {
    static uint8_t kept[MERGE_STORE];
    memcpy(kept, other, sizeof kept);
    int wrong = is("no store to empty", merge_empty(NULL, 0), 22);
    wrong |= is("no table", merge_record(other, MERGE_STORE, NULL, 0, 0, 0, 1, 1, 1, 1), 9);
    wrong |= is("no table, no store", merge_record(NULL, 0, NULL, 0, 0, 0, 1, 1, 1, 1), 9);
    wrong |= is("no store", merge_record(NULL, 0, table, IAL_TABLE, 0, BUDGET, 1, 1, 1, 1), 22);
    wrong |= is("no such function, no store", merge_record(NULL, 0, table, IAL_TABLE, 16, BUDGET, 1, 1, 1, 1), 61);
    wrong |= is("no table for no records", merge_records(other, MERGE_STORE, NULL, 0, 0, 0, NULL, 0), 9);
    wrong |= is("no records", merge_records(other, MERGE_STORE, table, IAL_TABLE, 0, BUDGET, NULL, 0), 0);
    wrong |= is("no store for records", merge_records(NULL, 0, table, IAL_TABLE, 0, BUDGET, numbers, 4), 22);
    wrong |= is("a part of a record", merge_records(other, MERGE_STORE, table, IAL_TABLE, 0, BUDGET, numbers, 3), 22);
    wrong |= is("no store to merge", merge_store(other, MERGE_STORE, NULL, 0), 22);
    wrong |= is("no store to merge into", merge_store(NULL, 0, other, MERGE_STORE), 22);
    wrong |= is_look("no store to look into", merge_look(NULL, 0, 1));
    wrong |= is_look("no store to go through", merge_nth(NULL, 0, 0));
    if (memcmp(kept, other, sizeof kept) != 0) {
        printf("a refusal changed a store\n");
        wrong = 1;
    }
    return wrong;
}

/* One store full of appliances 0, 2, 4 and so on; numbers of records for appliances 0, 3, 6 and so on, which are as many. */
static int fill(void) {
    for (uint64_t i = 0; i < MERGE_APPLIANCES; i++) {
        uint64_t one[4] = {2 * i, 7, 1, i % 5};
        memcpy(numbers + 4 * i, one, sizeof one);
    }
    int wrong = is("a full store", merge_records(other, MERGE_STORE, table, IAL_TABLE, 15, BUDGET, numbers, 4 * MERGE_APPLIANCES), 0);
    for (uint64_t i = 0; i < MANY; i++) {
        uint64_t one[4] = {3 * (i * 701 % MERGE_APPLIANCES), i, 2, i % 7};
        memcpy(numbers + 4 * i, one, sizeof one);
    }
    return wrong;
}

int main(int argc, char **argv) {
    write_text();
    ial_answer read = ial_read(text, sizeof text, table, IAL_TABLE);
    if (read.number != 0 || fill())
        return 1;
    if (argc == 2 && strcmp(argv[1], "measure") == 0)
        return measure(entries, ENTRIES);
    return stacks(entries, ENTRIES) | nulls();
}
