/* The verified merge of test records for C. Link with libmerge.a, which `tools/libraries merge` writes to target/staticlib/; a program that also
 * reads texts (ial.h) names libial.a after it.
 *
 * A record is an appliance's number, the test's time, the tablet's number, each below 2^64, and a reading, an int64 in two's
 * complement. Its verdict is what a limit function says of the reading: a function of a table (ial.h) with one int64 parameter and the
 * result uint, run for at most `budget` steps. Result 1 is pass; any stop or other result is fail.
 * Of the records of one appliance the one with the later time wins; then fail over pass; then the lower tablet number; then the larger
 * reading by meaning. A store holds the winner of each appliance, for MERGE_APPLIANCES appliances at most: whatever the order in which
 * records come and stores are merged, and however often, the same records give the same bytes, as long as one table, function and
 * budget give all verdicts and no call is refused.
 *
 * Every function takes any input. The only thing asked is C's own: each pointer leads to as many elements as the length beside it
 * says, and a store that is changed overlaps nothing else. A length may be 0, and its pointer is then not followed: NULL will do.
 * What is said of stores holds for those begun with merge_empty (or all zero) and changed by these functions alone, with such stores; any other bytes get an
 * answer too, and do no harm.
 *
 * Numbers of an answer (documents 01 and 02), with the place of each:
 *     0         done
 *     9         refused: the table's length, counts, numbers, names or lists of predecessors; a function's number, 0 for the function
 *               count or the length
 *     10 to 17  refused: the check of the table; 2048 times the function's number plus the row
 *     61        refused: no such function, or one with other parameters or another result; 0
 *     22        refused: a store of another length than MERGE_STORE, or numbers of records that are no multiple of four; 0
 *     60        refused: the store is full and an appliance is new; 0
 * in this order, so that 22 comes before 60. A refusal leaves the store unchanged.
 */
#ifndef MERGE_H
#define MERGE_H

#include <stddef.h>
#include <stdint.h>

#ifdef __cplusplus
extern "C" {
#endif

/* The bytes of a store, and the most appliances it holds. The bytes are numbers of eight, low byte first: how many records there
 * are, then five numbers for each, by rising appliance number: appliance, time, fail (1 or 0), tablet, reading; and 0 past them. */
#define MERGE_STORE 40968
#define MERGE_APPLIANCES 1024

/* The stack that must be free at a call, in bytes: the library has no heap and no memory of its own. A call with less crashes
 * at the end of the stack. The numbers are those of the compiled library, for all inputs, with at least 8 KiB to
 * spare, in whole 16 KiB; a thread needs some KiB more for itself, and one of 192 KiB in all can make every call. */
#define MERGE_RECORD_STACK (32 * 1024)
#define MERGE_RECORDS_STACK (80 * 1024)
#define MERGE_STORE_STACK (64 * 1024)
#define MERGE_LOOK_STACK (16 * 1024)     /* merge_empty, merge_look and merge_nth */

/* What a call that changes a store answers: a number or 0, and its place. */
typedef struct merge_answer {
    uint64_t number;
    uint64_t place;
} merge_answer;

/* What a look at a store answers: 22 or 0; whether there is a record, 1 or 0; and the record, else zeros. */
typedef struct merge_look_answer {
    uint64_t number;
    uint64_t found;
    uint64_t appliance;
    uint64_t time;
    uint64_t fail;
    uint64_t tablet;
    uint64_t reading;
} merge_look_answer;

/* Makes a store that holds no record: all zero. Refuses with 22. */
merge_answer merge_empty(uint8_t *store, size_t store_length);

/* Checks the table and merges one record into a store. Refuses with 9 to 17, then 61, 22, 60. */
merge_answer merge_record(uint8_t *store, size_t store_length, const uint8_t *table, size_t table_length,
                          uint64_t function, uint64_t budget, uint64_t appliance, uint64_t time, uint64_t tablet,
                          uint64_t reading);

/* Checks the table, once more for each 64 records, and merges many, all of them or none: four numbers each, appliance, time, tablet, reading.
 * `number_count` is how many numbers there are. Refuses with 9 to 17, then 61, 22, 60. */
merge_answer merge_records(uint8_t *store, size_t store_length, const uint8_t *table, size_t table_length,
                           uint64_t function, uint64_t budget, const uint64_t *numbers, size_t number_count);

/* Merges all records of another store into a store; the other stays as it is. Refuses with 22 for either of another length, then with 60
 * exactly if the two hold more than MERGE_APPLIANCES appliances together. */
merge_answer merge_store(uint8_t *store, size_t store_length, const uint8_t *other, size_t other_length);

/* The record of an appliance: the winner of those merged, or none. Refuses with 22. */
merge_look_answer merge_look(const uint8_t *store, size_t store_length, uint64_t appliance);

/* The n-th record by rising appliance number, from 0; none past the last. Refuses with 22. */
merge_look_answer merge_nth(const uint8_t *store, size_t store_length, uint64_t n);

#ifdef __cplusplus
}
#endif

#endif
