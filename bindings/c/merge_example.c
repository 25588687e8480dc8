/* The inspector's kettle: it passed at 09:30 and failed at 14:10, on two tablets. Whichever tablet is synced first, the fail counts.
 * From the project's root, after `tools/libraries`:
 *     cc -o merge_example bindings/c/merge_example.c target/staticlib/libmerge.a target/staticlib/libial.a
 *     ./merge_example examples/limit.ial
 * Exit status: 0 all was merged, 1 something was refused, 2 wrong words or a file that cannot be read. */
#include "ial.h"
#include "merge.h"

#include <inttypes.h>
#include <stdio.h>
#include <stdlib.h>

enum { BUDGET = 1000, KETTLE = 417 };

static uint8_t text[IAL_TEXT + 1], table[IAL_TABLE];
static uint8_t morning[MERGE_STORE], afternoon[MERGE_STORE], office[MERGE_STORE];

/* Ends the program where a call was refused. */
static void accepted(const char *what, uint64_t number, uint64_t place) {
    if (number == 0)
        return;
    printf("%s: refused with %" PRIu64 " at %" PRIu64 "\n", what, number, place);
    exit(1);
}

/* A tablet's store of one test of the kettle, with time in minutes since midnight and the reading in milliohms. */
static void test(const char *what, uint8_t *tablet, uint64_t time, uint64_t number, uint64_t reading) {
    merge_answer a = merge_empty(tablet, MERGE_STORE);
    accepted(what, a.number, a.place);
    a = merge_record(tablet, MERGE_STORE, table, IAL_TABLE, 0, BUDGET, KETTLE, time, number, reading);
    accepted(what, a.number, a.place);
}

static void sync(const char *what, const uint8_t *tablet) {
    merge_answer a = merge_store(office, MERGE_STORE, tablet, MERGE_STORE);
    accepted(what, a.number, a.place);
}

static void say(const char *what, const uint8_t *store) {
    merge_look_answer r = merge_look(store, MERGE_STORE, KETTLE);
    if (r.found)
        printf("%s: %s at %02" PRIu64 ":%02" PRIu64 ", tablet %" PRIu64 ", %" PRId64 " milliohms\n", what,
               r.fail ? "fail" : "pass", r.time / 60, r.time % 60, r.tablet, (int64_t)r.reading);
    else
        printf("%s: not tested\n", what);
}

int main(int argc, char **argv) {
    if (argc != 2) {
        fprintf(stderr, "usage: merge_example FILE\n");
        return 2;
    }
    FILE *file = fopen(argv[1], "rb");
    size_t length = file ? fread(text, 1, sizeof text, file) : 0;
    if (!file || ferror(file)) {
        perror(argv[1]);
        return 2;
    }
    fclose(file);
    ial_answer read = ial_read(text, length, table, sizeof table);
    accepted("read", read.number, read.place);

    test("morning", morning, 570, 1, 170);
    test("afternoon", afternoon, 850, 2, 230);
    say("morning", morning);
    say("afternoon", afternoon);
    merge_empty(office, sizeof office);
    say("office", office);
    sync("morning", morning);
    sync("afternoon", afternoon);
    say("morning synced first", office);
    merge_empty(office, sizeof office);
    sync("afternoon", afternoon);
    sync("morning", morning);
    sync("morning", morning);
    say("afternoon synced first", office);
    return 0;
}
