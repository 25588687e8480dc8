/* Reads a text, checks it, runs function 0 with a phi and, translated, without, and shows the translation as text.
 * From the project's root, after `tools/libraries ial`:
 *     cc -o example bindings/c/example.c target/staticlib/libial.a && ./example examples/turn.ial 7 9 2
 * Exit status: 0 both runs returned, 1 something was refused, 2 wrong words or a file that cannot be read, 3 a run stopped. */
#include "ial.h"

#include <inttypes.h>
#include <stdio.h>
#include <stdlib.h>

static uint8_t text[IAL_TEXT + 1], table[IAL_TABLE], translated[IAL_TABLE], shown[IAL_TEXT];
static uint64_t registers[IAL_REGISTERS], arguments[IAL_REGISTERS];

/* Ends the program where a call was refused. */
static ial_answer accepted(const char *what, ial_answer a) {
    if (ial_refused(a)) {
        printf("%s: refused with %" PRIu64 " at %" PRIu64 "\n", what, a.number, a.place);
        exit(1);
    }
    return a;
}

/* Runs function 0, says how the run ended, and answers whether it stopped. */
static int run(const char *what, const uint8_t *of, size_t count) {
    ial_answer a = accepted(what, ial_run(of, IAL_TABLE, 0, arguments, count, 1000000, registers, IAL_REGISTERS));
    if (ial_stopped(a))
        printf("%s: stopped with %" PRIu64 " in function %" PRIu64 ", row %" PRIu64 ", after %" PRIu64 " steps\n", what,
               a.number, a.place / 2048, a.place % 2048, a.steps);
    else
        printf("%s: returned %" PRIu64 " after %" PRIu64 " steps\n", what, a.value, a.steps);
    return ial_stopped(a);
}

int main(int argc, char **argv) {
    if (argc < 2 || argc - 2 > IAL_REGISTERS) {
        fprintf(stderr, "usage: example FILE [ARG..]\n");
        return 2;
    }
    FILE *file = fopen(argv[1], "rb");
    size_t length = file ? fread(text, 1, sizeof text, file) : 0;
    if (!file || ferror(file)) {
        perror(argv[1]);
        return 2;
    }
    fclose(file);
    size_t count = (size_t)argc - 2;
    for (size_t i = 0; i < count; i++)
        arguments[i] = strtoull(argv[i + 2], NULL, 10);

    accepted("read", ial_read(text, length, table, sizeof table));
    accepted("check", ial_check(table, sizeof table));
    int stopped = run("source", table, count);
    accepted("translate", ial_translate(table, sizeof table, 0, translated, sizeof translated));
    stopped |= run("translation", translated, count);
    ial_answer written = accepted("write", ial_write(translated, sizeof translated, shown, sizeof shown));
    fwrite(shown, 1, written.value, stdout);
    return stopped ? 3 : 0;
}
