/* The counter: prints the report of a file, or of standard input; compiled with -DSTRICT that of a book that is loaded
 * strictly, with -DLASTING that in the lasting way, and with both that of both. Its status is 0 if the report was
 * printed, 1 if reading, memory or printing failed, which is said, and 2 if it was called wrongly.
 *
 * To build it from the repository's root, on x86-64:
 *     archive=$(scripts/archive.sh) && cc -O2 -Ihost -o target/counter host/counter.c "$archive"
 */
#include <errno.h>
#include <stdio.h>
#include <stdlib.h>
#include <string.h>

#include "binefdar.h"

/* Where memory is short a smaller buffer may do, down to this. */
enum { LEAST_ROOM = 4096 };

static int fail(const char *what) {
    fprintf(stderr, "counter: %s: %s\n", what, strerror(errno));
    return 1;
}

#if defined LASTING && defined STRICT
#define REPORT binefdar_report_lasting_strict
#elif defined LASTING
#define REPORT binefdar_report_lasting
#elif defined STRICT
#define REPORT binefdar_report_strict
#else
#define REPORT binefdar_report
#endif

/* The report, in the largest buffer that there is memory for: the first that is tried holds every report. */
static uint8_t *report_of(const uint8_t *input, size_t input_length, uint64_t *length) {
    for (size_t room = BINEFDAR_LONGEST_REPORT; room >= LEAST_ROOM; room /= 2) {
        uint8_t *report = malloc(room);
        if (report != NULL) {
            *length = REPORT(input, input_length, report, room);
            if (*length != BINEFDAR_TOO_SHORT) {
                return report;
            }
            free(report);
            break;
        }
    }
    errno = ENOMEM;
    return NULL;
}

int main(int count, char **words) {
    if (count > 2) {
        fprintf(stderr, "usage: counter [FILE]\n");
        return 2;
    }
    const char *name = count == 2 ? words[1] : "standard input";
    FILE *from = count == 2 ? fopen(name, "rb") : stdin;
    if (from == NULL) {
        return fail(name);
    }
    /* A byte more than the longest input is enough to see that an input is longer. */
    static uint8_t input[BINEFDAR_LONGEST_INPUT + 1];
    size_t input_length = fread(input, 1, sizeof input, from);
    if (ferror(from)) {
        return fail(name);
    }
    uint64_t length;
    uint8_t *report = report_of(input, input_length, &length);
    if (report == NULL) {
        return fail("memory");
    }
    if (fwrite(report, 1, length, stdout) != length || fflush(stdout) != 0) {
        return fail("standard output");
    }
    free(report);
    return from == stdin || fclose(from) == 0 ? 0 : fail(name);
}
