/* The counter on a machine with little memory: no piece of more than MOST_MEMORY bytes is to be had. What it prints is the
 * counter's; after that it says on standard error how often the report was worked out. */
#include <stdio.h>
#include <stdlib.h>

#include "binefdar.h"

static unsigned worked_out;

static void *scarce_malloc(size_t size) { return size > MOST_MEMORY ? NULL : malloc(size); }

static uint64_t counted_report(const uint8_t *input, size_t input_length, uint8_t *report, size_t report_length) {
    worked_out++;
    return binefdar_report(input, input_length, report, report_length);
}

#define malloc scarce_malloc
#define binefdar_report counted_report
#define main counter
#include "counter.c"
#undef main

int main(int count, char **words) {
    int status = counter(count, words);
    fprintf(stderr, "worked out %u times\n", worked_out);
    return status;
}
