/* Tests the buffers of the one function: exact length, one short, zero length, longer; and the bytes around them.
 * Usage: buffers INPUT REPORT. Prints a line for each test, and last 'N passed, M failed'. */
#include <stdio.h>
#include <stdlib.h>
#include <string.h>

#include "binefdar.h"

enum { GUARD = 16, MARK = 0xA5 };

static unsigned passed, failed;

static void expect(int holds, const char *what) {
    if (holds) {
        passed++;
    } else {
        failed++;
        printf("failed: %s\n", what);
    }
}

static uint8_t *slurp(const char *name, size_t *length) {
    FILE *from = fopen(name, "rb");
    if (from == NULL) {
        perror(name);
        exit(2);
    }
    fseek(from, 0, SEEK_END);
    *length = (size_t)ftell(from);
    rewind(from);
    uint8_t *bytes = malloc(*length + 1);
    if (bytes == NULL || fread(bytes, 1, *length, from) != *length) {
        perror(name);
        exit(2);
    }
    fclose(from);
    return bytes;
}

static int all(const uint8_t *bytes, size_t count, uint8_t value) {
    for (size_t i = 0; i < count; i++) {
        if (bytes[i] != value) {
            return 0;
        }
    }
    return 1;
}

/* A buffer of `room` bytes between two guards, all of it marked before the call. */
static void try_room(const uint8_t *input, size_t input_length, const uint8_t *report, size_t length, size_t room) {
    uint8_t *guarded = malloc(room + 2 * GUARD);
    if (guarded == NULL) {
        exit(2);
    }
    memset(guarded, MARK, room + 2 * GUARD);
    uint8_t *buffer = guarded + GUARD;
    uint64_t answer = binefdar_report(input, input_length, buffer, room);
    if (length <= room) {
        expect(answer == length, "the answer is the report's length");
        expect(memcmp(buffer, report, length) == 0, "the report stands at the start");
        expect(all(buffer + length, room - length, MARK), "the bytes after the report are unchanged");
    } else {
        expect(answer == BINEFDAR_TOO_SHORT, "a buffer that is too short is answered MAX");
        expect(all(buffer, room, 0), "a buffer that is too short is zeros throughout");
    }
    expect(all(guarded, GUARD, MARK) && all(buffer + room, GUARD, MARK), "nothing outside the buffer is touched");
    free(guarded);
}

int main(int count, char **words) {
    if (count != 3) {
        fprintf(stderr, "usage: buffers INPUT REPORT\n");
        return 2;
    }
    size_t input_length, length;
    uint8_t *input = slurp(words[1], &input_length);
    uint8_t *report = slurp(words[2], &length);
    try_room(input, input_length, report, length, length);
    try_room(input, input_length, report, length, length + 100);
    try_room(input, input_length, report, length, BINEFDAR_LONGEST_REPORT);
    try_room(input, input_length, report, length, 0);
    if (length > 0) {
        try_room(input, input_length, report, length, length - 1);
        try_room(input, input_length, report, length, 1);
    }
    free(input);
    free(report);
    printf("%u passed, %u failed\n", passed, failed);
    return failed != 0;
}
