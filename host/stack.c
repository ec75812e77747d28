/* Runs the one function on a thread that has just the stack that binefdar.h says it needs, with a page below it that nobody
 * may touch: whoever needs more is stopped there. Usage: stack INPUT..
 * Prints how much of the stack the worst of the inputs took, and last 'N passed, M failed'. */
#define _GNU_SOURCE
#include <pthread.h>
#include <stdio.h>
#include <stdlib.h>
#include <string.h>
#include <sys/mman.h>
#include <unistd.h>

#include "binefdar.h"

enum { MARK = 0xA5 };

static uint8_t input[BINEFDAR_LONGEST_INPUT + 1];
static size_t input_length;
static uint8_t on_thread[BINEFDAR_LONGEST_REPORT], on_main[BINEFDAR_LONGEST_REPORT];

static void die(const char *what) {
    perror(what);
    exit(2);
}

static void slurp(const char *name) {
    FILE *from = fopen(name, "rb");
    if (from == NULL) {
        die(name);
    }
    input_length = fread(input, 1, sizeof input, from);
    fclose(from);
}

static void *report(void *length) {
    *(uint64_t *)length = binefdar_report(input, input_length, on_thread, sizeof on_thread);
    return NULL;
}

/* The bytes of a marked stack that were used, from the lowest on. */
static size_t used(const uint8_t *stack, size_t size) {
    size_t unused = 0;
    while (unused < size && stack[unused] == MARK) {
        unused++;
    }
    return size - unused;
}

/* Runs it on a stack of `size` bytes above a page that nobody may touch, and answers how many of them it took. */
static size_t run_on(size_t size, uint64_t *length) {
    size_t page = (size_t)sysconf(_SC_PAGESIZE);
    uint8_t *all = mmap(NULL, page + size, PROT_READ | PROT_WRITE, MAP_PRIVATE | MAP_ANONYMOUS, -1, 0);
    if (all == MAP_FAILED || mprotect(all, page, PROT_NONE) != 0) {
        die("stack");
    }
    memset(all + page, MARK, size);
    pthread_attr_t attributes;
    pthread_t thread;
    if (pthread_attr_init(&attributes) != 0 || pthread_attr_setstack(&attributes, all + page, size) != 0 ||
        pthread_create(&thread, &attributes, report, length) != 0 || pthread_join(thread, NULL) != 0) {
        die("thread");
    }
    pthread_attr_destroy(&attributes);
    size_t took = used(all + page, size);
    munmap(all, page + size);
    return took;
}

int main(int count, char **words) {
    unsigned passed = 0, failed = 0;
    size_t worst = 0;
    for (int i = 1; i < count; i++) {
        slurp(words[i]);
        uint64_t length, expected = binefdar_report(input, input_length, on_main, sizeof on_main);
        size_t took = run_on(BINEFDAR_STACK, &length);
        if (took > worst) {
            worst = took;
        }
        if (length == expected && memcmp(on_thread, on_main, length) == 0 && memcmp(on_main, "book 0\n", 7) == 0) {
            passed++;
        } else {
            failed++;
            printf("failed: the report of %s on its own stack\n", words[i]);
        }
    }
    printf("the worst took %zu bytes of %d\n", worst, BINEFDAR_STACK);
    printf("%u passed, %u failed\n", passed, failed);
    return failed != 0;
}
