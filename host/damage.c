/* Prints a damaged copy of a file: the same copy for the same file and number. Usage: damage FILE NUMBER */
#include <stdint.h>
#include <stdio.h>
#include <stdlib.h>

static uint64_t state;

/* A number below `limit`, drawn by a linear congruence (Knuth's MMIX constants). */
static size_t draw(size_t limit) {
    state = state * 6364136223846793005u + 1442695040888963407u;
    return limit == 0 ? 0 : (size_t)(state >> 33) % limit;
}

int main(int count, char **words) {
    static uint8_t bytes[1 << 17];
    static const char typical[] = "0123456789 \n\r-x";
    if (count != 3) {
        fprintf(stderr, "usage: damage FILE NUMBER\n");
        return 2;
    }
    FILE *from = fopen(words[1], "rb");
    if (from == NULL) {
        perror(words[1]);
        return 2;
    }
    size_t length = fread(bytes, 1, sizeof bytes / 2, from);
    fclose(from);
    state = strtoull(words[2], NULL, 10);
    for (size_t times = 1 + draw(3); times > 0 && length > 0; times--) {
        size_t at = draw(length);
        switch (draw(5)) {
        case 0: /* another byte */
            bytes[at] = (uint8_t)typical[draw(sizeof typical - 1)];
            break;
        case 1: /* any byte */
            bytes[at] = (uint8_t)draw(256);
            break;
        case 2: /* a byte less */
            for (size_t i = at; i + 1 < length; i++) {
                bytes[i] = bytes[i + 1];
            }
            length--;
            break;
        case 3: /* a byte more */
            for (size_t i = length; i > at; i--) {
                bytes[i] = bytes[i - 1];
            }
            bytes[at] = (uint8_t)typical[draw(sizeof typical - 1)];
            length++;
            break;
        default: /* cut short */
            length = at;
        }
    }
    return fwrite(bytes, 1, length, stdout) == length ? 0 : 1;
}
