/*
 * Binefdar: a runtime monitor for past-time metric temporal logic, proved correct.
 *
 * One function, for four ways of loading a book. It takes the bytes of an input (a book of rules, then calls, as
 * decimal words parted by spaces or line feeds) and a buffer, and writes the report of that input into the buffer. A
 * scan is a call `2 time width` and that many words 0 or 1: its time and then its state, or neither. The two alone,
 * `0 time` and `1 width` with its words, are for old logs and for a state that changes without a scan.
 *
 *     book 0              the book was loaded; another number says why it was not, and nothing follows
 *     1 0 022 111 1       call 1 was accepted; a word for each property: value, early, settled; and the count
 *     2 7                 call 2 was refused with 7 and passed over
 *     1 1 1 1 1 0         a summary of each property: accepted, failed, first, last, longest, settled
 *     1 0 0 0 0 1
 *     end                 all was read; or `stop N`: reading ended with the number N, and no summary stands before it
 *
 * In a word of three digits 0 is false, 1 is true and 2 is open. The settled answer is never taken back:
 * once it is 0 or 1, the property has that value then and after every further accepted call. The early
 * answer may err. README.md has the table of the numbers.
 *
 * The count, the last word of an accepted call's line, says how full the fullest rule is: how many separate
 * stretches of time it remembers that are not over. 0 is none and 64 is full; a call that needs one more is then
 * refused with 11. From 48 on, think about the rule.
 *
 * A property's summary says how many calls were accepted, how many of these left the property false, the first and the
 * last of these by call number (0 if none), how many of them came in a row where most did, and the call at which the
 * property settled (0 if it is open). Calls are numbered from 1, refused ones, too.
 *
 * binefdar_report_strict is the same, but that it refuses a book of which a rule could ever need more than 64 of these
 * stretches. Then its one line is `book 15 ROW COUNT`: the first such row, counted from 0, and how many it could need.
 * Of a book that it takes no call is ever refused with 11: for a host that nobody watches.
 *
 * binefdar_report_lasting is for states that last, as that of a case on its shelf: its answers, its counts and its 11
 * are as if a time call had been made at every instant between two accepted calls. None of these instants is walked,
 * however far the clock goes. It takes only books in which no rule with a window lies inside another; of any other its
 * one line is `book 17`. binefdar_report_lasting_strict is both: 15 comes before 17.
 *
 * What they promise, for every input and every buffer (it is proved, and nothing is asked of the caller
 * beyond the pointers):
 *
 *   - It returns. It keeps nothing between calls, allocates nothing, and touches nothing but the buffer.
 *   - If the report fits into `report_length` bytes, its bytes stand at the start of the buffer, the
 *     bytes after them are unchanged, and the answer is the report's length. A report that is exactly as
 *     long as the buffer fits.
 *   - Otherwise every byte of the buffer is 0 and the answer is BINEFDAR_TOO_SHORT. Ask again with a
 *     larger buffer: BINEFDAR_LONGEST_REPORT bytes are always enough.
 *   - An input of more than BINEFDAR_LONGEST_INPUT bytes gives the single line `stop 2`.
 *
 * What it asks: `input` points to `input_length` readable bytes and `report` to `report_length` writable
 * ones, and the two do not overlap. A length of 0 is fine. BINEFDAR_STACK bytes of stack are enough for every
 * input. Calls from several threads do not disturb each other, as long as their buffers differ.
 *
 * scripts/archive.sh has it proved and compiled for x86-64 Linux, by `rt lib` in crates/report_c, and prints the path of
 * the archive, target/native/libreport.a. The head of counter.c has the line that builds a program over it.
 */
#ifndef BINEFDAR_H
#define BINEFDAR_H

#include <stddef.h>
#include <stdint.h>

#ifdef __cplusplus
extern "C" {
#endif

/* What is handed back where the report does not fit. */
#define BINEFDAR_TOO_SHORT UINT64_MAX

/* The longest input that is read, in bytes. */
#define BINEFDAR_LONGEST_INPUT 65536

/* No report is longer: proved (docs/CONTRACTS.md, `always_room`). */
#define BINEFDAR_LONGEST_REPORT 2300000

/* The stack that a call may need, in bytes, with room to spare: of the books that were tried 127 Ands or Ors, each
 * inside the next, take the most, 71,136 bytes on x86-64 with what a thread itself takes. */
#define BINEFDAR_STACK 131072

uint64_t binefdar_report(const uint8_t *input, size_t input_length, uint8_t *report, size_t report_length);

/* The same, its book loaded strictly. */
uint64_t binefdar_report_strict(const uint8_t *input, size_t input_length, uint8_t *report, size_t report_length);

/* The same in the lasting way. */
uint64_t binefdar_report_lasting(const uint8_t *input, size_t input_length, uint8_t *report, size_t report_length);

/* The same in the lasting way, its book loaded strictly. */
uint64_t binefdar_report_lasting_strict(const uint8_t *input, size_t input_length, uint8_t *report,
                                        size_t report_length);

#ifdef __cplusplus
}
#endif

#endif
