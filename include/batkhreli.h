/*
 * Batkhreli: the timing check and the run of a board, as proved, for a C or C++ program.
 *
 * Link target/staticlib/libdesk.a (x86-64 Linux), which `host/build.sh` writes; it needs nothing but the C library.
 *
 * Every function
 *   - gives the code as its result and writes the place and the detail, whatever the input (docs/REFUSALS.md has the
 *     table of codes; 0 is accepted, or run finished);
 *   - takes any bytes and any length: a text of more than BATKHRELI_TEXT_MAX bytes is answered by 1, 0, 0 and not read;
 *   - reads nothing outside the text and writes nothing outside what it is lent;
 *   - ends, keeps nothing between calls, allocates nothing, calls nothing of the caller's: it may be called from any
 *     number of threads at once, from a signal handler, and again after any answer;
 *   - needs no more than BATKHRELI_STACK_MAX bytes of stack (host/c/stack.c measures it, and the tests fail above that).
 *
 * What the caller owes:
 *   - a text of `length` bytes that stays as it is during the call, at any address; NULL if `length` is 0;
 *   - `place` and `detail`: two different numbers, never NULL, aligned as C aligns a uint32_t;
 *   - the lent places, aligned as C aligns their type; NULL if their number is 0;
 *   - that no two of these overlap.
 */
#ifndef BATKHRELI_H
#define BATKHRELI_H

#include <stddef.h>
#include <stdint.h>

#ifdef __cplusplus
extern "C" {
#endif

/* The longest text that is read, in bytes. */
#define BATKHRELI_TEXT_MAX 65536u

/* The most tasks of a board, and so the most slacks. */
#define BATKHRELI_TASKS_MAX 96u

/* The most releases of a list, and so the most responses. */
#define BATKHRELI_RELEASES_MAX 1000u

/* The seats of a table: one for each processor that a board can have. */
#define BATKHRELI_SEATS 8u

/*
 * The stack that a caller keeps free for a call, in bytes. Measured: 20,608 for batkhreli_check, 21,408 for batkhreli_slacks,
 * 80,032 for batkhreli_run, 80,096 for batkhreli_table; the tests measure again and fail above this figure.
 */
#define BATKHRELI_STACK_MAX 98304u

/* Checks the proposed bounds of a board's text. */
uint32_t batkhreli_check(const uint8_t *board, size_t length, uint32_t *place, uint32_t *detail);

/*
 * Checks as batkhreli_check does. After 0, and if there are at least as many places as the board has tasks, the first
 * places hold the slack of each task, in the order of the tasks; all other places keep what they had. After any other
 * code, and with fewer places than tasks, all places keep what they had. BATKHRELI_TASKS_MAX places are always enough.
 */
uint32_t batkhreli_slacks(const uint8_t *board, size_t length, uint64_t *slacks, size_t slacks_length,
                          uint32_t *place, uint32_t *detail);

/*
 * Runs a board and a release list, one after the other in one text. With N releases the first N places hold the
 * responses in list order after 0, and 0 after 9; places past N, and all places after any other code, keep what they
 * had. Fewer than N places are answered by 10. BATKHRELI_RELEASES_MAX places are always enough.
 */
uint32_t batkhreli_run(const uint8_t *text, size_t length, uint32_t *places, size_t places_length,
                       uint32_t *place, uint32_t *detail);

/*
 * Runs a board and a release list as batkhreli_run does, up to tick `tick` and with it, and tells who sits on which
 * processor in that tick: after 0 the BATKHRELI_SEATS seats hold the task on each processor, 0 for an idle or absent one,
 * and all hold 0 if `tick` is past the run's last. After any other code the seats keep what they had; a run that overruns
 * only after `tick` is answered by 0, and 10 is never answered. Ticks are made one after the other, so a late one costs
 * as much as a run up to it. `seats` is never NULL.
 */
uint32_t batkhreli_table(const uint8_t *text, size_t length, uint32_t tick, uint32_t seats[BATKHRELI_SEATS],
                         uint32_t *place, uint32_t *detail);

#ifdef __cplusplus
}
#endif

#endif
