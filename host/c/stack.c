/*
 * Measures the stack that each function needs: a thread runs it on a stack that was painted, and the lowest byte that is
 * no longer paint tells how deep it went. A thread that calls nothing is subtracted.
 *
 *     stack BOARD RUN      (a large accepted board, and a run with many releases)
 *
 * Fails if a function needs more than the header says.
 */
#define _GNU_SOURCE
#include <pthread.h>
#include <stdio.h>
#include <stdlib.h>
#include <string.h>
#include <sys/mman.h>

#include "batkhreli.h"

#define STACK (1u << 20)
#define PAINT 0x5A

static uint8_t board[BATKHRELI_TEXT_MAX], run[BATKHRELI_TEXT_MAX];
static size_t board_length, run_length;
static uint64_t slacks[BATKHRELI_TASKS_MAX];
static uint32_t places[BATKHRELI_RELEASES_MAX];
static uint32_t seats[BATKHRELI_SEATS];
static uint32_t code, place, detail;

static void *nothing(void *unused)
{
    return unused;
}

static void *check(void *unused)
{
    code = batkhreli_check(board, board_length, &place, &detail);
    return unused;
}

static void *with_slacks(void *unused)
{
    code = batkhreli_slacks(board, board_length, slacks, BATKHRELI_TASKS_MAX, &place, &detail);
    return unused;
}

static void *whole_run(void *unused)
{
    code = batkhreli_run(run, run_length, places, BATKHRELI_RELEASES_MAX, &place, &detail);
    return unused;
}

static void *last_table(void *unused)
{
    code = batkhreli_table(run, run_length, UINT32_MAX, seats, &place, &detail);
    return unused;
}

/* How many bytes of a painted stack a thread touches. */
static size_t touched(void *(*work)(void *))
{
    uint8_t *stack = mmap(NULL, STACK, PROT_READ | PROT_WRITE, MAP_PRIVATE | MAP_ANONYMOUS, -1, 0);
    pthread_attr_t attributes;
    pthread_t thread;
    size_t lowest = 0;

    if (stack == MAP_FAILED)
        exit(2);
    memset(stack, PAINT, STACK);
    if (pthread_attr_init(&attributes) != 0 || pthread_attr_setstack(&attributes, stack, STACK) != 0 ||
        pthread_create(&thread, &attributes, work, NULL) != 0 || pthread_join(thread, NULL) != 0)
        exit(2);
    pthread_attr_destroy(&attributes);
    while (lowest < STACK && stack[lowest] == PAINT)
        lowest++;
    munmap(stack, STACK);
    return STACK - lowest;
}

static size_t load(const char *name, uint8_t *text)
{
    FILE *file = fopen(name, "rb");
    size_t length;

    if (file == NULL)
        exit(2);
    length = fread(text, 1, BATKHRELI_TEXT_MAX, file);
    fclose(file);
    return length;
}

static int measured(const char *name, void *(*work)(void *))
{
    size_t base, need;

    work(NULL); /* once before, so that the loader has nothing left to do */
    base = touched(nothing);
    need = touched(work) - base;
    printf("%s needs %zu bytes of stack (answer %u)\n", name, need, (unsigned)code);
    return code == 0 && need <= BATKHRELI_STACK_MAX;
}

int main(int count, char **names)
{
    int good;

    if (count != 3)
        return 2;
    board_length = load(names[1], board);
    run_length = load(names[2], run);
    good = measured("batkhreli_check", check);
    good = measured("batkhreli_slacks", with_slacks) && good;
    good = measured("batkhreli_run", whole_run) && good;
    good = measured("batkhreli_table", last_table) && good;
    return !good;
}
