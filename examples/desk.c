/*
 * A planning desk in small: loads a file, prints the verdict and tells the planner in one line what to change.
 *
 *     desk FILE...
 *
 * A file whose name ends in .run is a board and a release list, and is run; any other is a board, and is checked.
 * Exits with 0 if every file was accepted, with 1 if one was refused and with 2 if one could not be read.
 */
#include <inttypes.h>
#include <stdio.h>
#include <string.h>

#include "batkhreli.h"

/* One byte more than can be accepted, so that a longer file is seen to be longer. */
static uint8_t text[BATKHRELI_TEXT_MAX + 1];
static uint64_t slacks[BATKHRELI_TASKS_MAX];
static uint32_t responses[BATKHRELI_RELEASES_MAX];

/* What no slack and no response can be: the mark of a place that the call did not write. */
static const uint64_t NO_SLACK = UINT64_MAX;
static const uint32_t NO_RESPONSE = UINT32_MAX;

static int load(const char *name, size_t *length)
{
    FILE *file = fopen(name, "rb");
    int failed;

    if (file == NULL)
        return 0;
    *length = fread(text, 1, sizeof text, file);
    failed = ferror(file);
    fclose(file);
    return !failed;
}

/* What is wrong with a release, by the detail of code 8. */
static const char *fault(uint32_t detail)
{
    switch (detail) {
    case 1:
        return "names a task that is not on the board; correct the task number or add the task";
    case 2:
        return "does not come after the one before it; sort the list by tick, then by task, and name nothing twice";
    case 3:
        return "asks for more units than its task's c; lower the units or raise c";
    case 4:
        return "comes less than t ticks after the last release of its task; move it later or lower t";
    default:
        return "is at fault in a way this program does not know; update it";
    }
}

/* One line of advice for each code. */
static void advise(uint32_t code, uint32_t place, uint32_t detail, int run)
{
    switch (code) {
    case 0:
        puts(run ? "The run is finished." : "Every bound holds. Nothing to change.");
        break;
    case 1:
        if (place == 0)
            puts("The file is longer than 65,536 bytes: no board needs that; check that it is the right file.");
        else
            printf("Line %" PRIu32 " is not what belongs there: write the expected key, '=', a number of 1 to 7 digits "
                   "without leading zero and one LF (no CR, no space), and nothing after the last line.\n", place);
        break;
    case 2:
        printf("The number on line %" PRIu32 " is outside its range: see the table of ranges and correct it.\n", place);
        break;
    case 3:
        printf("Processor %" PRIu32 " is faster than the one before it: list the speeds from fastest to slowest.\n", place);
        break;
    case 4:
        printf("Task %" PRIu32 " has a deadline above its period: lower d or raise t.\n", place);
        break;
    case 5:
        printf("Task %" PRIu32 " has a bound above its deadline: propose a smaller r or allow a later d.\n", place);
        break;
    case 6:
        printf("The certificate of task %" PRIu32 " does not cover column %" PRIu32 ", the case in which tasks above hold that "
               "many of the fastest processors: raise y or z, or lower q.\n", place, detail);
        break;
    case 7:
        printf("The bound of task %" PRIu32 " is not shown to hold: raise its r, find a better certificate, or take work "
               "from it or from the tasks above.\n", place);
        break;
    case 8:
        printf("Release %" PRIu32 " %s.\n", place, fault(detail));
        break;
    case 9:
        printf("Release %" PRIu32 " comes in tick %" PRIu32 " while its task's last job is unfinished: the board is "
               "overloaded; have its bounds checked.\n", place, detail);
        break;
    case 10:
        printf("The list has %" PRIu32 " releases and this program lent fewer places: lend more.\n", place);
        break;
    default:
        printf("Code %" PRIu32 " is not known to this program: update it.\n", code);
        break;
    }
}

static uint32_t judge(const char *name, size_t length)
{
    size_t letters = strlen(name);
    int run = letters >= 4 && strcmp(name + letters - 4, ".run") == 0;
    uint32_t code, place, detail;
    size_t k;

    for (k = 0; k < BATKHRELI_TASKS_MAX; k++)
        slacks[k] = NO_SLACK;
    for (k = 0; k < BATKHRELI_RELEASES_MAX; k++)
        responses[k] = NO_RESPONSE;
    if (run)
        code = batkhreli_run(text, length, responses, BATKHRELI_RELEASES_MAX, &place, &detail);
    else
        code = batkhreli_slacks(text, length, slacks, BATKHRELI_TASKS_MAX, &place, &detail);
    printf("%s: code %" PRIu32 ", place %" PRIu32 ", detail %" PRIu32 "\n", name, code, place, detail);
    printf("  ");
    advise(code, place, detail, run);
    if (code != 0)
        return code;
    for (k = 0; k < BATKHRELI_TASKS_MAX && slacks[k] != NO_SLACK; k++)
        printf("  task %zu has slack %" PRIu64 "\n", k + 1, slacks[k]);
    for (k = 0; k < BATKHRELI_RELEASES_MAX && responses[k] != NO_RESPONSE; k++) {
        if (responses[k] == 0)
            printf("  release %zu is not complete when the run ends\n", k + 1);
        else
            printf("  release %zu has response %" PRIu32 "\n", k + 1, responses[k]);
    }
    return code;
}

int main(int count, char **names)
{
    int result = 0;
    int k;

    if (count < 2) {
        fprintf(stderr, "desk FILE...\n");
        return 2;
    }
    for (k = 1; k < count; k++) {
        size_t length = 0;

        if (!load(names[k], &length)) {
            fprintf(stderr, "%s cannot be read\n", names[k]);
            result = 2;
        } else if (judge(names[k], length) != 0 && result == 0) {
            result = 1;
        }
    }
    return result;
}
