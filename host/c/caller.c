/*
 * Calls the C entry on every text of a corpus (`gate corpus FILE` writes it and says what is in it) and compares what comes
 * back. Every text and all lent places are blocks of exactly their size, so valgrind reports a single byte too far.
 */
#include <stdio.h>
#include <stdlib.h>
#include <string.h>

#include "batkhreli.h"

#define BEFORE 0xC0FFEE00u

struct head {
    uint32_t run, length, places, code, place, detail;
};

static void *block(size_t size)
{
    void *made = malloc(size);

    if (made == NULL && size > 0)
        exit(2);
    return made;
}

static void *taken(FILE *corpus, size_t size)
{
    void *made = block(size);

    if (fread(made, 1, size, corpus) != size)
        exit(2);
    return made;
}

/* 1 if the call did what the corpus says. */
static int good(const struct head *head, const uint8_t *text, const void *wanted)
{
    size_t size = head->places * (head->run ? sizeof(uint32_t) : sizeof(uint64_t));
    void *lent = block(size);
    uint32_t *place = block(sizeof *place), *detail = block(sizeof *detail);
    uint32_t code, k;
    int same;

    for (k = 0; k < head->places; k++) {
        if (head->run)
            ((uint32_t *)lent)[k] = BEFORE + k;
        else
            ((uint64_t *)lent)[k] = (uint64_t)BEFORE + k;
    }
    if (head->run)
        code = batkhreli_run(text, head->length, lent, head->places, place, detail);
    else
        code = batkhreli_slacks(text, head->length, lent, head->places, place, detail);
    same = code == head->code && *place == head->place && *detail == head->detail && memcmp(lent, wanted, size) == 0;
    if (!head->run) {
        code = batkhreli_check(text, head->length, place, detail);
        same = same && code == head->code && *place == head->place && *detail == head->detail;
    }
    free(lent);
    free(place);
    free(detail);
    return same;
}

/*
 * The same of the table past the run's end: it is refused as the run is, but for the places, and nobody sits.
 */
static int good_table(const struct head *head, const uint8_t *text)
{
    uint32_t *seats = block(BATKHRELI_SEATS * sizeof *seats);
    uint32_t *place = block(sizeof *place), *detail = block(sizeof *detail);
    uint32_t code, k;
    int same;

    for (k = 0; k < BATKHRELI_SEATS; k++)
        seats[k] = BEFORE + k;
    code = batkhreli_table(text, head->length, UINT32_MAX, seats, place, detail);
    same = head->code == 10 || (code == head->code && *place == head->place && *detail == head->detail);
    for (k = 0; k < BATKHRELI_SEATS; k++)
        same = same && seats[k] == (code == 0 ? 0 : BEFORE + k);
    free(seats);
    free(place);
    free(detail);
    return same;
}

int main(int count, char **words)
{
    FILE *corpus = count == 2 ? fopen(words[1], "rb") : NULL;
    unsigned long texts = 0, wrong = 0;
    struct head head;

    if (corpus == NULL)
        return 2;
    while (fread(&head, sizeof head, 1, corpus) == 1) {
        uint8_t *text = taken(corpus, head.length);
        void *wanted = taken(corpus, head.places * (head.run ? sizeof(uint32_t) : sizeof(uint64_t)));

        texts++;
        wrong += !good(&head, text, wanted) || (head.run && !good_table(&head, text));
        free(text);
        free(wanted);
    }
    fclose(corpus);
    printf("%lu texts, %lu wrong\n", texts, wrong);
    return texts == 0 || wrong > 0;
}
