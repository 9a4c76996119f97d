/*
 * A host tool: checks the book in a file within a budget, and shows the structure that a yes brings.
 *
 *     host BOOK BUDGET
 */
#include <stdio.h>
#include <stdlib.h>

#include "rulebook.h"

/* One byte more than the longest book that is not refused. */
enum { LONGEST = 8193 };

static uint8_t book[LONGEST];
static rulebook_state states[RULEBOOK_STATES];
static uint32_t words[RULEBOOK_WORDS];
static int16_t clauses[RULEBOOK_CLAUSES];
static uint8_t values[RULEBOOK_VALUES];
static uint16_t work[RULEBOOK_WORK];
static uint8_t space[RULEBOOK_EVALUATE_WORK];
static uint32_t answer[RULEBOOK_ANSWER];

static uint32_t check(size_t length, uint32_t budget)
{
    return rulebook_check_into(book, length, budget, states, RULEBOOK_STATES, words, RULEBOOK_WORDS, clauses, RULEBOOK_CLAUSES, values,
                               RULEBOOK_VALUES, work, RULEBOOK_WORK, answer, RULEBOOK_ANSWER);
}

static uint32_t evaluate(size_t length)
{
    return rulebook_evaluate(book, length, states, RULEBOOK_STATES, answer[RULEBOOK_AT_STATES], words, RULEBOOK_WORDS,
                             answer[RULEBOOK_AT_VARIABLES], values, RULEBOOK_VALUES, space, RULEBOOK_EVALUATE_WORK);
}

/* A state's parent comes before it. */
static void mark_living(uint8_t *lives)
{
    lives[0] = 1;
    for (uint32_t i = 1; i < answer[RULEBOOK_AT_STATES]; i++) {
        lives[i] = lives[states[i].parent - 1] && values[states[i].maker - 1];
    }
}

static void show_atoms(uint32_t state)
{
    for (uint32_t v = 0; v < answer[RULEBOOK_AT_VARIABLES]; v++) {
        if (words[v] / 2048 == state && words[v] % 2048 >= 1024 && values[v]) {
            printf(" atom %u", (unsigned)(words[v] % 2048 - 1024));
        }
    }
}

static void show_structure(void)
{
    static uint8_t lives[RULEBOOK_STATES];
    mark_living(lives);
    for (uint32_t i = 0; i < answer[RULEBOOK_AT_STATES]; i++) {
        if (lives[i]) {
            printf("state %u", (unsigned)(i + 1));
            if (i > 0) {
                printf(" from %u by %u", states[i].parent, states[i].relation);
            }
            show_atoms(i + 1);
            printf("\n");
        }
    }
}

static const char *name(uint32_t number)
{
    switch (number) {
    case RULEBOOK_YES: return "yes";
    case RULEBOOK_NO: return "no";
    case RULEBOOK_STOPPED: return "stopped";
    case RULEBOOK_SHORT: return "refused: fewer than 16 bytes";
    case RULEBOOK_RANGES: return "refused: a number of the header is out of range";
    case RULEBOOK_EXTENT: return "refused: offset or length is wrong";
    case RULEBOOK_NODE: return "refused: a node breaks a rule";
    case RULEBOOK_OVERSIZED: return "refused: the build is over its limits";
    default: return "refused";
    }
}

int main(int argc, char **argv)
{
    if (argc != 3) {
        fprintf(stderr, "usage: host BOOK BUDGET\n");
        return 2;
    }
    FILE *file = fopen(argv[1], "rb");
    if (file == NULL) {
        perror(argv[1]);
        return 2;
    }
    size_t length = fread(book, 1, LONGEST, file);
    fclose(file);
    uint32_t budget = (uint32_t)strtoul(argv[2], NULL, 10);

    uint32_t number = check(length, budget);
    printf("%s\n", name(number));
    printf("number %u, place %u\n", (unsigned)number, (unsigned)answer[RULEBOOK_AT_PLACE]);
    printf("%u states, %u variables, %u clauses, count %u\n", (unsigned)answer[RULEBOOK_AT_STATES], (unsigned)answer[RULEBOOK_AT_VARIABLES],
           (unsigned)answer[RULEBOOK_AT_CLAUSES], (unsigned)answer[RULEBOOK_AT_COUNT]);
    if (rulebook_check(book, length, budget) != number) {
        printf("the two calls differ\n");
        return 1;
    }
    if (number == RULEBOOK_YES) {
        show_structure();
        printf("evaluated: %s\n", evaluate(length) == RULEBOOK_YES ? "true at state 1" : "NOT true at state 1");
    }
    return 0;
}
