/*
 * The rulebook check, called from C. Link with libhost.a.
 *
 * Every call is proved to do what its comment says, for every input: see docs/PROMISES.md. A pointer and the length after it are one lent array;
 * arrays that are lent to one call must not overlap. No call keeps a pointer, allocates, or fails.
 */
#ifndef RULEBOOK_H
#define RULEBOOK_H

#include <stddef.h>
#include <stdint.h>

#ifdef __cplusplus
extern "C" {
#endif

/* Answers by number. */
enum {
    RULEBOOK_YES = 1,        /* some structure obeys the book */
    RULEBOOK_NO = 2,         /* no finite structure makes the book true at any state */
    RULEBOOK_STOPPED = 3,    /* the search needs more nodes than the budget: nothing is known */
    RULEBOOK_LENT = 10,      /* a lent array is shorter than its size */
    RULEBOOK_SHORT = 11,     /* fewer than 16 bytes */
    RULEBOOK_RANGES = 12,    /* R, P, N or root outside its range */
    RULEBOOK_EXTENT = 13,    /* offset or total wrong */
    RULEBOOK_NODE = 14,      /* a node record breaks a rule */
    RULEBOOK_OVERSIZED = 15  /* over 512 states, 4,095 variables or 5,000 clauses */
};

/* Sizes of lent arrays, in elements. A longer array is taken; what lies beyond the size is never touched. */
enum {
    RULEBOOK_STATES = 512,
    RULEBOOK_WORDS = 4095,
    RULEBOOK_CLAUSES = 15000,
    RULEBOOK_VALUES = 4095,
    RULEBOOK_WORK = 23191,
    RULEBOOK_ANSWER = 6,
    RULEBOOK_EVALUATE_WORK = 393728
};

/* The places of an answer's fields. */
enum {
    RULEBOOK_AT_NUMBER,
    RULEBOOK_AT_PLACE, /* the lowest bad node for 14, otherwise 0 */
    RULEBOOK_AT_STATES,
    RULEBOOK_AT_VARIABLES,
    RULEBOOK_AT_CLAUSES,
    RULEBOOK_AT_COUNT /* nodes of the search for 1 and 2, the budget for 3, otherwise 0 */
};

/* A state of the build; state 1 stands first and is all zero. */
typedef struct {
    uint16_t parent;
    uint16_t relation;
    uint16_t maker; /* the variable that made it */
} rulebook_state;

/*
 * The answer's number for the book in these bytes, within a budget of search nodes. Every array that it needs is its own, so 10 is never given.
 * With C the number of nodes of the search: 3 exactly if C is above the budget; otherwise 1 exactly if some finite structure makes the book true
 * at some state.
 */
uint32_t rulebook_check(const uint8_t *book, size_t book_length, uint32_t budget);

/*
 * The same over lent arrays, so that a host can show the structure. The answer's fields go into `answer`; its number is returned as well.
 *
 * 1, 2, 3: the build stands in states, words (state * 2,048 + key, one for each variable) and clauses (three numbers each); for 1 the values of the
 * variables are 0 or 1, for 2 and 3 they are all 0. Unused places are 0. State 1 lives; another state lives if its parent lives and its maker's value
 * is 1. A living state's true atoms are its variables of value 1 with keys from 1,024 on.
 * 10 to 14: nothing is touched but `answer`; with fewer than 6 places in `answer` the number is 10 and nothing at all is touched.
 * 15: states, words, clauses and values are all 0.
 * `work` is zero afterwards, but untouched by 10 to 14.
 */
uint32_t rulebook_check_into(const uint8_t *book, size_t book_length, uint32_t budget, rulebook_state *states, size_t states_length, uint32_t *words,
                             size_t words_length, int16_t *clauses, size_t clauses_length, uint8_t *values, size_t values_length, uint16_t *work,
                             size_t work_length, uint32_t *answer, size_t answer_length);

/*
 * Evaluates the book at state 1 of the structure that lies in these arrays, whatever they hold: RULEBOOK_YES if it is true there, RULEBOOK_NO if it is
 * not, or a refusal 10 to 14. The two counts are those of an answer (states, variables). `work` is zero afterwards, but untouched by 10 to 14.
 */
uint32_t rulebook_evaluate(const uint8_t *book, size_t book_length, const rulebook_state *states, size_t states_length, size_t states_count,
                           const uint32_t *words, size_t words_length, size_t variables_count, const uint8_t *values, size_t values_length,
                           uint8_t *work, size_t work_length);

#ifdef __cplusplus
}
#endif

#endif
