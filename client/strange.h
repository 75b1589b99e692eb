/* Watches that no call gave, for tests: opened ones of which parts are overwritten, or some bits are others. */
#ifndef STRANGE_H
#define STRANGE_H

#include <stdint.h>

#include "linewatch.h"

/* splitmix64 */
static inline uint64_t random_word(void)
{
    static uint64_t state;
    uint64_t z = state += 0x9e3779b97f4a7c15;
    z = (z ^ z >> 30) * 0xbf58476d1ce4e5b9;
    z = (z ^ z >> 27) * 0x94d049bb133111eb;
    return z ^ z >> 31;
}

/* A text of 11 wires with 220 letters in four monitors, with stores, limits, stars and threads, so that no table of its watch is empty. */
static const char STRANGE_TEXT[] = "input F[7:0]; input K[1:0]; input a; internal s[7:0] = 3; internal t = 0;"
                                   "x -> a & K == 0 {t <- 1;}; y -> K == 1 & F == past(F); z -> K == 3 & F == s {s <- F;};"
                                   "e -> x, (y || K == 2)*, z @ (F == 1 || F == 2, a), x || !a & K == 0, z, F[0]; q -> e, e, e, e, e;"
                                   "limit x to 9 in 10; limit y to 900 in 1024; monitor q, q, q, q;";

/* So many words are overwritten together. */
enum { STRANGE_PART = 1024, STRANGE_PARTS = LINEWATCH_WORDS / STRANGE_PART };

/* What a part is overwritten with: zeros; ones; random words; small numbers, four a word; or such that lead from word to word, as rows of a table
 * could, round and round: five kinds of them, each over four distances. */
enum { STRANGE_ZEROS, STRANGE_ONES, STRANGE_RANDOM, STRANGE_SMALL, STRANGE_ROUND, STRANGE_WAYS = STRANGE_ROUND + 5 * 4 };

/* Four numbers of 16 bits as a word. */
static inline uint64_t strange_quad(uint64_t a, uint64_t b, uint64_t c, uint64_t d)
{
    return a | b << 16 | c << 32 | d << 48;
}

static inline uint64_t strange_round(unsigned kind, unsigned distance, size_t i)
{
    static const size_t on[4][3] = {{1, 1, 1}, {0, 0, 1}, {2, 3, 5}, {1, 0, STRANGE_PART - 1}};
    const size_t *by = on[distance];
    return strange_quad(kind, (i + by[0]) % STRANGE_PART, (i + by[1]) % STRANGE_PART, (i + by[2]) % STRANGE_PART);
}

static inline uint64_t strange_word(unsigned way, size_t i)
{
    switch (way) {
    case STRANGE_ZEROS:
        return 0;
    case STRANGE_ONES:
        return UINT64_MAX;
    case STRANGE_RANDOM:
        return random_word();
    case STRANGE_SMALL:
        return strange_quad(random_word() % 5, random_word() % 1024, random_word() % 1024, random_word() % 1024);
    }
    return strange_round((way - STRANGE_ROUND) / 4, (way - STRANGE_ROUND) % 4, i);
}

/* The cases: in each way one part is overwritten, or all but one, or all. */
enum { STRANGE_CASES = STRANGE_WAYS * (2 * STRANGE_PARTS + 1) };

static inline void make_strange(uint64_t *watch, unsigned number)
{
    unsigned way = number % STRANGE_WAYS, which = number / STRANGE_WAYS;
    for (unsigned part = 0; part < STRANGE_PARTS; part++)
        if (which < STRANGE_PARTS ? part == which : part != which - STRANGE_PARTS)
            for (size_t i = 0; i < STRANGE_PART; i++)
                watch[part * STRANGE_PART + i] = strange_word(way, i);
}

/* Turns some bits of a watch, one of so many. */
static inline void damage(uint64_t *watch, uint64_t of)
{
    for (uint64_t at = random_word() % of; at < 64 * LINEWATCH_WORDS; at += 1 + random_word() % (2 * of))
        watch[at / 64] ^= UINT64_C(1) << at % 64;
}

#endif
