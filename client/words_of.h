/* The words of a trace, one after the other: a small reader of wire records. */
#ifndef WORDS_OF_H
#define WORDS_OF_H

#include <stddef.h>
#include <stdint.h>

/* How the reading of a record came out: there is one; the trace is over; or the number of the refusal (docs/REFUSALS.md). */
enum { RECORD_READ, RECORDS_END, RECORD_TORN = 13, RECORD_IDLE = 14 };

/* A trace: what is still to be read of it, and the last word that was, 0 before the first. */
struct trace {
    const uint8_t *at;
    size_t left;
    uint64_t word;
};

/* Reads the next record: its map, and for each bit that stands in it a byte of the word, lowest first, which differs from that of the word
 * before. */
static inline int next_word(struct trace *trace)
{
    size_t length = 1;
    uint64_t word = trace->word;
    int idle = 0;
    if (trace->left == 0)
        return RECORDS_END;
    for (unsigned i = 0; i < 64; i += 8) {
        if (!(trace->at[0] >> i / 8 & 1))
            continue;
        if (length == trace->left)
            return RECORD_TORN;
        uint64_t changed = (word >> i & 0xff) ^ trace->at[length++];
        idle |= changed == 0;
        word ^= changed << i;
    }
    if (idle)
        return RECORD_IDLE;
    trace->at += length;
    trace->left -= length;
    trace->word = word;
    return RECORD_READ;
}

#endif
