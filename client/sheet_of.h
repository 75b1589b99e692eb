/* What the C clients share: bytes with their length, numbers of 32 bits, and the sheet of a text and a trace. */
#ifndef SHEET_OF_H
#define SHEET_OF_H

#include <stdlib.h>

#include "linewatch.h"

struct bytes {
    uint8_t *at;
    size_t length;
};

/* The number in four bytes, the lowest first. */
static inline size_t number_at(const uint8_t *p)
{
    return p[0] | (size_t)p[1] << 8 | (size_t)p[2] << 16 | (size_t)p[3] << 24;
}

/* The sheet in memory of its own, with as much room as it can need: 64 bytes for the line of each tick, whose record has at least one byte, and 6,400
 * for the other lines, which are 24 for each of at most 256 letters at the foot and 256.
 *
 * The call needs up to 552 KB of stack, by the length of the text (docs/C.md); the first thread of a program mostly has 8 MB. */
static inline struct bytes sheet_of(struct bytes text, struct bytes records)
{
    size_t room = 6400 + 64 * (records.length < 1000000 ? records.length : 1000000);
    struct bytes sheet = {malloc(room), 0};
    if (!sheet.at)
        exit(2);
    sheet.length = linewatch_sheet(text.at, text.length, records.at, records.length, sheet.at, room);
    return sheet;
}

#endif
