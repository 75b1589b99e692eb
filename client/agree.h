/* Holds answers of a watch to the printed sheet of the same words, line by line. */
#ifndef AGREE_H
#define AGREE_H

#include <inttypes.h>
#include <stdarg.h>
#include <stdio.h>
#include <string.h>

#include "linewatch.h"

/* What is left of a sheet. */
struct lines {
    const uint8_t *at;
    size_t length;
};

/* Whether a sheet goes on with a line, which is passed over then. */
static inline int goes_on(struct lines *sheet, const char *form, ...)
{
    char line[80];
    va_list numbers;
    va_start(numbers, form);
    size_t length = (size_t)vsnprintf(line, sizeof line, form, numbers);
    va_end(numbers);
    if (sheet->length < length || memcmp(sheet->at, line, length) != 0)
        return 0;
    sheet->at += length;
    sheet->length -= length;
    return 1;
}

/* Whether the first line is what opening answered: both counts, or the refusal and nothing behind it. */
static inline int begins_as(struct lines *sheet, uint64_t opened)
{
    unsigned number = linewatch_number(opened);
    switch (linewatch_kind(opened)) {
    case LINEWATCH_OK:
        return goes_on(sheet, "rows %u letters %u\n", linewatch_rows(opened), linewatch_letters(opened));
    case LINEWATCH_REFUSED:
        return goes_on(sheet, "refused %u %u\n", number, linewatch_byte(opened)) && sheet->length == 0;
    case LINEWATCH_REFUSED_LETTER:
        return goes_on(sheet, "refused %u %u %u\n", number, linewatch_monitor(opened), linewatch_letter(opened)) && sheet->length == 0;
    }
    return 0;
}

/* Whether the next line is what a take of a word answered; behind a refusal nothing stands. */
static inline int goes_on_as(struct lines *sheet, size_t tick, uint64_t word, uint64_t taken)
{
    unsigned number = linewatch_number(taken);
    switch (linewatch_kind(taken)) {
    case LINEWATCH_OK:
        return goes_on(sheet, "%zu %016" PRIx64 " ok\n", tick, word);
    case LINEWATCH_BAD:
        return goes_on(sheet, "%zu %016" PRIx64 " bad %u\n", tick, word, number);
    case LINEWATCH_REFUSED:
        return goes_on(sheet, "refused %u %zu\n", number, tick) && sheet->length == 0;
    }
    return 0;
}

/* Whether the next line tells how often the watch has met a letter. That is added to the total, also where the sheet has no such letter, for then
 * it must be 0. */
static inline int goes_on_met(struct lines *sheet, const uint64_t *watch, size_t monitor, size_t letter, uint64_t *total)
{
    uint64_t met = linewatch_met(watch, LINEWATCH_WORDS, monitor, letter);
    *total += met;
    return goes_on(sheet, "met %zu %zu %" PRIu64 "\n", monitor, letter, met);
}

/* Whether the foot is what the watch tells, to the end: a line for each of its letters, and their total. */
static inline int ends_as(struct lines *sheet, const uint64_t *watch, size_t letters)
{
    size_t count = 0;
    uint64_t total = 0;
    for (size_t monitor = 0; goes_on_met(sheet, watch, monitor, 0, &total); monitor++) {
        count++;
        for (size_t letter = 1; goes_on_met(sheet, watch, monitor, letter, &total); letter++)
            count++;
    }
    return count == letters && goes_on(sheet, "total %" PRIu64 "\n", total) && sheet->length == 0;
}

#endif
