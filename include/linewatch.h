/* The line watch for C: word by word on a watch in memory that the caller lends; and, for whole traces, a rule text and records to the printed
 * sheet, and records from words.
 *
 * Every call takes every input, always returns, uses no heap and keeps nothing between calls but in what it is lent; calls may run at the
 * same time on different memory. A range is a pointer and its length, in bytes or for a watch in words; a range of length 0 may have a null
 * pointer. Ranges that a call reads must not overlap the one that it writes. */
#ifndef LINEWATCH_H
#define LINEWATCH_H

#include <stddef.h>
#include <stdint.h>

#ifdef __cplusplus
extern "C" {
#endif

/* ---- Word by word ----
 *
 * A watch is LINEWATCH_WORDS words, wherever the caller keeps them: `uint64_t watch[LINEWATCH_WORDS];` beside the length `LINEWATCH_WORDS`.
 * Their content is the library's; a copy of the words is a copy of the watch. So a watch is reset by copying: open it once, copy the words, and
 * copy them back to begin again at tick 0. Words that no call filled, or that were damaged, harm nothing but the answers, and the stack and
 * the time that a look or a take needs (docs/C.md).
 *
 * An answer is a number, taken apart by the functions below: its kind, and by the kind what else it tells. Where the range has fewer words than
 * a watch, the answer of open, look and take is refused with number 18, whatever the text and the word; store, met and ticks are 0; and nothing
 * is touched. */
#define LINEWATCH_WORDS 8192

enum {
    LINEWATCH_OK = 0,               /* accepted, or a good tick */
    LINEWATCH_BAD = 1,              /* a bad tick: number is the monitor, or from 32 on 32 plus the limit */
    LINEWATCH_REFUSED = 2,          /* refused: number, and of a text the byte (docs/REFUSALS.md) */
    LINEWATCH_REFUSED_LETTER = 3    /* a text refused: number, monitor and letter */
};

static inline unsigned linewatch_kind(uint64_t answer) { return (unsigned)(answer & 0xffff); }
static inline unsigned linewatch_number(uint64_t answer) { return (unsigned)(answer >> 16 & 0xffff); }

/* of an accepted text */
static inline unsigned linewatch_rows(uint64_t opened) { return (unsigned)(opened >> 16 & 0xffff); }
static inline unsigned linewatch_letters(uint64_t opened) { return (unsigned)(opened >> 32 & 0xffff); }

/* of a refused text: its byte; or for LINEWATCH_REFUSED_LETTER its monitor and the letter of that */
static inline unsigned linewatch_byte(uint64_t opened) { return (unsigned)(opened >> 32 & 0xffff); }
static inline unsigned linewatch_monitor(uint64_t opened) { return (unsigned)(opened >> 32 & 0xffff); }
static inline unsigned linewatch_letter(uint64_t opened) { return (unsigned)(opened >> 48 & 0xffff); }

/* of a take: the rows that its tick touched; 0 if it is refused */
static inline unsigned linewatch_touched(uint64_t taken) { return (unsigned)(taken >> 32 & 0xffff); }

/* The library's own functions: a range of so many watches, of which the first is used. The ones below them take its length in words. */
uint64_t linewatch_open_in(const uint8_t *text, size_t text_length, uint64_t *watches, size_t count);
uint64_t linewatch_look_in(const uint64_t *watches, size_t count, uint64_t word);
uint64_t linewatch_take_in(uint64_t *watches, size_t count, uint64_t word);
uint64_t linewatch_store_in(const uint64_t *watches, size_t count, size_t store);
uint64_t linewatch_met_in(const uint64_t *watches, size_t count, size_t monitor, size_t letter);
uint64_t linewatch_ticks_in(const uint64_t *watches, size_t count);

/* Opens a rule text into a watch: tick 0, the first store values, each monitor at its start. LINEWATCH_OK with rows and letters; or refused,
 * and the words are as they were. */
static inline uint64_t linewatch_open(const uint8_t *text, size_t text_length, uint64_t *watch, size_t words)
{
    return linewatch_open_in(text, text_length, watch, words / LINEWATCH_WORDS);
}

/* What taking the word would come to: OK, BAD or REFUSED (15, 16, 17). The watch stays as it is. */
static inline uint64_t linewatch_look(const uint64_t *watch, size_t words, uint64_t word)
{
    return linewatch_look_in(watch, words / LINEWATCH_WORDS, word);
}

/* The same answer, with the rows that the tick touched, and the watch moves: after OK by a tick; after BAD it is stopped, and refuses every
 * look and take with 16 until it is reset; REFUSED leaves it as it was. */
static inline uint64_t linewatch_take(uint64_t *watch, size_t words, uint64_t word)
{
    return linewatch_take_in(watch, words / LINEWATCH_WORDS, word);
}

/* The value of a store, numbered from 0 as they are declared; 0 where there is none. */
static inline uint64_t linewatch_store(const uint64_t *watch, size_t words, size_t store)
{
    return linewatch_store_in(watch, words / LINEWATCH_WORDS, store);
}

/* At how many ok ticks a letter of a monitor was met; 0 where there is none. */
static inline uint64_t linewatch_met(const uint64_t *watch, size_t words, size_t monitor, size_t letter)
{
    return linewatch_met_in(watch, words / LINEWATCH_WORDS, monitor, letter);
}

/* How many takes were ok. */
static inline uint64_t linewatch_ticks(const uint64_t *watch, size_t words)
{
    return linewatch_ticks_in(watch, words / LINEWATCH_WORDS);
}

/* ---- Whole traces ---- */

/* Writes the printed sheet of a rule text and of the records of a trace into a range.
 *
 * Returns the sheet's length in bytes; the range's bytes behind it are untouched. Returns 0 and leaves the whole range untouched if the range
 * is too short for the sheet (a sheet is never empty). A refused text, record or tick is a line of the sheet, `refused` with its number and
 * place. The line of a bad tick ends in `bad` and a number M: below 32 it is the lowest monitor that does not fit, and from 32 on all
 * monitors fit and the tick is beyond limit M - 32 of the text, the lowest such. Lines close with a line feed; no zero byte is added. */
size_t linewatch_sheet(const uint8_t *text, size_t text_length, const uint8_t *records, size_t records_length, uint8_t *sheet,
                       size_t sheet_length);

/* Writes the record of the word `word` behind the word `before` (0 before the first) into a range.
 *
 * Returns the record's length, 1 to 9 bytes; the range's bytes behind it are untouched. Returns 0 and leaves the whole range untouched if the
 * range is too short. */
size_t linewatch_write_record(uint64_t before, uint64_t word, uint8_t *out, size_t out_length);

#ifdef __cplusplus
}
#endif

#endif
