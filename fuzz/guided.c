/* One case of the guided fuzzer (fuzz/guided): an input through the C entries of the line watch, compared with `second`.
 *
 * How an input is split: its text ends before the first two bytes FF FE, and all behind them are records; where they do not stand, all is
 * text. The words for linewatch_write_record are the first and the second eight bytes of the records, lowest byte first, and zeros where
 * the records have ended. The words of the records are also looked at and taken one by one. Then the bytes of the records make words that no
 * call gave, in two ways (make_patched, make_repeated), and their first words are looked at and taken there.
 *
 * What each call must keep: it returns within a second; it answers as `second` does, or with 0 where the range is too short, or as a refusal
 * where it is too short for a watch; it changes no byte but those it answers for, neither of the range nor beside it, and neither text nor
 * records. Ranges lie between pages that nothing may touch, once against the one behind and once against the one before, so that an access
 * outside ends the program; a watch has just as many bytes as its pages. On words that no call gave any answer of a look or a take will do, but
 * both must give the same.
 *
 * A case that fails ends the program, and libFuzzer saves the input. */
#define _GNU_SOURCE
#include <stdint.h>
#include <stdio.h>
#include <stdlib.h>
#include <string.h>
#include <sys/mman.h>
#include <time.h>
#include <unistd.h>

#include "agree.h"
#include "linewatch.h"
#include "words_of.h"

size_t second_sheet(const uint8_t *text, size_t text_length, const uint8_t *records, size_t records_length, uint8_t *sheet,
                    size_t sheet_length);
size_t second_letters(const uint8_t *text, size_t text_length);
size_t second_record(uint64_t before, uint64_t word, uint8_t *out);

enum {
    MOST = 1 << 16,          /* bytes of an input; a longer one is left out */
    MOST_LETTERS = 256,
    MOST_SHEET = 256 + 24 * MOST_LETTERS + 64 * MOST,
    UNTOUCHED = 0xa5,        /* what a range is filled with before a call */
    MARGIN = 64,             /* bytes beside a range that are watched too */
    LONGEST_RECORD = 9,
    WATCH = 8 * LINEWATCH_WORDS,  /* bytes of a watch */
    PARTS = 8,                    /* of a watch, one of which words that no call gave may leave as opened */
    CLOSELY = 100,                /* so many takes of an input are looked at byte by byte */
    PATCH = 10                    /* bytes that overwrite a word */
};

static const double SECONDS = 1.0;

/* Pages between two that nothing may touch. */
struct room {
    uint8_t *first, *end;
};

/* Where in its room a range lies. */
enum side { FRONT, BACK };

struct bytes {
    const uint8_t *at;
    size_t length;
};

static struct room text_room, records_room, sheet_room, watch_room;
static uint8_t right_bytes[MOST_SHEET];
static uint64_t *watch, watch_before[LINEWATCH_WORDS], watch_opened[LINEWATCH_WORDS];

static void fail(const char *what)
{
    fprintf(stderr, "fails: %s\n", what);
    abort();
}

static struct room new_room(size_t bytes)
{
    size_t page = (size_t)sysconf(_SC_PAGESIZE);
    size_t length = (bytes + page - 1) / page * page;
    uint8_t *at = mmap(NULL, length + 2 * page, PROT_NONE, MAP_PRIVATE | MAP_ANONYMOUS, -1, 0);
    if (at == MAP_FAILED || mprotect(at + page, length, PROT_READ | PROT_WRITE) != 0)
        fail("no memory for ranges");
    return (struct room){at + page, at + page + length};
}

static uint8_t *place(struct room room, size_t length, enum side side)
{
    return side == FRONT ? room.first : room.end - length;
}

/* A copy in a room; nothing is a null pointer at its front. */
static struct bytes copy(struct room room, struct bytes from, enum side side)
{
    struct bytes to = {place(room, from.length, side), from.length};
    memcpy(place(room, from.length, side), from.at, from.length);
    if (from.length == 0 && side == FRONT)
        to.at = NULL;
    return to;
}

static int same(struct bytes a, struct bytes b)
{
    return a.length == b.length && (a.length == 0 || memcmp(a.at, b.at, a.length) == 0);
}

static int untouched(const uint8_t *from, const uint8_t *end)
{
    while (from < end)
        if (*from++ != UNTOUCHED)
            return 0;
    return 1;
}

/* The range of a length in the sheet's room, filled, with its margin. */
static uint8_t *fresh_range(size_t length, enum side side)
{
    memset(place(sheet_room, length + MARGIN, side), UNTOUCHED, length + MARGIN);
    return place(sheet_room, length, side);
}

/* Whether a range holds what it must: the right bytes if there is room for them, and else nothing. */
static void check_range(const uint8_t *range, size_t length, enum side side, struct bytes right, size_t answer)
{
    size_t written = length < right.length ? 0 : right.length;
    const uint8_t *first = place(sheet_room, length + MARGIN, side);
    if (answer != written)
        fail("the answer");
    if (written > 0 && memcmp(range, right.at, written) != 0)
        fail("the bytes written");
    if (!untouched(range + written, range + length))
        fail("the range beyond what is written");
    if (!untouched(first, range) || !untouched(range + length, first + length + MARGIN))
        fail("bytes beside the range");
}

static double seconds(void)
{
    struct timespec t;
    clock_gettime(CLOCK_PROCESS_CPUTIME_ID, &t);
    return (double)t.tv_sec + 1e-9 * (double)t.tv_nsec;
}

static void check_time(double start)
{
    if (seconds() - start > SECONDS)
        fail("a call took more than a second");
}

/* The sheet into a range of a length; text, records and range lie against the guard page of one side. */
static void check_sheet(struct bytes text, struct bytes records, size_t length, enum side side, struct bytes right)
{
    struct bytes t = copy(text_room, text, side), r = copy(records_room, records, side);
    uint8_t *range = fresh_range(length, side);
    double start = seconds();
    size_t answer = linewatch_sheet(t.at, t.length, r.at, r.length, range, length);
    check_time(start);
    check_range(range, length, side, right, answer);
    if (!same(t, text) || !same(r, records))
        fail("text or records changed");
}

/* Just the room with which the library writes in one pass, exactly enough room, one byte too few; then once more from the other side. The first
 * is 24 bytes for each letter, 64 for each byte of the records, of which no input has a million, and 256 besides. */
static void check_sheets(struct bytes text, struct bytes records, struct bytes right)
{
    check_sheet(text, records, 256 + 24 * second_letters(text.at, text.length) + 64 * records.length, BACK, right);
    check_sheet(text, records, right.length, BACK, right);
    check_sheet(text, records, right.length - 1, BACK, right);
    check_sheet(text, records, right.length, FRONT, right);
}

/* The record of a word, into ranges of every length up to one more than the longest. */
static void check_records(uint64_t before, uint64_t word)
{
    uint8_t bytes[LONGEST_RECORD];
    struct bytes right = {bytes, second_record(before, word, bytes)};
    for (size_t length = 0; length <= LONGEST_RECORD + 1; length++) {
        for (enum side side = FRONT; side <= BACK; side++) {
            uint8_t *range = fresh_range(length, side);
            size_t answer = linewatch_write_record(before, word, length == 0 && side == FRONT ? NULL : range, length);
            check_range(range, length, side, right, answer);
        }
    }
}

/* The word in the eight bytes from a place on. */
static uint64_t word_at(struct bytes b, size_t at)
{
    uint64_t word = 0;
    for (size_t i = 0; i < 8 && at + i < b.length; i++)
        word |= (uint64_t)b.at[at + i] << 8 * i;
    return word;
}

/* ---- a watch in words ---- */

static int watch_as_before(void)
{
    return memcmp(watch, watch_before, WATCH) == 0;
}

static int same_answer(uint64_t looked, uint64_t taken)
{
    return linewatch_kind(looked) == linewatch_kind(taken) && linewatch_number(looked) == linewatch_number(taken) && linewatch_touched(looked) == 0;
}

/* A look and a take that answer alike; neither the look nor a refused take changes a word. `closely` is whether that is asked. */
static uint64_t take_word(uint64_t word, int closely)
{
    if (closely)
        memcpy(watch_before, watch, WATCH);
    double start = seconds();
    uint64_t looked = linewatch_look(watch, LINEWATCH_WORDS, word);
    check_time(start);
    if (closely && !watch_as_before())
        fail("a look changes the watch");
    start = seconds();
    uint64_t taken = linewatch_take(watch, LINEWATCH_WORDS, word);
    check_time(start);
    if (linewatch_kind(taken) > LINEWATCH_REFUSED || !same_answer(looked, taken))
        fail("a look and a take differ");
    if (closely && linewatch_kind(taken) == LINEWATCH_REFUSED && (linewatch_touched(taken) != 0 || !watch_as_before()))
        fail("a refused take changes the watch");
    return taken;
}

/* Opens the text in words that are filled before; a refused text leaves them so. */
static uint64_t open_watch(struct bytes text, enum side side)
{
    struct bytes t = copy(text_room, text, side);
    memset(watch, UNTOUCHED, WATCH);
    double start = seconds();
    uint64_t opened = linewatch_open(t.at, t.length, watch, LINEWATCH_WORDS);
    check_time(start);
    if (!same(t, text))
        fail("the text changed");
    if (linewatch_kind(opened) != LINEWATCH_OK && !untouched((uint8_t *)watch, (uint8_t *)watch + WATCH))
        fail("a refused text changes the watch");
    memcpy(watch_opened, watch, WATCH);
    return opened;
}

/* The words of the records, each answer held to the right sheet up to where that ends. Behind it the watch begins again after each bad word. */
static void check_words(struct bytes text, struct bytes records, struct bytes right)
{
    uint64_t opened = open_watch(text, records.length % 2 == 0 ? FRONT : BACK);
    struct lines lines = {right.at, right.length};
    struct trace trace = {records.at, records.length, 0};
    int end, going = linewatch_kind(opened) == LINEWATCH_OK;
    if (!begins_as(&lines, opened))
        fail("what opening answers");
    if (!going)
        return;
    size_t tick = 0;
    for (; (end = next_word(&trace)) == RECORD_READ; tick++) {
        uint64_t taken = take_word(trace.word, tick < CLOSELY);
        if (going && !goes_on_as(&lines, tick, trace.word, taken))
            fail("what a take answers");
        if (going && linewatch_kind(taken) == LINEWATCH_BAD && !ends_as(&lines, watch, linewatch_letters(opened)))
            fail("the letters met before a bad word");
        going = going && linewatch_kind(taken) == LINEWATCH_OK;
        if (linewatch_kind(taken) == LINEWATCH_BAD) {
            if (linewatch_number(take_word(trace.word, 1)) != 16)
                fail("a watch that a bad word has not stopped");
            memcpy(watch, watch_opened, WATCH);
        }
    }
    if (!going)
        return;
    if (linewatch_ticks(watch, LINEWATCH_WORDS) != tick)
        fail("the ticks");
    if (end == RECORDS_END && !(goes_on(&lines, "clean %zu\n", tick) && ends_as(&lines, watch, linewatch_letters(opened))))
        fail("the letters met");
    if (end != RECORDS_END && !goes_on(&lines, "refused %d %zu\n", end, tick))
        fail("where the records end");
}

/* A range that is too short for a watch, against the page behind it. */
static void check_short(struct bytes text, size_t words)
{
    uint64_t *range = watch + (LINEWATCH_WORDS - words), refused = LINEWATCH_REFUSED | 18 << 16;
    memset(watch, UNTOUCHED, WATCH);
    if (linewatch_open(text.at, text.length, words == 0 ? NULL : range, words) != refused || linewatch_look(range, words, 0) != refused ||
        linewatch_take(range, words, 0) != refused)
        fail("what a short range answers");
    if (linewatch_store(range, words, 0) != 0 || linewatch_met(range, words, 0, 0) != 0 || linewatch_ticks(range, words) != 0)
        fail("what a short range tells");
    if (!untouched((uint8_t *)watch, (uint8_t *)watch + WATCH))
        fail("a short range changes");
}

/* Words that no call gave: the opened ones, each ten bytes overwriting the one that the first two of them name with the others. */
static void make_patched(struct bytes bytes)
{
    memcpy(watch, watch_opened, WATCH);
    for (size_t at = 0; at + PATCH <= bytes.length; at += PATCH)
        watch[(bytes.at[at] | (size_t)bytes.at[at + 1] << 8) % LINEWATCH_WORDS] = word_at(bytes, at + 2);
}

/* And the bytes over and over, but for a part that is as opened, if the first byte names one. */
static void make_repeated(struct bytes bytes)
{
    size_t words = (bytes.length + 7) / 8;
    for (size_t i = 0; i < LINEWATCH_WORDS; i++)
        watch[i] = words == 0 ? 0 : word_at(bytes, 8 * (i % words));
    size_t part = words == 0 ? PARTS : bytes.at[0] % (PARTS + 1);
    if (part < PARTS)
        memcpy(watch + part * (LINEWATCH_WORDS / PARTS), watch_opened + part * (LINEWATCH_WORDS / PARTS), WATCH / PARTS);
}

/* Looks and takes on such words, and what they tell. */
static void check_strange(struct bytes bytes)
{
    uint64_t words[] = {word_at(bytes, 0), word_at(bytes, 2), 0, 1, word_at(bytes, 0) & 0xff};
    for (size_t i = 0; i < sizeof words / sizeof *words; i++) {
        take_word(words[i], 1);
        memcpy(watch_before, watch, WATCH);
        linewatch_store(watch, LINEWATCH_WORDS, words[i]);
        linewatch_store(watch, LINEWATCH_WORDS, i);
        linewatch_met(watch, LINEWATCH_WORDS, words[i] & 31, words[i] >> 5 & 255);
        linewatch_met(watch, LINEWATCH_WORDS, words[i] >> 32, words[i]);
        linewatch_ticks(watch, LINEWATCH_WORDS);
        if (!watch_as_before())
            fail("telling changes the watch");
    }
}

static void check_watches(struct bytes text, struct bytes records, struct bytes right)
{
    check_words(text, records, right);
    make_patched(records);
    check_strange(records);
    make_repeated(records);
    check_strange(records);
    check_short(text, word_at(records, 0) % LINEWATCH_WORDS);
}

int LLVMFuzzerTestOneInput(const uint8_t *data, size_t size);

int LLVMFuzzerTestOneInput(const uint8_t *data, size_t size)
{
    if (size > MOST)
        return 0;
    if (!sheet_room.first) {
        text_room = new_room(MOST);
        records_room = new_room(MOST);
        sheet_room = new_room(MOST_SHEET + MARGIN);
        watch_room = new_room(WATCH);
        watch = (uint64_t *)(void *)watch_room.first;
    }
    const uint8_t *parted = size > 0 ? memmem(data, size, "\xff\xfe", 2) : NULL;
    struct bytes text = {data, parted ? (size_t)(parted - data) : size};
    struct bytes records = {parted ? parted + 2 : data + size, parted ? size - text.length - 2 : 0};
    struct bytes right = {right_bytes, second_sheet(text.at, text.length, records.at, records.length, right_bytes, MOST_SHEET)};
    if (right.length == 0)
        fail("second prints nothing");
    check_sheets(text, records, right);
    check_records(word_at(records, 0), word_at(records, 8));
    check_watches(text, records, right);
    return 0;
}
