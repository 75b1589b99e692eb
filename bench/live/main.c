/* What a tick costs from C: one million words taken one by one, with a look before each and without, against the loop of linewatch_sheet over the
 * same words, which also reads records and prints. The texts and words are those of cases; the ways take turns in one run, and the best time of each
 * is told. */
#define _POSIX_C_SOURCE 199309L
#include <stdio.h>
#include <stdlib.h>
#include <string.h>
#include <time.h>

#include "files.h"
#include "words_of.h"

enum { TICKS = 1000000, ROUNDS = 7, MOST_TRACES = 16, SHEET = 6400 + 64 * TICKS };

static uint64_t watch[LINEWATCH_WORDS], start[LINEWATCH_WORDS], saved[LINEWATCH_WORDS];
static uint64_t words[TICKS];
static uint8_t records[9 * TICKS], sheet[SHEET];

static void stop(const char *why)
{
    fprintf(stderr, "bench/live: %s\n", why);
    exit(1);
}

static double seconds(void)
{
    struct timespec t;
    clock_gettime(CLOCK_MONOTONIC, &t);
    return (double)t.tv_sec + 1e-9 * (double)t.tv_nsec;
}

/* ---- a million good words ---- */

/* Takes a trace from where the watch is, at tick `tick`, as far as there is room, and keeps its words. Where one is not ok the watch stays as it
 * was, and there are none. */
static size_t append(struct bytes trace_bytes, size_t tick)
{
    struct trace trace = {trace_bytes.at, trace_bytes.length, 0};
    size_t count = 0;
    memcpy(saved, watch, sizeof saved);
    while (tick + count < TICKS && next_word(&trace) == RECORD_READ) {
        if (linewatch_kind(linewatch_take(watch, LINEWATCH_WORDS, trace.word)) != LINEWATCH_OK) {
            memcpy(watch, saved, sizeof watch);
            return 0;
        }
        words[tick + count++] = trace.word;
    }
    return count;
}

/* The words of the traces in turn, each whole; those that do not fit where they would stand are left out there, and a tick of zeros stands where
 * none fits. */
static void make_words(const struct bytes *traces, size_t count)
{
    static const uint8_t zeros[] = {0};
    struct bytes idle = {(uint8_t *)(uintptr_t)zeros, 1};
    size_t tick = 0, next = 0;
    memcpy(watch, start, sizeof watch);
    while (tick < TICKS) {
        size_t more = 0;
        for (size_t tried = 0; more == 0 && tried < count; tried++)
            more = append(traces[next++ % count], tick);
        if (more == 0)
            more = append(idle, tick);
        if (more == 0)
            stop("no word is ok");
        tick += more;
    }
}

static size_t make_records(void)
{
    size_t length = 0;
    for (size_t i = 0; i < TICKS; i++)
        length += linewatch_write_record(i == 0 ? 0 : words[i - 1], words[i], records + length, sizeof records - length);
    return length;
}

/* ---- the ways ---- */

/* A million takes, with so many looks before each. */
static double time_takes(unsigned looks)
{
    uint64_t answers = 0;
    memcpy(watch, start, sizeof watch);
    double begin = seconds();
    for (size_t i = 0; i < TICKS; i++) {
        for (unsigned k = 0; k < looks; k++)
            answers |= linewatch_look(watch, LINEWATCH_WORDS, words[i]);
        answers |= linewatch_take(watch, LINEWATCH_WORDS, words[i]);
    }
    double end = seconds();
    if (linewatch_kind(answers) != LINEWATCH_OK || linewatch_ticks(watch, LINEWATCH_WORDS) != TICKS)
        stop("a word is not ok");
    return (end - begin) / TICKS;
}

/* The sheet, in one pass: its range is as long as it can have to be. */
static double time_sheet(struct bytes text, size_t length)
{
    double begin = seconds();
    size_t written = linewatch_sheet(text.at, text.length, records, length, sheet, sizeof sheet);
    double end = seconds();
    char clean[32];
    size_t line = (size_t)snprintf(clean, sizeof clean, "\nclean %d\n", TICKS), at = written;
    while (at >= line && memcmp(sheet + at - line, clean, line) != 0)
        at--;
    if (at < line)
        stop("the sheet is not clean");
    return (end - begin) / TICKS;
}

static double least(double a, double b)
{
    return a < b ? a : b;
}

/* ---- a folder of cases ---- */

static void compare(const char *name, const char *folder, const char *const *names)
{
    char path[256];
    struct bytes traces[MOST_TRACES];
    size_t count = 0;
    snprintf(path, sizeof path, "cases/%s/rules.txt", folder);
    struct bytes text = read_file(path);
    uint64_t opened = linewatch_open(text.at, text.length, start, LINEWATCH_WORDS);
    if (linewatch_kind(opened) != LINEWATCH_OK)
        stop(path);
    for (; names[count]; count++) {
        snprintf(path, sizeof path, "cases/%s/%s.bin", folder, names[count]);
        traces[count] = read_file(path);
    }
    make_words(traces, count);
    size_t length = make_records();

    double printed = 1e9, taken = 1e9, looked = 1e9, reset = 1e9;
    for (int i = 0; i < ROUNDS; i++) {
        printed = least(printed, time_sheet(text, length));
        taken = least(taken, time_takes(0));
        looked = least(looked, time_takes(1));
        double begin = seconds();
        for (int k = 0; k < 100; k++)
            memcpy(k % 2 ? watch : saved, start, sizeof watch);
        reset = least(reset, (seconds() - begin) / 100);
    }
    looked -= taken;
    printf("%s: %u rows, %u letters: the sheet %.0f ns a tick, take %.0f ns, ratio %.2f, look %.0f ns, ratio %.2f; a reset %.1f us\n", name,
           linewatch_rows(opened), linewatch_letters(opened), 1e9 * printed, 1e9 * taken, taken / printed, 1e9 * looked, looked / printed, 1e6 * reset);
    for (size_t i = 0; i < count; i++)
        free(traces[i].at);
    free(text.at);
}

int main(void)
{
    static const char *const slave[] = {"clean_back_to_back", "clean_master_switch", "clean_single",      "clean_split",
                                        "clean_split_again",  "clean_unselected",    "clean_wait_states", NULL};
    static const char *const basic[] = {"clean_back_to_back", "clean_single", "clean_unselected", "clean_wait_states", NULL};
    static const char *const windows[] = {"clean_1024", "clean_64", NULL};
    compare("AHB slave of document 004, whole", "ahb_slave", slave);
    compare("(b) AHB slave of document 004", "ahb_slave_basic", basic);
    compare("eight limits", "limit_windows", windows);
    return 0;
}
