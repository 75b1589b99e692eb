/* Measures the stack that the entries for a watch need: `stack FILE.. -- RULES TRACE ..`, over the texts and words of files of cases and of pairs of
 * files, over texts that are made to go deep, and over watches that no call gave. It prints what each needed most, and exits with 1 if a look or a
 * take needed more than docs/C.md says.
 *
 * A call runs on a stack of its own, which is filled before; the lowest word of it that has changed tells how deep the call went. */
#define _GNU_SOURCE
#include <stdarg.h>
#include <stdio.h>
#include <stdlib.h>
#include <string.h>
#include <ucontext.h>

#include "files.h"
#include "strange.h"
#include "words_of.h"

/* Words of the stack, more than a call needs, and of a piece of it. */
enum { PIECE = 512, STACK = 512 * PIECE };

static uint64_t stack[STACK];
static uint64_t watch[LINEWATCH_WORDS];

/* ---- one call ---- */

enum entry { OPEN, LOOK, TAKE, STORE, MET, TICKS, ENTRIES };

/* What is called, and what it answers. */
static struct {
    enum entry entry;
    struct bytes text;
    uint64_t word;
    uint64_t answer;
    const char *frame;
} call;

static ucontext_t caller, callee;

static uint64_t enter(void)
{
    switch (call.entry) {
    case OPEN:
        return linewatch_open(call.text.at, call.text.length, watch, LINEWATCH_WORDS);
    case LOOK:
        return linewatch_look(watch, LINEWATCH_WORDS, call.word);
    case TAKE:
        return linewatch_take(watch, LINEWATCH_WORDS, call.word);
    case STORE:
        return linewatch_store(watch, LINEWATCH_WORDS, call.word);
    case MET:
        return linewatch_met(watch, LINEWATCH_WORDS, call.word % 32, call.word % 256);
    default:
        return linewatch_ticks(watch, LINEWATCH_WORDS);
    }
}

/* The call on the other stack; from this frame on its depth is counted. */
static void on_stack(void)
{
    call.frame = __builtin_frame_address(0);
    call.answer = enter();
}

/* What the stack is filled with: no two words that are near are alike. */
static uint64_t filling[STACK];

static void make_filling(void)
{
    for (size_t i = 0; i < STACK; i++)
        filling[i] = random_word();
    memcpy(stack, filling, sizeof stack);
}

/* The most that each entry needed, in bytes. */
static size_t most[ENTRIES];

/* Makes a call, and tells how many bytes it needed. */
static size_t depth_of(enum entry entry, uint64_t word)
{
    call.entry = entry;
    call.word = word;
    getcontext(&callee);
    callee.uc_stack.ss_sp = stack;
    callee.uc_stack.ss_size = sizeof stack;
    callee.uc_link = &caller;
    makecontext(&callee, on_stack, 0);
    swapcontext(&caller, &callee);
    size_t low = 0;
    while (memcmp(stack + low, filling + low, PIECE * sizeof *stack) == 0)
        low += PIECE;
    while (stack[low] == filling[low])
        low++;
    memcpy(stack + low, filling + low, (STACK - low) * sizeof *stack);
    size_t depth = (size_t)(call.frame - (const char *)(stack + low));
    if (depth > most[entry])
        most[entry] = depth;
    return depth;
}

/* ---- over texts ---- */

/* The most that opening needed for texts of up to 512 bytes, of up to 4,096 and of more. */
static size_t opening[3];

/* Opens a text; tells whether it was accepted. */
static int open_text(struct bytes text)
{
    call.text = text;
    size_t depth = depth_of(OPEN, 0), class = text.length <= 512 ? 0 : text.length <= 4096 ? 1 : 2;
    if (depth > opening[class])
        opening[class] = depth;
    return linewatch_kind(call.answer) == LINEWATCH_OK;
}

/* The watch as it was opened. */
static uint64_t start[LINEWATCH_WORDS];

/* A look at a word and a take of it; after a bad one the watch is as it was opened. */
static void run_word(uint64_t word)
{
    depth_of(LOOK, word);
    depth_of(TAKE, word);
    if (linewatch_kind(call.answer) == LINEWATCH_BAD)
        memcpy(watch, start, sizeof watch);
}

/* What the watch tells. */
static void ask_watch(void)
{
    depth_of(STORE, 1);
    depth_of(MET, 1);
    depth_of(TICKS, 0);
}

static void run_text(struct bytes text, struct bytes records)
{
    struct trace trace = {records.at, records.length, 0};
    if (!open_text(text))
        return;
    memcpy(start, watch, sizeof start);
    while (next_word(&trace) == RECORD_READ)
        run_word(trace.word);
    ask_watch();
}

static void run_pair(const char *rules, const char *trace)
{
    struct bytes text = read_file(rules), records = read_file(trace);
    run_text(text, records);
    free(text.at);
    free(records.at);
}

/* The cases of a file: name, text, trace, sheet. */
static void run_cases(const char *name)
{
    struct bytes file = read_file(name);
    size_t at = 0;
    while (at < file.length) {
        part(file, &at);
        struct bytes text = part(file, &at), records = part(file, &at);
        part(file, &at);
        run_text(text, records);
    }
    free(file.at);
}

/* ---- texts that go deep ---- */

static char deep[16384];

static void put(const char *form, ...)
{
    va_list numbers;
    va_start(numbers, form);
    size_t length = strlen(deep);
    vsnprintf(deep + length, sizeof deep - length, form, numbers);
    va_end(numbers);
}

/* The text, and each word of eight wires; then opened once more with white space behind it, as a long one. */
static void run_deep(void)
{
    struct bytes text = {(uint8_t *)deep, strlen(deep)};
    if (!open_text(text)) {
        printf("stack: a deep text is refused\n");
        exit(1);
    }
    memcpy(start, watch, sizeof start);
    for (uint64_t word = 0; word < 256; word++)
        run_word(word);
    ask_watch();
    memset(deep + text.length, ' ', 4097);
    text.length += 4097;
    open_text(text);
}

/* 245 letters one after the other, in 511 bytes. */
static void run_letters(void)
{
    strcpy(deep, "input a;p->a");
    for (unsigned i = 0; i < 244; i++)
        put(",a");
    put(";monitor p;");
    run_deep();
}

/* A chain of 255 starred letters and one more. */
static void run_chain(void)
{
    strcpy(deep, "input F[7:0];p->");
    for (unsigned i = 0; i < 255; i++)
        put("(F==%u)*,", i);
    put("F==255;monitor p;");
    run_deep();
}

/* Stars in stars, by turns a `,` and the `*` on its left: of 256 letters no rows go deeper. */
static void run_stars(void)
{
    strcpy(deep, "input F[7:0];p0->(((F==0)*,F==1)*,F==2)*,F==3;");
    for (unsigned i = 1; i <= 126; i++)
        put("p%u->(p%u*,F==%u)*,F==%u;", i, i - 1, 2 * i + 2, 2 * i + 3);
    put("monitor p126;");
    run_deep();
}

/* ---- watches that no call gave ---- */

static void run_strange(void)
{
    struct bytes text = {(uint8_t *)(uintptr_t)STRANGE_TEXT, sizeof STRANGE_TEXT - 1};
    open_text(text);
    memcpy(start, watch, sizeof start);
    for (unsigned number = 0; number < STRANGE_CASES; number++) {
        memcpy(watch, start, sizeof watch);
        make_strange(watch, number);
        for (unsigned i = 0; i < 4; i++) {
            depth_of(LOOK, random_word() % 2048);
            depth_of(TAKE, random_word() % 2048);
        }
        ask_watch();
    }
}

/* ---- */

static int bad;

static double kilobytes(size_t bytes)
{
    return (double)bytes / 1024;
}

/* What was needed most since the last time; a look and a take must be within so many KB. */
static void tell(const char *name, size_t most_kilobytes)
{
    size_t others = most[STORE] > most[MET] ? most[STORE] : most[MET];
    others = others > most[TICKS] ? others : most[TICKS];
    printf("stack: %s: look %.1f KB, take %.1f KB, store, met and ticks %zu bytes\n", name, kilobytes(most[LOOK]), kilobytes(most[TAKE]), others);
    if (most[LOOK] > 1024 * most_kilobytes || most[TAKE] > 1024 * most_kilobytes) {
        printf("stack: %s: a look or a take needs more than %zu KB\n", name, most_kilobytes);
        bad = 1;
    }
    memset(most, 0, sizeof most);
}

/* What opening needed. */
static void tell_opening(const char *name)
{
    printf("stack: %s: opening %.0f KB for up to 512 bytes, %.0f KB for up to 4,096, %.0f KB for more\n", name, kilobytes(opening[0]),
           kilobytes(opening[1]), kilobytes(opening[2]));
    memset(opening, 0, sizeof opening);
}

int main(int argc, char **argv)
{
    int i = 1;
    make_filling();
    for (; i < argc && strcmp(argv[i], "--") != 0; i++)
        run_cases(argv[i]);
    for (i++; i + 1 < argc; i += 2)
        run_pair(argv[i], argv[i + 1]);
    tell("shipped texts", 16);
    tell_opening("shipped texts");
    run_letters();
    run_chain();
    run_stars();
    tell("the deepest texts", 48);
    tell_opening("the deepest texts");
    run_strange();
    tell("watches that no call gave", 336);
    return bad;
}
