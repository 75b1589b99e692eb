/* Tests of a watch as words that C lends: what each entry leaves as it was, ranges that are too short, words beside a watch, copies, stores, and
 * watches that no call gave. It prints a line for each difference, and last how much there was; it exits with 0 if all is well. */
#include <stdio.h>
#include <stdlib.h>
#include <string.h>
#include <time.h>

#include "strange.h"

/* Words beside a range that nothing may touch; and from which word of a watch on takes may change it. */
enum { MARGIN = 512, STATE = LINEWATCH_WORDS - 1024 };

/* A call that takes longer, in seconds of the processor, has not ended. */
static const double LONGEST = 1.0;

static int bad;
static unsigned long calls;

static void check(const char *name, int ok)
{
    if (!ok && ++bad <= 20)
        printf("differs: %s\n", name);
}

/* ---- a range, and what it was before ---- */

/* Room for a watch and more, between margins. */
static uint64_t room[MARGIN + 2 * LINEWATCH_WORDS + MARGIN], kept[MARGIN + 2 * LINEWATCH_WORDS + MARGIN];
static uint64_t *const watch = room + MARGIN;

static void fill(void)
{
    for (size_t i = 0; i < sizeof room / sizeof *room; i++)
        room[i] = random_word();
}

static void keep(void)
{
    memcpy(kept, room, sizeof room);
}

/* Whether all is as it was. */
static int as_kept(void)
{
    return memcmp(kept, room, sizeof room) == 0;
}

/* Whether all but the words of the watch is. */
static int beside_as_kept(void)
{
    size_t behind = MARGIN + LINEWATCH_WORDS;
    return memcmp(kept, room, MARGIN * sizeof *room) == 0 && memcmp(kept + behind, room + behind, sizeof room - behind * sizeof *room) == 0;
}

/* Whether all but the last words of the watch is, those that takes may change. */
static int tables_as_kept(void)
{
    return beside_as_kept() && memcmp(kept + MARGIN, watch, STATE * sizeof *watch) == 0;
}

/* ---- the entries ---- */

static uint64_t open_text(const char *text, uint64_t *words, size_t count)
{
    calls++;
    return linewatch_open((const uint8_t *)text, strlen(text), words, count);
}

static uint64_t look(uint64_t word)
{
    calls++;
    return linewatch_look(watch, LINEWATCH_WORDS, word);
}

static uint64_t take(uint64_t word)
{
    calls++;
    return linewatch_take(watch, LINEWATCH_WORDS, word);
}

static uint64_t store(size_t number)
{
    calls++;
    return linewatch_store(watch, LINEWATCH_WORDS, number);
}

static uint64_t met(size_t monitor, size_t letter)
{
    calls++;
    return linewatch_met(watch, LINEWATCH_WORDS, monitor, letter);
}

static uint64_t ticks(void)
{
    calls++;
    return linewatch_ticks(watch, LINEWATCH_WORDS);
}

static int is_ok(uint64_t answer)
{
    return linewatch_kind(answer) == LINEWATCH_OK;
}

static int is_bad(uint64_t answer, unsigned monitor)
{
    return linewatch_kind(answer) == LINEWATCH_BAD && linewatch_number(answer) == monitor;
}

/* Refused with a number; a take or a look that is refused tells nothing else, and of the entries only opening tells a place. */
static int is_refused(uint64_t answer, unsigned number)
{
    return answer == (LINEWATCH_REFUSED | (uint64_t)number << 16);
}

/* ---- ranges ---- */

static const char ONE[] = "input a; p -> a; monitor p;";

/* A range that is too short for a watch: 18 for all texts and words, and nothing is touched. */
static void too_short(uint64_t *words, size_t count)
{
    keep();
    check("opening in a short range", is_refused(open_text(ONE, words, count), 18));
    check("a refused text in a short range", is_refused(open_text("?", words, count), 18));
    check("a look in a short range", is_refused(linewatch_look(words, count, 1), 18));
    check("a take in a short range", is_refused(linewatch_take(words, count, 1), 18));
    check("a store in a short range", linewatch_store(words, count, 0) == 0);
    check("a letter in a short range", linewatch_met(words, count, 0, 0) == 0);
    check("ticks in a short range", linewatch_ticks(words, count) == 0);
    check("a short range is touched", as_kept());
    calls += 5;
}

static void short_ranges(void)
{
    fill();
    too_short(NULL, 0);
    for (int opened = 0; opened < 2; opened++) {
        too_short(watch, 0);
        too_short(watch, 1);
        too_short(watch, LINEWATCH_WORDS - 1);
        /* once more in words that are a watch, but for their number */
        check("opening", is_ok(open_text(ONE, watch, LINEWATCH_WORDS)) && is_ok(take(1)));
    }
}

/* A range may be longer than a watch; only the first words of it are one. */
static void long_ranges(void)
{
    for (size_t count = LINEWATCH_WORDS; count <= 2 * LINEWATCH_WORDS; count += LINEWATCH_WORDS / 2 - 1) {
        fill();
        keep();
        uint64_t opened = open_text(ONE, watch, count);
        check("opening in a long range", is_ok(opened) && linewatch_rows(opened) == 1 && linewatch_letters(opened) == 1);
        check("a take in a long range", is_ok(linewatch_take(watch, count, 1)));
        check("a look in a long range", is_bad(linewatch_look(watch, count, 0), 0));
        check("ticks in a long range", linewatch_ticks(watch, count) == 1 && linewatch_met(watch, count, 0, 0) == 1);
        check("a bad take in a long range", is_bad(linewatch_take(watch, count, 0), 0));
        check("words beside a watch are touched", beside_as_kept());
        calls += 5;
    }
}

/* ---- refusals ---- */

/* A text that is refused, and the answer: number, and byte or monitor and letter. */
struct refused {
    const char *text;
    unsigned kind, number, first, second;
};

static const struct refused REFUSED[] = {
    {"", LINEWATCH_REFUSED, 3, 0, 0},
    {"input a; p -> a | !a; monitor p;", LINEWATCH_REFUSED, 2, 16, 0},
    {"input a input b; p -> a; monitor p;", LINEWATCH_REFUSED, 3, 8, 0},
    {"input a; p -> b; monitor p;", LINEWATCH_REFUSED, 4, 14, 0},
    {"input a; input a; p -> a; monitor p;", LINEWATCH_REFUSED, 5, 15, 0},
    {"input D[3:0]; p -> D == 16; monitor p;", LINEWATCH_REFUSED, 6, 24, 0},
    {"input a; internal s = 0; p -> a {s <- 1; s <- 1; s <- 1;}; monitor p;", LINEWATCH_REFUSED, 7, 49, 0},
    {"input a; q -> a, a, a, a, a, a, a, a; p -> q, q, q, q, q, q, q, q; monitor p, p, p, p, q;", LINEWATCH_REFUSED_LETTER, 8, 4, 0},
    {"input a; p -> a; q -> a, a & !a; monitor p, q;", LINEWATCH_REFUSED_LETTER, 9, 1, 1},
    {"input a; p -> a*; monitor p;", LINEWATCH_REFUSED_LETTER, 10, 0, 0},
    {"input a; input b; p -> a @ (b, b*) || !a; monitor p;", LINEWATCH_REFUSED_LETTER, 11, 0, 1},
    {"input a; input b; p -> a, b || a, !b; monitor p;", LINEWATCH_REFUSED_LETTER, 12, 0, 0},
    {"input a; x -> a; p -> x || !a; limit x to 8 in 8; monitor p;", LINEWATCH_REFUSED, 21, 47, 0},
    {"input a; p -> a || !a; limit p to 2 in 8; monitor p;", LINEWATCH_REFUSED, 22, 29, 0},
};

static void refuse(const struct refused *right)
{
    keep();
    uint64_t opened = open_text(right->text, watch, LINEWATCH_WORDS);
    check(right->text, linewatch_kind(opened) == right->kind && linewatch_number(opened) == right->number);
    if (right->kind == LINEWATCH_REFUSED)
        check(right->text, linewatch_byte(opened) == right->first);
    else
        check(right->text, linewatch_monitor(opened) == right->first && linewatch_letter(opened) == right->second);
    check("a refused text changes words", as_kept());
}

/* A text of one byte more than there may be, and one of just as many. */
static void overlong(void)
{
    static uint8_t text[16385];
    memset(text, ' ', sizeof text);
    memcpy(text, ONE, sizeof ONE - 1);
    keep();
    check("an overlong text", is_refused(linewatch_open(text, sizeof text, watch, LINEWATCH_WORDS), 1) && as_kept());
    check("the longest text", is_ok(linewatch_open(text, sizeof text - 1, watch, LINEWATCH_WORDS)));
    calls += 2;
}

/* In words that no call gave, and in a watch that has moved on, which still answers as before. */
static void refused_texts(void)
{
    fill();
    for (size_t i = 0; i < sizeof REFUSED / sizeof *REFUSED; i++)
        refuse(&REFUSED[i]);
    overlong();
    check("two takes", is_ok(take(1)) && is_ok(take(1)));
    for (size_t i = 0; i < sizeof REFUSED / sizeof *REFUSED; i++)
        refuse(&REFUSED[i]);
    check("a watch after refused texts", ticks() == 2 && met(0, 0) == 2 && is_ok(look(1)) && is_bad(look(0), 0));
}

/* A look and a take that are refused alike, and change nothing. */
static void refuse_word(const char *name, uint64_t word, unsigned number)
{
    keep();
    check(name, is_refused(look(word), number) && is_refused(take(word), number) && as_kept());
}

/* A look that changes nothing, whatever it tells. */
static void only_look(uint64_t word, unsigned kind)
{
    keep();
    check("a look", linewatch_kind(look(word)) == kind && as_kept());
}

static void refused_words(void)
{
    fill();
    check("opening", is_ok(open_text(ONE, watch, LINEWATCH_WORDS)));
    refuse_word("a stray word", 2, 15);
    refuse_word("a stray word", UINT64_MAX, 15);
    only_look(0, LINEWATCH_BAD);
    only_look(1, LINEWATCH_OK);
    check("a take", is_ok(take(1)));
    refuse_word("a stray word after a take", UINT64_C(1) << 63, 15);
    only_look(0, LINEWATCH_BAD);
    check("a bad take", is_bad(take(0), 0));
    check("what a bad take leaves", ticks() == 1 && met(0, 0) == 1);
    refuse_word("a good word after a bad one", 1, 16);
    refuse_word("a bad word after a bad one", 0, 16);
    refuse_word("a stray word after a bad one", 2, 16);
}

/* 1,000,000 good ticks, of which the last two are looked at closely, and then no more. */
static void full(void)
{
    check("opening", is_ok(open_text(ONE, watch, LINEWATCH_WORDS)));
    for (unsigned long i = 0; i < 999998; i++)
        if (!is_ok(take(1)))
            check("one of 1,000,000 ticks", 0);
    for (unsigned i = 0; i < 2; i++) {
        refuse_word("a stray word before the end", 2, 15);
        only_look(0, LINEWATCH_BAD);
        only_look(1, LINEWATCH_OK);
        check("one of the last two ticks", is_ok(take(1)));
    }
    refuse_word("a good word after 1,000,000", 1, 17);
    refuse_word("a bad word after 1,000,000", 0, 17);
    refuse_word("a stray word after 1,000,000", 2, 17);
    check("what 1,000,000 leave", ticks() == 1000000 && met(0, 0) == 1000000);
}

/* ---- what a watch tells ---- */

/* The first values of sixteen stores, and of those that are not there; and two stores that are written. */
static void stores(void)
{
    char text[2048] = "input go;";
    for (unsigned i = 0; i < 16; i++)
        sprintf(text + strlen(text), "internal s%u[%u:0] = %u;", i, 63 - i, 100 + i);
    strcat(text, "p -> !go || go; monitor p;");
    check("opening 16 stores", is_ok(open_text(text, watch, LINEWATCH_WORDS)));
    for (size_t i = 0; i < 16; i++)
        check("a first value", store(i) == 100 + i);
    for (size_t i = 16; i < 20; i++)
        check("a store that is not there", store(i) == 0);
    check("a store that is not there", store(SIZE_MAX) == 0 && store(UINT32_MAX) == 0 && store(65536) == 0);
    check("a take", is_ok(take(0)) && store(3) == 103);

    const char *writes = "input D[63:0]; internal s[63:0] = 18446744073709551615; internal t = 0;"
                         "p -> D == past(D) {t <- 1;}, D == 7 {t <- 0; s <- D;}, D == 18446744073709551614 {s <- D;}; monitor p;";
    check("opening writes", is_ok(open_text(writes, watch, LINEWATCH_WORDS)));
    check("the first values", store(0) == UINT64_MAX && store(1) == 0 && store(2) == 0);
    only_look(0, LINEWATCH_OK);
    check("a write by a number", is_ok(take(0)) && store(0) == UINT64_MAX && store(1) == 1);
    check("a write by a field", is_ok(take(7)) && store(0) == 7 && store(1) == 0);
    check("a bad word writes nothing", is_bad(look(8), 0) && store(0) == 7);
    check("a write of 64 bits", is_ok(take(UINT64_MAX - 1)) && store(0) == UINT64_MAX - 1 && store(1) == 0);
    check("a bad take writes nothing", is_bad(take(8), 0) && store(0) == UINT64_MAX - 1 && store(1) == 0);
}

/* Letters that are not there were never met, however near to those that are. */
static void letters(void)
{
    check("opening", is_ok(open_text("input a; p -> a, a; q -> a; r -> a, a, a; monitor p, q, r;", watch, LINEWATCH_WORDS)));
    for (unsigned i = 0; i < 6; i++)
        check("a take", is_ok(take(1)));
    check("letters met", met(0, 0) == 3 && met(0, 1) == 3 && met(1, 0) == 6 && met(2, 0) == 2 && met(2, 1) == 2 && met(2, 2) == 2);
    check("letters that are not there", met(0, 2) == 0 && met(1, 1) == 0 && met(2, 3) == 0 && met(3, 0) == 0 && met(0, 6) == 0);
    static const size_t far[] = {6, 31, 32, 33, 255, 256, 65535, 65536, UINT32_MAX, (size_t)UINT32_MAX + 1, SIZE_MAX};
    for (size_t i = 0; i < sizeof far / sizeof *far; i++)
        for (size_t k = 0; k < sizeof far / sizeof *far; k++)
            check("letters far from there", met(far[i], 0) == 0 && met(0, far[i]) == 0 && met(far[i], far[k]) == 0);
}

/* A copy of the words is the watch once more: both answer alike and stay alike, and what is done to one is not done to the other. After a bad word
 * the watch begins again by a copy of the last words alone, which must be as good as one of all. */
static void copies(void)
{
    static uint64_t other[LINEWATCH_WORDS], start[LINEWATCH_WORDS];
    const char *text = "input a; input b; internal s = 0; x -> a; p -> x @ (b || !b, b) || !a {s <- 1;}; limit x to 3 in 5; monitor p;";
    check("opening", is_ok(open_text(text, watch, LINEWATCH_WORDS)));
    memcpy(start, watch, sizeof start);
    for (unsigned i = 0; i < 20000; i++) {
        uint64_t word = random_word() % 4;
        memcpy(other, watch, sizeof other);
        uint64_t taken = take(word);
        uint64_t more = is_ok(taken) ? 1 : 0;
        check("a copy stays behind", linewatch_ticks(other, LINEWATCH_WORDS) + more == ticks());
        check("a copy takes alike", linewatch_take(other, LINEWATCH_WORDS, word) == taken && memcmp(other, watch, sizeof other) == 0);
        calls += 2;
        if (linewatch_kind(taken) == LINEWATCH_BAD) {
            memcpy(watch + STATE, start + STATE, (LINEWATCH_WORDS - STATE) * sizeof *watch);
            check("a reset of the last words", memcmp(start, watch, sizeof start) == 0);
        }
    }
    /* a text opened twice gives the same words, whatever stood there before */
    fill();
    check("opening again", is_ok(open_text(text, watch, LINEWATCH_WORDS)) && memcmp(start, watch, sizeof start) == 0);
}

/* ---- watches that no call gave ---- */

static double longest;

static double seconds(void)
{
    return (double)clock() / CLOCKS_PER_SEC;
}

/* A kind that a look or a take can have. */
static int is_answer(uint64_t answer)
{
    return linewatch_kind(answer) <= LINEWATCH_REFUSED;
}

/* A word within the wires of the strange text, or below, or any. */
static uint64_t some_word(unsigned i)
{
    return i % 3 == 0 ? random_word() % 2048 : i % 3 == 1 ? random_word() % 4 : random_word();
}

/* Each entry returns, soon, and changes nothing that it may not; and takes go on returning. After a bad one the watch is as in the beginning. */
static void try_watch(const char *name, unsigned takes)
{
    static uint64_t begun[LINEWATCH_WORDS];
    memcpy(begun, watch, sizeof begun);
    for (unsigned i = 0; i < takes; i++) {
        uint64_t word = some_word(i);
        keep();
        double start = seconds();
        uint64_t looked = look(word);
        store(random_word() % 20);
        met(random_word() % 40, random_word() % 300);
        ticks();
        check(name, as_kept());
        uint64_t taken = take(word);
        double end = seconds();
        longest = end - start > longest ? end - start : longest;
        check(name, is_answer(looked) && linewatch_kind(looked) == linewatch_kind(taken) && linewatch_number(looked) == linewatch_number(taken));
        check(name, linewatch_kind(taken) == LINEWATCH_REFUSED ? as_kept() : tables_as_kept());
        if (linewatch_kind(taken) == LINEWATCH_BAD)
            memcpy(watch, begun, sizeof begun);
    }
    check("an entry takes too long", longest < LONGEST);
}

static void open_strange(void)
{
    check("opening", is_ok(open_text(STRANGE_TEXT, watch, LINEWATCH_WORDS)));
}

static void strange_watches(void)
{
    open_strange();
    try_watch("a watch that is not strange", 1000);
    for (unsigned number = 0; number < STRANGE_CASES; number++) {
        open_strange();
        make_strange(watch, number);
        try_watch("overwritten words", 12);
    }
    for (uint64_t of = 2; of < 64 * LINEWATCH_WORDS; of *= 2)
        for (unsigned i = 0; i < 20; i++) {
            open_strange();
            damage(watch, of);
            try_watch("damaged words", 12);
        }
    check("opening in strange words", is_ok(open_text(ONE, watch, LINEWATCH_WORDS)) && is_ok(take(1)) && is_bad(take(0), 0));
}

int main(void)
{
    short_ranges();
    long_ranges();
    refused_texts();
    refused_words();
    full();
    stores();
    letters();
    copies();
    strange_watches();
    printf("words: %lu calls, the longest two on a strange watch %.1f ms, %d differences\n", calls, 1e3 * longest, bad);
    return bad ? 1 : 0;
}
