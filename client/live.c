/* A controller that asks the line watch word by word, on a watch in its own memory:
 *
 *     live run RULES TRACE      takes the words of a trace one by one, and prints what the controller is told
 *     live same RULES TRACE ..  compares what it is told with the printed sheets of the same words, for pairs of files
 *     live cases FILE..         the same for the texts and traces of files of cases (name, text, trace, sheet)
 *
 * It exits with 0 if all is well. */
#include <inttypes.h>
#include <stdio.h>
#include <stdlib.h>
#include <string.h>

#include "agree.h"
#include "files.h"
#include "words_of.h"

/* ---- the controller ---- */

/* A line: its watch, and the words as opening filled them, from which it begins again. */
struct line {
    uint64_t watch[LINEWATCH_WORDS], start[LINEWATCH_WORDS];
};

static uint64_t open_line(struct line *line, struct bytes text)
{
    uint64_t opened = linewatch_open(text.at, text.length, line->watch, LINEWATCH_WORDS);
    memcpy(line->start, line->watch, sizeof line->start);
    return opened;
}

static void reset(struct line *line)
{
    memcpy(line->watch, line->start, sizeof line->watch);
}

static void print_opened(uint64_t opened)
{
    unsigned number = linewatch_number(opened);
    switch (linewatch_kind(opened)) {
    case LINEWATCH_OK:
        printf("%u rows, %u letters\n", linewatch_rows(opened), linewatch_letters(opened));
        break;
    case LINEWATCH_REFUSED:
        printf("refused %u at byte %u\n", number, linewatch_byte(opened));
        break;
    default:
        printf("refused %u at letter %u of monitor %u\n", number, linewatch_letter(opened), linewatch_monitor(opened));
    }
}

static void print_answer(uint64_t answer)
{
    if (linewatch_kind(answer) == LINEWATCH_OK)
        printf("ok");
    else
        printf("%s %u", linewatch_kind(answer) == LINEWATCH_BAD ? "bad" : "refused", linewatch_number(answer));
}

/* What a watch has kept: ticks, the stores that are not 0, and the letters that were met. */
static void print_watch(const uint64_t *watch)
{
    printf("ticks %" PRIu64 "\n", linewatch_ticks(watch, LINEWATCH_WORDS));
    for (size_t store = 0; store < 16; store++) {
        uint64_t value = linewatch_store(watch, LINEWATCH_WORDS, store);
        if (value != 0)
            printf("store %zu is %" PRIu64 "\n", store, value);
    }
    for (size_t monitor = 0; monitor < 32; monitor++)
        for (size_t letter = 0; letter < 256; letter++) {
            uint64_t met = linewatch_met(watch, LINEWATCH_WORDS, monitor, letter);
            if (met != 0)
                printf("letter %zu of monitor %zu met %" PRIu64 "\n", letter, monitor, met);
        }
}

/* A word that the wires are to have: it is looked at before they change, and taken when they have. The line begins again after a bad tick. */
static void control(struct line *line, uint64_t word)
{
    uint64_t looked = linewatch_look(line->watch, LINEWATCH_WORDS, word);
    if (linewatch_kind(looked) == LINEWATCH_BAD)
        printf("%016" PRIx64 " would be bad %u\n", word, linewatch_number(looked));

    uint64_t taken = linewatch_take(line->watch, LINEWATCH_WORDS, word);
    printf("%016" PRIx64 " ", word);
    print_answer(taken);
    printf(", %u rows touched\n", linewatch_touched(taken));
    if (linewatch_kind(taken) == LINEWATCH_BAD) {
        print_watch(line->watch);
        printf("reset\n");
        reset(line);
    }
}

static void run(struct bytes text, struct bytes records)
{
    static struct line line;
    struct trace trace = {records.at, records.length, 0};
    uint64_t opened = open_line(&line, text);
    print_opened(opened);
    if (linewatch_kind(opened) != LINEWATCH_OK)
        return;
    while (next_word(&trace) == RECORD_READ)
        control(&line, trace.word);
    print_watch(line.watch);
}

/* ---- the same against the printed sheet ---- */

/* How much was compared. */
static unsigned long texts, refused_texts, rounds, words_taken, bad_words, refused_words;

/* A look and a take agree, but that only the take tells the rows touched. */
static int same_answer(uint64_t looked, uint64_t taken)
{
    return linewatch_kind(looked) == linewatch_kind(taken) && linewatch_number(looked) == linewatch_number(taken) &&
           linewatch_touched(looked) == 0 && (linewatch_kind(taken) != LINEWATCH_REFUSED || linewatch_touched(taken) == 0);
}

/* A bad word has stopped the watch: a look and a take are refused with 16, and change nothing. */
static int is_stopped(struct line *line, uint64_t word)
{
    static uint64_t before[LINEWATCH_WORDS];
    memcpy(before, line->watch, sizeof before);
    uint64_t looked = linewatch_look(line->watch, LINEWATCH_WORDS, word), taken = linewatch_take(line->watch, LINEWATCH_WORDS, word);
    return linewatch_kind(taken) == LINEWATCH_REFUSED && linewatch_number(taken) == 16 && same_answer(looked, taken) &&
           memcmp(before, line->watch, sizeof before) == 0;
}

/* Looks at a word and takes it; the answer to the take goes to `taken`. The look changes no word of the watch, and neither does a take that is
 * refused. */
static int take_word(struct line *line, uint64_t word, uint64_t *taken)
{
    static uint64_t before[LINEWATCH_WORDS];
    memcpy(before, line->watch, sizeof before);
    uint64_t looked = linewatch_look(line->watch, LINEWATCH_WORDS, word);
    int ok = memcmp(before, line->watch, sizeof before) == 0;
    *taken = linewatch_take(line->watch, LINEWATCH_WORDS, word);
    ok = ok && same_answer(looked, *taken);
    switch (linewatch_kind(*taken)) {
    case LINEWATCH_OK:
        return ok;
    case LINEWATCH_BAD:
        bad_words++;
        return ok && is_stopped(line, word);
    default:
        refused_words++;
        return ok && memcmp(before, line->watch, sizeof before) == 0;
    }
}

/* The words of a trace, and how reading them ended; and room for as many answers. */
struct words {
    uint64_t *at, *taken;
    size_t count;
    int end;
};

static struct words words_of(struct bytes records)
{
    struct trace trace = {records.at, records.length, 0};
    size_t room = (records.length + 1) * sizeof(uint64_t);
    struct words words = {malloc(room), malloc(room), 0, RECORDS_END};
    if (!words.at || !words.taken)
        exit(2);
    while ((words.end = next_word(&trace)) == RECORD_READ)
        words.at[words.count++] = trace.word;
    return words;
}

/* A round: words taken one after the other from a watch's start on, all ok but perhaps the last, with the answers. */
struct round {
    const uint64_t *words;
    uint64_t *taken;
    size_t count;
};

/* The records of its words. */
static struct bytes records_of(const struct round *round)
{
    size_t room = 9 * round->count;
    struct bytes records = {malloc(room), 0};
    uint64_t before = 0;
    if (!records.at)
        exit(2);
    for (size_t i = 0; i < round->count; i++) {
        records.length += linewatch_write_record(before, round->words[i], records.at + records.length, room - records.length);
        before = round->words[i];
    }
    return records;
}

/* What the last word of a round was; ok if there is none. */
static unsigned last_kind(const struct round *round)
{
    return round->count == 0 ? LINEWATCH_OK : linewatch_kind(round->taken[round->count - 1]);
}

/* Takes words up to the first that is not ok. */
static int take_round(struct line *line, struct round *round, size_t left)
{
    int ok = 1;
    while (last_kind(round) == LINEWATCH_OK && round->count < left) {
        size_t i = round->count++;
        ok = take_word(line, round->words[i], &round->taken[i]) && ok;
    }
    rounds++;
    words_taken += round->count;
    size_t good = last_kind(round) == LINEWATCH_OK ? round->count : round->count - 1;
    return ok && linewatch_ticks(line->watch, LINEWATCH_WORDS) == good;
}

/* Whether a sheet says what a round was told: of the text, of each word, and at the foot what the watch tells behind it. `end` is how reading
 * the sheet's records ends. */
static int sheet_agrees(struct bytes sheet, uint64_t opened, const struct round *round, int end, const uint64_t *watch)
{
    struct lines lines = {sheet.at, sheet.length};
    int ok = begins_as(&lines, opened);
    for (size_t i = 0; i < round->count; i++)
        ok = ok && goes_on_as(&lines, i, round->words[i], round->taken[i]);
    if (last_kind(round) == LINEWATCH_REFUSED)
        return ok;
    if (last_kind(round) == LINEWATCH_OK && end != RECORDS_END)
        return ok && goes_on(&lines, "refused %d %zu\n", end, round->count) && lines.length == 0;
    if (last_kind(round) == LINEWATCH_OK)
        ok = ok && goes_on(&lines, "clean %zu\n", round->count);
    return ok && ends_as(&lines, watch, linewatch_letters(opened));
}

/* All words of a trace, round by round. The first has the trace's own sheet, which ends with it or before; of any other round the sheet is made
 * of its words. */
static int rounds_agree(struct line *line, struct bytes text, uint64_t opened, struct bytes records)
{
    struct words words = words_of(records);
    struct round round = {words.at, words.taken, 0};
    int ok = take_round(line, &round, words.count);
    struct bytes sheet = sheet_of(text, records);
    ok = sheet_agrees(sheet, opened, &round, words.end, line->watch) && ok;
    free(sheet.at);
    size_t at = round.count;
    while (at < words.count) {
        reset(line);
        round = (struct round){words.at + at, words.taken, 0};
        ok = take_round(line, &round, words.count - at) && ok;
        struct bytes own = records_of(&round);
        sheet = sheet_of(text, own);
        ok = sheet_agrees(sheet, opened, &round, RECORDS_END, line->watch) && ok;
        free(sheet.at);
        free(own.at);
        at += round.count;
    }
    free(words.at);
    free(words.taken);
    return ok;
}

/* Whether a watch and the sheets agree on a text and a trace. */
static int agrees(struct bytes text, struct bytes records)
{
    static struct line line, before;
    before = line;
    uint64_t opened = open_line(&line, text);
    texts++;
    if (linewatch_kind(opened) == LINEWATCH_OK)
        return rounds_agree(&line, text, opened, records);
    /* a refused text leaves the words as they were */
    struct bytes sheet = sheet_of(text, records);
    struct lines lines = {sheet.at, sheet.length};
    int ok = begins_as(&lines, opened) && memcmp(before.watch, line.watch, sizeof line.watch) == 0;
    free(sheet.at);
    refused_texts++;
    return ok;
}

static int check(const char *name, int ok)
{
    if (!ok)
        printf("differs: %s\n", name);
    return ok ? 0 : 1;
}

static int same(const char *rules, const char *trace)
{
    struct bytes text = read_file(rules), records = read_file(trace);
    int bad = check(trace, agrees(text, records));
    free(text.at);
    free(records.at);
    return bad;
}

static int cases(const char *name)
{
    struct bytes file = read_file(name);
    size_t at = 0;
    int bad = check(name, file.length != 0);
    while (at < file.length) {
        struct bytes title = part(file, &at), text = part(file, &at), records = part(file, &at);
        part(file, &at);
        char label[256];
        snprintf(label, sizeof label, "%s: %.*s", name, (int)(title.length < 100 ? title.length : 100), (const char *)title.at);
        bad += check(label, agrees(text, records));
    }
    free(file.at);
    return bad;
}

static int tell(int bad)
{
    printf("live: %lu texts, %lu of them refused, %lu rounds, %lu words, %lu of them bad and %lu refused, %d differences\n", texts,
           refused_texts, rounds, words_taken, bad_words, refused_words, bad);
    return bad ? 1 : 0;
}

int main(int argc, char **argv)
{
    int bad = 0;
    if (argc == 4 && strcmp(argv[1], "run") == 0) {
        run(read_file(argv[2]), read_file(argv[3]));
        return 0;
    }
    if (argc >= 4 && argc % 2 == 0 && strcmp(argv[1], "same") == 0) {
        for (int i = 2; i < argc; i += 2)
            bad += same(argv[i], argv[i + 1]);
        return tell(bad);
    }
    if (argc > 2 && strcmp(argv[1], "cases") == 0) {
        for (int i = 2; i < argc; i++)
            bad += cases(argv[i]);
        return tell(bad);
    }
    fprintf(stderr, "usage: live run RULES TRACE | live same RULES TRACE .. | live cases FILE..\n");
    return 2;
}
