/* Answers cases by the line watch: reads them from standard input, one behind the other until it ends, and writes a string for each to
 * standard output.
 *
 * A case is a byte, its kind; a number n; and n strings. A number has 32 bits, lowest byte first; a string is its length, a number, and its
 * bytes. String 0, the flags, says which requests are in force; it is not looked at. By kind:
 *
 *     S    flags, text, trace    the printed sheet
 *     T    flags, text, calls    what a watch of the text answers to looks and takes
 *
 * Calls have nine bytes each: `L` for a look or `T` for a take, and the word, lowest byte first. The answer is the sheet's line for a text that is
 * refused; else the first line of a sheet, a line for each call, and how often each letter was met in the end, as at the foot of a sheet. A look at
 * 0 and takes of 1 and 2, by `input a; p -> a, !a; monitor p;`, are
 *
 *     rows 3 letters 2
 *     look bad 0
 *     take ok touched 2
 *     take refused 15 touched 0
 *     met 0 0 1
 *     met 0 1 0
 *     total 1
 *
 * Nothing of the input is believed before it is there. A case that is cut short, of another kind, with another number of strings or with bytes
 * that are no calls ends the program with a message and exit status 1, behind the answers to the cases before it; so does a standard output that
 * takes no more. */
#include <inttypes.h>
#include <stdarg.h>
#include <stdio.h>
#include <stdlib.h>
#include <string.h>

#include "sheet_of.h"

/* The most strings that a case has, the flags among them; the bytes of a call, and how many its line has at most; the most monitors of a text. */
enum { MOST_STRINGS = 3, CALL = 9, CALL_LINE = 40, MONITORS = 32 };

/* A kind of case: its byte, how many strings it has, and what makes the answer, in memory of its own, of them. */
struct kind {
    int byte;
    size_t strings;
    struct bytes (*answer)(const struct bytes *strings);
};

/* How many cases have been answered. */
static unsigned long answered;

static void stop(const char *why)
{
    fprintf(stderr, "batch: case %lu: %s\n", answered, why);
    exit(1);
}

/* ---- kind S ---- */

static struct bytes printed_sheet(const struct bytes *strings)
{
    return sheet_of(strings[1], strings[2]);
}

/* ---- kind T ---- */

/* The watch of a case. */
static uint64_t watch[LINEWATCH_WORDS];

/* Puts a line, for which there is room, behind the others. */
static void put(struct bytes *lines, const char *form, ...)
{
    va_list numbers;
    va_start(numbers, form);
    lines->length += (size_t)vsprintf((char *)lines->at + lines->length, form, numbers);
    va_end(numbers);
}

static void put_refusal(struct bytes *lines, uint64_t opened)
{
    unsigned number = linewatch_number(opened);
    if (linewatch_kind(opened) == LINEWATCH_REFUSED)
        put(lines, "refused %u %u\n", number, linewatch_byte(opened));
    else
        put(lines, "refused %u %u %u\n", number, linewatch_monitor(opened), linewatch_letter(opened));
}

static uint64_t word_at(const uint8_t *p)
{
    return number_at(p) | (uint64_t)number_at(p + 4) << 32;
}

/* What a look or a take answered, as the end of a line or before the rows touched. */
static void put_answer(struct bytes *lines, uint64_t answer)
{
    if (linewatch_kind(answer) == LINEWATCH_OK)
        put(lines, " ok");
    else
        put(lines, "%s %u", linewatch_kind(answer) == LINEWATCH_BAD ? " bad" : " refused", linewatch_number(answer));
}

static void put_call(struct bytes *lines, const uint8_t *call)
{
    if (call[0] == 'L') {
        put(lines, "look");
        put_answer(lines, linewatch_look(watch, LINEWATCH_WORDS, word_at(call + 1)));
        put(lines, "\n");
    } else {
        uint64_t taken = linewatch_take(watch, LINEWATCH_WORDS, word_at(call + 1));
        put(lines, "take");
        put_answer(lines, taken);
        put(lines, " touched %u\n", linewatch_touched(taken));
    }
}

/* How many letters each monitor of a text has. The sheet of a trace without records tells it: it has a line `met M L 0` for each. */
static void count_letters(struct bytes text, unsigned letters[MONITORS])
{
    struct bytes none = {NULL, 0}, sheet = sheet_of(text, none);
    uint8_t *at = sheet.at, *end = sheet.at + sheet.length;
    while (at < end) {
        uint8_t *feed = memchr(at, '\n', (size_t)(end - at));
        unsigned monitor, letter;
        *feed = 0;
        if (sscanf((char *)at, "met %u %u 0", &monitor, &letter) == 2)
            letters[monitor] = letter + 1;
        at = feed + 1;
    }
    free(sheet.at);
}

static void put_foot(struct bytes *lines, struct bytes text)
{
    unsigned letters[MONITORS] = {0};
    uint64_t total = 0;
    count_letters(text, letters);
    for (unsigned monitor = 0; monitor < MONITORS; monitor++)
        for (unsigned letter = 0; letter < letters[monitor]; letter++) {
            uint64_t met = linewatch_met(watch, LINEWATCH_WORDS, monitor, letter);
            put(lines, "met %u %u %" PRIu64 "\n", monitor, letter, met);
            total += met;
        }
    put(lines, "total %" PRIu64 "\n", total);
}

static void check_calls(struct bytes calls)
{
    if (calls.length % CALL != 0)
        stop("its last call is cut short");
    for (size_t at = 0; at < calls.length; at += CALL)
        if (calls.at[at] != 'L' && calls.at[at] != 'T')
            stop("a call of it is neither a look nor a take");
}

/* The lines have room as a sheet's, for the text and the letters, and for each call. */
static struct bytes answered_calls(const struct bytes *strings)
{
    struct bytes text = strings[1], calls = strings[2];
    check_calls(calls);
    struct bytes lines = {malloc(6400 + calls.length / CALL * CALL_LINE), 0};
    if (!lines.at)
        stop("there is no memory for its answer");
    uint64_t opened = linewatch_open(text.at, text.length, watch, LINEWATCH_WORDS);
    if (linewatch_kind(opened) != LINEWATCH_OK) {
        put_refusal(&lines, opened);
        return lines;
    }
    put(&lines, "rows %u letters %u\n", linewatch_rows(opened), linewatch_letters(opened));
    for (size_t at = 0; at < calls.length; at += CALL)
        put_call(&lines, calls.at + at);
    put_foot(&lines, text);
    return lines;
}

/* ---- reading and writing ---- */

static const struct kind KINDS[] = {
    {'S', 3, printed_sheet},
    {'T', 3, answered_calls},
};

static const struct kind *kind_of(int byte)
{
    for (size_t i = 0; i < sizeof KINDS / sizeof *KINDS; i++)
        if (KINDS[i].byte == byte)
            return &KINDS[i];
    stop("its kind is not known");
    return NULL;
}

/* Reads just so many bytes. */
static void read_exactly(uint8_t *to, size_t length)
{
    if (fread(to, 1, length, stdin) != length)
        stop("the input ends within it");
}

static size_t read_number(void)
{
    uint8_t bytes[4];
    read_exactly(bytes, sizeof bytes);
    return number_at(bytes);
}

/* A string, in memory of its own. Its length may be anything, so the memory grows with the bytes that are there. */
static struct bytes read_string(void)
{
    size_t length = read_number(), room = 0;
    struct bytes string = {NULL, 0};
    while (string.length < length) {
        room = room ? 2 * room : 65536;
        room = room < length ? room : length;
        string.at = realloc(string.at, room);
        if (!string.at)
            stop("there is no memory for a string of it");
        read_exactly(string.at + string.length, room - string.length);
        string.length = room;
    }
    return string;
}

/* Writes a string at once, so that who waits for the answer before the next case gets it. */
static void write_string(struct bytes string)
{
    uint8_t length[4];
    for (size_t i = 0; i < sizeof length; i++)
        length[i] = (uint8_t)(string.length >> 8 * i);
    if (fwrite(length, 1, sizeof length, stdout) != sizeof length ||
        fwrite(string.at, 1, string.length, stdout) != string.length || fflush(stdout) != 0)
        stop("its answer cannot be written");
}

/* Reads and answers the case whose first byte has been read. */
static void answer_case(int byte)
{
    const struct kind *kind = kind_of(byte);
    struct bytes strings[MOST_STRINGS];
    if (read_number() != kind->strings)
        stop("it has not as many strings as its kind has");
    for (size_t i = 0; i < kind->strings; i++)
        strings[i] = read_string();
    struct bytes answer = kind->answer(strings);
    write_string(answer);
    free(answer.at);
    for (size_t i = 0; i < kind->strings; i++)
        free(strings[i].at);
    answered++;
}

int main(void)
{
    int byte;
    while ((byte = getchar()) != EOF)
        answer_case(byte);
    if (ferror(stdin))
        stop("standard input cannot be read");
    return 0;
}
