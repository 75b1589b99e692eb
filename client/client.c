/* A C program that uses the line watch, and tests it through its C interface:
 *
 *     client sheet RULES TRACE         prints the sheet of two files
 *     client cases FILE..              runs files of cases (name, text, trace, sheet) and compares each sheet
 *     client same RULES TRACE SHEET    compares the sheet of two files with a third
 *     client limits                    a short range, no range, records, 256 letters, eight limits of the longest window, which a trace goes round
 *                                      and passes, and traces of 1,000,000 ticks and one more
 *
 * It exits with 0 if all is well. */
#include <stdio.h>
#include <stdlib.h>
#include <string.h>

#include "files.h"

static int same(struct bytes a, struct bytes b)
{
    return a.length == b.length && memcmp(a.at, b.at, a.length) == 0;
}

static int check(const char *name, int ok)
{
    if (!ok)
        printf("differs: %s\n", name);
    return ok ? 0 : 1;
}

static int run_cases(const char *name)
{
    struct bytes file = read_file(name);
    size_t at = 0;
    int bad = 0, count = 0;
    if (file.length == 0)
        bad += check(name, 0);
    while (at < file.length) {
        struct bytes title = part(file, &at), text = part(file, &at), records = part(file, &at), right = part(file, &at);
        char label[256];
        snprintf(label, sizeof label, "%s: %.*s", name, (int)(title.length < 100 ? title.length : 100), (const char *)title.at);
        struct bytes sheet = sheet_of(text, records);
        bad += check(label, same(sheet, right));
        /* exactly enough room, and one byte too few */
        uint8_t *exact = malloc(right.length + 1);
        if (!exact)
            exit(2);
        memset(exact, 0xa5, right.length + 1);
        size_t got = linewatch_sheet(text.at, text.length, records.at, records.length, exact, right.length);
        bad += check(label, got == right.length && memcmp(exact, right.at, got) == 0 && exact[right.length] == 0xa5);
        memset(exact, 0xa5, right.length + 1);
        got = linewatch_sheet(text.at, text.length, records.at, records.length, exact, right.length - 1);
        int untouched = got == 0;
        for (size_t i = 0; i <= right.length; i++)
            untouched = untouched && exact[i] == 0xa5;
        bad += check(label, untouched);
        free(exact);
        free(sheet.at);
        count++;
    }
    printf("%s: %d cases, %d differences\n", name, count, bad);
    free(file.at);
    return bad;
}

/* Whether a sheet ends with these lines. */
static int ends(struct bytes sheet, const char *lines)
{
    size_t length = strlen(lines);
    return sheet.length >= length && memcmp(sheet.at + sheet.length - length, lines, length) == 0;
}

/* The most letters, and so the most lines at the foot, in the room for a sheet without ticks. */
static int run_letters(void)
{
    static const char rules[] = "input a; q -> a, a, a, a, a, a, a, a; p -> q, q, q, q, q, q, q, q; monitor p, p, p, p;";
    struct bytes text = {(uint8_t *)(uintptr_t)rules, sizeof rules - 1}, nothing = {NULL, 0};
    struct bytes sheet = sheet_of(text, nothing);
    int bad = check("256 letters", ends(sheet, "\nmet 3 62 0\nmet 3 63 0\ntotal 0\n"));
    free(sheet.at);
    return bad;
}

/* The records of so many words, 1 each but that the last of every 1,024 is 0. */
static struct bytes logs(size_t ticks)
{
    struct bytes records = {malloc(2 * ticks), 0};
    uint64_t before = 0;
    if (!records.at)
        exit(2);
    for (size_t tick = 0; tick < ticks; tick++) {
        uint64_t word = tick % 1024 != 1023;
        records.length += linewatch_write_record(before, word, records.at + records.length, 2 * ticks - records.length);
        before = word;
    }
    return records;
}

/* The most limits, with the longest window: it is gone round as often as there are ticks for; and passed in another trace. A bad tick names 32
 * for limit 0, 33 for limit 1 and so on; here it is 39, for the last. */
static int run_windows(void)
{
    static const char rules[] = "input a; log -> a; p -> log || !a; q -> !a; r -> q || log;"
                                "limit q to 1 in 1024; limit q to 9 in 10; limit q to 7 in 8; limit q to 1 in 2; limit q to 63 in 64;"
                                "limit q to 64 in 65; limit q to 1022 in 1023; limit log to 1023 in 1024; monitor p, r;";
    struct bytes text = {(uint8_t *)(uintptr_t)rules, sizeof rules - 1};
    struct bytes records = logs(1000000);
    struct bytes sheet = sheet_of(text, records);
    int bad = check("windows gone round", ends(sheet, "\nclean 1000000\nmet 0 0 999024\nmet 0 1 976\nmet 1 0 976\nmet 1 1 999024\ntotal 2000000\n"));
    free(sheet.at);
    free(records.at);
    /* a whole round, and then another whose last word does not change */
    records = logs(2048);
    records.at[records.length - 2] = 0;
    records.length--;
    sheet = sheet_of(text, records);
    bad += check("a window passed", ends(sheet, "\n2047 0000000000000001 bad 39\nmet 0 0 2046\nmet 0 1 1\nmet 1 0 1\nmet 1 1 2046\ntotal 4094\n"));
    free(sheet.at);
    free(records.at);
    return bad;
}

static int run_limits(void)
{
    static const char rules[] = "input a; p -> a || !a; monitor p;";
    struct bytes text = {(uint8_t *)(uintptr_t)rules, sizeof rules - 1};
    int bad = run_letters() + run_windows();

    bad += check("no range", linewatch_sheet(text.at, text.length, NULL, 0, NULL, 0) == 0);
    struct bytes nothing = {NULL, 0};
    struct bytes refused = sheet_of(nothing, nothing);
    bad += check("no text", ends(refused, "refused 3 0\n"));
    free(refused.at);

    uint8_t record[9];
    memset(record, 0xa5, sizeof record);
    bad += check("a record", linewatch_write_record(0x0100, 0x0706, record, 9) == 3 && memcmp(record, "\3\6\7\xa5", 4) == 0);
    bad += check("a long record", linewatch_write_record(0, 0x0807060504030201, record, 9) == 9 && record[8] == 8);
    memset(record, 0xa5, sizeof record);
    bad += check("too short for a record", linewatch_write_record(0x0100, 0x0706, record, 2) == 0 && record[0] == 0xa5);
    bad += check("no room for a record", linewatch_write_record(0, 0, NULL, 0) == 0);

    struct bytes records = {calloc(1000001, 1), 1000000};
    if (!records.at)
        exit(2);
    struct bytes sheet = sheet_of(text, records);
    bad += check("1,000,000 ticks", ends(sheet, "\nclean 1000000\nmet 0 0 0\nmet 0 1 1000000\ntotal 1000000\n"));
    free(sheet.at);
    records.length = 1000001;
    sheet = sheet_of(text, records);
    bad += check("1,000,001 ticks", ends(sheet, "\nrefused 17 1000000\n"));
    free(sheet.at);
    free(records.at);
    printf("limits: %d differences\n", bad);
    return bad;
}

int main(int argc, char **argv)
{
    int bad = 0;
    if (argc == 4 && strcmp(argv[1], "sheet") == 0) {
        struct bytes sheet = sheet_of(read_file(argv[2]), read_file(argv[3]));
        bad = fwrite(sheet.at, 1, sheet.length, stdout) != sheet.length;
    } else if (argc == 5 && strcmp(argv[1], "same") == 0) {
        bad = check(argv[3], same(sheet_of(read_file(argv[2]), read_file(argv[3])), read_file(argv[4])));
    } else if (argc == 2 && strcmp(argv[1], "limits") == 0) {
        bad = run_limits();
    } else if (argc > 2 && strcmp(argv[1], "cases") == 0) {
        for (int i = 2; i < argc; i++)
            bad += run_cases(argv[i]);
    } else {
        fprintf(stderr, "usage: client sheet RULES TRACE | client same RULES TRACE SHEET | client cases FILE.. | client limits\n");
        return 2;
    }
    return bad ? 1 : 0;
}
