/* What the C clients share that read files: a file's bytes, and the strings that files of cases are made of. */
#ifndef FILES_H
#define FILES_H

#include <stdio.h>
#include <stdlib.h>

#include "sheet_of.h"

/* The bytes of a file; none if it cannot be read. */
static inline struct bytes read_file(const char *name)
{
    struct bytes b = {NULL, 0};
    size_t room = 0;
    FILE *f = fopen(name, "rb");
    if (!f)
        return b;
    for (;;) {
        if (b.length == room) {
            room = room ? 2 * room : 65536;
            b.at = realloc(b.at, room);
            if (!b.at)
                exit(2);
        }
        size_t got = fread(b.at + b.length, 1, room - b.length, f);
        if (got == 0)
            break;
        b.length += got;
    }
    fclose(f);
    return b;
}

/* One of a case's byte strings, behind its length as 32 bits, lowest byte first; ends the program where the file is damaged. */
static inline struct bytes part(struct bytes file, size_t *at)
{
    if (file.length - *at < 4)
        exit(2);
    size_t length = number_at(file.at + *at);
    *at += 4;
    if (file.length - *at < length)
        exit(2);
    struct bytes b = {file.at + *at, length};
    *at += length;
    return b;
}

#endif
