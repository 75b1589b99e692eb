// The smallest use of the line watch: three words become records, and text and records the printed sheet.
#include "linewatch.h"
#include <stdio.h>
#include <string.h>

int main(void) {
    const char *text = "input GUARD; shut -> GUARD; monitor shut;";
    uint64_t words[] = {1, 1, 0}, before = 0;
    uint8_t records[27], sheet[6400 + 64 * 27];
    size_t length = 0;
    for (size_t i = 0; i < 3; i++) {
        length += linewatch_write_record(before, words[i], records + length, sizeof records - length);
        before = words[i];
    }
    length = linewatch_sheet((const uint8_t *)text, strlen(text), records, length, sheet, sizeof sheet);
    return fwrite(sheet, 1, length, stdout) != length;
}
