/* The library from C: reads an XNC file from standard input, tries one edit, and says what moved and how often each tool is used then, or
 * where it is refused.
 *
 *   door LINE TEXT <FILE
 *
 * Build it with -Iinclude and libxnc.a (README.md). */
#include "xnc.h"

#include <stdio.h>
#include <stdlib.h>
#include <string.h>

enum { MOST_BYTES = 65536, MOST_LINES = 1000, MOST_NUMBERS = MOST_LINES * XNC_ROW_WIDTH, HOLE = 7, LAST_TOOL = 99 };

static int refused(const char *what, uint64_t answer)
{
    printf("%s refused: number %u, line %u", what, (unsigned)xnc_number(answer), (unsigned)xnc_value(answer));
    if (xnc_column(answer) != 0) {
        printf(", column %u", (unsigned)xnc_column(answer));
    }
    printf("\n");
    return 1;
}

static void print_move(const int32_t *hole)
{
    printf("%d, %d to %d, %d", (int)hole[2], (int)hole[3], (int)hole[4], (int)hole[5]);
}

int main(int argc, char **argv)
{
    static uint8_t file[MOST_BYTES + 1];
    static uint8_t text[MOST_BYTES];
    static int32_t old[MOST_NUMBERS];
    static int32_t edited[MOST_NUMBERS];
    uint32_t counts[XNC_COUNTS_WIDTH];

    if (argc != 3) {
        fprintf(stderr, "usage: door LINE TEXT <FILE\n");
        return 2;
    }
    size_t bytes = fread(file, 1, sizeof file, stdin);
    uint64_t answer = xnc_read(file, bytes, XNC_REVISION_2021, old, MOST_NUMBERS, counts, XNC_COUNTS_WIDTH);
    if (xnc_number(answer) != 0) {
        return refused("read", answer);
    }
    size_t n = xnc_value(answer);
    printf("lines %zu\n", n);

    size_t line = strtoul(argv[1], NULL, 10);
    memcpy(edited, old, sizeof old);
    answer = xnc_edit(edited, MOST_NUMBERS, n, line, (const uint8_t *)argv[2], strlen(argv[2]), XNC_REVISION_2021, counts, XNC_COUNTS_WIDTH);
    if (xnc_number(answer) != 0) {
        return refused("edit", answer);
    }
    size_t meeting = xnc_value(answer);
    printf("span %zu to %zu\n", line, meeting);

    /* Nothing outside the span can have changed. */
    for (size_t i = line; i <= meeting; i++) {
        int32_t before[HOLE] = {0};
        int32_t after[HOLE] = {0};
        xnc_hole(old, MOST_NUMBERS, n, i, before, HOLE);
        xnc_hole(edited, MOST_NUMBERS, n, i, after, HOLE);
        if (memcmp(before, after, sizeof before) != 0) {
            printf("line %zu: ", i);
            print_move(before);
            printf(" is now ");
            print_move(after);
            printf("\n");
        }
    }

    /* The edit has brought the counts up to date. */
    for (uint32_t tool = 1; tool <= LAST_TOOL; tool++) {
        unsigned hits = xnc_value(xnc_hits(counts, XNC_COUNTS_WIDTH, tool));
        unsigned routs = xnc_value(xnc_routs(counts, XNC_COUNTS_WIDTH, tool));
        if (hits != 0 || routs != 0) {
            printf("tool %u: hits %u, routs %u\n", (unsigned)tool, hits, routs);
        }
    }

    answer = xnc_write(edited, MOST_NUMBERS, n, text, sizeof text);
    if (xnc_number(answer) != 0) {
        return refused("write", answer);
    }
    fwrite(text, 1, xnc_value(answer), stdout);
    return 0;
}
