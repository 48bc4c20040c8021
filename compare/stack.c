/* How much stack a call of the library takes. The call runs on a stack that was filled with a pattern; how deep the pattern is gone
 * is how deep the call went.
 *
 *   stack FILE ..
 *
 * Read gets each file whole, cut off at each byte, and with each byte changed; edit puts each of its lines, and some that are refused,
 * into each line; hole asks for each line; write gets its table whole and with each number changed. For each function the deepest call
 * is printed. The program ends with status 1 where one went deeper than its bound. */
#define _XOPEN_SOURCE 700
#include "xnc.h"

#include <stdbool.h>
#include <stdio.h>
#include <string.h>
#include <ucontext.h>

enum { MOST_BYTES = 4096, MOST_LINES = 100, MOST_NUMBERS = MOST_LINES * XNC_ROW_WIDTH, HOLE = 7 };

/* ---- the stack */

enum { WORDS = 16384 };

static const uint64_t pattern = 0x5AA5C33C96690FF0;
static uint64_t stack[WORDS];
static ucontext_t here, there;

static void (*call)(void);
static const char *top;
static uint64_t answer;

/* Far enough down for all that ends a context to stay above the call. */
static void enter(void)
{
    volatile char above[1024];
    above[0] = 0;
    call();
    above[sizeof above - 1] = above[0];
}

static void on_the_stack(void)
{
    getcontext(&there);
    there.uc_stack.ss_sp = stack;
    there.uc_stack.ss_size = sizeof stack;
    there.uc_link = &here;
    makecontext(&there, enter, 0);
    swapcontext(&here, &there);
}

/* ---- what is lent to the calls */

static uint8_t file[MOST_BYTES + 1], whole[MOST_BYTES + 1], text[MOST_BYTES], *line_text;
static size_t file_len, whole_len, text_len, line_len, n, line, hole_len;
static int32_t table[MOST_NUMBERS], good[MOST_NUMBERS], hole[HOLE];
static size_t table_len;
static uint32_t revision, tool, counts[XNC_COUNTS_WIDTH], own[XNC_COUNTS_WIDTH];
static size_t counts_len;

/* Each does nothing but call, so that what is found below its frame is the call's. */
static void read_file(void)
{
    top = __builtin_frame_address(0);
    answer = xnc_read(file, file_len, revision, table, table_len, counts, counts_len);
}

static void edit_line(void)
{
    top = __builtin_frame_address(0);
    answer = xnc_edit(table, table_len, n, line, line_text, line_len, revision, counts, counts_len);
}

static void ask_for_hole(void)
{
    top = __builtin_frame_address(0);
    answer = xnc_hole(table, table_len, n, line, hole, hole_len);
}

static void ask_for_hits(void)
{
    top = __builtin_frame_address(0);
    answer = xnc_hits(counts, counts_len, tool);
}

static void ask_for_routs(void)
{
    top = __builtin_frame_address(0);
    answer = xnc_routs(counts, counts_len, tool);
}

static void write_table(void)
{
    top = __builtin_frame_address(0);
    answer = xnc_write(table, table_len, n, text, text_len);
}

/* A call whose stack is known. */
enum { KNOWN = 4096 };

static __attribute__((noinline)) uint64_t fill_block(volatile uint8_t *seed)
{
    volatile uint8_t block[KNOWN];
    for (size_t i = 0; i < KNOWN; i++) {
        block[i] = (uint8_t)(seed[0] + i);
    }
    return block[seed[0]];
}

static void fill_known(void)
{
    top = __builtin_frame_address(0);
    answer = fill_block(file);
}

/* ---- counting */

static size_t accepted, refused;

static void once(void)
{
    on_the_stack();
    if (xnc_number(answer) == 0) {
        accepted++;
    } else {
        refused++;
    }
}

static void begin(void (*which)(void))
{
    call = which;
    accepted = 0;
    refused = 0;
    for (size_t i = 0; i < WORDS; i++) {
        stack[i] = pattern;
    }
}

static size_t deepest(void)
{
    size_t i = 0;
    while (i < WORDS && stack[i] == pattern) {
        i++;
    }
    return (size_t)(top - (const char *)&stack[i]);
}

/* Whether all calls since `begin` kept to the bound, and some were accepted, some refused. */
static bool within(const char *name, size_t bound)
{
    size_t bytes = deepest();
    bool ok = bytes <= bound && accepted > 0 && refused > 0;
    printf("%-9s %6zu bytes of stack at most (bound %zu), in %zu calls, %zu of them accepted%s\n", name, bytes, bound, accepted + refused, accepted,
           ok ? "" : ": FAILED");
    return ok;
}

/* ---- the calls */

static void lend_file(void)
{
    memcpy(file, whole, sizeof file);
    file_len = whole_len;
    counts_len = XNC_COUNTS_WIDTH;
    revision = XNC_REVISION_2021;
}

static void lend_table(void)
{
    memcpy(table, good, sizeof table);
    table_len = MOST_NUMBERS;
    memcpy(counts, own, sizeof counts);
    counts_len = XNC_COUNTS_WIDTH;
    revision = XNC_REVISION_2021;
    hole_len = HOLE;
    text_len = sizeof text;
}

static void every_read(void)
{
    static const uint8_t others[] = {'\n', '\r', 0, ';', '.', '-', '0', '9', 'X', 'T', 0xFF};

    table_len = MOST_NUMBERS;
    for (size_t i = 0; i <= whole_len; i++) {
        lend_file();
        file_len = i;
        once();
    }
    for (size_t i = 0; i < whole_len; i++) {
        for (size_t k = 0; k < sizeof others; k++) {
            lend_file();
            file[i] = others[k];
            revision = k % 2 == 0 ? XNC_REVISION_2019 : XNC_REVISION_2021;
            once();
        }
    }
    lend_file();
    table_len = 0;
    once();
    lend_file();
    table_len = MOST_NUMBERS;
    counts_len = XNC_COUNTS_WIDTH - 1;
    once();
}

static void each_line(void)
{
    for (line = 0; line <= n + 1; line++) {
        lend_table();
        once();
    }
}

static void every_edit(void)
{
    static uint8_t comment[] = ";";
    static uint8_t bad[][32] = {"", "T1C0.5", "X1e", "G03X1Y1A0.1", "X1000Y0", "X1Y1.1234567", "\xFF", "M15\r", "\t", "G01X0Y-999.999999"};

    for (size_t at = 0; at < whole_len; at += line_len + 1) {
        line_text = whole + at;
        line_len = strcspn((const char *)line_text, "\n");
        each_line();
    }
    for (size_t k = 0; k < sizeof bad / sizeof bad[0]; k++) {
        line_text = bad[k];
        line_len = strlen((const char *)line_text);
        each_line();
    }
    /* counts that aren't the table's own, and a block that is too short */
    line_text = comment;
    line_len = 1;
    for (line = 1; line <= n; line++) {
        for (size_t i = 0; i < XNC_COUNTS_WIDTH; i++) {
            lend_table();
            counts[i] = i % 2 == 0 ? 0 : 1001;
            once();
        }
        lend_table();
        counts_len = XNC_COUNTS_WIDTH - 1;
        once();
    }
}

static void every_count(void)
{
    for (tool = 0; tool <= 100; tool++) {
        lend_table();
        once();
    }
    tool = 1;
    counts_len = XNC_COUNTS_WIDTH - 1;
    once();
}

static void every_hole(void)
{
    each_line();
    line = n - 1;
    lend_table();
    hole_len = HOLE - 1;
    once();
}

static void every_write(void)
{
    static const int32_t others[] = {-1, 0, 1, 16, INT32_MAX, INT32_MIN};

    lend_table();
    once();
    size_t bytes = xnc_value(answer);
    text_len = bytes;
    once();
    text_len = bytes - 1;
    once();
    for (size_t i = 0; i < n * XNC_ROW_WIDTH; i++) {
        for (size_t k = 0; k < sizeof others / sizeof others[0]; k++) {
            lend_table();
            table[i] = others[k];
            once();
        }
    }
}

/* A file and its table; one that can't be had, or isn't accepted, is said. */
static bool take(const char *name)
{
    FILE *in = fopen(name, "rb");
    whole_len = in == NULL ? 0 : fread(whole, 1, MOST_BYTES, in);
    whole[whole_len] = 0;
    if (in != NULL) {
        fclose(in);
    }
    uint64_t read = xnc_read(whole, whole_len, XNC_REVISION_2021, good, MOST_NUMBERS, own, XNC_COUNTS_WIDTH);
    n = xnc_value(read);
    if (xnc_number(read) != 0) {
        printf("%s: no file that is accepted\n", name);
    }
    return xnc_number(read) == 0;
}

static const struct {
    const char *name;
    void (*call)(void);
    void (*every)(void);
    size_t bound;
} functions[] = {
    {"xnc_read", read_file, every_read, 69632},
    {"xnc_edit", edit_line, every_edit, 6144},
    {"xnc_hits", ask_for_hits, every_count, 64},
    {"xnc_routs", ask_for_routs, every_count, 64},
    {"xnc_hole", ask_for_hole, every_hole, 512},
    {"xnc_write", write_table, every_write, 1024},
};

int main(int argc, char **argv)
{
    begin(fill_known);
    once();
    bool ok = KNOWN <= deepest() && deepest() <= KNOWN + 128;
    if (!ok) {
        printf("a call that takes %d bytes of stack and few more is found to take %zu\n", KNOWN, deepest());
    }
    for (size_t f = 0; f < sizeof functions / sizeof functions[0]; f++) {
        begin(functions[f].call);
        for (int i = 1; i < argc; i++) {
            if (take(argv[i])) {
                functions[f].every();
            } else {
                ok = false;
            }
        }
        ok &= within(functions[f].name, functions[f].bound);
    }
    return ok ? 0 : 1;
}
