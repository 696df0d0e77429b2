/* Times the reading of typed rules: texts of 256 to 4,096 bytes in several shapes.
 *     cc -std=c99 -O2 -Wall -Wextra -Iinclude bench/typed.c target/staticlib/libwozhnerk.a -o typed && ./typed
 * The flag byte is 16: a text that is taken is refused by the checks of its records, 3 or 4, right after it is read, so that
 * the time is that of reading and of writing 24,576 bytes of records. Calls are timed one by one, until they fill 20 ms, at
 * least 3 and at most 20,000, after a warm-up call; the median counts. The trays are filled with 0xa5 before each call, outside
 * the timing. Prints a row for each shape, ns by length, then for each length the median of the shapes, its ns per byte, its
 * multiple of the half length's (2.00 is linear), and the slowest shape. */
#define _POSIX_C_SOURCE 200809L
#include <stdio.h>
#include <stdlib.h>
#include <string.h>
#include <time.h>
#include "wozhnerk.h"

enum { RECORDS_LENGTH = WOZHNERK_RECORDS_LENGTH, LONGEST = WOZHNERK_TEXT_LENGTH, LENGTHS = 5, MOST = 20000, FEWEST = 3, FILL = 20000000 };
static uint8_t text[LONGEST], records[RECORDS_LENGTH], nodes[WOZHNERK_NODES_LENGTH], formulas[WOZHNERK_FORMULAS_LENGTH];
static uint32_t edges[WOZHNERK_EDGES_LENGTH];

/* As often as the length has room for: `opening`, then `middle`, `closing` as often, spaces up to the length, a newline. */
static const struct {
    const char *name, *opening, *middle, *closing;
    int garbled;
} shapes[] = {
    {"& chain", "a0&", "a0", "", 0},
    {"| chain, names of 5 digits", "a65535|", "a65535", "", 0},
    {"-> chain", "a0->", "a0", "", 0},
    {"<-> chain", "a0<->", "a0", "", 0},
    {"brackets", "(", "a0", ")", 0},
    {"~ signs", "~", "a0", "", 0},
    {"[] signs", "[]", "a0", "", 0},
    {"~( nest", "~(", "a0", ")", 0},
    {"a0->( nest", "a0->(", "a0", ")", 0},
    {"(..&a0) nest", "(", "a0", "&a0)", 0},
    {"all operators", "a0<->~a1=>[]a2->a3|<>a4&(a5|a6)<->", "a0", "", 0},
    {"spaced", "a0 & ~ ( a1 | a2 ) -> ", "a0", "", 0},
    {"lines", "a0\n", "a0", "", 0},
    {"spaces", " ", "a0", "", 0},
    {"open brackets, garbled", "(", "", "", 1},
    {"a long name, garbled", "0", "", "", 1},
};
enum { SHAPES = sizeof shapes / sizeof *shapes };

static size_t add(size_t at, const char *s) {
    memcpy(text + at, s, strlen(s));
    return at + strlen(s);
}

static void make(int shape, size_t length) {
    const char *opening = shapes[shape].opening, *middle = shapes[shape].middle, *closing = shapes[shape].closing;
    size_t at = 0, count = (length - strlen(middle) - 1) / (strlen(opening) + strlen(closing));
    if (shapes[shape].garbled && opening[0] == '0') at = add(at, "a"), count--;
    for (size_t i = 0; i < count; i++) at = add(at, opening);
    at = add(at, middle);
    for (size_t i = 0; i < count; i++) at = add(at, closing);
    memset(text + at, ' ', length - at);
    text[length - 1] = '\n';
}

static uint64_t now(void) {
    struct timespec t;
    clock_gettime(CLOCK_MONOTONIC, &t);
    return (uint64_t)t.tv_sec * 1000000000 + (uint64_t)t.tv_nsec;
}

static uint64_t timed(size_t length, uint64_t *answer) {
    memset(records, 0xa5, sizeof records);
    memset(nodes, 0xa5, sizeof nodes);
    memset(formulas, 0xa5, sizeof formulas);
    memset(edges, 0xa5, sizeof edges);
    uint64_t start = now();
    *answer = wozhnerk_prove_typed(text, length, 16, records, sizeof records, nodes, sizeof nodes, formulas, sizeof formulas, edges,
                                   WOZHNERK_EDGES_LENGTH);
    return now() - start;
}

static int rising(const void *a, const void *b) {
    uint64_t x = *(const uint64_t *)a, y = *(const uint64_t *)b;
    return (x > y) - (x < y);
}

static uint64_t median(uint64_t *values, size_t count) {
    qsort(values, count, sizeof *values, rising);
    return values[count / 2];
}

/* The median time of a call, in ns. */
static uint64_t measure(int shape, size_t length) {
    static uint64_t times[MOST];
    uint64_t first, answer, sum = 0;
    size_t count = 0;
    make(shape, length);
    timed(length, &first);
    unsigned number = wozhnerk_is_refusal(first) ? (unsigned)wozhnerk_refusal_number(first) : 0;
    if (shapes[shape].garbled ? number != 13 : number != 3 && number != 4) {
        printf("%s, %zu bytes: answer %016llx\n", shapes[shape].name, length, (unsigned long long)first);
        exit(1);
    }
    while (count < FEWEST || (sum < FILL && count < MOST)) {
        sum += times[count++] = timed(length, &answer);
        if (answer != first) {
            printf("%s, %zu bytes: a second call answers otherwise\n", shapes[shape].name, length);
            exit(1);
        }
    }
    return median(times, count);
}

int main(void) {
    static uint64_t ns[LENGTHS][SHAPES], column[SHAPES], middle[LENGTHS];
    int worst[LENGTHS] = {0};
    printf("%-28s", "typed rules, ns by length");
    for (int l = 0; l < LENGTHS; l++) printf("%9d", 256 << l);
    printf("%14s\n", "4096 to 2048");
    for (int s = 0; s < SHAPES; s++) {
        printf("%-28s", shapes[s].name);
        for (int l = 0; l < LENGTHS; l++) {
            printf("%9llu", (unsigned long long)(ns[l][s] = measure(s, (size_t)256 << l)));
            if (ns[l][s] > ns[l][worst[l]]) worst[l] = s;
        }
        printf("%14.2f\n", (double)ns[LENGTHS - 1][s] / (double)ns[LENGTHS - 2][s]);
    }
    printf("\n%-8s%12s%12s%12s%12s%12s  %s\n", "bytes", "median ns", "ns/byte", "to half", "slowest ns", "ns/byte", "slowest shape");
    for (int l = 0; l < LENGTHS; l++) {
        memcpy(column, ns[l], sizeof column);
        middle[l] = median(column, SHAPES);
        double bytes = (double)(256 << l), slowest = (double)ns[l][worst[l]];
        printf("%-8d%12llu%12.2f", 256 << l, (unsigned long long)middle[l], (double)middle[l] / bytes);
        if (l > 0) printf("%12.2f", (double)middle[l] / (double)middle[l - 1]);
        else printf("%12s", "-");
        printf("%12.0f%12.2f  %s\n", slowest, slowest / bytes, shapes[worst[l]].name);
    }
    return 0;
}
