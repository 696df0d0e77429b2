/* The exported function on input lines `FLAGS HEX`; one output line each, which oracle/compare reads.
 * A verdict is written as the oracle writes it, with three changes: a field `formulas`; byte 11 of the node record in place
 * of the step; a field `wrong`, which counts bytes that are not as document 01 says: after the used part of a tray, beyond
 * its length, in the copied input, and the marks of made records. Full: `full WRONG`. Another refusal: `refused NUMBER RECORD`.
 *     cc -O2 -Wall -Wextra -Iinclude oracle/ours.c target/staticlib/libwozhnerk.a -o ours
 */
#define _POSIX_C_SOURCE 200809L
#include <stdio.h>
#include <stdlib.h>
#include <string.h>
#include "wozhnerk.h"

enum { BEYOND = 64, OLD = 0xa5, LONGEST = 1 << 16 };
static const uint32_t OLD_EDGE = 0xa5a5a5a5;
static uint8_t nodes[WOZHNERK_NODES_LENGTH + BEYOND], formulas[WOZHNERK_FORMULAS_LENGTH + BEYOND];
static uint32_t edges[WOZHNERK_EDGES_LENGTH + BEYOND];

static unsigned two(const uint8_t *at) { return at[0] | (unsigned)at[1] << 8; }

static void put_number(unsigned n) {
    if (n == WOZHNERK_NONE) printf("null");
    else printf("%u", n);
}

/* Record n written out; `?` for what is no formula. `room` bounds the length. */
static void put_formula(unsigned n, unsigned count, long *room) {
    if (n >= count || (*room -= 4) < 0) {
        putchar('?');
        return;
    }
    const uint8_t *r = formulas + 6 * n;
    if (r[0] == 0) {
        printf("A%u", two(r + 2));
        return;
    }
    putchar(r[0] <= 8 ? "ANCDIBSPL"[r[0]] : '?');
    putchar('(');
    put_formula(two(r + 2), n, room);
    if (r[0] >= 2 && r[0] <= 6) {
        putchar(',');
        put_formula(two(r + 4), n, room);
    }
    putchar(')');
}

/* Bytes from `at` to `end` that are not `b`. */
static unsigned others(const uint8_t *tray, size_t at, size_t end, uint8_t b) {
    unsigned n = 0;
    for (; at < end; at++) n += tray[at] != b;
    return n;
}

/* Bytes that are not as document 01 says, where so many node and formula records are used. */
static unsigned wrong(unsigned ids, unsigned count, const uint8_t *branch, size_t length) {
    unsigned n = others(nodes, 12 * ids, WOZHNERK_NODES_LENGTH, 0) + others(nodes, WOZHNERK_NODES_LENGTH, sizeof nodes, OLD) +
                 others(formulas, 6 * count, WOZHNERK_FORMULAS_LENGTH, 0) +
                 others(formulas, WOZHNERK_FORMULAS_LENGTH, sizeof formulas, OLD);
    for (size_t i = WOZHNERK_EDGES_LENGTH; i < WOZHNERK_EDGES_LENGTH + BEYOND; i++) n += edges[i] != OLD_EDGE;
    if (count == 0) {
        for (size_t i = 0; i < WOZHNERK_EDGES_LENGTH; i++) n += edges[i] != 0;
        return n;
    }
    for (size_t i = 0; i < length; i++) n += formulas[i] != branch[i];
    for (size_t i = length; i < 6 * (size_t)count; i += 6) n += formulas[i + 1] != 0;
    return n;
}

static void put_verdict(uint64_t w, const uint8_t *branch, size_t length) {
    static const char *place[] = {"root", "left", "middle", "right", "unplaced"};
    unsigned ids = wozhnerk_identifiers(w), count = wozhnerk_formulas(w);
    const char *comma = "";
    if (ids > 512 || count > 1280 || w >> 58 != 0) {
        printf("error a count or a bit out of range\n");
        return;
    }
    printf("{\"proved\":%s,\"late\":%s,\"ids\":%u,\"formulas\":%u,\"worlds\":%u,\"steps\":%u,\"wrong\":%u,\"edges\":[",
           wozhnerk_proved(w) ? "true" : "false", wozhnerk_late(w) ? "true" : "false", ids, count, wozhnerk_worlds(w),
           wozhnerk_steps(w), wrong(ids, count, branch, length));
    for (unsigned u = 0; u < WOZHNERK_EDGES_LENGTH; u++)
        for (unsigned v = 0; v < 32; v++)
            if (edges[u] >> v & 1) {
                printf("%s[%u,%u]", comma, u, v);
                comma = ",";
            }
    printf("],\"nodes\":[");
    for (unsigned i = 0; i < ids; i++) {
        const uint8_t *r = nodes + 12 * i;
        long room = LONGEST;
        printf("%s[%u,", i ? "," : "", i);
        put_number(two(r));
        printf(",\"%s\",%u,\"", r[2] <= 4 ? place[r[2]] : "?", r[3]);
        if (two(r + 4) == WOZHNERK_NONE) putchar('#');
        else put_formula(two(r + 4), count, &room);
        printf("\",");
        put_number(two(r + 6));
        putchar(',');
        put_number(two(r + 8));
        printf(",%u,%u]", r[10], r[11]);
    }
    printf("]}\n");
}

int main(void) {
    char *line = NULL;
    size_t size = 0;
    while (getline(&line, &size, stdin) > 0) {
        char *hex;
        unsigned flags = (unsigned)strtoul(line, &hex, 10), byte;
        size_t length = 0;
        hex += strspn(hex, " ");
        uint8_t *branch = malloc(strlen(hex) / 2 + 1);
        if (branch == NULL) return 2;
        while (sscanf(hex + 2 * length, "%2x", &byte) == 1) branch[length++] = (uint8_t)byte;
        memset(nodes, OLD, sizeof nodes);
        memset(formulas, OLD, sizeof formulas);
        memset(edges, OLD, sizeof edges);
        uint64_t w = wozhnerk_prove(branch, length, (uint8_t)flags, nodes, sizeof nodes, formulas, sizeof formulas, edges,
                                    WOZHNERK_EDGES_LENGTH + BEYOND);
        if (!wozhnerk_is_refusal(w)) put_verdict(w, branch, length);
        else if (w == ((uint64_t)1 << 63 | 12 << 16)) printf("full %u\n", wrong(0, 0, branch, length));
        else printf("refused %d %u\n", (int)wozhnerk_refusal_number(w), wozhnerk_refusal_record(w));
        fflush(stdout);
        free(branch);
    }
    free(line);
    return 0;
}
