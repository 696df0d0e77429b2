/* The exported function for typed rules on frames from standard input; an answer each, which oracle/typed reads.
 *   frame    flags (1 byte), length (4), the text
 *   answer   the answer (8), how many bytes are changed that must stay (4), and of records, nodes, formulas and edges the
 *            length up to the last byte that is not zero (4) and these bytes; length 0 for a tray that must stay as lent
 * Numbers are written low byte first. The trays lent are longer than needed, and filled.
 *     cc -std=c99 -O2 -Wall -Wextra -Iinclude oracle/typed.c target/staticlib/libwozhnerk.a -o target/typed
 */
#include <stdio.h>
#include <stdlib.h>
#include <string.h>
#include "wozhnerk.h"

enum { BEYOND = 16, RECORDS_LENGTH = WOZHNERK_RECORDS_LENGTH };

/* Aligned for edges, whose numbers lie low byte first on x86-64. */
struct tray {
    uint32_t numbers[RECORDS_LENGTH / 4 + BEYOND];
};
static struct tray records, nodes, formulas, edges;

static void put(uint64_t n, int bytes) {
    for (; bytes > 0; bytes--, n >>= 8) putchar((int)(n & 255));
}

static uint8_t *bytes_of(struct tray *t) { return (uint8_t *)t->numbers; }

/* Bytes from `from` to the end of what is lent that are not `old`. */
static unsigned changed(struct tray *t, size_t from, size_t length, uint8_t old) {
    unsigned n = 0;
    for (; from < length + BEYOND; from++) n += bytes_of(t)[from] != old;
    return n;
}

static void put_tray(struct tray *t, size_t length) {
    while (length > 0 && bytes_of(t)[length - 1] == 0) length--;
    put(length, 4);
    fwrite(bytes_of(t), 1, length, stdout);
}

int main(void) {
    uint8_t head[5];
    for (unsigned frame = 0; fread(head, 1, sizeof head, stdin) == sizeof head; frame++) {
        size_t length = head[1] | (size_t)head[2] << 8 | (size_t)head[3] << 16 | (size_t)head[4] << 24;
        uint8_t *text = malloc(length + 1), *copy = malloc(length + 1), old = frame % 2 ? 0xa5 : 0x5a;
        if (text == NULL || copy == NULL || fread(text, 1, length, stdin) != length) return 2;
        memcpy(copy, text, length);
        struct tray *trays[] = {&records, &nodes, &formulas, &edges};
        size_t lengths[] = {RECORDS_LENGTH, WOZHNERK_NODES_LENGTH, WOZHNERK_FORMULAS_LENGTH, 4 * WOZHNERK_EDGES_LENGTH};
        for (int i = 0; i < 4; i++) memset(trays[i], old, sizeof *trays[i]);
        uint64_t answer = wozhnerk_prove_typed(text, length, head[0], bytes_of(&records), RECORDS_LENGTH + BEYOND, bytes_of(&nodes),
                                               WOZHNERK_NODES_LENGTH + BEYOND, bytes_of(&formulas), WOZHNERK_FORMULAS_LENGTH + BEYOND,
                                               edges.numbers, WOZHNERK_EDGES_LENGTH + BEYOND / 4);
        unsigned number = wozhnerk_is_refusal(answer) ? (unsigned)wozhnerk_refusal_number(answer) : 0;
        /* what is written: the records unless the text was refused, the other trays by a verdict and by 12 */
        int read = number != 13 && number != 14, ran = number == 0 || number == 12;
        for (int i = 0; i < 4; i++)
            if (!(i == 0 ? read : ran)) lengths[i] = 0;
        unsigned wrong = memcmp(copy, text, length) != 0;
        for (int i = 0; i < 4; i++) wrong += changed(trays[i], lengths[i], sizeof *trays[i] - BEYOND, old);
        put(answer, 8);
        put(wrong, 4);
        for (int i = 0; i < 4; i++) put_tray(trays[i], lengths[i]);
        fflush(stdout);
        free(text);
        free(copy);
    }
    return 0;
}
