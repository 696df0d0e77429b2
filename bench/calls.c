/* The exported function on input lines `FLAGS HEX`, so many calls for each line; for bench/profile.
 *     cc -O2 -Iinclude bench/calls.c target/staticlib/libwozhnerk.a -o calls && ./calls COUNT < lines
 */
#define _POSIX_C_SOURCE 200809L
#include <stdio.h>
#include <stdlib.h>
#include <string.h>
#include "wozhnerk.h"

static uint8_t nodes[WOZHNERK_NODES_LENGTH], formulas[WOZHNERK_FORMULAS_LENGTH];
static uint32_t edges[WOZHNERK_EDGES_LENGTH];

static unsigned digit(char c) { return (unsigned)(c <= '9' ? c - '0' : c - 'a' + 10); }

int main(int count_of_words, char **words) {
    int count = count_of_words > 1 ? atoi(words[1]) : 1;
    char *line = NULL, *hex;
    size_t size = 0;
    while (getline(&line, &size, stdin) > 0) {
        unsigned flags = (unsigned)strtoul(line, &hex, 10);
        size_t length = strspn(++hex, "0123456789abcdef") / 2;
        uint8_t *branch = malloc(length + 1);
        if (branch == NULL) return 2;
        for (size_t i = 0; i < length; i++) branch[i] = (uint8_t)(16 * digit(hex[2 * i]) + digit(hex[2 * i + 1]));
        for (int i = 0; i < count; i++) {
            memset(nodes, 0xa5, sizeof nodes);
            memset(formulas, 0xa5, sizeof formulas);
            memset(edges, 0xa5, sizeof edges);
            wozhnerk_prove(branch, length, (uint8_t)flags, nodes, sizeof nodes, formulas, sizeof formulas, edges,
                           WOZHNERK_EDGES_LENGTH);
        }
        free(branch);
    }
    free(line);
    return 0;
}
