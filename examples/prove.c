/* Necessary p, Possible Non p: proved. Then the same with a flag byte that has no meaning: refused. Then rules as text: the
 * README's example, open and with transitive proved; one that comes to the world limit, late; and a text that is garbled, with
 * the offset of the byte that is wrong.
 *     tools/build wozhnerk && cc -std=c99 -Wall -Wextra -pedantic -Iinclude examples/prove.c target/staticlib/libwozhnerk.a -o target/prove-c
 */
#include <stdio.h>
#include <string.h>
#include "wozhnerk.h"

static uint8_t records[WOZHNERK_RECORDS_LENGTH], nodes[WOZHNERK_NODES_LENGTH], formulas[WOZHNERK_FORMULAS_LENGTH];
static uint32_t edges[WOZHNERK_EDGES_LENGTH];

static void say(uint64_t answer) {
    if (wozhnerk_is_refusal(answer) && wozhnerk_refusal_number(answer) == WOZHNERK_UNREADABLE_TEXT) {
        printf("garbled at byte %u\n", wozhnerk_refusal_offset(answer));
        return;
    }
    if (wozhnerk_is_refusal(answer)) {
        printf("refused: number %d, record %u\n", (int)wozhnerk_refusal_number(answer), wozhnerk_refusal_record(answer));
        return;
    }
    printf("%s: %u identifiers, %u formulas, %u worlds, %u steps\n",
           wozhnerk_proved(answer) ? "proved" : wozhnerk_late(answer) ? "late" : "open", wozhnerk_identifiers(answer),
           wozhnerk_formulas(answer), wozhnerk_worlds(answer), wozhnerk_steps(answer));
}

static void prove(const uint8_t *branch, size_t length, uint8_t flags) {
    say(wozhnerk_prove(branch, length, flags, nodes, sizeof nodes, formulas, sizeof formulas, edges, WOZHNERK_EDGES_LENGTH));
}

static void prove_typed(const char *text, uint8_t flags) {
    say(wozhnerk_prove_typed((const uint8_t *)text, strlen(text), flags, records, sizeof records, nodes, sizeof nodes, formulas,
                             sizeof formulas, edges, WOZHNERK_EDGES_LENGTH));
}

int main(void) {
    static const uint8_t branch[] = {
        0, 0, 0, 0, 0, 0, /* 0: p */
        8, 1, 0, 0, 0, 0, /* 1: Necessary p, marked */
        1, 0, 0, 0, 0, 0, /* 2: Non p */
        7, 1, 2, 0, 0, 0, /* 3: Possible Non p, marked */
    };
    static const char rules[] = "a0 => a1\n~[](a0 => a1)\n";
    prove(branch, sizeof branch, 0);
    prove(branch, sizeof branch, 16);
    prove_typed(rules, 0);
    prove_typed(rules, WOZHNERK_TRANSITIVE);
    prove_typed("[]<>a0\n<>a0\n", WOZHNERK_TRANSITIVE);
    prove_typed("a0 => a1\n~[](a0 = a1)\n", 0);
    return 0;
}
