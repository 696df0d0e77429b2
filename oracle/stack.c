/* The least stack on which the exported functions answer, for the texts that nest deepest and for long runs.
 *     cc -std=c99 -O2 -Wall -Wextra -pthread -Iinclude oracle/stack.c target/staticlib/libwozhnerk.a -o target/stack
 * Each try is a child process with a thread on a stack of that size, an inaccessible page below it; a crash ends the child.
 * The size is halved in on, in steps of 4 KiB, from 1 MiB; 16 KiB is the least that a thread may have. The sizes hold the
 * thread's own data, some 4 KiB. Prints a line for each text: its length, the least stack in KiB of wozhnerk_prove_typed, of
 * wozhnerk_prove on the records read (- where the text is garbled), and the answer. Exit status 1 if 1 MiB is not enough, or
 * an answer is not as expected, or differs between stacks or functions. */
#define _GNU_SOURCE
#include <pthread.h>
#include <stdio.h>
#include <stdlib.h>
#include <string.h>
#include <sys/mman.h>
#include <sys/wait.h>
#include <unistd.h>
#include "wozhnerk.h"

enum { PAGE = 4096, KIB = 1024, MOST = 1024, LEAST = 16, STEP = 4, LONGEST = WOZHNERK_TEXT_LENGTH, RECORDS_LENGTH = WOZHNERK_RECORDS_LENGTH, NONE = -1 };
static uint8_t text[LONGEST], records[RECORDS_LENGTH], nodes[WOZHNERK_NODES_LENGTH], formulas[WOZHNERK_FORMULAS_LENGTH];
static uint32_t edges[WOZHNERK_EDGES_LENGTH];
static size_t text_length, records_length;
static uint8_t flags;

/* A text: so many times `opening`, `middle`, as many times `closing`, a newline; or only `opening`, if `middle` is null. */
static const struct {
    const char *name, *opening;
    unsigned count;
    const char *middle, *closing;
    uint8_t flags;
    int number; /* of the refusal, 0 for a verdict, NONE for whatever it is */
    unsigned place;
} cases[] = {
    {"2,046 brackets, the deepest text", "(", 2046, "a0", ")", 0, 0, 0},
    {"4,096 open brackets", "(", 4096, NULL, NULL, 0, 13, 4096},
    {"4,093 signs", "~", 4093, "a0", "", 0, 3, 0},
    {"1,023 arrows, the longest chain", "a0->", 1023, "a0", "", 0, 3, 0},
    {"1,364 of ~(", "~(", 1364, "a0", ")", 0, 3, 0},
    {"682 of a0->(", "a0->(", 682, "a0", ")", 0, 3, 0},
    {"1,364 of &", "a0&", 1364, "a0", "", 0, 3, 0},
    {"818 of <->", "a0<->", 818, "a0", "", 0, 3, 0},
    {"a run: 255 signs, checks skipped", "~", 255, "a0", "", 8, 0, 0},
    {"a run: 127 of a0&(", "a0&(", 127, "a0", ")", 0, 0, 0},
    {"a run: 127 of a0|(", "a0|(", 127, "a0", ")", 0, 0, 0},
    {"a run: 85 of [](a0->, reflexive", "[](a0->", 85, "a0", ")", 1, NONE, 0},
    {"a run: 63 of <>, []a1 and reflexive, transitive", "<>", 63, "a0\n[]a1", "", 5, NONE, 0},
    {"a run: 63 of a0<->(", "a0<->(", 63, "a0", ")", 0, NONE, 0},
};

static void add(const char *s) {
    if (text_length + strlen(s) > LONGEST) exit(2);
    memcpy(text + text_length, s, strlen(s));
    text_length += strlen(s);
}

static void make(size_t i) {
    text_length = 0;
    for (unsigned n = 0; n < cases[i].count; n++) add(cases[i].opening);
    if (cases[i].middle == NULL) return;
    add(cases[i].middle);
    for (unsigned n = 0; n < cases[i].count; n++) add(cases[i].closing);
    add("\n");
}

static void *call_typed(void *answer) {
    *(uint64_t *)answer = wozhnerk_prove_typed(text, text_length, flags, records, sizeof records, nodes, sizeof nodes, formulas,
                                               sizeof formulas, edges, WOZHNERK_EDGES_LENGTH);
    return NULL;
}

static void *call_prove(void *answer) {
    *(uint64_t *)answer = wozhnerk_prove(records, records_length, flags, nodes, sizeof nodes, formulas, sizeof formulas, edges,
                                         WOZHNERK_EDGES_LENGTH);
    return NULL;
}

/* In a child, on a stack of so many KiB: whether it ended, and its answer and records through shared memory. */
struct shared {
    uint64_t answer;
    uint8_t records[RECORDS_LENGTH];
};

static int try(void *(*function)(void *), size_t kib, struct shared *shared) {
    fflush(stdout);
    pid_t child = fork();
    if (child < 0) exit(2);
    if (child == 0) {
        pthread_attr_t attributes;
        pthread_t thread;
        uint8_t *room = mmap(NULL, PAGE + kib * KIB, PROT_READ | PROT_WRITE, MAP_PRIVATE | MAP_ANONYMOUS, -1, 0);
        if (room == MAP_FAILED || mprotect(room, PAGE, PROT_NONE) != 0) _exit(2);
        pthread_attr_init(&attributes);
        if (pthread_attr_setstack(&attributes, room + PAGE, kib * KIB) != 0) _exit(2);
        if (pthread_create(&thread, &attributes, function, &shared->answer) != 0 || pthread_join(thread, NULL) != 0) _exit(2);
        memcpy(shared->records, records, sizeof records);
        _exit(0);
    }
    int status;
    if (waitpid(child, &status, 0) != child || (WIFEXITED(status) && WEXITSTATUS(status) != 0)) {
        fprintf(stderr, "a try could not be made\n");
        exit(2);
    }
    return WIFEXITED(status);
}

/* The least stack in KiB; NONE if 1 MiB is not enough, or an answer on a smaller stack is another. */
static int least(void *(*function)(void *), uint64_t *answer, struct shared *shared) {
    int low = LEAST / STEP - 1, high = MOST / STEP;
    if (!try(function, MOST, shared)) return NONE;
    *answer = shared->answer;
    while (high - low > 1) {
        int middle = (low + high) / 2;
        if (!try(function, (size_t)(middle * STEP), shared)) {
            low = middle;
        } else {
            if (shared->answer != *answer) return NONE;
            high = middle;
        }
    }
    return high * STEP;
}

int main(void) {
    int good = 1, most = 0;
    struct shared *shared = mmap(NULL, sizeof *shared, PROT_READ | PROT_WRITE, MAP_SHARED | MAP_ANONYMOUS, -1, 0);
    if (shared == MAP_FAILED) return 2;
    printf("%-50s %6s %6s %6s  %s\n", "text", "bytes", "typed", "prove", "answer");
    for (size_t i = 0; i < sizeof cases / sizeof *cases; i++) {
        uint64_t answer = 0, other = 0;
        make(i);
        flags = cases[i].flags;
        int typed = least(call_typed, &answer, shared), prove = NONE, refused = wozhnerk_is_refusal(answer);
        unsigned number = refused ? (unsigned)wozhnerk_refusal_number(answer) : 0;
        int fine = typed != NONE && (cases[i].number == NONE || (number == (unsigned)cases[i].number &&
                                                                  (!refused || wozhnerk_refusal_record(answer) == cases[i].place)));
        if (fine && number != 13) {
            memcpy(records, shared->records, sizeof records);
            records_length = sizeof records;
            while (records_length > 0 && records[records_length - 5] == 0) records_length -= 6; /* the last record is marked */
            prove = least(call_prove, &other, shared);
            fine = prove != NONE && other == answer;
        }
        printf("%-50s %6zu %6d ", cases[i].name, text_length, typed);
        if (prove == NONE) printf("%6s  ", "-");
        else printf("%6d  ", prove);
        if (refused) printf("refused %u %u", number, wozhnerk_refusal_record(answer));
        else printf("verdict, %u identifiers, %u worlds", wozhnerk_identifiers(answer), wozhnerk_worlds(answer));
        printf("%s\n", fine ? "" : "  NOT AS EXPECTED");
        good &= fine;
        if (typed > most) most = typed;
        if (prove > most) most = prove;
    }
    printf("%s; the most is %d KiB\n", good ? "1 MiB is enough for each" : "FAILED", most);
    return good ? 0 : 1;
}
