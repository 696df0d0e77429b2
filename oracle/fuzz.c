/* Random byte strings, flags, tray lengths and old tray contents through the exported functions.
 *     cc -std=c99 -O2 -g -Wall -Wextra -pthread -Iinclude oracle/fuzz.c target/staticlib/libwozhnerk.a -o target/fuzz
 *     target/fuzz CALLS SEED          wozhnerk_prove
 *     target/fuzz CALLS SEED typed    wozhnerk_prove_typed
 * Branch or text, and trays, stand between inaccessible pages, at random right before one or right after one, at their exact lengths.
 * After each call: a refusal 1 to 11 is the one that the checks below find, and no byte has changed; 12 zeroes the three
 * lengths; a verdict's records are in range and zeros follow them; no byte beyond the three lengths, and none of the branch,
 * has changed. For typed rules also: 5 for a short tray of records, else 14, and none of the two otherwise; 5, 13 and 14 change
 * no byte; records that were read are of the papers' shape, a marked one for each newline, zeros after them, and wozhnerk_prove
 * on them answers the same and writes the same trays; a second call answers and writes the same; the bytes before the offset of
 * 13 can be continued to a text that is taken, and with the token at the offset they cannot.
 * Prints the outcomes met and the deepest stack. Exit status 1 at the first fault, which is printed. */
#define _GNU_SOURCE
#include <pthread.h>
#include <signal.h>
#include <stdio.h>
#include <stdlib.h>
#include <string.h>
#include <sys/mman.h>
#include <unistd.h>
#include "wozhnerk.h"

enum { PAGE = 4096, ROOM = 3 * PAGE, STACK = 1 << 20, LONGEST_BRANCH = 2 * PAGE };
enum { LONGEST_TEXT = WOZHNERK_TEXT_LENGTH, RECORDS_LENGTH = WOZHNERK_RECORDS_LENGTH, RECORDS_ROOM = 7 * PAGE };
enum { BRANCH, NODES, FORMULAS, EDGES, RECORDS, LENT }; /* BRANCH: the text, for typed rules */

/* What is lent of a room between two inaccessible pages; lengths in bytes. */
struct lent {
    uint8_t *room, *at;
    size_t length;
    const uint8_t *old; /* the room's contents before the call */
};

static struct lent lent[LENT];
static const size_t written[LENT] = {0, WOZHNERK_NODES_LENGTH, WOZHNERK_FORMULAS_LENGTH, 4 * WOZHNERK_EDGES_LENGTH, RECORDS_LENGTH};
static const size_t rooms[LENT] = {ROOM, ROOM, ROOM, ROOM, RECORDS_ROOM};
static uint8_t noise[16 * PAGE], before[ROOM];
static uint8_t branch[LONGEST_BRANCH], text[ROOM], flags; /* branch: the records read, for typed rules */
static size_t length, text_length;
static int typed;
static unsigned long calls, call, seed, refusals[15], verdicts[3], at_512, proved_at_limit, offsets;
static uint64_t state, answer;

static unsigned below(unsigned n) { /* splitmix64 */
    uint64_t z = (state += 0x9e3779b97f4a7c15);
    z = (z ^ z >> 30) * 0xbf58476d1ce4e5b9;
    z = (z ^ z >> 27) * 0x94d049bb133111eb;
    return (unsigned)((z ^ z >> 31) >> 32) % n;
}

static void fail(const char *what) {
    printf("FAULT at call %lu of seed %lu: %s\nanswer %016llx, flags %u, trays %zu %zu %zu, branch ", call, seed, what,
           (unsigned long long)answer, flags, lent[NODES].length, lent[FORMULAS].length, lent[EDGES].length / 4);
    for (size_t i = 0; i < length && i < sizeof branch; i++) printf("%02x", branch[i]);
    if (typed) printf("\ntray of records %zu, text ", lent[RECORDS].length);
    for (size_t i = 0; typed && i < text_length; i++) printf("%02x", text[i]);
    printf("\n");
    fflush(stdout);
    _exit(1);
}

static void on_fault(int signal) {
    (void)signal;
    fail("memory that was not lent is reached, or the stack is too small");
}

/* ---- making a branch */

static void put(unsigned kind, unsigned mark, unsigned a, unsigned b) {
    const uint8_t r[6] = {(uint8_t)kind, (uint8_t)mark, (uint8_t)a, (uint8_t)(a >> 8), (uint8_t)b, (uint8_t)(b >> 8)};
    if (length + 6 <= sizeof branch) memcpy(branch + length, r, 6);
    length += 6;
}

static unsigned last(void) { return (unsigned)(length / 6) - 1; }

/* Records that link to any earlier ones; now and then one that is too large. */
static void put_any(void) {
    static const char *kinds[] = {"012345678", "01178787826", "01123453", "0011155", "0000000112"};
    static unsigned size[300];
    const char *theme = kinds[below(5)];
    unsigned count = below(64) == 0 ? 250 + below(10) : below(16) == 0 ? 1 + below(60) : 1 + below(10);
    unsigned atoms = 1 + below(4), marks = 1 + below(10), reach = 1 + below(8), large = below(16) == 0;
    for (unsigned i = 0; i < count; i++) {
        unsigned kind = i == 0 ? 0 : (unsigned)theme[below((unsigned)strlen(theme))] - '0';
        unsigned a = i == 0 ? 0 : i - 1 - below(i < reach ? i : reach), b = i == 0 ? 0 : i - 1 - below(i < reach ? i : reach);
        int two = kind >= 2 && kind <= 6;
        size[i] = kind == 0 ? 1 : 1 + size[a] + (two ? size[b] : 0);
        if (size[i] > 4096 && !large) kind = 0;
        if (size[i] > 4096) size[i] = kind == 0 ? 1 : 5000;
        put(kind, below(10) < marks, kind == 0 ? below(atoms) : a, kind == 0 || !two ? 0 : b);
    }
    if (below(16) != 0) branch[length - 5] = 1;
}

/* About 24 nested Possibles over a literal, and a Necessary beside them: near 25 worlds. */
static void put_chain(void) {
    put(0, 0, 0, 0);
    put(1, 0, 0, 0);
    unsigned count = 20 + below(6), at = below(2);
    for (unsigned i = 0; i < count; i++) {
        put(7, i == count - 1, at, 0);
        at = last();
    }
    put(8, 1, below(2), 0);
    if (below(2)) put(below(9), 1, below(2), 0);
    flags |= 4;
}

/* Ors of distinct atoms, and a chain of Ands or Non Nons: near 512 identifiers. */
static void put_ors(void) {
    unsigned count = 4 + below(5), chain = below(4) == 0 ? below(130) : below(12);
    for (unsigned i = 0; i < count; i++) {
        put(0, 0, 2 * i, 0);
        put(0, 0, 2 * i + 1, 0);
        put(3, 1, last() - 1, last());
    }
    put(0, 0, 99, 0);
    for (unsigned i = 0; i < chain; i++) put(2, i == chain - 1, last(), below(last() + 1));
}

/* A chain of Ands, and Nons: one long path. */
static void put_deep(void) {
    unsigned count = 200 + below(56);
    put(0, 0, 0, 0);
    for (unsigned i = 1; i < count; i++) put(below(8) ? 2 : 1 + 6 * below(2), i == count - 1, last(), 0);
}

/* Literals, some 64 of them marked. */
static void put_crowd(void) {
    unsigned count = 62 + below(5);
    for (unsigned i = 0; i < count; i++) put(0, 1, below(4) == 0 ? 65535 : i, 0);
    if (below(2)) put(1, 0, below(count), 0);
}

/* Bytes, lengths or flags changed, or anything at all. */
static void change(void) {
    switch (below(8)) {
    case 0: length += 1 + below(7); break;
    case 1: length -= below((unsigned)length + 1) % 8; break;
    case 2: flags = (uint8_t)below(256); break;
    case 3: flags = (uint8_t)(14 + below(4)); break;
    default:
        if (length > 0) {
            uint8_t *b = branch + below((unsigned)length);
            *b = (uint8_t)(below(3) == 0 ? below(256) : below(2) ? below(10) : *b ^ 1u << below(8));
        }
    }
}

static void make_branch(void) {
    length = 0;
    flags = (uint8_t)below(16);
    unsigned style = below(200);
    memset(branch, 0, sizeof branch);
    if (style < 10) {
        length = below(below(4) ? 100 : sizeof branch);
        for (size_t i = 0; i < length; i++) branch[i] = (uint8_t)below(256);
        if (below(2)) length -= length % 6;
    } else if (style < 12) {
        length = 6 * (254 + below(5));
    } else if (style < 16) {
        put_chain();
    } else if (style < 18) {
        put_ors();
    } else if (style < 19) {
        put_deep();
    } else if (style < 25) {
        put_crowd();
    } else {
        put_any();
    }
    for (unsigned n = below(2) ? 0 : below(4); n > 0; n--) change();
}

/* ---- making a text */

static void type(const char *s) {
    size_t n = strlen(s);
    if (text_length + n <= sizeof text) memcpy(text + text_length, s, n), text_length += n;
}

static void type_name(unsigned n) {
    char name[12];
    snprintf(name, sizeof name, "a%u", n);
    type(name);
}

static void space(unsigned often) {
    if (below(10) < often) type(below(3) ? " " : "   ");
}

static const char *const signs[] = {"~", "[]", "<>"}, *const operators[] = {"&", "|", "->", "=>", "<->"};

/* A formula of about so many connectives, as the grammar has it. */
static void type_formula(unsigned size, unsigned atoms, unsigned often) {
    unsigned brackets = size > 0 && below(3) == 0;
    if (brackets) type("("), space(often);
    if (size == 0) {
        type_name(below(32) ? below(atoms) : 65535 - below(2));
    } else if (below(5) < 2) {
        type(signs[below(3)]);
        space(often);
        type_formula(size - 1, atoms, often);
    } else {
        unsigned left = below(size);
        type_formula(left, atoms, often);
        space(often);
        type(operators[below(5)]);
        space(often);
        type_formula(size - 1 - left, atoms, often);
    }
    if (brackets) space(often), type(")");
}

static void type_lines(void) {
    unsigned lines = below(24) == 0 ? 60 + below(8) : 1 + below(4), atoms = 1 + below(4), often = below(3) * 4;
    unsigned most = below(100) == 0 ? 100 : 2 + below(6);
    for (unsigned i = 0; i < lines; i++) {
        size_t begin = text_length, end;
        space(often);
        type_formula(below(lines > 8 ? 2 : most), atoms, often);
        space(often);
        end = text_length;
        if (i + 1 < lines || below(16)) type("\n");
        if (below(8) == 0 && 2 * end + 8 < sizeof text) { /* and its denial */
            type("~(");
            memcpy(text + text_length, text + begin, end - begin);
            text_length += end - begin;
            type(")\n");
        }
    }
    space(often);
}

/* Nested Possibles, and as many Necessaries that deny what they end in: near 25 worlds, proved or not. */
static void type_worlds(void) {
    unsigned count = 20 + below(6);
    for (unsigned i = 1; i < count; i++) type(below(50) ? "<>~~" : "<>");
    type("<>a0\n");
    for (unsigned i = 0; i < count; i++) type("[]");
    type("~a0\n");
    if (below(2)) flags = 0;
}

/* A nest or a chain, of any length up to one that is too long. */
static void type_long(void) {
    static const char *opening[] = {"(", "~(", "a0->(", "~", "[]", "<>", "a0&", "a1|", "a0->", "a0=>", "a0<->", "(a0)<->", "a65535&",
                                    "a0\n", "~a0\n", " "};
    const char *o = opening[below(sizeof opening / sizeof *opening)];
    unsigned close = 0;
    for (const char *c = o; *c; c++) close += *c == '(';
    for (const char *c = o; *c; c++) close -= *c == ')';
    size_t each = strlen(o) + close, room = below(2) ? LONGEST_TEXT + 2 : below(below(2) ? 400 : LONGEST_TEXT), n = room / each;
    for (size_t i = 0; i < n - (n > 0 && below(2)); i++) type(o);
    if (below(8)) type("a0");
    size_t closed = below(4) ? n : below((unsigned)n + 2);
    for (size_t i = 0; close && i < closed; i++) type(")");
    if (below(8)) type("\n");
}

static void type_tokens(void) {
    static const char *pieces[] = {"a0", "a1", "a65535", "~", "[]", "<>", "&", "|", "->", "=>", "<->", "(", ")", "\n",
                                   "a", "a00", "a65536", "[", "<-", "="};
    for (unsigned n = below(12), end = below(2) ? 20 : 14; n > 0; n--) type(pieces[below(end)]), space(3);
}

static void type_bytes(void) {
    static const char *alphabets[] = {"a0~[]<>&|-=()\n ", "a0\n", "a0&~\n", "a0123456789 \n", "<->=", "( )a0\n"};
    unsigned which = below(8);
    text_length = below(below(4) ? 20 : below(2) ? 4200 : sizeof text);
    for (size_t i = 0; i < text_length; i++)
        text[i] = (uint8_t)(which < 6 ? alphabets[which][below((unsigned)strlen(alphabets[which]))] : (int)below(256));
}

/* A byte dropped, doubled, changed, two swapped, the end cut, or the text filled up to a length around the limit or far above. */
static void damage(void) {
    static const char any[] = "a0~[]<>&|-=()\n \t\r";
    size_t at = below((unsigned)text_length + 1);
    switch (below(8)) {
    case 0:
        if (at < text_length) memmove(text + at, text + at + 1, --text_length - at);
        break;
    case 1:
        if (at < text_length && text_length < sizeof text) memmove(text + at + 1, text + at, text_length++ - at);
        break;
    case 2:
        if (at < text_length) text[at] = (uint8_t)below(256);
        break;
    case 3:
    case 4:
        if (at < text_length) text[at] = (uint8_t)any[below(sizeof any)];
        break;
    case 5:
        if (at + 1 < text_length) {
            uint8_t b = text[at];
            text[at] = text[at + 1];
            text[at + 1] = b;
        }
        break;
    case 6: text_length = at; break;
    default:
        if (below(4) == 0) {
            size_t end = below(2) ? LONGEST_TEXT - 1 + below(3) : text_length + below((unsigned)(sizeof text - text_length) + 1);
            if (end > text_length) {
                memset(text + text_length, below(4) ? ' ' : any[below(sizeof any)], end - text_length);
                text_length = end;
            }
        }
    }
}

static void make_text(void) {
    unsigned style = below(100);
    text_length = 0;
    flags = (uint8_t)(below(20) ? below(16) : below(256));
    if (style < 60) type_lines();
    else if (style < 70) type_long();
    else if (style < 85) type_tokens();
    else if (style < 99 || below(10)) type_bytes();
    else type_worlds();
    for (unsigned n = below(2) ? 0 : 1 + below(3); n > 0; n--) damage();
}

/* ---- lending */

static size_t tray_length(size_t exact) {
    switch (below(64)) {
    case 0: return exact - 1;
    case 1: return below((unsigned)exact);
    case 2: return 0;
    default: return exact + (below(2) ? 0 : below(2) ? 1 : below(400));
    }
}

static void lend(int i, size_t bytes) {
    struct lent *l = &lent[i];
    l->length = bytes;
    l->at = below(2) ? l->room : l->room + rooms[i] - bytes;
    l->old = noise + below((unsigned)(sizeof noise - rooms[i]));
    memcpy(l->room, l->old, rooms[i]);
    if (bytes == 0 && below(2)) l->at = NULL;
}

/* ---- what must hold */

/* The first of the checks 1 to 11 that applies, as the answer has it; 0 if none does. */
static uint64_t refusal(void) {
    static unsigned size[256];
    unsigned marked = 0, number = length % 6 != 0 ? 1 : length == 0 ? 2 : length > 1536 ? 3 : flags > 15 ? 4 : 0, i = 0;
    for (int t = NODES; number == 0 && t <= EDGES; t++) number = lent[t].length < written[t] ? 5 : 0;
    for (; number == 0 && i < length / 6; i++) {
        const uint8_t *r = branch + 6 * i;
        unsigned a = r[2] + 256u * r[3], b = r[4] + 256u * r[5], links = r[0] == 0 ? 0 : r[0] >= 2 && r[0] <= 6 ? 2 : 1;
        if (r[0] > 8) number = 6;
        else if (r[1] > 1 || (links < 2 && b != 0)) number = 7;
        else if ((links > 0 && a >= i) || (links > 1 && b >= i)) number = 8;
        else if ((size[i] = 1 + (links > 0 ? size[a] : 0) + (links > 1 ? size[b] : 0)) > 4096) number = 9;
        if (number != 0) return (uint64_t)1 << 63 | number << 16 | i;
        marked += r[1];
    }
    if (number == 0) number = marked == 0 ? 10 : marked > 64 ? 11 : 0;
    return number == 0 ? 0 : (uint64_t)1 << 63 | number << 16;
}

/* The room is as it was, but for the first `bytes` lent. */
static void intact(int i, size_t bytes) {
    const struct lent *l = &lent[i];
    size_t from = l->at == NULL ? 0 : (size_t)(l->at - l->room);
    if (memcmp(l->room, l->old, from) != 0) fail("a byte before a tray is changed");
    if (memcmp(l->room + from + bytes, l->old + from + bytes, rooms[i] - from - bytes) != 0) fail("a byte that must stay is changed");
}

static void zero(int i, size_t from) {
    for (; from < written[i]; from++)
        if (lent[i].at[from] != 0) fail("a byte that must be zero is not");
}

static unsigned two(const uint8_t *at) { return at[0] | (unsigned)at[1] << 8; }

static void in_range(unsigned n, unsigned end, const char *what) {
    if (n >= end && n != WOZHNERK_NONE) fail(what);
}

static void check_verdict(void) {
    unsigned ids = wozhnerk_identifiers(answer), count = wozhnerk_formulas(answer), worlds = wozhnerk_worlds(answer);
    if (answer >> 58 != 0) fail("a bit that must be zero is not");
    if (ids == 0 || ids > 512 || count < length / 6 || count > 1280 || worlds > 25 || wozhnerk_steps(answer) > ids)
        fail("a count is out of range");
    /* a node waits: an identifier that no step has taken */
    bool waits = wozhnerk_steps(answer) < ids, proved = wozhnerk_proved(answer), late = wozhnerk_late(answer);
    if (late != (worlds == 25 && !proved && waits)) fail("late is not what the counts say");
    if (worlds == 25 && !waits) fail("no node waits at the world limit");
    if (!proved && !late && waits) fail("a node of an open verdict waits");
    if (proved && worlds == 25) proved_at_limit++;
    if (memcmp(lent[FORMULAS].at, branch, length) != 0) fail("the formula tray does not start with the branch");
    zero(NODES, 12 * ids);
    zero(FORMULAS, 6 * count);
    zero(EDGES, 4 * worlds);
    for (unsigned i = 0; i < ids; i++) {
        const uint8_t *r = lent[NODES].at + 12 * i;
        in_range(two(r), ids, "a parent is out of range");
        in_range(two(r + 4), count, "a formula number is out of range");
        in_range(two(r + 6), ids, "a spawner is out of range");
        in_range(two(r + 8), ids, "a contrarian is out of range");
        if (r[2] > 4 || r[3] >= (worlds ? worlds : 1) || r[10] != (two(r + 8) != WOZHNERK_NONE) || r[11] != 0)
            fail("a node field is out of range");
    }
    for (unsigned u = 0; u < worlds; u++)
        if (((const uint32_t *)(const void *)lent[EDGES].at)[u] >> worlds != 0) fail("an edge leads to no world");
    verdicts[proved + 2 * late]++;
    at_512 += ids == 512;
}

static void one_call(void) {
    make_branch();
    lend(BRANCH, length);
    if (lent[BRANCH].at != NULL) memcpy(lent[BRANCH].at, branch, length);
    memcpy(before, lent[BRANCH].room, ROOM);
    lend(NODES, tray_length(WOZHNERK_NODES_LENGTH));
    lend(FORMULAS, tray_length(WOZHNERK_FORMULAS_LENGTH));
    lend(EDGES, 4 * tray_length(WOZHNERK_EDGES_LENGTH));
    uint64_t expected = refusal();
    answer = wozhnerk_prove(lent[BRANCH].at, length, flags, lent[NODES].at, lent[NODES].length, lent[FORMULAS].at, lent[FORMULAS].length,
                            (uint32_t *)(void *)lent[EDGES].at, lent[EDGES].length / 4);
    int full = answer == ((uint64_t)1 << 63 | 12 << 16);
    if (memcmp(before, lent[BRANCH].room, ROOM) != 0) fail("the branch is changed");
    if (expected != 0 ? answer != expected : wozhnerk_is_refusal(answer) && !full) fail("not the refusal that the checks find");
    for (int i = NODES; i <= EDGES; i++) intact(i, expected != 0 ? 0 : written[i]);
    for (int i = NODES; full && i <= EDGES; i++) zero(i, 0);
    if (wozhnerk_is_refusal(answer)) refusals[wozhnerk_refusal_number(answer)]++;
    else check_verdict();
}

/* ---- typed rules */

static uint64_t call_typed(void) {
    return wozhnerk_prove_typed(lent[BRANCH].at, text_length, flags, lent[RECORDS].at, lent[RECORDS].length, lent[NODES].at,
                                lent[NODES].length, lent[FORMULAS].at, lent[FORMULAS].length, (uint32_t *)(void *)lent[EDGES].at,
                                lent[EDGES].length / 4);
}

/* Takes the records read as the branch: children first, left before right, none shared, so that links are known by the
 * sizes; a marked record for each newline, each at the end of a formula; zeros after them. The last record is marked, so it
 * is not zero. */
static void take_records(void) {
    static unsigned size[RECORDS_LENGTH / 6];
    const uint8_t *r = lent[RECORDS].at;
    unsigned count = RECORDS_LENGTH / 6, newlines = 0, begin = 0;
    while (count > 0 && memcmp(r + 6 * (count - 1), "\0\0\0\0\0", 6) == 0) count--;
    for (unsigned i = 0; i < count; i++, r += 6) {
        unsigned links = r[0] == 0 ? 0 : r[0] >= 2 && r[0] <= 6 ? 2 : 1, a = two(r + 2), b = two(r + 4);
        size[i] = 1;
        if (r[0] > 8 || r[1] > 1 || (links < 2 && b != 0)) fail("no record");
        if (links > 0) {
            unsigned right = links == 2 ? b : a;
            if (i == begin || right != i - 1) fail("a record is not right after its last part");
            size[i] += size[right];
            if (links == 2) {
                if (i < begin + size[i] || a != i - size[i]) fail("a left part is not right before the right one");
                size[i] += size[a];
            }
        }
        if (r[1] == 1) {
            if (size[i] != i + 1 - begin) fail("a marked record is not all of its line");
            begin = i + 1;
            newlines++;
        }
    }
    if (begin != count) fail("a record is of no line");
    for (size_t i = 0; i < text_length; i++) newlines -= text[i] == '\n';
    if (newlines != 0) fail("not a marked record for each newline");
    length = 6 * (size_t)count;
    memcpy(branch, lent[RECORDS].at, length < sizeof branch ? length : sizeof branch);
}

/* wozhnerk_prove on the records read. */
static void same_from_records(uint64_t expected) {
    static uint32_t other[LENT][WOZHNERK_FORMULAS_LENGTH / 4];
    uint64_t again;
    if (expected != 0) {
        again = wozhnerk_prove(lent[RECORDS].at, length, flags, lent[NODES].at, lent[NODES].length, lent[FORMULAS].at,
                               lent[FORMULAS].length, (uint32_t *)(void *)lent[EDGES].at, lent[EDGES].length / 4);
    } else {
        again = wozhnerk_prove(lent[RECORDS].at, length, flags, (uint8_t *)other[NODES], written[NODES], (uint8_t *)other[FORMULAS],
                               written[FORMULAS], other[EDGES], WOZHNERK_EDGES_LENGTH);
        for (int i = NODES; i <= EDGES; i++)
            if (memcmp(other[i], lent[i].at, written[i]) != 0) fail("the trays are not those of the records");
    }
    if (again != answer) fail("the answer is not that of the records");
}

/* The length of the token at `at`, 0 if it is none. */
static size_t token(size_t at) {
    static const char *pieces[] = {"~", "[]", "<>", "&", "|", "->", "=>", "<->", "(", ")", "\n"};
    size_t left = text_length - at, end = at + 1;
    for (size_t i = 0; i < sizeof pieces / sizeof *pieces; i++)
        if (left >= strlen(pieces[i]) && memcmp(text + at, pieces[i], strlen(pieces[i])) == 0) return strlen(pieces[i]);
    if (text[at] != 'a') return 0;
    unsigned long value = 0;
    for (; end < text_length && text[end] >= '0' && text[end] <= '9'; end++)
        if (value < 100000) value = 10 * value + text[end] - '0';
    return end == at + 1 || value > 65535 || (end > at + 2 && text[at + 1] == '0') ? 0 : end - at;
}

/* Whether the first bytes of the text, which are whole tokens, begin a text: with an operand or none, closing brackets and a
 * newline, or with nothing, they are taken. Flags 16: what is taken is refused before it is run. -1 where that is too long. */
static int begins(size_t bytes) {
    static uint8_t whole[LONGEST_TEXT], read[RECORDS_LENGTH];
    static uint32_t trays[WOZHNERK_FORMULAS_LENGTH / 4];
    static const char *operands[] = {"", " a0"};
    int depth = 0;
    for (size_t i = bytes; i > 0 && text[i - 1] != '\n'; i--) depth += (text[i - 1] == '(') - (text[i - 1] == ')');
    if (depth < 0) depth = 0;
    if (bytes + (size_t)depth + 4 > LONGEST_TEXT) return -1;
    for (int way = 0; way < 3; way++) {
        size_t n = bytes;
        memcpy(whole, text, bytes);
        if (way < 2) {
            memcpy(whole + n, operands[way], strlen(operands[way])), n += strlen(operands[way]);
            memset(whole + n, ')', (size_t)depth), n += (size_t)depth;
            whole[n++] = '\n';
        }
        uint64_t a = wozhnerk_prove_typed(whole, n, 16, read, sizeof read, (uint8_t *)trays, 0, (uint8_t *)trays, 0, trays, 0);
        if (wozhnerk_refusal_number(a) != 13) return 1;
    }
    return 0;
}

static void check_offset(void) {
    size_t at = wozhnerk_refusal_record(answer), n = at < text_length ? token(at) : 0;
    if (at < text_length && text[at] == ' ') fail("the offset is that of a space");
    if (begins(at) == 0) fail("what stands before the offset cannot be continued");
    if (n > 0 && begins(at + n) == 1) fail("the token at the offset can continue");
    offsets++;
}

static void one_typed_call(void) {
    const uint64_t refused = (uint64_t)1 << 63;
    static uint8_t kept[LENT][RECORDS_LENGTH];
    make_text();
    length = 0;
    lend(BRANCH, text_length);
    if (lent[BRANCH].at != NULL) memcpy(lent[BRANCH].at, text, text_length);
    memcpy(before, lent[BRANCH].room, ROOM);
    lend(RECORDS, tray_length(RECORDS_LENGTH));
    lend(NODES, tray_length(WOZHNERK_NODES_LENGTH));
    lend(FORMULAS, tray_length(WOZHNERK_FORMULAS_LENGTH));
    lend(EDGES, 4 * tray_length(WOZHNERK_EDGES_LENGTH));
    answer = call_typed();
    unsigned number = wozhnerk_is_refusal(answer) ? (unsigned)wozhnerk_refusal_number(answer) : 0;
    if (memcmp(before, lent[BRANCH].room, ROOM) != 0) fail("the text is changed");
    uint64_t early = lent[RECORDS].length < RECORDS_LENGTH ? refused | 5 << 16 : text_length > LONGEST_TEXT ? refused | 14 << 16 : 0;
    if (early != 0 ? answer != early : number == 14) fail("not the refusal of a short tray or a long text");
    if (early == 0 && number == 13 && (answer & ~(uint64_t)65535) != (refused | 13 << 16)) fail("a bit that must be zero is not");
    if (number == 13 && wozhnerk_refusal_record(answer) > text_length) fail("an offset beyond the text");
    int none = early != 0 || number == 13;
    uint64_t expected = 0;
    if (none) {
        for (int i = NODES; i < LENT; i++) intact(i, 0);
        if (number == 13 && below(4) == 0) check_offset();
    } else {
        intact(RECORDS, RECORDS_LENGTH);
        take_records();
        expected = refusal();
        int full = answer == (refused | 12 << 16);
        if (expected != 0 ? answer != expected : number != 0 && !full) fail("not the refusal that the checks find");
        for (int i = NODES; i <= EDGES; i++) intact(i, expected != 0 ? 0 : written[i]);
        for (int i = NODES; full && i <= EDGES; i++) zero(i, 0);
        if (number == 0) check_verdict();
        same_from_records(expected);
    }
    if (number != 0) refusals[number]++;
    if (below(4) == 0) {
        size_t lengths[LENT] = {0};
        if (!none) lengths[RECORDS] = written[RECORDS];
        for (int i = NODES; !none && expected == 0 && i <= EDGES; i++) lengths[i] = written[i];
        for (int i = NODES; i < LENT; i++)
            if (lengths[i] > 0) memcpy(kept[i], lent[i].at, lengths[i]);
        if (call_typed() != answer) fail("a second call answers otherwise");
        for (int i = NODES; i < LENT; i++) {
            if (lengths[i] > 0 && memcmp(kept[i], lent[i].at, lengths[i]) != 0) fail("a second call writes otherwise");
            intact(i, lengths[i]);
        }
    }
}

static void *run(void *unused) {
    static uint8_t other[8 * PAGE];
    stack_t beside = {.ss_sp = other, .ss_size = sizeof other};
    struct sigaction action = {.sa_handler = on_fault, .sa_flags = SA_ONSTACK};
    sigaltstack(&beside, NULL);
    sigaction(SIGSEGV, &action, NULL);
    sigaction(SIGBUS, &action, NULL);
    sigaction(SIGILL, &action, NULL);
    for (call = 1; call <= calls; call++) {
        state = seed * 0x100000001b3 + call; /* each call by its own number, so that one can be repeated alone */
        if (typed) one_typed_call();
        else one_call();
        if (call % 100000 == 0) fprintf(stderr, "%lu calls\n", call);
    }
    return unused;
}

/* So many bytes between two inaccessible pages. */
static uint8_t *guarded(size_t bytes) {
    uint8_t *p = mmap(NULL, bytes + 2 * PAGE, PROT_NONE, MAP_PRIVATE | MAP_ANONYMOUS, -1, 0);
    if (p == MAP_FAILED || mprotect(p + PAGE, bytes, PROT_READ | PROT_WRITE) != 0) {
        perror("memory");
        exit(2);
    }
    return p + PAGE;
}

int main(int argc, char **argv) {
    static const char *names[] = {"open", "proved", "late"};
    unsigned met = 0;
    pthread_attr_t attributes;
    pthread_t thread;
    typed = argc == 4 && strcmp(argv[3], "typed") == 0;
    if (argc != 3 && !typed) {
        fprintf(stderr, "usage: fuzz CALLS SEED [typed]\n");
        return 2;
    }
    calls = strtoul(argv[1], NULL, 10);
    state = seed = strtoul(argv[2], NULL, 10);
    for (size_t i = 0; i < sizeof noise; i++) noise[i] = (uint8_t)below(256);
    for (int i = 0; i < LENT; i++) lent[i].room = guarded(rooms[i]);
    /* the stack, and a second view of its memory that is read at the end */
    uint8_t *stack = guarded(STACK);
    int file = memfd_create("stack", 0);
    if (file < 0 || ftruncate(file, STACK) != 0 ||
        mmap(stack, STACK, PROT_READ | PROT_WRITE, MAP_SHARED | MAP_FIXED, file, 0) == MAP_FAILED) return 2;
    const uint8_t *view = mmap(NULL, STACK, PROT_READ, MAP_SHARED, file, 0);
    if (view == MAP_FAILED) return 2;
    pthread_attr_init(&attributes);
    pthread_attr_setstack(&attributes, stack, STACK);
    if (pthread_create(&thread, &attributes, run, NULL) != 0 || pthread_join(thread, NULL) != 0) return 2;

    for (int i = 0; i < 3; i++) met += verdicts[i] != 0, printf("%-10s %8lu\n", names[i], verdicts[i]);
    for (int i = 1; i <= (typed ? 14 : 12); i++) met += refusals[i] != 0, printf("refusal %-2d %8lu\n", i, refusals[i]);
    size_t untouched = 0;
    while (untouched < STACK && view[untouched] == 0) untouched++;
    /* of a text that is read no record is torn, unknown, stray, forward, or larger than all of them, and some are marked */
    printf("%lu calls, seed %lu, no fault; %u of %d outcomes met; %lu runs at 512 identifiers; %lu proved at 25 worlds; at most %zu bytes of stack\n", calls,
           seed, met, typed ? 11 : 15, at_512, proved_at_limit, STACK - untouched);
    if (typed) printf("%lu offsets tried by continuing the text\n", offsets);
    return 0;
}
