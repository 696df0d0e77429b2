/* The tableau prover for C and C++. `tools/build wozhnerk` writes target/staticlib/libwozhnerk.a, for x86-64 Linux. */
#ifndef WOZHNERK_H
#define WOZHNERK_H

#include <stdbool.h>
#include <stddef.h>
#include <stdint.h>

#ifdef __cplusplus
extern "C" {
#endif

/* The branch: 6-byte records, no header. A record: kind (0), mark (1), two fields of 16 bits, low byte first (2-3, 4-5).
 *   kind 0 Atomic                                      atom number, zero
 *   kind 1 Non, 7 Possible, 8 Necessary                record number, zero
 *   kind 2 And, 3 Or, 4 Imply, 5 BiImply, 6 StrictImply   two record numbers
 * Record numbers count from 0 and point to earlier records. Records with mark 1, in order, form the branch. */
enum {
    WOZHNERK_RECORD_LENGTH = 6,
    WOZHNERK_MOST_RECORDS = 256,
    WOZHNERK_MOST_MARKED = 64,
    WOZHNERK_LARGEST_FORMULA = 4096 /* connectives and atoms of a record written out */
};

/* The flags, added up. */
enum {
    WOZHNERK_REFLEXIVE = 1,
    WOZHNERK_SYMMETRIC = 2,
    WOZHNERK_TRANSITIVE = 4,
    WOZHNERK_SKIP_CONTRADICTION_CHECKS = 8
};

/* The trays: lengths that each must have at least. Only these lengths are written; anything beyond stays.
 * nodes     a record of 12 bytes for each identifier, in order; 16-bit numbers low byte first, 65535 for none:
 *             0-1 parent; 2 place (0 root, 1 left, 2 middle, 3 right, 4 never placed in the tree); 3 world;
 *             4-5 formula number (65535: a comment); 6-7 spawner; 8-9 contrarian; 10 contradictory (0 or 1); 11 zero
 * formulas  records as in the branch: those of the branch, then the made ones with mark 0
 * edges     bit v of number u says that world u reaches world v
 * The rest of each length is zero. */
enum {
    WOZHNERK_NODES_LENGTH = 6144,    /* bytes: 512 records */
    WOZHNERK_FORMULAS_LENGTH = 7680, /* bytes: 1,280 records */
    WOZHNERK_EDGES_LENGTH = 25,      /* numbers of 32 bits */
    WOZHNERK_NODE_LENGTH = 12,
    WOZHNERK_NONE = 65535
};

/* Refusals, checked in this order: 1 to 5, then record by record 6 to 9, then 10 to 12. Document 01's word comes first.
 * 13 and 14 are the typed call's, which has its own order (below). */
enum wozhnerk_refusal {
    WOZHNERK_PARTIAL_RECORD = 1,      /* torn: length not a multiple of 6 */
    WOZHNERK_NO_RECORD = 2,           /* blank: no record */
    WOZHNERK_TOO_MANY_RECORDS = 3,    /* overlong: more than 256 records */
    WOZHNERK_UNKNOWN_FLAG = 4,        /* bad tick: flag byte 16 or more */
    WOZHNERK_TRAY_TOO_SHORT = 5,      /* short tray: a tray below its length */
    WOZHNERK_UNKNOWN_KIND = 6,        /* unknown stain: kind above 8 */
    WOZHNERK_BAD_MARK_OR_FIELD = 7,   /* stray mark: mark above 1, or a zero field not zero */
    WOZHNERK_FORWARD_LINK = 8,        /* forward link: a link to itself or later */
    WOZHNERK_FORMULA_TOO_LARGE = 9,   /* oversize: expanded size above 4,096 */
    WOZHNERK_NO_MARKED_RECORD = 10,   /* unmarked: no marked record */
    WOZHNERK_TOO_MANY_MARKED = 11,    /* crowded: more than 64 marked */
    WOZHNERK_TOO_MANY_IDENTIFIERS = 12, /* full: the run issues more than 512 identifiers */
    WOZHNERK_UNREADABLE_TEXT = 13,    /* garbled: a text that is not of the grammar */
    WOZHNERK_TEXT_TOO_LONG = 14       /* long slip: a text of more than 4,096 bytes */
};

/* The call. Lengths of branch, nodes and formulas are in bytes, that of edges in numbers.
 *
 * What the caller owes; nothing checks it:
 * - each pointer is valid for its length: branch for reading, the trays for reading and writing. A pointer with length 0
 *   is never followed, and may be null;
 * - edges is aligned to 4 bytes;
 * - no tray overlaps another tray or the branch;
 * - no other thread writes the branch, or reads or writes the trays, until the call returns;
 * - the thread has 256 KiB of stack left.
 * Any byte string, flag byte, lengths and old contents of the trays are allowed. The call keeps nothing between calls, and
 * several threads may call at once.
 *
 * What the call promises (docs/ARCHITECTURE.md, "Where each demand stands", names statement and proof of each):
 * 1. it ends, and answers one verdict or one refusal; refusals 1 to 11 leave the trays as lent, 12 zeroes their lengths;
 * 2. answer and trays are those of document 01's run (late: document 02's), whose rules are Priest's, and 12 comes exactly
 *    when that run passes 512 identifiers;
 * 3. if the answer is a verdict with `proved`, no world of any finite Kripke model with the flagged properties makes every
 *    formula of the branch true (symmetric and transitive without reflexive: no world that reaches some world);
 * 4. a verdict is `late` exactly if the world limit is reached (25 worlds exist), it is not `proved` and a node still waits:
 *    the run is unfinished. A verdict that is open, neither `proved` nor `late`, is finished: no node waits;
 * 5. if the answer is a verdict that is open, and WOZHNERK_SKIP_CONTRADICTION_CHECKS is not set, some world of a finite
 *    Kripke model with the flagged properties makes every formula of the branch true. So, without that flag, a verdict that
 *    is not late is `proved` exactly if there is no such model (not so for symmetric and transitive without reflexive:
 *    docs/DIFFERENCES.md). Of late verdicts, of refusals (12 included) and with the checks skipped nothing of this is said.
 * Where the branch is the rules in force and the denial of a claim, proved: the claim follows; open: the claim does not
 * follow; there is a case that meets every rule and denies it; late: undecided.
 *
 * The answer is one number.
 *   verdict   bit 63 is 0; bits 0-15 identifiers, 16-31 formulas, 32-47 steps, 48-55 worlds, 56 proved, 57 late
 *   refusal   bit 63 is 1; bits 0-15 record number (0 outside refusals 6 to 9; the offset, of 13), 16-31 number
 * Read no other bits: they are 0 today, and the contract does not speak of them.
 * A verdict has one word: proved, late or open. Bits 56 and 57 are never both 1; with neither it is open. */
uint64_t wozhnerk_prove(const uint8_t *branch, size_t branch_length, uint8_t flags, uint8_t *nodes, size_t nodes_length,
                        uint8_t *formulas, size_t formulas_length, uint32_t *edges, size_t edges_length);

/* The typed call: a text instead of records.
 *
 * The text is ASCII, at most 4,096 bytes, with no byte 0 at its end. Each formula ends with a newline (byte 10, no return
 * before it), the last included, and is marked. Spaces (byte 32) may stand before, between and after tokens.
 *   a0 to a65535       atoms, without leading zeros
 *   ~p  []p  <>p       Non, Necessary, Possible: bind tightest
 *   p & q              And, then
 *   p | q              Or, then
 *   p -> q, p => q     Imply and StrictImply together, then
 *   p <-> q            BiImply
 *   (p)                wherever an atom may stand
 * & and | group to the left, the arrows (->, =>, <->) to the right. An empty line is garbled. A text of no byte, or of
 * spaces alone, has no formula: refusal 2.
 *
 * The records of the formulas are written into a tray of their own, records: of each formula those of its parts first,
 * left before right, none shared, then its own, which alone has mark 1. So the records that were read end with the last one
 * that has mark 1. The rest of the 24,576 bytes is zero; anything beyond stays. */
enum {
    WOZHNERK_TEXT_LENGTH = 4096,    /* bytes, at most */
    WOZHNERK_RECORDS_LENGTH = 24576 /* bytes, at least: a record for each byte of a text */
};

/* Refusals, in this order:
 *    5   records is below its length
 *   14   the text has more than 4,096 bytes
 *   13   the text is garbled; bits 0-15 of the answer are the offset, in bytes from 0, of the first token that can't
 *        continue a text, or the text's length where it ends short
 *        these three leave all four trays as lent
 *   1 to 12   as wozhnerk_prove refuses the records that were read; the record number counts in them. records then holds
 *        them, and the other trays are as wozhnerk_prove leaves them
 *
 * The caller owes what wozhnerk_prove asks, of text (for reading) and the four trays; and 1 MiB of stack: brackets nest in
 * it (2,046 of them, the most that a text holds, took 624 KiB). Any bytes are allowed as the text.
 *
 * It promises that a text is taken exactly if it belongs to the grammar, which gives it one reading; that (5 aside) 13 is
 * said exactly of texts of at most 4,096 bytes that do not belong to it, and 14 exactly of longer ones; and of the text's
 * own formulas what wozhnerk_prove promises of the branch's. The answer is read like that of wozhnerk_prove, and says what
 * that says of the records. */
uint64_t wozhnerk_prove_typed(const uint8_t *text, size_t text_length, uint8_t flags, uint8_t *records, size_t records_length,
                              uint8_t *nodes, size_t nodes_length, uint8_t *formulas, size_t formulas_length, uint32_t *edges,
                              size_t edges_length);

static inline bool wozhnerk_is_refusal(uint64_t answer) { return answer >> 63 != 0; }

/* Of a refusal: its number; its record, of refusals 6 to 9; its offset in the text, of refusal 13. */
static inline enum wozhnerk_refusal wozhnerk_refusal_number(uint64_t answer) { return (enum wozhnerk_refusal)(answer >> 16 & 65535); }
static inline unsigned wozhnerk_refusal_record(uint64_t answer) { return (unsigned)(answer & 65535); }
static inline unsigned wozhnerk_refusal_offset(uint64_t answer) { return (unsigned)(answer & 65535); }

/* Of a verdict. `proved` is false of a refusal too. */
static inline bool wozhnerk_proved(uint64_t answer) { return !wozhnerk_is_refusal(answer) && (answer >> 56 & 1) != 0; }
static inline bool wozhnerk_late(uint64_t answer) { return !wozhnerk_is_refusal(answer) && (answer >> 57 & 1) != 0; }
static inline unsigned wozhnerk_identifiers(uint64_t answer) { return (unsigned)(answer & 65535); }
static inline unsigned wozhnerk_formulas(uint64_t answer) { return (unsigned)(answer >> 16 & 65535); }
static inline unsigned wozhnerk_steps(uint64_t answer) { return (unsigned)(answer >> 32 & 65535); }
static inline unsigned wozhnerk_worlds(uint64_t answer) { return (unsigned)(answer >> 48 & 255); }

#ifdef __cplusplus
}
#endif

#endif
