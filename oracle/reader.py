#!/usr/bin/env python3
"""Typed rules ("Ask 1" of document 02) read once more, from a table of productions: tokens, an Earley recogniser over them,
the derivation, its records. Quotations are document 02's.

    reader.py SEED COUNT

tries the reader on COUNT small token strings: the derivations of each are counted straight from the table, and must be one
where the reader takes the text and none where it does not; the offset of a garbled one must split it where it can still be
continued from where it cannot."""
import collections
import functools
import random
import re
import sys

sys.dont_write_bytecode = True
import model

LONGEST = 4096          # "at most 4,096 bytes"
RECORD_TRAY = 24576     # "into a tray of 24,576 bytes, the rest zero"
SHORT_TRAY, GARBLED, LONG_SLIP = 5, 13, 14

# ---- Tokens ------------------------------------------------------------------------------------------------------

NAME, NO_TOKEN, END = "name", "no token", "end"
Token = collections.namedtuple("Token", "kind offset atom")
# "Spaces are allowed before, between and after tokens"; "A name is a with every digit after it"
PATTERN = re.compile(rb" *(?:(a[0-9]*)|(~|\[\]|<>|&|\||->|=>|<->|\(|\)|\n)|([^ ]))")
ATOM = re.compile(rb"a(0|[1-9][0-9]{0,4})")     # "a0 to a65535 without leading zeros"


def tokens(text):
    """The tokens up to the first that is none, which is the last of the list: "a byte, name or cut-off token outside these
    rules is a token that can't continue, at its first byte"."""
    found = []
    for match in PATTERN.finditer(text):
        name, sign, _ = match.groups()
        offset = match.start(match.lastindex)
        atom = ATOM.fullmatch(name) if name else None
        if sign:
            found.append(Token(sign.decode(), offset, None))
        elif atom and int(atom[1]) <= 65535:
            found.append(Token(NAME, offset, int(atom[1])))
        else:
            found.append(Token(NO_TOKEN, offset, None))
            break
    return found


# ---- The grammar -------------------------------------------------------------------------------------------------

# What stands left, what it may be, and the kind of the record that it writes. "bind tightest" is what stands lowest; a level
# that has itself on its left groups to the left, one that has itself on its right to the right.
MARK = "mark"           # "A newline ends a formula, the last included, and marks it"
PRODUCTIONS = (
    ("text", ("line",), None),
    ("text", ("text", "line"), None),
    ("line", ("both ways", "\n"), MARK),
    ("both ways", ("arrow",), None),
    ("both ways", ("arrow", "<->", "both ways"), model.BIIMPLY),
    ("arrow", ("or",), None),
    ("arrow", ("or", "->", "arrow"), model.IMPLY),
    ("arrow", ("or", "=>", "arrow"), model.STRICT),
    ("or", ("and",), None),
    ("or", ("or", "|", "and"), model.OR),
    ("and", ("signed",), None),
    ("and", ("and", "&", "signed"), model.AND),
    ("signed", ("~", "signed"), model.NON),
    ("signed", ("[]", "signed"), model.NECESSARY),
    ("signed", ("<>", "signed"), model.POSSIBLE),
    ("signed", (NAME,), model.ATOMIC),
    ("signed", ("(", "both ways", ")"), None),
)
GOAL = "text"
LEFT, RIGHT, KIND = zip(*PRODUCTIONS)
NONTERMINALS = set(LEFT)
assert all(RIGHT)       # no production is empty: what is derived has a token, and a completed item an earlier origin


def least(step):
    """The least set that `step` maps into itself."""
    found = set()
    while not step(found) <= found:
        found |= step(found)
    return found


# Nonterminals that derive some token string, and by nonterminal the productions all of whose parts do.
COMPLETABLE = least(lambda s: {left for left, right, _ in PRODUCTIONS if all(x in s or x not in NONTERMINALS for x in right)})
CHOICES = {left: [p for p, (other, right, _) in enumerate(PRODUCTIONS)
                  if other == left and all(x in COMPLETABLE or x not in NONTERMINALS for x in right)] for left in NONTERMINALS}
# Pairs of a symbol and a token: the token can be the first of what the symbol derives; the token, or END, can come after it.
FIRST = least(lambda s: {(x, x) for _, right, _ in PRODUCTIONS for x in right if x not in NONTERMINALS}
              | {(left, t) for left, right, _ in PRODUCTIONS for x, t in s if x == right[0]})
AFTER = least(lambda s: {(GOAL, END)} | {(a, t) for _, right, _ in PRODUCTIONS for a, b in zip(right, right[1:])
                                         for x, t in FIRST if x == b}
              | {(right[-1], t) for left, right, _ in PRODUCTIONS for x, t in s if x == left})


# ---- The recogniser ----------------------------------------------------------------------------------------------

class TwoReadings(Exception):
    """A production's parts derive the same tokens in two ways."""


def derive(kinds):
    """The derivation of the whole token string, or the number of the first token that cannot continue: the count of tokens
    where the string ends short. A derivation is (production, parts), the parts linked from the last to the first.

    An item (production, dot, origin) of set k says: the parts before the dot derive tokens origin to k, and the tokens before
    origin, then what the production is for, begin a text. Set k + 1 begins with the items of set k whose dot stands before
    token k. If it has one, tokens 0 to k begin a text: only productions all of whose parts derive something are predicted, so
    that what is still due behind each dot, from the item up to the goal, can be written out. If tokens 0 to k begin a text,
    its derivation has such an item.

    A completed item is dropped where its symbol can't come before the next token in any text: no item with the dot before
    that token could come of it. Without that a chain of arrows would complete every shorter chain at each arrow.

    An item that is completed in two ways is a text with two derivations: what is due behind it can be written out."""
    waiting = []                                    # by set: symbol -> items with the dot before it
    begin = [(p, 0, 0, None) for p in CHOICES[GOAL]]
    whole = None
    for k, token in enumerate([*kinds, END]):
        due, seen, here = begin, set(), {}
        waiting.append(here)
        while due:
            production, dot, origin, parts = due.pop()
            if (production, dot, origin) in seen:
                if dot > 0:
                    raise TwoReadings(kinds)
                continue
            seen.add((production, dot, origin))
            if dot < len(RIGHT[production]):
                symbol = RIGHT[production][dot]
                if symbol in here:
                    here[symbol].append((production, dot, origin, parts))
                else:
                    here[symbol] = [(production, dot, origin, parts)]
                    due += [(p, 0, k, None) for p in CHOICES.get(symbol, ())]
            elif (LEFT[production], token) in AFTER:
                if token == END and LEFT[production] == GOAL and origin == 0:
                    whole = production, parts
                for p, d, o, before in waiting[origin].get(LEFT[production], ()):
                    due.append((p, d + 1, o, (before, (production, parts))))
        if token == END:
            return k if whole is None else whole
        begin = [(p, d + 1, o, (before, k)) for p, d, o, before in here.get(token, ())]
        if not begin:
            return k


# ---- Records -----------------------------------------------------------------------------------------------------

def records_of(derivation, found):
    """"Records are written children first, left before right, unshared": a record for each production with a kind, after
    those of its parts. `waiting` holds the numbers of the records that no record links to yet."""
    records, waiting, due = [], [], [(derivation, False)]
    while due:
        node, parts_done = due.pop()
        if isinstance(node, int):                   # a token
            continue
        production, parts = node
        if not parts_done:
            due.append((node, True))
            while parts is not None:                # from the last, so that the first is done first
                parts, part = parts
                due.append((part, False))
        elif KIND[production] == MARK:
            records[waiting.pop()][1] = 1
        elif KIND[production] is not None:
            kind = KIND[production]
            links = sum(part in NONTERMINALS for part in RIGHT[production])
            fields = [found[parts[1]].atom] if kind == model.ATOMIC else waiting[len(waiting) - links:]
            del waiting[len(waiting) - links:]
            waiting.append(len(records))
            records.append([kind, 0, *fields, 0][:4])
    assert not waiting
    return b"".join(bytes([kind, mark]) + a.to_bytes(2, "little") + b.to_bytes(2, "little") for kind, mark, a, b in records)


def read(text):
    """('taken', records) or ('garbled', offset), whatever the length."""
    found = tokens(text)
    if not found:                                   # "Empty text or spaces alone have no formula and are blank"
        return "taken", b""
    derivation = derive([token.kind for token in found])
    if isinstance(derivation, tuple):
        return "taken", records_of(derivation, found)
    # "the byte offset of the first token that can't continue a text, or the text's length where it ends short"
    return "garbled", found[derivation].offset if derivation < len(found) else len(text)


def answer(text, flags, records_length=RECORD_TRAY, *lengths):
    """The call: model.Answer, and the records tray as written, None where nothing is. `lengths` are those of the other three
    trays, if they are not the exact ones."""
    if records_length < RECORD_TRAY:                # "a shorter tray is "short tray", before 14"
        return model.Answer((SHORT_TRAY, 0)), None
    if len(text) > LONGEST:                         # "which comes before 13; neither writes"
        return model.Answer((LONG_SLIP, 0)), None
    outcome, what = read(text)
    if outcome == "garbled":
        return model.Answer((GARBLED, what)), None
    # "The checks of the records follow; a refusal by them leaves the records just read in this tray"
    return model.call(what, flags, *lengths), what.ljust(RECORD_TRAY, b"\0")


# ---- Trying the reader -------------------------------------------------------------------------------------------

SPELT = {NAME: b"a7", NO_TOKEN: b"="}
KINDS = sorted({x for right in RIGHT for x in right} - NONTERMINALS)


def spell(kinds):
    return b" ".join(SPELT.get(kind, kind.encode()) for kind in kinds)


def derivations(kinds):
    """How many derivations the token string has: every production at every split, nothing but the table."""
    kinds = tuple(kinds)

    @functools.lru_cache(None)
    def count(symbols, i, j):
        if not symbols:
            return i == j
        first, rest = symbols[0], symbols[1:]
        if first not in NONTERMINALS:
            return count(rest, i + 1, j) if i < j and kinds[i] == first else 0
        return sum(count(right, i, m) * count(rest, m, j) for m in range(i + 1, j - len(rest) + 1)
                   for left, right, _ in PRODUCTIONS if left == first)

    return count((GOAL,), 0, len(kinds))


def continues(kinds):
    """Whether the token string begins a text: what is due is an operand or nothing, closing brackets, and a newline."""
    closing = [")"] * kinds.count("(")
    return any(derivations([*kinds, *operand, *closing[:n], *newline]) for operand in ((), (NAME,))
               for n in range(len(closing) + 1) for newline in ((), ("\n",)))


def random_kinds(rng):
    """Half of them derived from the table, some of these damaged; half any tokens."""
    if rng.random() < 0.5:
        return [rng.choice(KINDS) for _ in range(rng.randint(1, 7))]
    while True:
        kinds = [GOAL]
        while len(kinds) <= 14 and not NONTERMINALS.isdisjoint(kinds):
            at = next(i for i, kind in enumerate(kinds) if kind in NONTERMINALS)
            kinds[at:at + 1] = RIGHT[rng.choice(CHOICES[kinds[at]])]
        if len(kinds) <= 14 and NONTERMINALS.isdisjoint(kinds):
            break
    if rng.random() < 0.5:
        at = rng.randrange(len(kinds))
        kinds[at:at + 1] = rng.choice([[], [rng.choice(KINDS)], [kinds[at]] * 2, [NO_TOKEN]])
    return kinds


def main():
    if len(sys.argv) != 3:
        sys.exit(__doc__)
    rng, met = random.Random(int(sys.argv[1])), collections.Counter()
    for _ in range(int(sys.argv[2])):
        kinds = random_kinds(rng)
        outcome, what = read(spell(kinds))
        assert derivations(kinds) == (outcome == "taken" and bool(kinds)), kinds
        if outcome == "garbled":
            good = [token for token in tokens(spell(kinds)) if token.offset < what]
            assert not good or continues(kinds[:len(good)]), kinds
            assert len(good) == len(kinds) or not continues(kinds[:len(good) + 1]), kinds
        met[outcome] += 1
    print("%d token strings: %d taken, each with one derivation; %d garbled, with none, each at its offset" % (
        sum(met.values()), met["taken"], met["garbled"]))


if __name__ == "__main__":
    main()
