#!/usr/bin/env python3
"""model_compare.py ORACLE SEED COUNT [STYLE..]: random branches in several styles through the model and the Rust oracle;
every verdict, count, node field (formulas as written-out text) and edge is compared. Prints per style: cases, full,
slow (not compared), proved, late, at the world limit, differences. Late is compared after document 02's condition (answer.read)."""
import os, random, subprocess, sys
from collections import Counter
import model
from answer import read

PLACES = ["root", "left", "middle", "right", "unplaced"]
LETTERS = "ANCDIBSPL"

def encode(recs):
    return b"".join(bytes([k, m]) + a.to_bytes(2, "little") + b.to_bytes(2, "little") for k, m, a, b in recs)

def sizes(recs):
    out = []
    for r in recs:
        out.append(1 + sum(out[l] for l in model.links(r)))
    return out

def grow(rng, records, atoms, weights, marked, near=0, top=4096):
    """Random records: a few atoms, then kinds by weight; `near` prefers recent parts; marks on random records."""
    recs = [(0, 0, a, 0) for a in range(atoms)]
    kinds = list(weights)
    size = [1] * atoms
    while len(recs) < records:
        pick = lambda: (len(recs) - 1 - min(int(rng.expovariate(1 / near)), len(recs) - 1)) if near else rng.randrange(len(recs))
        kind = rng.choices(kinds, [weights[k] for k in kinds])[0]
        r = (0, 0, rng.randrange(atoms), 0) if kind == 0 else (kind, 0, pick(), 0 if kind in (1, 7, 8) else pick())
        s = 1 + sum(size[l] for l in model.links(r))
        if s <= top:
            recs.append(r)
            size.append(s)
    return mark(rng, recs, marked)

def mark(rng, recs, marked):
    late = [i for i in range(len(recs))]
    chosen = set(rng.choices(late, [1 + 3 * i for i in late], k=marked)) | {len(recs) - 1}
    return [(k, 1 if i in chosen else 0, a, b) for i, (k, _, a, b) in enumerate(recs)]

def modal(rng):
    return grow(rng, rng.randint(3, 14), rng.randint(1, 2), {1: 3, 2: 1, 3: 1, 4: 1, 5: .5, 6: 1.5, 7: 3, 8: 3}, rng.randint(1, 4), rng.choice([0, 2, 3]))

def splitting(rng):
    return grow(rng, rng.randint(4, 14), rng.randint(1, 4), {1: 3, 2: 2, 3: 3, 4: 3, 5: 3, 7: .4, 8: .4}, rng.randint(1, 5), rng.choice([0, 2, 4]))

def clashing(rng):
    return grow(rng, rng.randint(4, 16), rng.randint(1, 2), {0: 1, 1: 5, 2: 1, 3: 2, 4: 1, 5: 3, 7: .7, 8: .7}, rng.randint(2, 6), rng.choice([0, 2]))

def crowd(rng):
    n = rng.randint(20, 90)
    return grow(rng, n, rng.randint(2, 12), {0: 3, 1: 6, 2: .5, 3: .3, 4: .2, 5: .1, 6: .2, 7: 1, 8: 1}, rng.randint(10, 64), rng.choice([0, 0, 8]), top=30)

def mixed(rng):
    return grow(rng, rng.randint(1, 20) + 1, 1 + rng.randrange(2), {k: rng.choice([0, 0.2, 1, 3]) + .05 for k in range(9)}, rng.randint(1, 8), rng.choice([0, 2, 5]))

def paths(rng):
    """Two to four splits whose sides are modal: several paths through a necessity or a forking node."""
    recs, marked = [(0, 0, 0, 0), (0, 0, 1, 0), (1, 0, 0, 0)], []
    def add(kind, a, b=0):
        recs.append((kind, 0, a, b))
        return len(recs) - 1
    def side():
        at = rng.randrange(3)
        for _ in range(rng.choice([0, 1, 1, 2, 2, 3])):
            at = add(rng.choice([7, 7, 8, 8, 8, 1]), at)
        return at if rng.random() < .85 else add(rng.choice([3, 6, 2]), at, rng.randrange(3))
    for _ in range(rng.randint(2, 4)):
        top = add(rng.choice([3, 3, 4, 5]), side(), side())
        marked.append(top if rng.random() < .7 else add(rng.choice([1, 7, 8]), top))
    for _ in range(rng.randrange(3)):
        marked.append(add(rng.choice([7, 8]), side()))
    return [(k, 1 if i in marked else 0, a, b) for i, (k, _, a, b) in enumerate(recs)]

def worlds(rng):
    """Possible chains of 18 to 27 in all, under necessities: close to 25 worlds, or loops that reach them."""
    recs = [(0, 0, 0, 0), (0, 0, 1, 0), (1, 0, 0, 0)]
    marked = []
    left = rng.randint(18, 27)
    while left > 0:
        n = min(left, rng.randint(1, 24))
        left -= n
        recs.append((7, 0, rng.randrange(3), 0))
        for _ in range(n - 1):
            if rng.random() < .08:
                recs.append((rng.choice([1, 8, 2]), 0, len(recs) - 1, 0))
                if recs[-1][0] == 2: recs[-1] = (2, 0, len(recs) - 2, rng.randrange(3))
            recs.append((7, 0, len(recs) - 1, 0))
        marked.append(len(recs) - 1)
    for _ in range(rng.randint(0, 3)):
        recs.append((rng.choice([8, 8, 7, 6]), 0, rng.randrange(3), 0))
        if recs[-1][0] == 6: recs[-1] = (6, 0, recs[-1][2], rng.randrange(3))
        for _ in range(rng.randrange(2)): recs.append((rng.choice([8, 1, 1, 7]), 0, len(recs) - 1, 0))
        marked.append(len(recs) - 1)
    if rng.random() < .3:
        recs.append((rng.choice([3, 5, 2]), 0, rng.choice(marked), rng.choice(marked)))
        marked.append(len(recs) - 1)
    return [(k, 1 if i in marked else 0, a, b) for i, (k, _, a, b) in enumerate(recs)]

def brink(rng):
    """A chain of 22 to 25 Possibles over a literal, with necessities that clash with it at its last world."""
    recs = [(0, 0, 0, 0), (1, 0, 0, 0), (1, 0, 1, 0), (rng.choice([5, 2, 3]), 0, 0, rng.randrange(2))]
    at = rng.randrange(4)
    for i in range(rng.randint(22, 25)):
        recs.append((7, 0, at, 0))
        at = len(recs) - 1
        if rng.random() < .03:
            recs.append((2, 0, at, rng.randrange(4)))
            at = len(recs) - 1
    marked = [at]
    for _ in range(rng.randint(1, 2)):
        recs.append((8, 0, rng.randrange(4), 0))
        marked.append(len(recs) - 1)
    if rng.random() < .2:
        recs.append((3, 0, rng.choice(marked), rng.randrange(4)))
        marked.append(len(recs) - 1)
    return [(k, 1 if i in marked else 0, a, b) for i, (k, _, a, b) in enumerate(recs)]

def identifiers(rng):
    """Shallow splits (and some forks) over small formulas, padded by small marked records to 505 to 516 identifiers."""
    while True:
        recs, marked, atom = [], [], [0]
        def add(kind, a, b=0):
            recs.append((kind, 0, a, b))
            return len(recs) - 1
        def leaf():
            atom[0] += 1
            a = add(0, atom[0] if rng.random() < .9 else rng.randint(1, atom[0]))
            roll = rng.random()
            return a if roll < .55 else add(1, a) if roll < .65 else add(7, a) if roll < .7 else add(8, a) if roll < .75 \
                else add(2, a, leaf()) if roll < .92 else add(1, add(1, a))
        for _ in range(rng.randint(4, 8)):
            kind = rng.choice([3, 3, 3, 4, 5, 2, 6])
            top = add(kind, leaf(), leaf())
            marked.append(add(1, top) if rng.random() < .3 else top)
        for _ in range(rng.randint(0, 3)):
            marked.append(add(rng.choice([7, 8]), leaf()))
        flags = rng.randrange(16)
        on = lambda: [(k, 1 if i in marked else 0, a, b) for i, (k, _, a, b) in enumerate(recs)]
        answer = model.call(encode(on()), flags)
        if answer.refusal or answer.proved or answer.late or answer.ids < 420:
            continue
        missing = rng.choice([-7, -2, -1, 0, 0, 0, 0, 1, 1, 2, 4]) + 512 - answer.ids
        while missing > 0 and len(recs) < 250 and len(marked) < 60:
            atom[0] += 1
            a = add(0, 1000 + atom[0])
            if missing >= 5 and rng.random() < .6:      # And(And(a, a), a): 5
                a, missing = add(2, add(2, a, a), a), missing - 4
            elif missing >= 2 and rng.random() < .5:    # Non Non a: 2
                a, missing = add(1, add(1, a)), missing - 1
            marked.append(a)
            missing -= 1
        if missing <= 0 and len(marked) <= 64:
            return on(), flags

STYLES = {f.__name__: f for f in (modal, splitting, clashing, crowd, mixed, paths, worlds, brink, identifiers)}

def text(formulas, number):
    if number == model.NONE:
        return "#"
    kind, _, a, _ = formulas[number]
    if kind == 0:
        return "A%d" % a
    return LETTERS[kind] + "(" + ",".join(text(formulas, l) for l in model.links(formulas[number])) + ")"

def seen(branch, answer):
    """What the oracle prints, read from the trays alone."""
    if answer.refusal:
        return {12: "full"}.get(answer.refusal[0], answer.refusal)
    formulas = model.records(answer.formulas[:6 * answer.formula_count])
    assert bytes(answer.formulas[:len(branch)]) == branch and not any(answer.formulas[6 * answer.formula_count:])
    assert len(answer.formulas) == 7680 and len(answer.nodes) == 6144 and len(answer.edges) == 25
    assert not any(answer.nodes[12 * answer.ids:])
    assert all(r[1] == 0 for r in formulas[len(branch) // 6:])
    none = lambda n: None if n == 65535 else n
    nodes = []
    for i in range(answer.ids):
        r = answer.nodes[12 * i:12 * i + 12]
        w = lambda at: r[at] | r[at + 1] << 8
        assert r[11] == 0
        nodes.append([i, none(w(0)), PLACES[r[2]], r[3], text(formulas, w(4)), none(w(6)), none(w(8)), r[10]])
    edges = [[u, v] for u in range(25) for v in range(32) if answer.edges[u] >> v & 1]
    return {"proved": answer.proved, "late": answer.late, "ids": answer.ids, "worlds": answer.worlds,
            "steps": answer.steps, "edges": edges, "nodes": nodes}

def main():
    oracle, seed, count = sys.argv[1], int(sys.argv[2]), int(sys.argv[3])
    total = 0
    for style in sys.argv[4:] or STYLES:
        rng = random.Random("%s %d" % (style, seed))
        cases = []
        while len(cases) < count:
            got = STYLES[style](rng)
            recs, flags = got if isinstance(got, tuple) else (got, len(cases) % 16)
            branch = encode(recs)
            if model.refuse(branch, flags, 6144, 7680, 25) is None:
                cases.append((branch, flags))
        lines = "".join("%d %s\n" % (flags, branch.hex()) for branch, flags in cases)
        out = subprocess.run([oracle], input=lines, capture_output=True, text=True,
                             env=dict(os.environ, ORACLE_MAX_WORK=os.environ.get("ORACLE_MAX_WORK", "10"))).stdout.split("\n")
        tally = Counter()
        for (branch, flags), line in zip(cases, out):
            tally["cases"] += 1
            if line == "slow":
                tally["slow"] += 1
                continue
            theirs = read(line)
            if isinstance(theirs, dict):
                for node in theirs["nodes"]:
                    node.pop()      # the step
                tally["proved"] += theirs["proved"]
                tally["late"] += theirs["late"]
                tally["at the limit"] += theirs.pop("timeout")
                waits = theirs.pop("waits")
                tally["unplaced"] += any(n[2] == "unplaced" for n in theirs["nodes"])
                tally["ids>=500"] += theirs["ids"] >= 500
                tally["ids=512"] += theirs["ids"] == 512
                tally["worlds>=20"] += theirs["worlds"] >= 20
            else:
                tally[line] += 1
            ours = seen(branch, model.call(branch, flags))
            if theirs != ours or (isinstance(theirs, dict) and waits != (ours["steps"] < ours["ids"])):
                tally["DIFFERENT"] += 1
                print("DIFFERENT", style, flags, branch.hex(), flush=True)
        total += tally["cases"] - tally["slow"]
        print(style, dict(tally), flush=True)
    print("compared", total)

if __name__ == "__main__":
    main()
