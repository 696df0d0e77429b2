#!/usr/bin/env python3
"""model_cases.py SEED VALID MALFORMED [NEAR]: JSON lines of test cases with the model's answers.

VALID      random small branches with a verdict: 3 to 9 records, at most 40 identifiers and steps, all flags in turn.
MALFORMED  rounds; one round has every refusal 1 to 11 alone, every pair of checks that can both apply (the first wins),
           every pair of checks 6 to 9 in two records either way round (the earlier record wins), short trays of
           each kind, and single changed bytes.
NEAR       rounds of accepted calls that a bound one lower would refuse (up to 64 identifiers); 0 if left out.

{"branch":[bytes],"flags":n,"lens":[nodes,formulas,edges],"refusal":[number,place] or null,"proved":b,"late":b,
 "counts":[ids,formulas,worlds,steps],"nodes":[12*ids bytes],"formulas":[6*formulas bytes],"edges":[worlds numbers]}
A refused call has zero counts and empty prefixes."""
import json, random, sys
import model

EXACT = (6144, 7680, 25)

def encode(recs):
    return b"".join(bytes([k, m]) + a.to_bytes(2, "little") + b.to_bytes(2, "little") for k, m, a, b in recs)

def case(branch, flags, lens=EXACT):
    answer = model.call(branch, flags, *lens)
    ok = answer.refusal is None
    return {"branch": list(branch), "flags": flags, "lens": list(lens),
            "refusal": None if ok else list(answer.refusal), "proved": answer.proved, "late": answer.late,
            "counts": [answer.ids, answer.formula_count, answer.worlds, answer.steps],
            "nodes": list(answer.nodes[:12 * answer.ids]) if ok else [],
            "formulas": list(answer.formulas[:6 * answer.formula_count]) if ok else [],
            "edges": answer.edges[:answer.worlds] if ok else []}

def roomy(rng):
    """Trays of at least their lengths."""
    return EXACT if rng.random() < .7 else tuple(n + rng.choice([0, 1, 7, 100]) for n in EXACT)

# Valid branches.

WEIGHTS = [{0: 1, 1: 3, 2: 1, 3: 2, 4: 2, 5: 2},                        # plain and splitting
           {1: 3, 2: 1, 3: 1, 4: 1, 5: 1, 6: 2, 7: 3, 8: 3},            # all kinds
           {1: 4, 3: 1, 6: 1, 7: 4, 8: 4},                              # modal
           {0: 1, 1: 6, 3: 1, 5: 3, 7: 1, 8: 1}]                        # clashing

def valid_records(rng):
    atoms = rng.randint(1, 2)
    names = rng.sample([0, 1, 2, 3, 7, 255, 256, 65535], atoms)
    recs = [(0, 0, name, 0) for name in names]
    weights = rng.choice(WEIGHTS)
    kinds = list(weights)
    for number in range(atoms, rng.randint(3, 9)):
        kind = rng.choices(kinds, [weights[k] for k in kinds])[0]
        link = lambda: rng.randrange(number) if rng.random() < .5 else number - 1
        if kind == 0:
            recs.append((0, 0, rng.choice(names), 0))
        else:
            recs.append((kind, 0, link(), link() if 2 <= kind <= 6 else 0))
    marks = {len(recs) - 1} | {i for i in range(len(recs)) if rng.random() < .3}
    return [(k, 1 if i in marks else 0, a, b) for i, (k, _, a, b) in enumerate(recs)]

def valid(rng, count):
    done = 0
    while done < count:
        made = case(encode(valid_records(rng)), done % 16, roomy(rng))
        if made["refusal"] is None and made["counts"][0] <= 40 and made["counts"][3] <= 40:
            yield made
            done += 1

# Malformed branches.

def doubling(rng):
    """Twelve records, sizes 1, 3, 7 .. 4,095."""
    return [(0, 1, rng.randrange(5), 0)] + [(rng.randint(2, 6), 0, i, i) for i in range(11)]

def fault(rng, checks, number):
    """Record `number`, failing all the given checks among 6 to 9; for 9, record 11 must have size 4,095."""
    mark = rng.choice([2, 3, 128, 255]) if 7 in checks else rng.randrange(2)
    forward = rng.choice([number, number + 1, 256, 65535])
    if 6 in checks:
        kind = rng.choice([9, 10, 16, 255])
        return kind, mark, forward if 8 in checks else 0, rng.choice([0, 1]) if 7 in checks else 0
    if checks == {7} and rng.random() < .6:                 # "or a zero field not zero"
        kind = rng.choice([0, 1, 7, 8])
        return kind, rng.randrange(2), 0, rng.choice([1, 255, 256, 65535])
    if 9 in checks:
        sides = [11, forward if 8 in checks else rng.choice([0, 11])]
        rng.shuffle(sides)
        return rng.randint(2, 6), mark, *sides
    if 8 in checks:
        if rng.random() < .5:
            return rng.choice([1, 7, 8]), mark, forward, 1 if 7 in checks and rng.random() < .5 else 0
        sides = [forward, rng.choice([0, forward])]
        rng.shuffle(sides)
        return rng.randint(2, 6), mark, *sides
    return 0, mark, 0, 0

def short(rng, which):
    """Trays of which those in `which` are too short by one, or empty, or in between."""
    return tuple(rng.choice([n - 1, 0, rng.randrange(n)]) if i in which else n for i, n in enumerate(EXACT))

def broken(rng, record_faults, others):
    """A call to which all the given checks apply; record_faults holds a set of checks 6 to 9 for each faulty record."""
    if 2 in others:
        recs = []
    elif any(9 in checks for checks in record_faults):
        recs = doubling(rng)
    else:
        recs = valid_records(rng)
        if record_faults and 3 not in others and rng.random() < .5:
            recs = recs[:rng.randrange(len(recs))]      # faults in the first records too
    if 3 in others:
        recs += [(0, rng.randrange(2), 1, 0)] * (rng.choice([257, 258, 300]) - len(recs) - len(record_faults))
    crowd = [(0, 1, rng.randrange(9), 0) for _ in range(rng.choice([65, 66, 80]) if 11 in others else 0)]
    if rng.random() < .5:
        recs, crowd = recs + crowd, []
    for checks in record_faults:
        for _ in range(rng.randrange(3) if 3 not in others else 0):
            recs.append((rng.choice([0, 1]) if recs else 0, rng.randrange(2), 0, 0))
        recs.append(fault(rng, checks, len(recs)))
    recs += crowd
    if 10 in others:
        recs = [(k, 0 if m <= 1 else m, a, b) for k, m, a, b in recs]
    branch = encode(recs) + (bytes(rng.randrange(256) for _ in range(rng.randint(1, 5))) if 1 in others else b"")
    flags = rng.choice([16, 17, 31, 32, 255]) if 4 in others else rng.randrange(16)
    return case(branch, flags, short(rng, rng.choice([{0}, {1}, {2}, {0, 1, 2}])) if 5 in others else roomy(rng))

def expect(made, number):
    assert made["refusal"] and made["refusal"][0] == number, (made, number)
    return made

def malformed_round(rng):
    inner = {6, 7, 8, 9}
    for c in range(1, 12):
        yield expect(broken(rng, [{c}] if c in inner else [], {c} - inner), c)
    for c in range(1, 12):
        for d in range(c + 1, 12):
            if (c == 2 and d not in (4, 5)) or (c, d) in ((10, 11), (6, 9)):
                continue                        # they can't both apply
            faults = [{c, d} & inner] if {c, d} & inner else []
            yield expect(broken(rng, faults, {c, d} - inner), c)
    for c in sorted(inner):                     # "record by record": the earlier record wins
        for d in sorted(inner):
            yield expect(broken(rng, [{c}, {d}], set()), c)
    for which in ({0}, {1}, {2}, {0, 1}, {0, 2}, {1, 2}):
        yield expect(case(encode(valid_records(rng)), rng.randrange(16), short(rng, which)), 5)
    ors = [r for i in range(0, 24, 3) for r in ((0, 0, i, 0), (0, 0, i + 1, 0), (3, 1, i, i + 1))]
    yield expect(case(encode(ors + [(0, 1, 0, 0)] * 57), rng.randrange(16)), 11)      # crowded before full
    size_4096 = doubling(rng) + [(1, 0, 11, 0)]
    yield expect(case(encode(size_4096 + [(rng.choice([1, 7, 8]), 0, 12, 0)]), rng.randrange(16)), 9)   # 4,097
    left = 5
    while left > 0:                             # one byte of a valid branch changed, where that is refused
        branch = bytearray(encode(valid_records(rng)))
        branch[rng.randrange(len(branch))] = rng.choice([0, 1, 2, 9, 255, rng.randrange(256)])
        made = case(bytes(branch), rng.randrange(16), roomy(rng))
        if made["refusal"] and made["refusal"][0] < 12:
            yield made
            left -= 1

# Calls just accepted.

def near_round(rng):
    atom = (0, 1, rng.randrange(9), 0)
    size_4096 = doubling(rng) + [(rng.choice([1, 7, 8]), 0, 11, 0)]
    sheets = [[atom], size_4096, [atom] * 64,                                          # 64 marked
              [atom] + [(rng.choice([1, 7, 8]), 0, i, 0) for i in range(255)],         # 256 records
              [(0, 0, 65535, 0), (8, 1, 0, 0), (1, 1, 0, 0)]]                          # largest atom number
    for sheet in sheets:
        yield case(encode(sheet), rng.choice([0, 1, 8, 15]), roomy(rng))

def main():
    seed, *counts = map(int, sys.argv[1:])
    valid_count, malformed_count, near_count = (counts + [0, 0, 0])[:3]
    rng = random.Random(seed)
    lines = list(valid(rng, valid_count))
    for count, round_of in ((malformed_count, malformed_round), (near_count, near_round)):
        for _ in range(count):
            lines += round_of(rng)
    for line in lines:
        print(json.dumps(line, separators=(",", ":")))

if __name__ == "__main__":
    main()
