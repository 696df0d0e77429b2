"""An executable model of document 01: one call takes a branch, a flag byte and tray lengths, and returns a refusal or a
verdict with the exact contents of the three trays. Quotations are document 01's, where no other is named; the sections follow
its order. What document 02 changes is changed in its place."""
from dataclasses import dataclass, field

# ---- What enters -------------------------------------------------------------------------------------------------

MAX_IDENTIFIERS = 512   # "full .. issues more than 512 identifiers"; may be lowered
MAX_WORLDS = 25         # "fewer than 25 worlds exist"; may be lowered
NODE_TRAY, FORMULA_TRAY, EDGE_TRAY = 6144, 7680, 25     # "nodes (6,144 bytes), formulas (7,680 bytes), edges (25 ..)"
MAX_RECORDS, MAX_SIZE, MAX_MARKED = 256, 4096, 64
NONE = 65535            # "no parent, no spawner, no contrarian, or a comment node's formula"

ATOMIC, NON, AND, OR, IMPLY, BIIMPLY, STRICT, POSSIBLE, NECESSARY = range(9)
REFLEXIVE, SYMMETRIC, TRANSITIVE, SKIP = 1, 2, 4, 8     # "The flag byte"
ROOT, LEFT, MIDDLE, RIGHT, NEVER = range(5)             # "0 root, 1 left, 2 middle, 3 right, 4 never placed"

@dataclass
class Answer:
    refusal: tuple = None   # (number, place), or None for a verdict
    proved: bool = False
    late: bool = False
    ids: int = 0
    formula_count: int = 0  # "formulas (input and made)"
    worlds: int = 0
    steps: int = 0
    nodes: bytes = None     # the written lengths of the three trays; None where nothing is written
    formulas: bytes = None
    edges: list = None

def records(branch):
    """"A branch is a run of 6-byte records": (kind, mark, field, field), fields "16 bits, low byte first"."""
    return [(branch[i], branch[i + 1], branch[i + 2] | branch[i + 3] << 8, branch[i + 4] | branch[i + 5] << 8)
            for i in range(0, len(branch), 6)]

def links(record):
    """The record numbers in a record of a known kind."""
    kind, _, a, b = record
    return () if kind == ATOMIC else (a,) if kind in (NON, POSSIBLE, NECESSARY) else (a, b)

def refuse(branch, flags, nodes_len, formulas_len, edges_len):
    """"Checks go 1 to 5, then record by record 6 to 9, then 10, 11": (number, place) or None."""
    if len(branch) % 6 != 0: return 1, 0                                                # torn
    if len(branch) == 0: return 2, 0                                                    # blank
    if len(branch) // 6 > MAX_RECORDS: return 3, 0                                      # overlong
    if flags >= 16: return 4, 0                                                         # bad tick
    if nodes_len < NODE_TRAY or formulas_len < FORMULA_TRAY or edges_len < EDGE_TRAY:
        return 5, 0                                                                     # short tray
    sizes = []
    for number, record in enumerate(records(branch)):
        kind, mark, _, b = record
        if kind > NECESSARY: return 6, number                                           # unknown stain
        if mark > 1 or (len(links(record)) < 2 and b != 0): return 7, number            # stray mark
        if any(link >= number for link in links(record)): return 8, number              # forward link
        sizes.append(1 + sum(sizes[link] for link in links(record)))                    # "every connective and atom"
        if sizes[number] > MAX_SIZE: return 9, number                                   # oversize
    marked = sum(mark for _, mark, _, _ in records(branch))
    if marked == 0: return 10, 0                                                        # unmarked
    if marked > MAX_MARKED: return 11, 0                                                # crowded
    return None

class Full(Exception):
    """Check 12: raised where the identifier beyond the limit would be issued."""

def call(branch, flags, nodes_len=NODE_TRAY, formulas_len=FORMULA_TRAY, edges_len=EDGE_TRAY):
    """"the first that applies is returned with its record number (0 outside 6 to 9)"; else the verdict."""
    refusal = refuse(branch, flags, nodes_len, formulas_len, edges_len)
    if refusal is not None:
        return Answer(refusal)                                          # "Refusals 1 to 11 write nothing"
    try:
        return leave(the_run(records(branch), flags))
    except Full:                                                        # "12 zeroes the three lengths"
        return Answer((12, 0), nodes=bytes(NODE_TRAY), formulas=bytes(FORMULA_TRAY), edges=[0] * EDGE_TRAY)

# ---- What leaves -------------------------------------------------------------------------------------------------

@dataclass
class Node:
    formula: int            # formula number, None for a comment
    world: int              # "A comment has world 0"
    spawner: int            # identifier or None
    literal: tuple          # what Contradictions looks at
    parent: int = None
    place: int = NEVER      # "never placed has place 4 and no parent", until attached to the tree
    contrarian: int = None
    contradictory: bool = False
    below: tuple = (None, None, None)   # left, middle, right in the tree

@dataclass
class Necessity:            # what a Necessary stores
    formula: int
    world: int
    spawner: int
    leaves: list
    visited: set = field(default_factory=set)

@dataclass
class Run:
    flags: int
    formulas: list                                      # records: the input, then the made ones
    nodes: list = field(default_factory=list)           # by identifier
    queue: list = field(default_factory=list)           # waiting identifiers
    worlds: set = field(default_factory=set)
    edges: set = field(default_factory=set)             # pairs (from, to)
    necessities: list = field(default_factory=list)     # popped from the end
    pairs: dict = field(default_factory=dict)           # leaf -> pair of its path, which never changes
    proved: bool = False
    steps: int = 0

def word(number):
    return (NONE if number is None else number).to_bytes(2, "little")

def leave(run):
    """The verdict, its counts and the trays; "Unused parts of the written lengths are zero"."""
    nodes = b"".join(word(n.parent) + bytes([n.place, n.world]) + word(n.formula) + word(n.spawner)
                     + word(n.contrarian) + bytes([n.contradictory, 0]) for n in run.nodes)
    formulas = b"".join(bytes([kind, mark]) + word(a) + word(b) for kind, mark, a, b in run.formulas)
    edges = [sum(1 << v for v in range(EDGE_TRAY) if (u, v) in run.edges) for u in range(EDGE_TRAY)]
    # document 02: "late is set exactly if the world limit is reached, proved is false and a node still waits"
    late = len(run.worlds) >= MAX_WORLDS and not run.proved and len(run.queue) > 0
    return Answer(None, run.proved, late, len(run.nodes), len(run.formulas), len(run.worlds), run.steps,
                  nodes.ljust(NODE_TRAY, b"\0"), formulas.ljust(FORMULA_TRAY, b"\0"), edges)

def make(run, kind, a, b=0):
    """"made formulas following in the order the rules build them, unshared, with mark 0": the new number."""
    run.formulas.append((kind, 0, a, b))
    return len(run.formulas) - 1

def new_node(run, formula, world, spawner):
    """"Each new identifier is the next number of one sequence, shared by rules and placing"."""
    if len(run.nodes) == MAX_IDENTIFIERS:
        raise Full
    run.nodes.append(Node(formula, world, spawner, literal(run, formula, world)))
    return len(run.nodes) - 1

# ---- The run -----------------------------------------------------------------------------------------------------
# A made node is (identifier, left, middle, right), each of the last three a made node or None; a subtree is
# (left, middle, right). A result is a list of (target, subtree), placed and queued in that order.

def the_run(input_records, flags):
    run = Run(flags, list(input_records))
    # "Marked records, in order, form the branch: root first, linked by middle children, identifiers 0 upward"
    root = chain([new_node(run, number, 0, None) for number, record in enumerate(input_records) if record[1] == 1])
    run.nodes[0].place = ROOT
    attach(run, 0, root[1:])
    push(run, [root])                   # "The root is queued by one push_tree_node"
    check_contradictions(run)           # "Contradictions are checked once before any step, unless skipped"
    while run.queue and not run.proved and len(run.worlds) < MAX_WORLDS:
        run.steps += 1                  # "It takes one node, applies its rule, places the result, checks
        taken = take(run)               # contradictions, then queues the result."
        result = apply_rule(run, taken)
        made = [each for target, subtree in result for each in place(run, target, subtree)]
        check_contradictions(run)
        for subtree in made:            # "the original's left, middle, right, then its copies in the order made, even
            push(run, subtree)          # if no open path took it"
    return run

def chain(ids):
    """Identifiers linked by middle children, the first on top."""
    made = None
    for identifier in reversed(ids):
        made = (identifier, None, made, None)
    return made

# Queue.

def push(run, subtree):
    """"left, middle, right, then the node itself"; no identifier comes here twice."""
    for made in subtree:
        if made is not None:
            push(run, made[1:])
            run.queue.append(made[0])

def take(run):
    """"The first waiting node of the most urgent class is taken out"."""
    taken = min(run.queue, key=lambda identifier: urgency(run, identifier))     # min finds the first
    run.queue.remove(taken)
    return taken

def urgency(run, identifier):
    kind = kinds(run, run.nodes[identifier].formula)
    if kind in ((ATOMIC,), (NON, ATOMIC)): return 2                                     # "last"
    if kind in ((OR,), (NON, AND), (IMPLY,), (BIIMPLY,), (NON, BIIMPLY)): return 1      # "in the middle"
    return 0                                                                            # "all others .. first"

def kinds(run, formula):
    """"the outer kind and, under Non, the inner kind"; nothing for a comment."""
    if formula is None:
        return ()
    kind, _, a, _ = run.formulas[formula]
    return (kind, run.formulas[a][0]) if kind == NON else (kind,)

# Rules.

def apply_rule(run, taken):
    """Identifiers and made formulas in the order of propositional_logic.rs and common_modal_logic.rs: Python evaluates
    from left to right."""
    node = run.nodes[taken]
    kind = kinds(run, node.formula)
    if kind in ((), (ATOMIC,), (NON, ATOMIC)):          # "Atoms, their negations and comments do nothing"
        return []
    _, _, p, q = run.formulas[node.formula]
    if kind[0] == NON:
        _, _, p, q = run.formulas[p]                    # the parts of what Non stands before

    def new(formula): return new_node(run, formula, node.world, taken)
    def non(formula): return make(run, NON, formula)
    def middle(*ids): return [(taken, (None, chain(ids), None))]
    def split(left, right): return [(taken, (chain(left), None, chain(right)))]

    if kind == (NON, NON): return middle(new(p))
    if kind == (AND,):                                  # "And makes q's identifier before p's and puts p above q"
        lower, upper = new(q), new(p)
        return middle(upper, lower)
    if kind == (NON, AND): return split([new(non(p))], [new(non(q))])
    if kind == (OR,): return split([new(p)], [new(q)])
    if kind == (NON, OR):
        lower, upper = new(non(q)), new(non(p))
        return middle(upper, lower)
    if kind == (IMPLY,): return split([new(non(p))], [new(q)])
    if kind == (NON, IMPLY):
        lower, upper = new(non(q)), new(p)
        return middle(upper, lower)
    if kind == (BIIMPLY,):
        q_node, p_node, non_q, non_p = new(q), new(p), new(non(q)), new(non(p))
        return split([p_node, q_node], [non_p, non_q])
    if kind == (NON, BIIMPLY):
        non_q, p_node, q_node, non_p = new(non(q)), new(p), new(q), new(non(p))
        return split([p_node, non_q], [non_p, q_node])
    # "Non Possible p gives Necessary Non p, and the dual"
    if kind == (NON, POSSIBLE): return middle(new(make(run, NECESSARY, non(p))))
    if kind == (NON, NECESSARY): return middle(new(make(run, POSSIBLE, non(p))))
    if kind == (POSSIBLE,): return possible(run, taken, p)
    if kind == (NECESSARY,): return necessary(run, taken, p)
    # "StrictImply builds Imply and acts as Necessary of it; its negation builds Imply, then Non of that, and acts as
    # Possible of the latter"
    if kind == (STRICT,): return necessary(run, taken, make(run, IMPLY, p, q))
    assert kind == (NON, STRICT)
    return possible(run, taken, non(make(run, IMPLY, p, q)))

# Placing.

def all_paths(run):
    """"Paths are walked left, then middle, then right": the identifiers of each, root first."""
    found = []
    def walk(identifier, above):
        path = above + [identifier]
        children = [child for child in run.nodes[identifier].below if child is not None]
        if not children:
            found.append(path)
        for child in children:
            walk(child, path)
    walk(0, [])
    return found

def place(run, target, subtree):
    """"A subtree goes below the leaf of each path that holds the target and has no contradictory node. The first takes
    the original identifiers; every further one a copy": the original and its copies."""
    placed = [subtree]
    leaves = [path[-1] for path in all_paths(run)
              if target in path and not any(run.nodes[i].contradictory for i in path)]
    for turn, leaf in enumerate(leaves):
        if turn > 0:
            placed.append(tuple(copy(run, made) for made in subtree))
        attach(run, leaf, placed[-1])
    return placed

def copy(run, made):
    """"a copy renumbered parent first", with the formula, world and spawner of the original."""
    if made is None:
        return None
    original = run.nodes[made[0]]
    identifier = new_node(run, original.formula, original.world, original.spawner)
    return (identifier, *[copy(run, child) for child in made[1:]])

def attach(run, parent, subtree):
    run.nodes[parent].below = tuple(made and made[0] for made in subtree)
    for where, made in zip((LEFT, MIDDLE, RIGHT), subtree):
        if made is not None:
            run.nodes[made[0]].parent, run.nodes[made[0]].place = parent, where
            attach(run, made[0], made[1:])

# Possible.

def start_graph(run):
    """"The first rule that acts as Possible or Necessary .. puts world 0 in the graph and adds missing edges"."""
    if not run.worlds:
        run.worlds.add(0)
        add_missing_edges(run)

def possible(run, taken, p):
    start_graph(run)
    fork = max(run.worlds) + 1          # "the largest index plus one over the whole graph, not the path"
    run.worlds.add(fork)
    run.edges.add((run.nodes[taken].world, fork))       # "The edge from the current world comes first, then missing"
    add_missing_edges(run)
    formula = new_node(run, p, fork, taken)             # "The formula takes its identifier before its comment; the
    comment = new_node(run, None, 0, taken)             # comment stands above."
    result = [(taken, (None, chain([comment, formula]), None))]
    through = [path for path in all_paths(run) if taken in path]
    run.necessities.reverse()           # "in pop_necessity_reapplication order": stored again as they were popped
    for necessity in run.necessities:   # "with a leaf on a path through the node"
        if any(leaf in path for path in through for leaf in necessity.leaves):
            result += reapply(run, necessity, taken, fork)
    return result

# Necessary.

def necessary(run, taken, p):
    start_graph(run)
    leaves = [path[-1] for path in all_paths(run) if taken in path]     # "Its path leaves are stored"
    run.necessities.append(Necessity(p, run.nodes[taken].world, taken, leaves))
    return reapply(run, run.necessities[-1], None, None)

def reapply(run, necessity, forking, fork):
    """"Path by path through a stored leaf, closed paths too, each edge in rising order from its world to a world not
    visited before gives a node, below the last one, if that world occurs on the path"."""
    reached = sorted(v for u, v in run.edges if u == necessity.world and v not in necessity.visited)
    result = []
    for path in all_paths(run):
        if any(leaf in path for leaf in necessity.leaves):
            occurring = {run.nodes[i].world for i in path}
            if forking in path:         # "the new world counts as occurring on every path through the forking node"
                occurring.add(fork)
            given = [new_node(run, necessity.formula, v, necessity.spawner) for v in reached if v in occurring]
            if given:                   # "What a path gives goes on that path alone"
                result.append((path[-1], (None, chain(given), None)))
            necessity.visited.update(reached)           # "for all those paths together", occurring or not
    return result

# Missing edges.

def add_missing_edges(run):
    """"in that order if flagged, each one scan over the set as it stood .. No scan is repeated"."""
    if run.flags & REFLEXIVE:
        run.edges |= {(w, w) for w in run.worlds}
    if run.flags & SYMMETRIC:
        run.edges |= {(v, u) for u, v in run.edges}
    if run.flags & TRANSITIVE:          # "pairs unequal edges only"
        run.edges |= {(e[0], f[1]) for e in run.edges for f in run.edges if e != f and e[1] == f[0]}

# Contradictions.

def literal(run, formula, world):
    """(number of Nons, kind, atom numbers, world) of a formula that a pair can hold, else None."""
    nons = 0
    while kinds(run, formula)[:1] == (NON,):
        nons, formula = nons + 1, run.formulas[formula][2]
    kind, _, a, b = run.formulas[formula] if formula is not None else (None, 0, 0, 0)
    if kind == ATOMIC and nons <= 2:
        return nons, kind, (a,), world
    if kind == BIIMPLY and nons <= 1 and run.formulas[a][0] == run.formulas[b][0] == ATOMIC:
        return nons, kind, (run.formulas[a][2], run.formulas[b][2]), world
    return None

def find_pair(run, path):
    """"From the path's last node upward, against each earlier node from the root. Pairs: an atom and its negation; Non
    Non atom and Non atom; BiImply of two atoms and its negation, atoms in the same order; always one world": the
    numbers of Nons differ by one, all else agrees."""
    held = [(run.nodes[i].literal, i) for i in path if run.nodes[i].literal is not None]
    for i in range(len(held) - 1, -1, -1):
        (nons, *rest), later = held[i]
        for (other, *others), earlier in held[:i]:
            if rest == others and abs(nons - other) == 1:
                return later, earlier
    return None

def check_contradictions(run):
    """"The later node is marked. Proved when every path has a pair."""
    if run.flags & SKIP:
        return
    run.proved = True
    for path in all_paths(run):
        if path[-1] not in run.pairs:
            run.pairs[path[-1]] = find_pair(run, path)
        if run.pairs[path[-1]] is None:
            run.proved = False
        else:
            later, earlier = run.pairs[path[-1]]
            run.nodes[later].contradictory, run.nodes[later].contrarian = True, earlier
