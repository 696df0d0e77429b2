"""What `vectors`, `show` and `published` share: asking the oracle, the text T of a run, its digest, the verdict."""
import json
import os
import subprocess

PLACES = dict(root=0, left=1, middle=2, right=3, unplaced=4)


def ask(binary, lines, max_work=0):
    """The oracle's answers, in order: a dict, or the word full, slow or error .."""
    out = subprocess.run([binary], input="".join(text + "\n" for text in lines), env=dict(os.environ, ORACLE_MAX_WORK=str(max_work)),
                         stdout=subprocess.PIPE, text=True, check=True).stdout.split("\n")[:-1]
    assert len(out) == len(lines)
    return [read(text) for text in out]


def read(line):
    """An output line of the oracle: a word, or a dict with `late` in it. The Rust's own value, `timeout`, says that the world limit
    is reached; it is put through document 02's condition: late is "the world limit is reached, proved is false and a node still waits"."""
    if not line.startswith("{"):
        return line
    answer = json.loads(line)
    answer["late"] = answer["timeout"] and not answer["proved"] and answer["waits"]
    return answer


def verdict(answer):
    if isinstance(answer, str):
        return answer
    return "proved" if answer["proved"] else "late" if answer["late"] else "open"


def text_of(answer):
    """T: a line for each node in order of identifier, then a line for each edge in rising order."""
    dash = lambda n: "-" if n is None else str(n)
    lines = []
    for number, (id, parent, place, world, formula, spawner, contrarian, contradictory, _) in enumerate(answer["nodes"]):
        assert id == number and contradictory == (contrarian is not None)
        lines.append("%s %d %d %s %s %s\n" % (dash(parent), PLACES[place], world, formula, dash(spawner), dash(contrarian)))
    edges = sorted(map(tuple, answer["edges"]))
    assert len(answer["nodes"]) == answer["ids"] and len(set(edges)) == len(edges)
    return "".join(lines) + "".join("%d>%d\n" % edge for edge in edges)


def digest(text):
    """Two hashes h = (h * 257 + byte) mod M, 8 hexadecimal digits each."""
    h1 = h2 = 0
    for byte in text.encode("ascii"):
        h1 = (h1 * 257 + byte) % 2147483647
        h2 = (h2 * 257 + byte) % 2147483629
    return "%08x%08x" % (h1, h2)
