"""Random scripts, which tools/soak, tools/leaks and tools/pairings have the program serve."""

import subprocess
from dataclasses import dataclass

from plain import text_of

PAIRINGS = (
    "list coupling",
    "list giveup",
    "bplus coupling",
    "bplus giveup",
    "bplus link",
    "hash coupling",
    "hash giveup",
    "hash link",
    "bst coupling",
    "bst giveup",
)

# Those that serve scans.
SCANNING = ("bplus giveup", "bplus link")

# How many parts the scans of a script have at most, by their lines.
MOST_PARTS = 65536

# The pairs of a node that is full; of a binary tree those for each node at the least, since inner nodes have none.
ROOM = {"list": 8, "bplus": 16, "hash": 8, "bst": 0.5}

WORD = 2**64

# How numbers from 0 up become keys: as they are; in no order; and so that hash nodes have them side by side.
STRIDES = (1, 0x9E3779B97F4A7C15, 0xF1DE83E19937733D)


@dataclass(frozen=True)
class Task:
    """Words of the program and a script for them."""

    kind: str
    words: tuple
    script: bytes


def words_of(pairing, version):
    """With which words the lines begin that a pairing serves of a version."""
    words = ["put", "get", "del"]
    if version >= 2:
        words += ["add", "swap"]
    if version >= 3 and pairing in SCANNING:
        words.append("scan")
    if version >= 4 and pairing.endswith(" giveup"):
        words.append("move")
    return words


def newest(name):
    """The newest version of scripts that the program reads."""
    for version in (4, 3, 2):
        words = [name, "run", "bplus", "giveup", "4"]
        if not subprocess.run(words, input=f"script {version}\n".encode(), capture_output=True, timeout=60).returncode:
            return version
    return 1


def versions(pairing, last):
    """The versions up to this one in which a pairing serves a line that it does not serve in the version before."""
    return [it for it in range(1, last + 1) if it == 1 or words_of(pairing, it) != words_of(pairing, it - 1)]


def churn(draw, keys, many, words):
    """Puts of a run of keys and dels of the same, again and again: nodes are split, merged and used again. Beside them scans from
    the first key of a run on, where the pairing serves these."""
    made = []
    while len(made) < many:
        first, run = draw.randrange(keys), draw.randrange(1, 100)
        for word in ("put", "del") if draw.random() < 0.8 else ("put", "get"):
            made += [(word, (first + at) % keys) for at in range(run)]
            made += [("scan", first)] if "scan" in words else []
    return made[:many]


def fill(draw, keys, many, words):
    """Puts above all, so that no node is free in the end."""
    some = ("put",) * 6 + ("add" if "add" in words else "put", "get", "del", *(it for it in ("scan", "move") if it in words))
    return [(draw.choice(some), *draw.sample(range(keys), 2)) for _ in range(many)]


def hot(draw, keys, many, words):
    """Calls of all kinds at few keys."""
    return [(draw.choice(words), *draw.sample(range(min(keys, 6)), 2)) for _ in range(many)]


def mixed(draw, keys, many, words):
    """Calls of all kinds at all keys."""
    some = [*words, *(it for it in ("put", "swap", "move") if it in words)]
    return [(draw.choice(some), *draw.sample(range(keys), 2)) for _ in range(many)]


def swing(draw, keys, many, words):
    """Few values are moved to and fro between some ranges of keys, beside puts and dels of runs of keys round these: so a node of one
    range is merged away, and used again beside another. Where nothing moves, there are only these runs."""
    lows = range(0, keys, keys // 5)
    made = []
    while len(made) < many:
        if "move" in words and draw.random() < 0.5:
            made += [("move", *(low + draw.randrange(4) for low in draw.sample(lows, 2))) for _ in range(10)]
        else:
            word, first = draw.choice(("put", "del")), draw.choice(lows) + draw.randrange(-10, 10)
            made += [(word, (first + at) % keys) for at in range(draw.randrange(1, 20))]
    return made[:many]


KINDS = (churn, fill, hot, mixed, swing)


class Writer:
    """Makes calls of what was drawn, over keys a stride apart."""

    def __init__(self, draw, version, keys, stride):
        self.draw, self.keys, self.stride = draw, keys, stride
        self.greatest = 2**128 - 1 if version >= 2 else WORD - 1
        self.parts = MOST_PARTS

    def key(self, at):
        return at * self.stride % WORD

    def values(self, word):
        """The values of a call. They are few, so that swaps find theirs."""
        value = self.draw.choice((self.draw.randrange(3), self.greatest))
        return {"put": (value,), "add": (value,), "swap": (self.draw.randrange(3), value)}.get(word, ())

    def scan(self, low):
        """A scan from this key on, over none, some or all of the keys; a get where the script has no parts left."""
        gap = 1 if self.stride == 1 else WORD // self.keys
        last = min(WORD - 1, low + self.draw.choice((0, 5, 40, self.keys)) * gap)
        parts = min(self.draw.choice((1, 2, 3, 64)), self.parts)
        self.parts -= parts
        return ("scan", low, last, parts) if parts else ("get", low)

    def call(self, word, at, to=0):
        """A call at a key; a move also has the key to which the value goes."""
        if word == "scan":
            return self.scan(self.key(at))
        return (word, self.key(at), *([self.key(to)] if word == "move" else self.values(word)))


def drawn(draw, kind, pairing, version, keys, stride, callers, calls):
    """A script of so many callers with so many calls each, all of one kind or, if none is named, of each kind in turn."""
    writer, words = Writer(draw, version, keys, stride), words_of(pairing, version)
    kinds = [kind or KINDS[at % len(KINDS)] for at in range(callers)]
    return [[writer.call(*it) for it in kind(draw, keys, calls, words)] for kind in kinds]


def task(draw, pairing, kind, version, callers, calls):
    """A task of this kind: so many calls in all, over an arena that they fill, or that they fill half, or a wide one. Where values
    are moved to and fro the arenas are small, so that a node that was merged away is soon used again."""
    keys = draw.choice((40, 400, 4000) if kind is not swing else (40, 400))
    nodes = int(keys / ROOM[pairing.split()[0]])
    arena = max(4, draw.choice((nodes // 2, nodes, 2 * nodes, 65536) if kind is not swing else (10, 12, 24, 64)))
    scripts = drawn(draw, kind, pairing, version, keys, draw.choice(STRIDES), callers, calls // callers)
    workers = draw.choice((2, 4, 16, 64))
    return Task(kind.__name__, ("run", *pairing.split(), f"{arena}", f"{workers}"), text_of(scripts, version))
