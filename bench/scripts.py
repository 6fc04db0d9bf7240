"""Scripts of calls for the command `run`, and the same calls for the peers, which read the same text."""

import random
from dataclasses import dataclass

CALLERS = 64
KEYS_OF_CALLER = 256
FIRST = 7
MULTIPLIER = 6364136223846793005
INCREMENT = 1442695040888963407
WORD = 2 ** 64
MOST_FILLED = 2 ** 16


@dataclass(frozen=True)
class Mix:
    """Of four calls so many put, get and delete."""

    name: str
    kinds: tuple


GETS = Mix("gets alone", ("get", "get", "get", "get"))
HALF_PUTS = Mix("half puts", ("put", "put", "get", "get"))
GENERATED = Mix("the generator's", ("put", "put", "get", "del"))


@dataclass(frozen=True)
class Workload:
    """Calls of 64 callers over a map that was filled before: what they do, over how many keys, and in which order."""

    mix: Mix
    keys: int
    sequential: bool

    @property
    def name(self):
        order = "in sequence" if self.sequential else "at random"
        return f"{self.mix.name}, {self.keys:,} keys {order}"


# One thing is varied at a time.
WORKLOADS = (
    Workload(HALF_PUTS, 100_000, False),
    Workload(GETS, 100_000, False),
    Workload(GENERATED, 100_000, False),
    Workload(HALF_PUTS, 100_000, True),
    Workload(HALF_PUTS, 1_000, False),
    Workload(HALF_PUTS, 10_000, False),
    Workload(HALF_PUTS, 1_000_000, False),
)


class Drawn:
    """Numbers drawn as the program's generator draws them."""

    def __init__(self, first):
        self.state = first

    def draw(self):
        self.state = (self.state * MULTIPLIER + INCREMENT) % WORD
        return self.state >> 33


def line_of(kind, key, value):
    return f"put {key} {value}" if kind == "put" else f"{kind} {key}"


def fill_of(workload, caller):
    """The puts by which a caller fills its part of the map: every other key of the space, or fewer of a great one."""
    stride = max(2, workload.keys // MOST_FILLED)
    return [f"put {key} {key}" for key in range(caller * stride, workload.keys, CALLERS * stride)]


def calls_of(workload, caller, calls, drawn):
    """A caller's calls; in sequence it begins at a key of its own."""
    begin = caller * (workload.keys // CALLERS)
    lines = []
    for at in range(calls):
        kind = workload.mix.kinds[drawn.draw() % 4]
        key = (begin + at if workload.sequential else drawn.draw()) % workload.keys
        lines.append(line_of(kind, key, drawn.draw()))
    return lines


def script(workload, calls):
    """The text of the fill and of so many calls of each caller."""
    drawn = Drawn(FIRST)
    lines = []
    for caller in range(CALLERS):
        lines += ["caller", *fill_of(workload, caller), *calls_of(workload, caller, calls, drawn)]
    return "\n".join(lines) + "\n"


def generated_call(caller, drawn):
    """A call as `make` draws it."""
    kind = GENERATED.kinds[drawn.draw() % 4]
    key = caller + CALLERS * (drawn.draw() % KEYS_OF_CALLER)
    return f"put {key} {drawn.draw()}" if kind == "put" else f"{kind} {key}"


def generated(calls):
    """The text of the calls that `make` draws for 64 callers, so many of each."""
    drawn = Drawn(FIRST)
    lines = []
    for caller in range(CALLERS):
        lines += ["caller", *(generated_call(caller, drawn) for _ in range(calls))]
    return "\n".join(lines) + "\n"


@dataclass(frozen=True)
class Spread:
    """Which keys the callers draw from a great space, of which each has a share of its own."""

    name: str
    is_skewed: bool
    is_apart: bool


GREAT_KEYS = 1_048_576
GREAT_CALLS = 16_384
GREAT_VALUES = 1_000
SHARE = GREAT_KEYS // CALLERS
SPREADS = (
    Spread("mixed: keys of all callers lie among one another", False, False),
    Spread("apart: the keys of a caller lie side by side", False, True),
    Spread("skewed: mixed, and nine of ten draws are from a tenth, three times nested", True, False),
)


def spread_key(spread, caller, drawn):
    """A key of the caller's share. Those that are drawn often lie scattered in it."""
    at = drawn.draw() % SHARE
    if spread.is_skewed:
        many = SHARE
        for _ in range(3):
            if drawn.draw() % 10 == 0:
                break
            many //= 10
        at = at % many * 2654435761 % SHARE
    return caller * SHARE + at if spread.is_apart else caller + CALLERS * at


def spread(spread, calls):
    """The text of so many calls of each caller over an empty map, with the generator's mix. Values are short, for a text of
    16 MiB at most."""
    drawn = Drawn(FIRST)
    lines = []
    for caller in range(CALLERS):
        lines.append("caller")
        for _ in range(calls):
            kind = GENERATED.kinds[drawn.draw() % 4]
            key = spread_key(spread, caller, drawn)
            lines.append(line_of(kind, key, drawn.draw() % GREAT_VALUES))
    return "\n".join(lines) + "\n"


@dataclass(frozen=True)
class Text:
    """A script of 64 callers at random, by a fixed seed, over 16,384 keys: all below that number, or any of 64 bits."""

    name: str
    calls: int
    has_long_keys: bool
    value_bits: int
    version: int


TEXTS = (
    Text("keys and values of 64 bits", 480_000, True, 64, 1),
    Text("keys below 16,384, values of 31 bits", 1_000_000, False, 31, 1),
    Text("keys of 64 bits, values of 128", 280_000, True, 128, 2),
)
TEXT_KEYS = 16384
SEED = 5


def random_call(text, keys, drawn):
    """A call of the generator's mix."""
    key = keys[drawn.randrange(TEXT_KEYS)]
    kind = GENERATED.kinds[drawn.randrange(4)]
    return f"put {key} {drawn.getrandbits(text.value_bits)}" if kind == "put" else f"{kind} {key}"


def script_of(text):
    """The script."""
    drawn = random.Random(SEED)
    keys = [drawn.getrandbits(64) for _ in range(TEXT_KEYS)] if text.has_long_keys else range(TEXT_KEYS)
    lines = ["script 2"] if text.version == 2 else []
    for _ in range(CALLERS):
        lines += ["caller", *(random_call(text, keys, drawn) for _ in range(text.calls // CALLERS))]
    return "\n".join(lines) + "\n"
