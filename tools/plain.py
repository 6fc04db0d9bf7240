"""A plain program of the formats: the generator of `make`, a map that answers a script, and a judge of a printed run."""

import re

MODULUS = 1 << 64
GREATEST = (1 << 128) - 1
NUMBERS = re.compile(r"(0|[1-9][0-9]*)( (0|[1-9][0-9]*))*")
# Why a line of a run is refused.
NO_RUN = "from it on the lines are no run of the script"
# How many pairs a part of a scan has at most.
MOST_PAIRS = 16


def made(callers, calls, first):
    """The script that `make` serves: for each caller its calls."""
    x = first

    def draw():
        nonlocal x
        x = (x * 6364136223846793005 + 1442695040888963407) % MODULUS
        return x >> 33

    scripts = []
    for caller in range(callers):
        ops = []
        for _ in range(calls):
            kind, key = draw() % 4, caller + callers * (draw() % 256)
            ops.append(("put", key, draw()) if kind < 2 else (("get", "del")[kind - 2], key))
        scripts.append(ops)
    return scripts


def answer(held, op):
    """What the map answers to a call, and what it does to the map. A part of a scan is answered by the pairs of its span."""
    word, key, *values = op
    if word == "part":
        return [(at, held[at]) for at in sorted(held) if key <= at <= values[0]]
    found = held.get(key)
    if word == "put" or (word == "add" and found is None):
        held[key] = values[0]
    elif word == "swap" and found == values[0]:
        held[key] = values[1]
    elif word == "del":
        held.pop(key, None)
    elif word == "move" and found is not None:
        if values[0] in held:
            return "kept"
        held[values[0]] = held.pop(key)
    return found


def reply_of(found):
    """An answer as a text."""
    if isinstance(found, list):
        return "".join(f" {key} {value}" for key, value in found)
    return "none" if found is None else str(found)


def text_of(scripts, version):
    """The script as a text."""
    lines = [f"script {version}"] if version > 1 else []
    for ops in scripts:
        lines.append("caller")
        lines += [" ".join(map(str, op)) for op in ops]
    return "".join(f"{it}\n" for it in lines).encode()


def run_of(scripts):
    """The run where the callers are served one after another, no node is wanting, and each scan is one part, as over a leaf."""
    held, lines, number = {}, [], 0
    for caller, ops in enumerate(scripts):
        lines.append(f"caller {caller}")
        for word, *numbers in ops:
            if word == "scan":
                low, last, _ = numbers
                lines += [f"{number} {last}{reply_of(answer(held, ('part', low, last)))}", "whole"]
            else:
                lines.append(f"{number} {reply_of(answer(held, (word, *numbers)))}")
            number += 1
    lines += ["map", *(f"{key} {held[key]}" for key in sorted(held)), "end"]
    return "".join(f"{it}\n" for it in lines).encode()


def summary_of(scripts):
    """The summary of that run."""
    held, found = {}, []
    for ops in scripts:
        found += [answer(held, op) for op in ops]
    total = sum(key * value for key, value in held.items()) % MODULUS
    none = found.count(None)
    rows = (len(scripts), len(found), len(found) - none, none, 0, len(held), total)
    return "".join(f"{name} {row}\n" for name, row in zip("callers calls found none full pairs sum".split(), rows)).encode()


class Misfit(Exception):
    """A line of a run fits no run of the script. It says which, counted from 1."""


class Lines:
    """The lines of a run, one after another."""

    def __init__(self, run):
        self.lines, self.at = run.decode().splitlines(), 0

    def take(self):
        """The next line."""
        self.at += 1
        self.needs(self.at <= len(self.lines))
        return self.lines[self.at - 1]

    def needs(self, fits):
        """The line that was taken last is refused unless it fits."""
        if not fits:
            raise Misfit(self.at)

    def numbers(self, line):
        """The numbers that the line is, which was taken last."""
        self.needs(NUMBERS.fullmatch(line))
        return list(map(int, line.split(" ")))

    def pairs(self, numbers):
        """Numbers as keys and values."""
        self.needs(len(numbers) % 2 == 0 and all(it < MODULUS for it in numbers[::2]) and all(it <= GREATEST for it in numbers[1::2]))
        return list(zip(numbers[::2], numbers[1::2]))


def replied(lines, op):
    """The numbered lines that reply to a line of a script: the call of each, its number, and its reply as a text."""
    if op[0] == "scan":
        return scanned(lines, *op[1:])
    number, _, reply = lines.take().partition(" ")
    words = ("none", "full", "kept") if op[0] == "move" else ("none", "full")
    lines.needs(lines.numbers(number)[0] < MODULUS)
    lines.needs(reply in words or (" " not in reply and lines.numbers(reply)[0] <= GREATEST))
    return [(op, int(number), reply)]


def scanned(lines, low, last, most):
    """The same of a scan: a line for each part, and one that says where it stopped."""
    parts, begin = [], low
    while not parts or (begin <= last and len(parts) < most):
        numbers = lines.numbers(lines.take())
        lines.needs(len(numbers) >= 2 and numbers[0] < MODULUS and begin <= numbers[1] <= last)
        pairs = lines.pairs(numbers[2:])
        lines.needs(len(pairs) <= MOST_PAIRS)
        parts.append((("part", begin, numbers[1]), numbers[0], reply_of(pairs)))
        begin = numbers[1] + 1
    lines.needs(lines.take() == ("whole" if begin > last else f"until {begin}"))
    return parts


def lines_of(scripts, run):
    """The numbered lines of each caller, with their calls, and the pairs of the map."""
    lines, callers, pairs = Lines(run), [], []
    for caller, ops in enumerate(scripts):
        lines.needs(lines.take() == f"caller {caller}")
        callers.append([line for op in ops for line in replied(lines, op)])
    lines.needs(lines.take() == "map")
    while (line := lines.take()) != "end":
        read = lines.pairs(lines.numbers(line))
        lines.needs(len(read) == 1 and (not pairs or pairs[-1][0] < read[0][0]))
        pairs += read
    if lines.at < len(lines.lines):
        raise Misfit(lines.at + 1)
    return callers, pairs


def least_wrong(scripts, run):
    """The number of numbered lines of a run, and the least wrong number, as docs/FORMATS.md defines it, or None where it is legal."""
    callers, pairs = lines_of(scripts, run)
    calls, carriers, late = sum(map(len, callers)), {}, set()
    for lines in callers:
        greatest = -1
        for op, number, reply in lines:
            carriers.setdefault(number, []).append((op, reply))
            if number < greatest:
                late.add(number)
            greatest = max(greatest, number)
    held = {}
    for number in range(calls):
        lines = carriers.get(number, [])
        if len(lines) != 1 or number in late:
            return calls, number
        op, reply = lines[0]
        if reply == "full" and op[0] in ("put", "add", "move"):
            continue
        if reply != reply_of(answer(held, op)):
            return calls, number
    return calls, None if pairs == sorted(held.items()) else calls
