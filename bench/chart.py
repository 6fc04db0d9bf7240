"""A chart of what a call takes, by workers: a line for each structure and peer, on a scale of powers of two."""

import math

import contenders
from contest import COLUMNS

LEFT = 60
PLOT = 420
LABELS = 300
TOP = 50
OCTAVE = 74
LINE = 13
BELOW = 44
STEP = PLOT / (len(COLUMNS) - 1)
PAIRINGS = {"coupling": "#228833", "giveup": "#4477aa", "link": "#aa3377"}
DASHES = {"bplus": "", "hash": "7 3", "bst": "2 3"}
NO_GUIDE = "1 4"
PEER = "#888888"
MUTEX = "#000000"


class Scale:
    """Where a number of nanoseconds lies: the more, the higher."""

    def __init__(self, times):
        self.least = math.floor(math.log2(min(times)))
        self.most = math.ceil(math.log2(max(times)))
        self.bottom = TOP + OCTAVE * (self.most - self.least)

    def at(self, nanoseconds):
        return self.bottom - OCTAVE * (math.log2(nanoseconds) - self.least)

    def powers(self):
        return [2 ** power for power in range(self.least, self.most + 1)]


def text(x, y, words, anchor="start", colour="#333333"):
    words = words.replace("&", "&amp;").replace("<", "&lt;").replace(">", "&gt;")
    return f'<text x="{x:.0f}" y="{y:.1f}" text-anchor="{anchor}" fill="{colour}">{words}</text>'


def colour_of(entrant):
    if entrant == contenders.MUTEX:
        return MUTEX
    return PAIRINGS.get(entrant.template, PEER)


def line_of(contest, entrant, scale):
    """The line of one entrant, with a point for each number of workers that it was measured with."""
    colour = colour_of(entrant)
    times = [(LEFT + STEP * place, contest.nanoseconds(entrant, column)) for place, column in enumerate(COLUMNS)]
    points = [(x, scale.at(time)) for x, time in times if time]
    path = " ".join(f"{x:.1f},{y:.1f}" for x, y in points)
    dashes = DASHES.get(entrant.layout, "") if entrant.has_guides else NO_GUIDE
    drawn = [f'<polyline points="{path}" fill="none" stroke="{colour}" stroke-width="1.6" stroke-dasharray="{dashes}"/>']
    return drawn + [f'<circle cx="{x:.1f}" cy="{y:.1f}" r="2.4" fill="{colour}"/>' for x, y in points]


def apart(wanted):
    """Heights near the wanted ones, in their order, a line of text apart."""
    found = []
    for y in sorted(wanted):
        found.append(y if not found else max(y, found[-1] + LINE))
    return found


def labels_of(contest, shown, scale):
    """The names at the right, each beside the end of its line, with the time there."""
    ends = sorted((scale.at(contest.nanoseconds(entrant, COLUMNS[-1])), entrant.name, entrant) for entrant in shown)
    drawn = []
    for (y, name, entrant), height in zip(ends, apart([end[0] for end in ends])):
        colour = colour_of(entrant)
        end = LEFT + PLOT
        drawn.append(f'<line x1="{end + 3}" y1="{y:.1f}" x2="{end + 20}" y2="{height:.1f}" stroke="{colour}" stroke-width="0.6"/>')
        drawn.append(text(end + 24, height + 4, f"{contest.nanoseconds(entrant, COLUMNS[-1]):.0f} {name}", colour=colour))
    return drawn


def grid_of(contest, scale):
    drawn = []
    for nanoseconds in scale.powers():
        y = scale.at(nanoseconds)
        drawn.append(f'<line x1="{LEFT}" y1="{y:.1f}" x2="{LEFT + PLOT}" y2="{y:.1f}" stroke="#dddddd"/>')
        drawn.append(text(LEFT - 6, y + 4, f"{nanoseconds:g}", "end"))
    for place, column in enumerate(COLUMNS):
        drawn.append(text(LEFT + STEP * place, scale.bottom + 18, contest.calls.named(column), "middle"))
    return drawn


def draw(contest, title):
    """The chart of a contest as SVG, of those that were measured in each column."""
    shown = [it for it in contest.entrants if all(contest.nanoseconds(it, column) for column in COLUMNS)]
    scale = Scale([contest.nanoseconds(it, column) for it in shown for column in COLUMNS])
    width = LEFT + PLOT + LABELS
    height = max(scale.bottom, TOP + LINE * len(shown)) + BELOW
    drawn = [f'<svg xmlns="http://www.w3.org/2000/svg" viewBox="0 0 {width} {height}" font-family="sans-serif" font-size="11">',
             f'<rect width="{width}" height="{height}" fill="white"/>', text(10, 20, title), *grid_of(contest, scale)]
    for entrant in shown:
        drawn += line_of(contest, entrant, scale)
    return "\n".join([*drawn, *labels_of(contest, shown, scale), "</svg>", ""])


def title_of(machine):
    return f"Nanoseconds a call, 64 callers of 256 keys each, by workers ({machine})"
