"""Contenders in turn over the same calls, round by round."""

import os
import signal
import statistics
import subprocess
import sys
import tempfile
import threading
import time
from dataclasses import dataclass

import contenders
import scripts
from tables import print_table, shown

COLUMNS = (1, 4, 64)
SECONDS = 120


class Failed(Exception):
    """A command did not end, ended with another status than 0, or printed something else than it should."""


def on_one_line(text):
    words = " ".join(text[:200].split())
    return words if len(text) <= 200 else f"{words} .."


@dataclass(frozen=True)
class Ran:
    """The seconds that a command took, those of processors that it took, and what it printed."""

    seconds: float
    processor: float
    printed: str


def ran(command, text=os.devnull, **variables):
    """Runs the command over a text on its standard input; the variables are added to its environment."""
    with open(text, "rb") as given, tempfile.TemporaryFile() as printed, tempfile.TemporaryFile() as said:
        start = time.perf_counter()
        begun = subprocess.Popen(command, stdin=given, stdout=printed, stderr=said, env={**os.environ, **variables})
        limit = threading.Timer(SECONDS, os.kill, [begun.pid, signal.SIGKILL])
        limit.start()
        # (told of no limit, it sleeps until the command has ended; else it would look every half a millisecond and more)
        _pid, status, used = os.wait4(begun.pid, 0)
        passed = time.perf_counter() - start
        limit.cancel()
        begun.returncode = os.waitstatus_to_exitcode(status)
        if passed >= SECONDS:
            raise Failed(f"did not end in {SECONDS} seconds")
        printed.seek(0)
        said.seek(0)
        if begun.returncode != 0:
            raise Failed(f"ended with {begun.returncode}: {said.read().decode(errors='replace').strip()}")
        return Ran(passed, used.ru_utime + used.ru_stime, printed.read().decode())


def timed(command, text=os.devnull, **variables):
    """The seconds that the command took over a text on its standard input, and what it printed."""
    it = ran(command, text, **variables)
    return it.seconds, it.printed


class Subtracted:
    """Calls whose serving is a command with them, less the same command without."""

    def measure(self, entrant, column):
        """The seconds of both commands, and what the one with calls printed."""
        busy, printed = self.busy(entrant, column)
        idle, _printed = self.idle(entrant, column)
        return (busy, idle), printed

    def seconds(self, samples, column):
        """The seconds of serving alone, by medians of what an entrant took."""
        busy, idle = zip(*samples[column])
        return statistics.median(busy) - statistics.median(idle)


class Generated(Subtracted):
    """Generated calls, so many of each caller; a column is a number of callers."""

    def __init__(self, calls):
        self.calls = calls

    def named(self, column):
        return "1 caller" if column == 1 else f"{column} callers"

    def calls_in(self, column):
        return column * self.calls

    def busy(self, entrant, column):
        return timed(entrant.command(column, self.calls))

    def idle(self, entrant, column):
        return timed(entrant.command(column, 0))

    def is_same(self, entrant, column):
        """Whether the entrant prints what the first one does."""
        return True


class ByWorkers:
    """A script of 64 callers, with so many calls of each beside what fills the map; a column is a number of workers."""

    def __init__(self, calls):
        self.calls = calls

    def named(self, column):
        return "1 worker" if column == 1 else f"{column} workers"

    def calls_in(self, column):
        return scripts.CALLERS * self.calls

    def is_same(self, entrant, column):
        """Whether the entrant prints what the first one does: by one worker, where its calls have numbers."""
        return column == 1 and entrant.is_numbered


class Scripted(ByWorkers, Subtracted):
    """A script whose callers fill the map first. Reading and printing the calls is in the times."""

    def __init__(self, workload, calls, folder):
        super().__init__(calls)
        self.filled = os.path.join(folder, "filled")
        self.whole = os.path.join(folder, "whole")
        for path, count in ((self.filled, 0), (self.whole, calls)):
            with open(path, "w") as file:
                file.write(scripts.script(workload, count))

    def busy(self, entrant, column):
        return timed(entrant.serving(column, contenders.NODES_FOR_SCRIPTS), self.whole)

    def idle(self, entrant, column):
        return timed(entrant.serving(column, contenders.NODES_FOR_SCRIPTS), self.filled)


@dataclass(frozen=True)
class Served:
    """The seconds of a whole command, and those from the start of the first thread to the last join."""

    whole: float
    span: float


class Spanned(ByWorkers):
    """A script of 64 callers. Reading and printing are in no times: what is reported is the span of the
    threads. The program works on its own thread too and starts none for one worker, so its span by one worker is that of
    two, of whom the second is held until the first has served all."""

    def __init__(self, calls, folder, text, nodes):
        super().__init__(calls)
        self.nodes = nodes
        self.script = os.path.join(folder, "calls")
        self.span = os.path.join(folder, "span")
        with open(self.script, "w") as file:
            file.write(text)

    def spanned(self, entrant, workers, **variables):
        """The seconds of the command and of its threads, and what it printed."""
        command = entrant.serving(workers, self.nodes)
        open(self.span, "wb").close()
        whole, printed = timed(command, self.script, LD_PRELOAD=contenders.SPAN, SPAN=self.span, **variables)
        with open(self.span, "rb") as file:
            return Served(whole, int.from_bytes(file.read(), sys.byteorder) / 1e9), printed

    def measure(self, entrant, column):
        """The seconds of the command and of its threads, and what it printed."""
        served, printed = self.spanned(entrant, column)
        if column == 1 and entrant.is_worker:
            held, printed_held = self.spanned(entrant, 2, HELD="1")
            if printed_held != printed:
                raise Failed("printed another run where the second of two workers was held")
            served = Served(served.whole, held.span)
        if served.span <= 0:
            raise Failed("started no thread")
        return served, printed

    def seconds(self, samples, column):
        """The seconds of serving alone, by the median of what an entrant took."""
        return statistics.median(served.span for served in samples[column])

    def derived(self, samples):
        """The seconds of serving by one worker, derived in each round from the whole command by one worker and what the
        command by four does around its threads; None where it cannot be told."""
        rounds = [one.whole - (four.whole - four.span) for one, four in zip(samples[1], samples[4])]
        return statistics.median(rounds) if rounds else None


class Contest:
    """Contenders, the calls that all serve, and what the commands took."""

    def __init__(self, entrants, calls):
        self.entrants = entrants
        self.calls = calls
        self.printed = {}
        self.samples = {entrant: {column: [] for column in COLUMNS} for entrant in entrants}
        self.failures = {}

    def compare(self, entrant, column, printed):
        """Fails where the text is not the first that was printed for these calls, which is the program's."""
        if self.calls.is_same(entrant, column):
            first, wanted = self.printed.setdefault(column, (entrant, printed))
            if printed != wanted:
                raise Failed(f"printed {on_one_line(printed)!r}, where {first.name} printed {on_one_line(wanted)!r}")

    def measure(self, entrant, column):
        """Runs the entrant once, and keeps what it took."""
        sample, printed = self.calls.measure(entrant, column)
        self.compare(entrant, column, printed)
        self.samples[entrant][column].append(sample)

    def take_turn(self, entrant, column):
        """Measures the entrant once, unless it failed in this column."""
        if (entrant, column) not in self.failures:
            try:
                self.measure(entrant, column)
            except Failed as failure:
                self.failures[entrant, column] = failure

    def run(self, rounds, repeats):
        """Gives each entrant its turns in each round: so many in the first column, fewer in others, all entrants one after another."""
        for _ in range(rounds):
            for column in COLUMNS:
                for _ in range(max(1, repeats // column)):
                    for entrant in self.entrants:
                        self.take_turn(entrant, column)

    def nanoseconds(self, entrant, column):
        """The nanoseconds of a call; None where the entrant failed, or was too quick to tell, or took no part."""
        samples = self.samples.get(entrant)
        if not samples or not samples[column] or (entrant, column) in self.failures:
            return None
        seconds = self.calls.seconds(samples, column)
        return seconds * 1e9 / self.calls.calls_in(column) if seconds > 0 else None

    def ratio(self, entrant, column):
        """The ratio of a call to that of the mutex."""
        own, mutex = self.nanoseconds(entrant, column), self.nanoseconds(contenders.MUTEX, column)
        return own and mutex and own / mutex

    def print(self):
        """Prints nanoseconds and ratios, and what failed."""
        rows = [["", *map(self.calls.named, COLUMNS), *(f"ratio {column}" for column in COLUMNS)]]
        for entrant in self.entrants:
            times = [shown(self.nanoseconds(entrant, column), 0) for column in COLUMNS]
            ratios = [shown(self.ratio(entrant, column), 2) for column in COLUMNS]
            rows.append([entrant.name, *times, *ratios])
        print_table(rows)
        for (entrant, column), failure in self.failures.items():
            print(f"\nFAILED: {entrant.name} with {self.calls.named(column)} {failure}")
