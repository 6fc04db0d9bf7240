"""What the scripts of this folder share: tries that are counted, and where the built program is."""

import os
import subprocess
import sys

TOP = os.path.dirname(os.path.dirname(os.path.realpath(__file__)))


class Tries:
    """Counts tries, and names those that fail, and what was left out."""

    def __init__(self, name):
        self.name, self.count, self.failed = name, 0, 0

    def hold(self, what, wanted, found):
        """One try: what was found is what is wanted."""
        self.count += 1
        if wanted != found:
            self.failed += 1
            print(f"{self.name}: {what}:\n  wanted {wanted!r}\n  found  {found!r}", flush=True)

    def skip(self, what):
        """Says what is left out, and why. The gate fails at it."""
        print(f"{self.name}: not tried: {what}", flush=True)

    def end(self, of="tries"):
        """Says how many there were, and ends with status 1 where one failed."""
        print(f"{self.name}: {self.count} {of}, {self.failed} failed", flush=True)
        sys.exit(1 if self.failed or not self.count else 0)


def documents():
    """The documents of the repository."""
    for at, folders, files in os.walk(TOP):
        folders[:] = sorted(it for it in folders if it not in (".git", "out"))
        yield from (os.path.relpath(f"{at}/{it}", TOP) for it in sorted(files) if it.endswith(".md"))


def has_full():
    """Whether the system has the device that is always full."""
    return os.access("/dev/full", os.W_OK)


def program(words=None):
    """The built program: the one that these words name, of the command line if none are given, else the one that the gate built,
    else the one that `ks prove` builds."""
    words = sys.argv[1:] if words is None else words
    if words:
        if not os.access(words[0], os.X_OK):
            sys.exit(f"{os.path.basename(sys.argv[0])}: {words[0]} is no program")
        return os.path.abspath(words[0])
    built = f"{TOP}/crates/ks_main/out/ks_main"
    if not os.access(built, os.X_OK):
        built_by = subprocess.run([f"{TOP}/ks", "prove"], stdin=subprocess.DEVNULL, stdout=subprocess.DEVNULL)
        if built_by.returncode:
            sys.exit(f"{os.path.basename(sys.argv[0])}: there is no program to try")
    return built
