"""What is measured: the pairings that the proved program admits, and maps that a user would pick instead of it."""

import glob
import os
import shutil
import subprocess
from dataclasses import dataclass

from scripts import FIRST

TOP = os.path.dirname(os.path.dirname(os.path.abspath(__file__)))
PROGRAM = os.path.join(TOP, "crates", "ks_main", "out", "ks_main")
TEXT_TIMES = os.path.join(TOP, "crates", "ks_text_times", "out", "ks_text_times")
CALL_TIMES = os.path.join(TOP, "crates", "ks_call_times", "out", "ks_call_times")
SCAN_TIMES = os.path.join(TOP, "crates", "ks_scan_times", "out", "ks_scan_times")
PEERS = os.path.join(TOP, "bench", "peers")
BUILT = os.path.join(TOP, "bench", "out")
SPAN = os.path.join(BUILT, "span.so")
PLAIN_CHECK = os.path.join(BUILT, "plain_check")
SCAN_PEER = os.path.join(BUILT, "scan_times")

# Where Debian's packages put the sources of crates, and where cargo builds a peer over one of them.
PACKAGED = "/usr/share/cargo/registry"
CARGO = os.path.join(BUILT, "cargo")
SOURCES = ["--config", 'source.crates-io.replace-with="packaged"', "--config", f'source.packaged.directory="{PACKAGED}"']
MANIFEST = """[package]
name = "{name}"
version = "0.0.0"
edition = "2021"

[[bin]]
name = "{name}"
path = "{source}"

[dependencies]
{crate} = "*"
"""

LAYOUTS = ("list", "bplus", "hash", "bst")
TEMPLATES = ("coupling", "giveup", "link")
GUIDED = ("giveup", "link")
NODES_FOR_EACH_CALLER = 1024
NODES_FOR_SCRIPTS = 262144
NODES_FOR_GENERATED = 65536


@dataclass(frozen=True)
class Contender:
    """A command that serves generated calls and prints their summary, or serves a script and prints the run."""

    name: str
    words: tuple
    layout: str = ""
    template: str = ""
    is_numbered: bool = True
    wants_nodes: bool = False
    has_guides: bool = True

    @property
    def is_worker(self):
        """Whether the command's own thread is one of the workers: it is the program's."""
        return bool(self.layout)

    def pairing(self, verb, nodes):
        """The words that say over what it serves."""
        if self.layout:
            return [verb, self.layout, self.template, str(nodes)]
        return [str(nodes)] if self.wants_nodes else []

    def command(self, callers, calls):
        """The command that serves so many callers, each with so many generated calls."""
        return [*self.words, *self.pairing("make", callers * NODES_FOR_EACH_CALLER), str(callers), str(calls), str(FIRST)]

    def serving(self, workers, nodes):
        """The command that serves the script on standard input by so many workers, over an arena of so many nodes."""
        verb = [] if self.layout else ["script"]
        return [*self.words, *self.pairing("run", nodes), *verb, str(workers)]


ORDERED_MAPS = os.path.join(BUILT, "ordered_maps")
MUTEX = Contender("Mutex<BTreeMap>", (ORDERED_MAPS, "mutex"))
MUTEX_64 = Contender("Mutex<BTreeMap>, 64-bit values", (ORDERED_MAPS, "mutex64"))
RWLOCK = Contender("RwLock<BTreeMap>", (ORDERED_MAPS, "rwlock"))
PARKING_LOT_MAPS = os.path.join(CARGO, "release", "parking_lot_maps")
PARKING_LOT_MUTEX = Contender("Mutex<BTreeMap> of parking_lot", (PARKING_LOT_MAPS, "mutex"))
PARKING_LOT_RWLOCK = Contender("RwLock<BTreeMap> of parking_lot", (PARKING_LOT_MAPS, "rwlock"))
DASH_MAP = Contender("DashMap, no numbers", (os.path.join(CARGO, "release", "dash_map"),), is_numbered=False)
TBB_MAP = Contender("TBB concurrent_hash_map, no numbers", (os.path.join(BUILT, "tbb_map"),), is_numbered=False)
CUCKOO_MAP = Contender("libcuckoo cuckoohash_map, no numbers", (os.path.join(BUILT, "cuckoo_map"),), is_numbered=False)
PLAIN_TREES = tuple(Contender(f"plain bplus {template}, unproved", (os.path.join(BUILT, "plain_trees"), template), wants_nodes=True)
                    for template in TEMPLATES)
SKIP_LIST = Contender("Java ConcurrentSkipListMap, no numbers", ("java", "-cp", BUILT, "SkipList"), is_numbered=False)


def build_program():
    """Proves and builds the program where it is missing or old; ends with its status where that fails."""
    status = subprocess.run([os.path.join(TOP, "ks"), "prove"],
                            stdin=subprocess.DEVNULL, stdout=subprocess.DEVNULL).returncode
    if status != 0:
        raise SystemExit(status)


def build_beside(program, words):
    """Proves and builds a program for measuring, and runs it with the words; ends with its status where that fails."""
    crate = os.path.dirname(os.path.dirname(program))
    status = subprocess.run(["rt", "run", "--", *words], cwd=crate, stdin=subprocess.DEVNULL, stdout=subprocess.DEVNULL).returncode
    if status != 0:
        raise SystemExit(status)


def build_text_times():
    """Proves and builds what reads and writes a text many times; ends with its status where that fails."""
    build_beside(TEXT_TIMES, ["read", "0"])


def build_call_times():
    """Proves and builds what takes the time of each call; ends with its status where that fails."""
    build_beside(CALL_TIMES, ["link", "1", "0"])


def build_scan_times():
    """Proves and builds what takes the time of scans; ends with its status where that fails."""
    build_beside(SCAN_TIMES, ["link", "10", "1", "0"])


def is_admitted(layout, template, program=PROGRAM):
    """Whether the program serves this pairing: it is asked with an empty script."""
    return subprocess.run([program, "run", layout, template, "4"], stdin=subprocess.DEVNULL,
                          stdout=subprocess.DEVNULL, stderr=subprocess.DEVNULL).returncode == 0


def pairings(program=PROGRAM):
    """The pairings that the program admits, with a line for each that it does not."""
    admitted = []
    for layout in LAYOUTS:
        for template in TEMPLATES:
            if is_admitted(layout, template, program):
                admitted.append(Contender(f"{layout} {template}", (program,), layout, template))
            else:
                print(f"skipped: {layout} {template}, which the program does not admit")
    return admitted


def unguided(program):
    """The pairings over B+ nodes that have guides, by a build of the program in which no worker has one."""
    return [Contender(f"bplus {template}, no guide", (program,), "bplus", template, has_guides=False)
            for template in GUIDED]


def is_built(what, compiler):
    """Whether the compiler makes the peer, with a line where it does not."""
    if shutil.which(compiler[0]) is None:
        print(f"skipped: {what}, for want of {compiler[0]}")
        return False
    built = subprocess.run(compiler, cwd=PEERS, capture_output=True, text=True)
    if built.returncode != 0:
        said = built.stderr.strip().splitlines() or ["no reason given"]
        print(f"skipped: {what}, which {compiler[0]} does not build here: {said[0]}")
    return built.returncode == 0


def is_span_built():
    """Whether this machine can build what measures the span of threads, with a line where it cannot."""
    os.makedirs(BUILT, exist_ok=True)
    return is_built("calls by workers", ["cc", "-O2", "-shared", "-fPIC", "-o", SPAN, "../span.c", "-ldl"])


def rustc(program, source):
    """How a peer in Rust is built."""
    return ["rustc", "-O", "--edition", "2021", "-o", program, source]


def is_plain_check_built():
    """Whether this machine can build the plain judge of runs, with a line where it cannot."""
    os.makedirs(BUILT, exist_ok=True)
    return is_built("the plain check", rustc(PLAIN_CHECK, "plain_check.rs"))


def scan_peer():
    """The maps of Rust that are scanned, where this machine can build them, with a line where it cannot."""
    os.makedirs(BUILT, exist_ok=True)
    return SCAN_PEER if is_built("scans of the maps of Rust", rustc(SCAN_PEER, "scan_times.rs")) else None


def models():
    """The plain models of the design, where this machine can build them, with a line where it cannot."""
    os.makedirs(BUILT, exist_ok=True)
    return list(PLAIN_TREES) if is_built("the plain trees", rustc(PLAIN_TREES[0].words[0], "plain_trees.rs")) else []


def is_packaged_built(what, name, crate):
    """Whether cargo makes the peer over a crate whose sources a package of the system has, with a line where it does not."""
    if not glob.glob(os.path.join(PACKAGED, f"{crate}-[0-9]*")):
        print(f"skipped: {what}, for want of the sources of {crate} in {PACKAGED}")
        return False
    folder = os.path.join(BUILT, name)
    os.makedirs(folder, exist_ok=True)
    manifest = os.path.join(folder, "Cargo.toml")
    with open(manifest, "w") as file:
        file.write(MANIFEST.format(name=name, crate=crate, source=os.path.join(PEERS, f"{name}.rs")))
    return is_built(what, ["cargo", "build", "--release", "--offline", "--quiet", *SOURCES,
                           "--manifest-path", manifest, "--target-dir", CARGO])


def maps():
    """The maps of Rust, where this machine can build them, with a line for each that it cannot."""
    os.makedirs(BUILT, exist_ok=True)
    built = []
    if is_built("the maps of Rust", rustc(ORDERED_MAPS, "ordered_maps.rs")):
        built += [MUTEX, MUTEX_64, RWLOCK]
    if is_packaged_built("the maps behind locks of parking_lot", "parking_lot_maps", "parking_lot"):
        built += [PARKING_LOT_MUTEX, PARKING_LOT_RWLOCK]
    if is_packaged_built("DashMap", "dash_map", "dashmap"):
        built.append(DASH_MAP)
    return built


def hash_map(program, source, *libraries):
    """How a peer in C++ is built."""
    return ["g++", "-O2", "-std=c++17", "-o", program, source, *libraries]


def peers():
    """The peers that this machine can build, with a line for each that it cannot."""
    built = maps()
    if is_built("the hash map of TBB", hash_map(TBB_MAP.words[0], "tbb_map.cpp", "-ltbb")):
        built.append(TBB_MAP)
    if is_built("the hash map of libcuckoo", hash_map(CUCKOO_MAP.words[0], "cuckoo_map.cpp", "-pthread")):
        built.append(CUCKOO_MAP)
    if is_built("the skip list of Java", ["javac", "-d", BUILT, "SkipList.java"]):
        built.append(SKIP_LIST)
    return built
