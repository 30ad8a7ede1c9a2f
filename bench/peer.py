"""V8's own cppgc, which node brings along, on the same loads: what callgrind counts of it, and ours over that.

README.md beside this file says how it is built, and what the two count that the other one doesn't.
"""

import os
import re
import shutil
import subprocess
import sys

import loads
from loads import COLLECTION, SWEEP

SOURCES = os.path.join(os.path.dirname(os.path.abspath(__file__)), "cppgc")
COMPILER = ["g++", "-O2", "-std=c++17", "-fno-rtti", "-fPIC", "-shared", "-fvisibility=hidden"]
CALLGRIND = ["valgrind", "--tool=callgrind", "--toggle-collect=measured", "--zero-before=measured", "--dump-after=measured"]

# What a collection of cppgc does after marking and the clearing of weak fields.
SWEEPING = "cppgc::internal::Sweeper::Start(*"

# Collections, with what is found after one of so many objects.
COLLECTIONS = {
    "live_list": lambda count: count,
    "tree": lambda count: count,
    "weak": lambda count: count - count // 5 - 1,
}
LOOPS = ("get_and_release", "get", "release", "set", "word", "put_word", "make_and_release", "make")

# Of marking, ours over cppgc's.
MARKING_BARS = {"live_list": 0.6, "weak": 0.6}

# Of scripts: how many lines `new`, and how many rounds of `mixed`, with so many new objects each.
NEWS = 20_000
ROUNDS = 4
EVERY = 5_000


def headers():
    """The folder of node's headers, where those of cppgc are among them and a compiler is there."""
    node = shutil.which("node")
    if node is None or shutil.which("g++") is None:
        return None
    top = os.path.dirname(os.path.dirname(os.path.realpath(node)))
    found = os.path.join(top, "include", "node")
    return found if os.path.exists(os.path.join(found, "cppgc", "heap.h")) else None


class Peer:
    """The addons, built in a folder."""

    def __init__(self, folder, includes):
        self.folder = folder
        for name in ("peer", "script"):
            built, source = self.addon(name), os.path.join(SOURCES, f"{name}.cc")
            subprocess.run([*COMPILER, "-I", includes, source, "-o", built], check=True)

    def addon(self, name):
        return os.path.join(self.folder, f"{name}.node")

    def counted(self, name, text, *options):
        """What callgrind counts of each measured part of an addon that reads this text, and what it prints."""
        file = os.path.join(self.folder, "counted")
        command = [*CALLGRIND, f"--callgrind-out-file={file}", *options, "node", self.addon(name)]
        ran = subprocess.run(command, input=text, stdout=subprocess.PIPE, stderr=subprocess.PIPE, check=True)
        counts = []
        while os.path.exists(part := f"{file}.{len(counts) + 1}"):
            with open(part, encoding="utf-8") as dump:
                counts.append(int(re.search(r"^totals: (\d+)", dump.read(), re.MULTILINE).group(1)))
            os.remove(part)
        return counts, ran.stdout.decode().splitlines()

    def costs(self, names, count, *options):
        """What each load costs more with twice as many objects, for each of them."""
        loads = [(name, times * count) for name in names for times in (1, 2)]
        text = "".join(f"{name} {number}\n" for name, number in loads)
        counts, told = self.counted("peer", text.encode(), *options)
        for (name, number), line in zip(loads, told):
            wanted = COLLECTIONS[name](number) if name in COLLECTIONS else number
            if line != f"{name} {number} {wanted}":
                sys.exit(f"bench: cppgc's {line} is not {wanted}")
        if len(counts) != len(loads):
            sys.exit("bench: callgrind has not counted all loads of cppgc")
        return {name: (twice - some) / count for name, some, twice in zip(names, counts[::2], counts[1::2])}

    def script(self, load):
        """Instructions of a script, from its text to that of its report."""
        counts, _ = self.counted("script", load.script())
        return counts[0]


def collected(name, count):
    """The load of so many objects, before the collection that is measured."""
    if name == "live_list":
        return loads.live_list(count, 2 * count, 1).then(SWEEP)
    return loads.tree(count) if name == "tree" else loads.weak(count)


def tell_collections(figures, peer, instructions, count):
    """Instructions of a collection for each live object, without its sweep and with it."""
    marking = peer.costs(COLLECTIONS, count, f"--toggle-collect={SWEEPING}")
    whole = peer.costs(COLLECTIONS, count)
    for name in COLLECTIONS:
        load = collected(name, count)
        start, *ends = (instructions(load.then(*lines)) for lines in ([], [COLLECTION], [COLLECTION, SWEEP]))
        for part, end, theirs in (("marking", ends[0], marking[name]), ("marking_and_sweep", ends[1], whole[name])):
            figures.tell(f"cppgc_{name}_{part}_instructions_per_live_object", theirs)
            bar = MARKING_BARS.get(name) if part == "marking" else None
            figures.tell(f"{name}_{part}_over_cppgc_ratio", (end - start) / count / theirs, bar)


def tell_calls(figures, peer, by_face, count):
    """Instructions of a call, with the loop around it; `by_face` are ours, by the names of the loops."""
    for name, theirs in peer.costs(LOOPS, count).items():
        figures.tell(f"cppgc_{name}_instructions", theirs)
        if name in by_face:
            figures.tell(f"face_{name}_over_cppgc_ratio", by_face[name] / theirs)


def tell_scripts(figures, peer, instructions):
    """Instructions of a line of a script: of one more `new`, and of one more of mixed lines."""
    pairs = {
        "new": [loads.filling(times * NEWS, 2 * NEWS) for times in (1, 2)],
        "mixed": [loads.mixed(times * ROUNDS, EVERY) for times in (1, 2)],
    }
    for name, (small, large) in pairs.items():
        more = len(large.lines) - len(small.lines)
        theirs = (peer.script(large) - peer.script(small)) / more
        ours = (instructions(large) - instructions(small)) / more
        figures.tell(f"cppgc_script_{name}_instructions_per_line", theirs)
        figures.tell(f"script_{name}_over_cppgc_ratio", ours / theirs)
        figures.tell(f"script_{name}_whole_over_cppgc_ratio", instructions(large) / peer.script(large))


def tell(figures, folder, instructions, by_face, count):
    """Tells the figures, where node's headers are here. `instructions` counts those of the program on a load."""
    includes = headers()
    if includes is None:
        print("cppgc is left out: there is no node with its headers of cppgc, or no g++", flush=True)
        return
    peer = Peer(folder, includes)
    tell_collections(figures, peer, instructions, count)
    tell_calls(figures, peer, by_face, count)
    tell_scripts(figures, peer, instructions)
