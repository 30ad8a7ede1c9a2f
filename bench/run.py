#!/usr/bin/env python3
"""Runs the program on loads of its own, and prints a line a figure: a name and a value.

README.md beside this file says how to read the figures. The status is 1 if one of a whole run is over its
bar.
"""

import json
import os
import re
import resource
import shutil
import subprocess
import sys
import tempfile
import time

# No compiled files beside the scripts.
sys.dont_write_bytecode = True

import face
import loads
import peer
from loads import COLLECTION, PAUSE, STACK_COLLECTION, START, SWEEP

ROOT = os.path.dirname(os.path.dirname(os.path.abspath(__file__)))
PROVE = os.path.join(ROOT, "prove")
PROGRAM = os.path.join(ROOT, "crates", "cppgc_main", "out", "cppgc_main")
KEPT = os.path.join(ROOT, "bench", "out")
TRIES = 15

# The seed of `generated` and `generator`, and the most turns that words may ask for.
SEED = 1
MOST_TURNS = 50_000

# How many rounds of `mixed` come before those that are measured.
STANDING_ROUNDS = 2

RATIO_BAR = 2.1
FILLING_BAR = 650
OWN_HOLES_BAR = 800
MIXED_BAR = 1100
HOLES_BAR = 2500
THOUSAND_BAR = 6500
THOUSAND_RATIO_BAR = 1.1
CHAIN_BAR = 50
TREE_BAR = 55
WEAK_BAR = 90
PAIR_BAR = 130
SWEPT_WORD_BAR = 12
FINALISED_BAR = 200
PREFINALISED_BAR = 500
CALLED_BACK_BAR = 500
STACK_WORD_BAR = 250
LAZY_NEW_BAR = 1000
STEP = 1000
STEPS_BAR = 1.15
MARKING_SET_BAR = 60

# With how many markers the clock's times are taken, how often each, and how often a crew is looked at; how
# many fields an object of a wide tree has, and how many lines are run while it is marked: a tree in whose time
# what a line costs is measured, and one whose own time is, beside lines that last for long enough.
MARKERS = (0, 1, 2, 3)
CLOCK_TRIES = 9
CREW_TRIES = 9
LOOK_SECONDS = 0.0001
WIDE_FIELDS = 50
WIDE_LINES = 700_000
WIDEST_FIELDS = 62
WIDEST_LINES = 510_000
LONG_LINE = "import 0 0"
# For a line of each kind, read, run and told.
LINE_BARS = {
    "drop 0": 330, "set 0 0 0": 430, "get 0 0 2": 430, "put 0 1 5": 430, "word 0 1": 440, "copy 0 2": 430,
    "weak 0 0": 430, "read 0 2": 430, "export 0 0": 1_000, "import 0 0": 1_035,
}
# For an order of a thread with all its lines.
ORDER = "at 1 copy 0 1"
ORDER_BAR = 2_000
SMALL_COLLECTION_BAR = 12_700
# A run wants less than 2 GiB; what it wants is known to 64 KiB.
ROOM = 1 << 31
ROOM_STEP = 1 << 16
PEAK_BAR = 3.7
LINE_BYTES_BAR = 35


# Those that are run with n objects and with 2n, and of these those that are run with 0 too: what stands
# before they are measured.
LOADS = ("filling", "mixed", "live_list", "holes", "tree")
STANDING = ("mixed",)


def sizes(name):
    return (0, 1, 2) if name in STANDING else (1, 2)


def ratio(costs):
    """What a load costs with 2n over what it costs with n, each without what it costs with 0, if that is given."""
    *standing, small, large = costs
    return (large - sum(standing)) / (small - sum(standing))


class Figures:
    """Prints figures, compares those by instructions with the run before at the same scale, and keeps those
    that are over their bars."""

    def __init__(self, scale):
        self.over, self.told, self.before, self.judges = [], {}, {}, scale >= 1
        self.file = os.path.join(KEPT, f"figures-{scale}.json")
        if os.path.exists(self.file):
            with open(self.file, encoding="utf-8") as file:
                self.before = json.load(file)

    def tell_time(self, name, value):
        print(name, f"{value:.3f}", flush=True)

    def tell(self, name, value, bar=None):
        shown = f"{value:.3f}" if value < 100 else f"{value:.0f}"
        before = self.before.get(name)
        change = [] if before is None else [f"{100 * (value / before - 1):+.2f}%"]
        print(name, shown, *change, flush=True)
        self.told[name] = value
        if self.judges and bar is not None and value > bar:
            self.over.append(f"bench: {name} is {shown}, and its bar is {bar}")

    def end(self):
        if self.told:
            os.makedirs(KEPT, exist_ok=True)
            with open(self.file, "w", encoding="utf-8") as file:
                json.dump(self.told, file, indent=1)
        for line in self.over:
            print(line, file=sys.stderr)
        sys.exit(1 if self.over else 0)


def threads_of(number):
    """How many threads the process of this number has."""
    try:
        return len(os.listdir(f"/proc/{number}/task"))
    except FileNotFoundError:
        return 0


class Script:
    """A load's script in a file of its own."""

    def __init__(self, folder, load):
        self.load = load
        self.command = [PROGRAM, *load.options()]
        descriptor, self.path = tempfile.mkstemp(dir=folder)
        with os.fdopen(descriptor, "wb") as file:
            file.write(load.script())

    def check(self):
        """Ends the bench if the report isn't what the load says."""
        with open(self.path, "rb") as script:
            report = subprocess.run(self.command, stdin=script, stdout=subprocess.PIPE, check=True)
        lines = report.stdout.decode().splitlines()
        for text, wanted in self.load.tells.items():
            found = sum(line.startswith(text) for line in lines)
            if found != wanted:
                sys.exit(f"bench: {found} lines of a report begin with '{text}', and not {wanted}")

    def seconds(self):
        """The processor's time for one run."""
        with open(self.path, "rb") as script:
            process = subprocess.Popen(self.command, stdin=script, stdout=subprocess.DEVNULL)
        _, status, usage = os.wait4(process.pid, 0)
        process.returncode = status
        if status != 0:
            sys.exit("bench: the program failed")
        return usage.ru_utime + usage.ru_stime

    def clock(self, markers):
        """The clock's time for one run with so many markers."""
        with open(self.path, "rb") as script:
            start = time.monotonic()
            subprocess.run([*self.command, "--markers", str(markers)], stdin=script, stdout=subprocess.DEVNULL, check=True)
            return time.monotonic() - start

    def crew(self, markers):
        """For how long there were more threads than one in a run with so many markers, and how many objects these
        traced by what its one pause tells."""
        with open(self.path, "rb") as script, tempfile.TemporaryFile() as report:
            process = subprocess.Popen([*self.command, "--markers", str(markers)], stdin=script, stdout=report)
            start = end = time.monotonic()
            count = 1
            while process.poll() is None:
                count, before = threads_of(process.pid), count
                if (before > 1) != (count > 1):
                    start, end = (time.monotonic(), end) if count > 1 else (start, time.monotonic())
                time.sleep(LOOK_SECONDS)
            report.seek(0)
            pauses = [line.split() for line in report.read().decode().splitlines() if line.startswith("pause ")]
        return end - start, int(pauses[0][6])

    def instructions(self):
        """How many instructions one run takes, by callgrind."""
        valgrind = ["valgrind", "--tool=callgrind", "--callgrind-out-file=/dev/null"]
        with open(self.path, "rb") as script:
            told = subprocess.run(
                [*valgrind, *self.command],
                stdin=script, stdout=subprocess.DEVNULL, stderr=subprocess.PIPE, check=True,
            ).stderr.decode(errors="replace")
        return int(re.search(r"Collected : (\d+)", told).group(1))

    def runs_within(self, room):
        """Whether a run comes to its end with so many bytes of addresses."""
        limit = (room, room)
        with open(self.path, "rb") as script:
            ran = subprocess.run(
                self.command, stdin=script, stdout=subprocess.DEVNULL, stderr=subprocess.DEVNULL, check=False,
                preexec_fn=lambda: resource.setrlimit(resource.RLIMIT_AS, limit),
            )
        return ran.returncode == 0

    def room(self):
        """With how many bytes of addresses, at least, a run comes to its end, to 64 KB."""
        wanting, enough = 0, ROOM
        while enough - wanting > ROOM_STEP:
            middle = (wanting + enough) // 2
            if self.runs_within(middle):
                enough = middle
            else:
                wanting = middle
        return enough


class Bench:
    """The loads at one scale: `count` objects, and twice as many."""

    def __init__(self, folder, scale):
        self.folder = folder
        self.figures = Figures(scale)
        self.every = max(1, int(5_000 * scale))
        self.count = 10 * self.every
        self.page_words = loads.scaled_page_words(scale)
        least = min(1, scale)
        self.fields, self.widest = (max(2, round(fields * least ** (1 / 3))) for fields in (WIDE_FIELDS, WIDEST_FIELDS))
        self.lines_beside, self.long_lines = (round(lines * least) for lines in (WIDE_LINES, WIDEST_LINES))

    def times(self):
        """The times of each load of one size and of twice that, the least of several tries each."""
        for name in LOADS:
            scripts = [Script(self.folder, getattr(self, name)(times)) for times in sizes(name)]
            for script in scripts:
                script.check()
            tries = [[script.seconds() for script in scripts] for _ in range(TRIES)]
            least = [min(seconds) for seconds in zip(*tries)]
            self.figures.tell_time(f"{name}_seconds", least[-1])
            self.figures.tell_time(f"{name}_ratio", ratio(least))

    def beside(self):
        """What markers do beside the owner on a wide tree, while it runs lines: how long they take to mark the
        widest, and what a line and the pause cost by the clock."""
        widest = loads.wide_tree(self.widest)
        marked = Script(self.folder, widest.then(START, *[LONG_LINE] * self.long_lines, PAUSE))
        tree = loads.wide_tree(self.fields)
        wanted = [START, *["get 0 0 1"] * self.lines_beside]
        stages = [tree, tree.then(START), tree.then(*wanted), tree.then(*wanted, PAUSE)]
        built, begun, read, paused = (Script(self.folder, load) for load in stages)
        tell = self.figures.tell_time
        whole = []
        for markers in MARKERS:
            if markers > 0:
                self.marking_time(paused, markers, tree.tells["node"])
                seconds = min(self.marking_time(marked, markers, widest.tells["node"]) for _ in range(CREW_TRIES))
                whole.append(seconds)
                tell(f"marking_by_{markers}_markers_clock_seconds", seconds)
            scripts = (built, begun, read, paused)
            tries = [[script.clock(markers) for script in scripts] for _ in range(CLOCK_TRIES)]
            made, start, lines, pause = (min(seconds) for seconds in zip(*tries))
            tell(f"start_of_{markers}_markers_clock_seconds", start - made)
            tell(f"line_beside_{markers}_markers_clock_microseconds", 1_000_000 * (lines - start) / self.lines_beside)
            tell(f"pause_after_{markers}_markers_clock_seconds", pause - lines)
        for markers, seconds in zip(MARKERS[1:], whole):
            tell(f"marking_by_1_over_{markers}_markers_ratio", whole[0] / seconds)

    def marking_time(self, script, markers, count):
        """The time in which so many markers mark the objects of a tree, so many, beside the script's lines. It ends
        the bench if they have not marked all of them before the pause."""
        seconds, traced = script.crew(markers)
        if traced != count:
            sys.exit("bench: markers have not traced all before the pause")
        return seconds

    def instructions(self, load):
        return Script(self.folder, load).instructions()

    def filling(self, times):
        return loads.filling(times * self.count, 2 * self.count)

    def mixed(self, times):
        """On a heap with so many objects as each round leaves."""
        return loads.mixed(STANDING_ROUNDS + 10 * times, self.every, 9 * self.every)

    def live_list(self, times, collections=20):
        return loads.live_list(times * self.count, 2 * self.count, collections)

    def holes(self, times, share=40):
        """`share` times as many objects of 7 words as there is room for are wanted."""
        pages = 32 * times
        wanted = share * loads.holes_room(pages, self.page_words)
        return loads.holes(pages, self.page_words, wanted)

    def tree(self, times):
        return loads.tree(times * self.count).then(COLLECTION)

    def growth(self):
        """The instructions of each load with twice as much over those with once as much."""
        for name in LOADS:
            costs = [self.instructions(getattr(self, name)(times)) for times in sizes(name)]
            self.figures.tell(f"{name}_instructions_ratio", ratio(costs), RATIO_BAR)

    def news(self):
        """What a line `new` costs: while the heap fills, in the mixed load, and where there are holes."""
        tell = self.figures.tell
        more = self.instructions(self.filling(2)) - self.instructions(self.filling(1))
        tell("filling_instructions_per_new", more / self.count, FILLING_BAR)
        self.own_holes()
        mixed, count = loads.mixed(10, self.every), self.every
        more = self.instructions(mixed.then(*loads.mixed_news(count))) - self.instructions(mixed)
        tell("mixed_instructions_per_new", more / count, MIXED_BAR)
        none, placed, full = (self.instructions(self.holes(1, share)) for share in (0, 1, 2))
        room = loads.holes_room(32, self.page_words)
        tell("holes_instructions_per_new_placed", (placed - none) / room, HOLES_BAR)
        tell("holes_instructions_per_new_full", (full - placed) / room, HOLES_BAR)

    def own_holes(self):
        """What a line `new` costs where each hole is as large as the object."""
        load = loads.own_holes_filled(self.count)
        Script(self.folder, load).check()
        more = self.instructions(load) - self.instructions(loads.own_holes(self.count))
        self.figures.tell("own_holes_instructions_per_new", more / self.count, OWN_HOLES_BAR)

    def thousands(self):
        """What an object of 1,000 words costs on a heap of 1,024 pages that is almost empty, or almost full."""
        costs = []
        for pages in (90, 970):
            Script(self.folder, loads.thousands(pages)).check()
            more = self.instructions(loads.thousands(pages + 10)) - self.instructions(loads.thousands(pages))
            costs.append(more / 160)
            self.figures.tell(f"thousands_instructions_per_new_at_{pages}_pages", costs[-1], THOUSAND_BAR)
        self.figures.tell("thousands_instructions_ratio", costs[1] / costs[0], THOUSAND_RATIO_BAR)

    def lines(self):
        """What a line costs that is repeated: reading it, running it and telling its answer."""
        for line, bar in LINE_BARS.items():
            some, twice = (self.instructions(loads.with_words(line, n * self.count)) for n in (1, 2))
            name = f"line_{line.split()[0]}_instructions"
            self.figures.tell(name, (twice - some) / self.count, bar)
        orders = (loads.with_words(ORDER, n * self.count).then("threads go", "threads join") for n in (1, 2))
        some, twice = (self.instructions(load) for load in orders)
        self.figures.tell("order_instructions", (twice - some) / self.count, ORDER_BAR)
        count = self.count // 100
        some, twice = (self.instructions(loads.with_words(f"{COLLECTION}\n{SWEEP}", n * count)) for n in (1, 2))
        self.figures.tell("small_collection_instructions", (twice - some) / count, SMALL_COLLECTION_BAR)

    def peak(self):
        """What a run wants of memory, over the words of its heap, and for each of its lines."""
        lines = 20 * self.count - 10
        large, small = (Script(self.folder, loads.filling(count, lines)) for count in (lines, lines // 2))
        most, less = large.room(), small.room()
        self.figures.tell("peak_over_words", most / (8 * large.load.heap_words()), PEAK_BAR)
        self.figures.tell("peak_bytes_per_line", (most - less) / (lines - lines // 2), LINE_BYTES_BAR)

    def collections(self):
        """What a collection costs for each live object."""
        swept = self.live_list(1, 1).then(SWEEP)
        more = self.instructions(swept.then(COLLECTION)) - self.instructions(swept)
        self.figures.tell("live_list_instructions_per_live_object", more / self.count, CHAIN_BAR)
        more = self.instructions(self.tree(1)) - self.instructions(loads.tree(self.count))
        self.figures.tell("tree_instructions_per_live_object", more / self.count, TREE_BAR)

    def steps(self):
        """What a collection in steps costs over one at once."""
        swept = self.live_list(1, 1).then(SWEEP)
        in_steps = loads.listed_in_steps(self.count, 2 * self.count, STEP)
        Script(self.folder, in_steps).check()
        start, once = self.instructions(swept), self.instructions(swept.then(COLLECTION))
        steps = self.instructions(in_steps)
        self.figures.tell("steps_instructions_per_live_object", (steps - start) / self.count)
        self.figures.tell("steps_instructions_ratio", (steps - start) / (once - start), STEPS_BAR)

    def sets_while_marking(self):
        """What a line `set` costs more while marking goes on: with an object that is marked, and with new ones,
        each of which it marks and lists."""
        def marked(count, *before):
            return loads.with_words("set 0 0 0", count, *before)

        def new(count, *before):
            return loads.written(count, 2 * self.count, *before)

        for name, load in (("marked", marked), ("new", new)):
            costs = []
            for before in ([], [START]):
                scripts = [Script(self.folder, load(n * self.count, *before)) for n in (1, 2)]
                for script in scripts:
                    script.check()
                some, twice = (script.instructions() for script in scripts)
                costs.append((twice - some) / self.count)
            at_rest, marking = costs
            self.figures.tell(f"set_{name}_while_marking_more_instructions", marking - at_rest, MARKING_SET_BAR)

    def generated(self):
        """What a line costs of a document that grows, with collections in steps; twice the turns for the ratio."""
        half = max(4, self.count // 2)
        scripts = [Script(self.folder, loads.generated(SEED, turns)) for turns in (half, 2 * half)]
        for script in scripts:
            script.check()
        some, twice = (script.instructions() for script in scripts)
        self.figures.tell("generated_instructions_per_line", twice / len(scripts[1].load.lines))
        self.figures.tell("generated_instructions_ratio", twice / some, RATIO_BAR)

    def drawn(self):
        """What a line costs of a mix that nobody has seen before: its seed is the time."""
        seed = int(time.time())
        scripts = [Script(self.folder, loads.drawn(seed, n * self.count)) for n in (1, 2)]
        for script in scripts:
            script.check()
        some, twice = (script.instructions() for script in scripts)
        print("drawn_seed", seed, flush=True)
        self.figures.tell("drawn_instructions_per_line", twice / len(scripts[1].load.lines))
        self.figures.tell("drawn_instructions_ratio", twice / some, RATIO_BAR)

    def generator(self):
        """What a turn costs of that script where the program makes it, and prints one line; twice the turns for
        the ratio."""
        half = min(self.count, MOST_TURNS) // 2
        scripts = [Script(self.folder, loads.from_seed(SEED, turns)) for turns in (half, 2 * half)]
        for script in scripts:
            script.check()
        some, twice = (script.instructions() for script in scripts)
        self.figures.tell("generator_instructions_per_turn", (twice - some) / half)
        self.figures.tell("generator_instructions_ratio", twice / some, RATIO_BAR)

    def weak_fields(self):
        """What a collection costs for each live object, where each has two weak fields to be looked at."""
        count = 2 * self.count
        Script(self.folder, loads.weak_read(count)).check()
        load = loads.weak(count)
        more = self.instructions(load.then(COLLECTION)) - self.instructions(load)
        self.figures.tell("weak_instructions_per_live_object", more / count, WEAK_BAR)

    def pairs(self):
        """What a collection costs of pairs whose keys come to live one by one, from the far end, and of a
        side table half of whose keys die."""
        costs = []
        for count in (self.count, 2 * self.count):
            Script(self.folder, loads.pair_chain_read(count)).check()
            load = loads.pair_chain(count)
            costs.append(self.instructions(load.then(COLLECTION)) - self.instructions(load))
        self.figures.tell("pair_chain_instructions_per_pair", costs[1] / (2 * self.count))
        self.figures.tell("pair_chain_instructions_ratio", costs[1] / costs[0], RATIO_BAR)
        Script(self.folder, loads.side_table_read(self.count)).check()
        load = loads.side_table(self.count)
        more = self.instructions(load.then(COLLECTION)) - self.instructions(load)
        visited = loads.side_table_kept(self.count) + self.count
        name = "side_table_instructions_per_live_object_and_pair"
        self.figures.tell(name, more / visited, PAIR_BAR)

    def prefinalizers(self):
        """What a prefinalizer costs, with its line, in a collection in which all objects but one die."""
        costs = []
        for count in (self.count, 2 * self.count):
            Script(self.folder, loads.prefinalizers_read(count)).check()
            load = loads.prefinalizers(count)
            costs.append(self.instructions(load.then(COLLECTION)) - self.instructions(load))
        tell = self.figures.tell
        tell("prefinalizers_instructions_per_line", costs[0] / (2 * self.count), PREFINALISED_BAR)
        tell("prefinalizers_instructions_ratio", costs[1] / costs[0], RATIO_BAR)

    def weak_callbacks(self):
        """What a weak callback costs, with its line, over a collection of the same objects without them."""
        plain, called = ["SP", "SWS", "-"], ["SP", "SWS weak 2", "-"]
        costs = []
        for count in (self.count, 2 * self.count):
            Script(self.folder, loads.weak_callbacks_read(count, called)).check()
            more = [self.instructions(load.then(COLLECTION)) - self.instructions(load)
                    for load in (loads.weak_callbacks(count, types) for types in (plain, called))]
            costs.append(more[1] - more[0])
        tell = self.figures.tell
        tell("weak_callbacks_instructions_per_call", costs[0] / self.count, CALLED_BACK_BAR)
        tell("weak_callbacks_instructions_ratio", costs[1] / costs[0], RATIO_BAR)

    def stack(self):
        """What a collection costs for each word of a stack, into pages full of small objects."""
        pages = max(1, min(1024, self.count // 40))
        Script(self.folder, loads.stack_read(pages)).check()
        load, words = loads.small_pages(pages), loads.inner_words(pages)
        costs = [
            self.instructions(load.then(*stack, STACK_COLLECTION)) - self.instructions(load.then(*stack))
            for stack in ([], words)
        ]
        self.figures.tell("stack_instructions_per_word", (costs[1] - costs[0]) / pages, STACK_WORD_BAR)

    def sweeps(self):
        """What a sweep costs, with few objects to finalise and with many. Answers the cost of a finalised one."""
        few, many = loads.live_objects(self.count), loads.dead_objects(self.count)
        more = self.instructions(few.then(SWEEP)) - self.instructions(few)
        self.figures.tell("sweep_instructions_per_heap_word", more / few.heap_words(), SWEPT_WORD_BAR)
        more = self.instructions(many.then(SWEEP)) - self.instructions(many)
        self.figures.tell("sweep_instructions_per_finalised_object", more / self.count, FINALISED_BAR)
        return more / self.count

    def lazy_sweeps(self, finalised_cost):
        """What a new object costs in an open sweep, apart from the objects that are finalised on the way."""
        pages = max(1, min(1024, self.count // 40))
        load = loads.mostly_dead(pages, 512)
        start, costs = self.instructions(load), []
        for count in (self.count, 2 * self.count):
            made, finalised = loads.news_in_sweep(load, count)
            Script(self.folder, made).check()
            costs.append((self.instructions(made) - start - finalised * finalised_cost, count))
        (some, _), (twice, count) = costs
        self.figures.tell("lazy_sweep_instructions_per_new", twice / count, LAZY_NEW_BAR)
        self.figures.tell("lazy_sweep_instructions_ratio", twice / some, RATIO_BAR)


def build():
    """Proves and builds the program, if it isn't built from the sources as they are."""
    if subprocess.run([PROVE], check=False).returncode != 0:
        sys.exit("bench: the program could not be built")


def main():
    scale = float(sys.argv[1]) if len(sys.argv) > 1 else 1.0
    build()
    with tempfile.TemporaryDirectory() as folder:
        bench = Bench(folder, scale)
        bench.times()
        bench.beside()
        bench.peak()
        if shutil.which("valgrind"):
            bench.growth()
            bench.lines()
            bench.news()
            bench.thousands()
            bench.collections()
            bench.steps()
            bench.sets_while_marking()
            bench.generated()
            bench.drawn()
            bench.generator()
            bench.weak_fields()
            bench.pairs()
            bench.prefinalizers()
            bench.weak_callbacks()
            bench.stack()
            bench.lazy_sweeps(bench.sweeps())
            by_face = face.tell(bench.figures, bench.count)
            peer.tell(bench.figures, folder, bench.instructions, by_face, bench.count)
    bench.figures.end()


if __name__ == "__main__":
    main()
