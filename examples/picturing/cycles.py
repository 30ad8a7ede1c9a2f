"""A lawful run, command by command, as a picture shows it: its phases, and the heap at each pause and at the end."""

from judging.heap import closed
from judging.runs import Run

PAUSES = ("gc now", "gc finish")

# Members are shown where no more objects are.
FEW = 60


def lines_of_commands(text):
    """The numbers of the lines that are commands."""
    words = [line.split()[:1] for line in text.split("\n")]
    return [number for number, first in enumerate(words, 1) if number > 1 and first not in ([], ["type"])]


def handles_of(heap):
    """For each node the marks of what names it from outside the heap, those that keep nothing in parentheses."""
    marks = {}
    for p, n in sorted(heap.slots.items()):
        marks.setdefault(n, []).append(f"s{p}")
    for x, (n, strong) in sorted(heap.region.items()):
        marks.setdefault(n, []).append(f"r{x}" if strong else f"(r{x})")
    words = [(i, it if n is None else heap.nodes[n].place + it) for i, (n, it) in enumerate(reversed(heap.stack))]
    for node in heap.nodes if words else ():
        hits = [f"k{i}" for i, w in words if node.life != "gone" and node.place <= w < node.place + node.size]
        marks.setdefault(node.number, []).extend(hits)
    for w, n in sorted(heap.weak.items()):
        marks.setdefault(n, []).append(f"(w{w})")
    return {n: found for n, found in marks.items() if n is not None and found}


def weak_handles(heap):
    """The weak slots, the weak fields and the pairs that aren't null, each with its holder where it has one."""
    found = [(None, f"w{w}") for w, n in sorted(heap.weak.items()) if n is not None]
    found += [(None, f"r{x}") for x, (_, strong) in sorted(heap.region.items()) if not strong]
    for node in heap.nodes:
        if node.life == "live":
            fields = sorted(node.held("W") + node.held("E"))
            found += [(node, f"field {f} of node {node.number}") for f, _ in fields]
    return found


class Seen:
    """The heap at a pause, once it has condemned what it didn't keep, or at the end of the run."""

    def __init__(self, run, undecided):
        heap = run.heap
        self.at, self.undecided = run.at, undecided
        self.nodes = sorted((it for it in heap.nodes if it.life != "gone"), key=lambda it: it.place)
        self.dead = {node.number for node in self.nodes if node.life == "dead"}
        reached = closed(heap.nodes, (heap.roots() | heap.hits()) - self.dead)
        self.unreached = {node.number for node in self.nodes} - self.dead - reached
        self.is_few = len(self.nodes) <= FEW
        self.fields = {node.number: dict(node.fields) for node in self.nodes} if self.is_few else {}
        self.handles = handles_of(heap)
        self.pages, self.page_words = heap.pages, heap.page_words
        self.cycle = None


class Cycle:
    """What a collection did: the numbers of its commands, and its counts."""

    def __init__(self, run, number):
        self.number, self.start, self.end = number, run.started or run.at, run.at
        _, _, kept, _, dead, _, crew, _, traced, _, walked = run.outcome.line.split(" ")
        self.kept, self.dead, self.crew, self.traced = int(kept), int(dead), int(crew), int(traced)
        self.walked = walked == "1"
        self.steps, self.new, self.cleared = run.steps, run.new, []
        self.in_steps = self.kept - self.crew - self.traced


class Watched(Run):
    """A run that notes what a picture shows. Commands are counted from 1."""

    def __init__(self, *given):
        super().__init__(*given)
        self.numbers = {type: t for t, type in enumerate(self.types)}
        # In which command each node was made and finalised, and which prefinalizers ran for it.
        self.made, self.gone, self.prefinalised = {}, {}, {}
        self.phases, self.seen = [], []
        self.started, self.steps, self.new, self.undecided = 0, 0, 0, set()

    def chosen(self, sets):
        kept = super().chosen(sets)
        self.undecided = set.union(*sets) - set.intersection(*sets)
        return kept

    def phase(self, was_sweeping):
        if self.outcome.line.startswith("pause "):
            return "pause"
        if self.heap.may is not None:
            return "marking"
        return "sweeping" if was_sweeping else "idle"

    def step(self):
        name = self.commands[self.at][0]
        was_sweeping = self.heap.cursor is not None
        handles = weak_handles(self.heap) if name in PAUSES else []
        super().step()
        self.phases.append(self.phase(was_sweeping))
        self.gone.update((n, self.at) for n in self.heap.swept)
        line = self.outcome.line
        if name == "new" and line.startswith("node "):
            self.made[int(line.split(" ")[1])], self.new = self.at, self.new + 1
        self.started = self.at if line == "started" else self.started
        self.steps += line.startswith("step ")
        if line.startswith("pause "):
            self.note_pause(handles)

    def note_pause(self, handles):
        for line in self.outcome.prefinalised:
            _, n, callback = line.split(" ")
            self.prefinalised.setdefault(int(n), []).append(callback)
        seen = Seen(self, self.undecided)
        seen.cycle = Cycle(self, len(self.seen) + 1)
        left = set(weak_handles(self.heap))
        kept = [it for it in handles if it[0] is None or it[0].life == "live"]
        seen.cycle.cleared = [said for holder, said in kept if (holder, said) not in left]
        self.seen.append(seen)
        self.started = self.steps = self.new = 0

    def judge(self, end):
        super().judge(end)
        self.seen.append(Seen(self, self.undecided - self.gone.keys()))

    def type_of(self, node):
        """The number of its type."""
        return self.numbers[node.type]

    def fate(self, seen, n):
        """What is told of a node that was seen there."""
        if n in seen.undecided:
            return "undecided"
        if n not in seen.dead:
            return "unreached" if n in seen.unreached else "live"
        return "finalised" if n in self.gone else "dead"
