"""Draws a script by a seed: types with every kind of field, and commands of every form on a small heap.

What is drawn goes by what the heap would have so far. Most commands speak of slots that name an object and of
fields that are there, and some of what is to be refused. What a weak handle names is often let go of.
"""

import random

from judging.plays import Play
from judging.scripts import Options, Type, command_of

SLOTS = (0, 1, 2, 3, 4, 5, 6, 255)
WEAK_SLOTS = (0, 1, 2, 63)
REGION_SLOTS = (0, 1, 2, 31)
THREADS = (1, 1, 2, 3, 8)
EXTRA_WORDS = (1, 2, 5, 13, 30, 62, 90, 126, 127, 200, 254, 300, 600)
NUMBERS = (0, 1, 2, 7, 2**32, 2**63, 2**64 - 1)
# The first two types have strong fields and pairs, and the others any.
SHAPES = (("S", "SP", "SWP", "SSWP"), ("E", "EP", "SE"), ("S", "SP", "SPW", "SE", "E", "EP", "SWP", "SSWP", "-"))

# How often each kind of command is drawn: whatever goes on, and in place of that in each phase of a collection.
ALWAYS = {
    "make": 6,
    "grow": 9,
    "attach": 5,
    "hang": 5,
    "let_go": 9,
    "set_field": 10,
    "get_field": 6,
    "pair": 5,
    "part": 4,
    "plain": 5,
    "copy": 3,
    "drop": 5,
    "weak": 2,
    "read": 5,
    "push": 3,
    "look_at_stack": 4,
    "export": 3,
    "import_slot": 5,
    "thread_line": 12,
    "stat": 1,
}
IDLE = {"start": 8, "now": 7, "step": 0.4, "finish": 0.4, "sweep": 0.7}
MARKING = {"start": 0.4, "now": 0.4, "step": 10, "finish": 11, "sweep": 0.4, "read": 10, "get_field": 8, "part": 4}
SWEEPING = {"start": 4, "now": 3, "step": 0.4, "finish": 0.4, "sweep": 9}
SWEEPING.update({"read": 8, "get_field": 8, "part": 4, "import_slot": 6, "plain": 8})


class Chance:
    """Numbers by a text: random() alone gives the same ones in each version of Python."""

    def __init__(self, text):
        self.random = random.Random(text).random

    def below(self, n):
        return int(self.random() * n)

    def is_one_in(self, n):
        return self.below(n) == 0

    def one_of(self, items):
        return items[self.below(len(items))]

    def by_weight(self, weights):
        """One of the names, each as often as its weight says."""
        left = self.random() * sum(weights.values())
        for name, weight in weights.items():
            left -= weight
            if left < 0:
                return name
        return name


class Drawing(Chance):
    """A script as far as it is drawn, and the heap that it would have."""

    def __init__(self, seed, number, markers):
        super().__init__(f"{seed} {number}")
        pages, page_words = 1 + self.below(8), 512 if self.is_one_in(10) else 256
        self.words = ["--pages", str(pages), "--page-words", str(page_words), "--markers", str(markers)]
        self.lines = ["oilpan 1"]
        types = [self.type_line(SHAPES[min(t, 2)]) for t in range(3 + self.below(4))]
        self.play = Play(Options(self.words), types)
        self.heap, self.threads = self.play.heap, "at rest"

    def type_line(self, shapes):
        letters, callbacks = self.one_of(shapes), []
        if self.is_one_in(5):
            count = 64 if self.is_one_in(20) else 1 + self.below(6)
            letters = "".join(self.one_of("SSSWEEPP") for _ in range(count))
        if self.is_one_in(2) and letters[0] == "S" or self.is_one_in(10):
            callbacks = [self.below(5) for _ in range(1 + self.below(3))]
        self.lines.append(" ".join(["type", letters, *(["pre"] if callbacks else []), *map(str, callbacks)]))
        return Type(letters, callbacks)

    def add(self, *words):
        words = [str(it) for it in words]
        self.lines.append(" ".join(words))
        self.play.do(*command_of(words))

    def is_marking(self):
        return self.heap.may is not None

    def is_sweeping(self):
        return self.heap.cursor is not None

    def kind(self):
        """The kind of command that is drawn next."""
        return self.by_weight({**ALWAYS, **(MARKING if self.is_marking() else SWEEPING if self.is_sweeping() else IDLE)})

    def full_one(self, slots, named):
        """Mostly one of the slots that name something."""
        full = [it for it in slots if named.get(it) is not None]
        return self.one_of(full) if full and not self.is_one_in(12) else self.one_of(slots)

    def slot(self):
        return self.full_one(SLOTS, self.heap.slots)

    def weak_slot(self):
        return self.full_one(WEAK_SLOTS, self.heap.weak)

    def region_slot(self):
        return self.full_one(REGION_SLOTS, self.heap.region)

    def node_in(self, p):
        n = self.heap.slots.get(p)
        return None if n is None else self.heap.nodes[n]

    def field(self, kinds, prefers_written=True):
        """A slot and a field of its object, mostly one of these kinds."""
        nodes = [(p, self.node_in(p)) for p in (self.slot() for _ in range(4))]
        fitting = [(p, f) for p, node in nodes if node for f in range(node.count) if node.kind(f) in kinds]
        written = [(p, f) for p, f in fitting if f in self.node_in(p).fields]
        if fitting and not self.is_one_in(12):
            return self.one_of(written if written and prefers_written else fitting)
        p, node = nodes[0]
        return p, self.below(node.count + 2 if node else 3)
