"""Draws a script whose threads have much to do beside the owner: in each section several threads with orders of
every kind, and between their start and their join the owner's exports, imports, and mostly a collection."""

from judging.drawing import ALWAYS, REGION_SLOTS, SLOTS, THREADS
from judging.drawn_commands import DrawnScript

ORDERS = {"upgrade": 6, "weaken": 5, "copy": 3, "clear": 1, "totals": 3}

# What the owner does while threads run, besides collections.
BESIDE = {**ALWAYS, "export": 14, "import_slot": 14, "let_go": 8, "stat": 3, "thread_line": 0, "look_at_stack": 1, "push": 1}


class DrawnSections(DrawnScript):
    def several(self, least, more, weights):
        """So many commands by their weights."""
        for _ in range(least + self.below(more)):
            getattr(self, self.by_weight(weights))()

    def share(self, slots):
        """Fills these slots of the region, mostly with what nothing else names then."""
        for x in slots:
            p = self.one_of(SLOTS)
            self.make(p)
            self.add("export", p, x)
            if not self.is_one_in(4):
                self.add("drop", p)

    def order_of(self, j, name):
        x, y = self.region_slot(), self.one_of(REGION_SLOTS)
        self.add("at", j, name, *{"totals": [], "weaken": [x], "clear": [x]}.get(name, [x, y]))

    def orders(self):
        """Two to eight threads, each with a few orders; the first two upgrade a weak slot and are told totals."""
        threads = sorted(range(1, 9), key=lambda _: self.random())[: 2 + self.below(7 if self.is_one_in(4) else 3)]
        for j in threads:
            for _ in range(2 + self.below(6)):
                self.order_of(j, self.by_weight(ORDERS))
        x = self.one_of(REGION_SLOTS)
        self.add("at", threads[0], "weaken", x)
        self.add("at", threads[1], "upgrade", x, self.one_of(REGION_SLOTS))
        for j in threads[:2]:
            self.order_of(j, "totals")

    def beside(self):
        """What the owner does in a section. A collection that is open is mostly finished there, and in place of one
        that isn't begun a whole one comes, or one in steps."""
        self.several(1, 4, BESIDE)
        if not self.is_marking() and self.is_one_in(3):
            self.start()
            self.several(0, 3, BESIDE)
        if self.is_marking():
            self.several(0, 3, {**BESIDE, "step": 30})
            if not self.is_one_in(4):
                self.finish()
        elif not self.is_one_in(5):
            self.now()
        self.several(1, 4, {**BESIDE, "sweep": 10})
        self.add("export", self.slot(), self.one_of(REGION_SLOTS))
        self.import_slot()

    def weak_ones(self):
        """Slots that are weak before the first of the sections."""
        self.share(REGION_SLOTS)
        for x in REGION_SLOTS[: 1 + self.below(3)]:
            self.add("at", self.one_of(THREADS), "weaken", x)
        self.add("threads", "go")
        self.add("threads", "join")

    def section(self):
        self.share(it for it in REGION_SLOTS if self.is_one_in(2))
        if not self.is_marking() and not self.is_one_in(3):
            self.start()
        self.orders()
        self.add("threads", "go")
        self.beside()
        self.add("threads", "join")
        self.several(0, 4, {**BESIDE, "now": 4, "finish": 4, "sweep": 10})


def drawn_sections(seed, number, markers):
    """The words and the text of a script with one to three such sections."""
    drawing = DrawnSections(seed, number, markers)
    for _ in range(drawing.below(6)):
        drawing.grow()
    drawing.weak_ones()
    for _ in range(1 + drawing.below(3)):
        drawing.section()
    drawing.end()
    return drawing.words, "\n".join(drawing.lines) + "\n"
