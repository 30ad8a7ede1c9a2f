"""The commands of a drawn script: each kind of them adds a line or a few."""

from judging.drawing import EXTRA_WORDS, NUMBERS, REGION_SLOTS, SLOTS, THREADS, WEAK_SLOTS, Drawing
from judging.scripts import generated


class DrawnScript(Drawing):
    def make(self, p=None, t=None):
        extra = [self.one_of(EXTRA_WORDS)] if self.is_one_in(4) else []
        t = self.below(len(self.play.types)) if t is None else t
        self.add("new", self.one_of(SLOTS) if p is None else p, t, *extra)

    def grow(self):
        """An object in front of a slot's, which it names where it has a strong field."""
        p, q = self.slot(), self.one_of(SLOTS)
        self.make(q)
        node = self.node_in(q)
        f = node.type.kinds.find("S") if node else -1
        if f >= 0:
            self.add("set", q, f, p)
            self.add("copy", q, p)

    def attach(self):
        """A pair whose value only the pair leads to, and at times its key too."""
        p, f = self.field("E", prefers_written=False)
        k, q = self.slot(), self.one_of(SLOTS)
        self.make(q)
        self.add("pair", p, f, k, q)
        self.add("drop", q)
        if self.is_one_in(2):
            self.add("drop", k)

    def hang(self):
        """An object, mostly with prefinalizers, that names a slot's in its first field, has something in its second,
        and is dropped."""
        p, q = self.slot(), self.one_of(SLOTS)
        ending = [t for t, type in enumerate(self.play.types) if type.callbacks]
        self.make(q, self.one_of(ending) if ending else None)
        self.add("set", q, 0, p)
        kind = self.node_in(q).kind(1) if self.node_in(q) else "P"
        second = {"P": ["put", q, 1, self.one_of(NUMBERS)], "E": ["pair", q, 1, p, self.slot()]}
        self.add(*second.get(kind, ["set", q, 1, self.slot()]))
        self.add("drop", q)

    def let_go(self):
        """A weak handle to a slot's object, or one of the region, and then the slot is dropped."""
        p, way = self.slot(), self.below(4)
        if way == 0:
            self.add("weak", self.one_of(WEAK_SLOTS), p)
        elif way == 1:
            self.add("set", *self.field("W", prefers_written=False), p)
        else:
            self.add("export", p, self.one_of(REGION_SLOTS))
        self.add("drop", p)

    def set_field(self):
        self.add("set", *self.field("SW", self.is_one_in(3)), "-" if self.is_one_in(5) else self.slot())

    def get_field(self):
        self.add("get", *self.field("W" if self.is_one_in(3) else "SW"), self.one_of(SLOTS))

    def pair(self):
        halves = ["-", "-"] if self.is_one_in(8) else [self.slot(), self.slot()]
        self.add("pair", *self.field("E", self.is_one_in(3)), *halves)

    def part(self):
        self.add(self.one_of(["key", "val"]), *self.field("E"), self.one_of(SLOTS))

    def plain(self):
        p, f = self.field("P", self.is_one_in(2))
        self.add(*(["put", p, f, self.one_of(NUMBERS)] if self.is_one_in(3) else ["word", p, f]))

    def copy(self):
        self.add("copy", self.slot(), self.one_of(SLOTS))

    def drop(self):
        self.add("drop", self.slot())

    def weak(self):
        self.add("weak", self.one_of(WEAK_SLOTS), self.slot())

    def read(self):
        self.add("read", self.weak_slot() if self.is_one_in(2) else self.one_of(WEAK_SLOTS), self.one_of(SLOTS))

    def push(self):
        """A pointer into an object, or a number that may be the address of one."""
        p, nodes = self.slot(), self.heap.nodes
        if self.is_one_in(2):
            self.add("push", p, self.below(self.node_in(p).size + 2) if self.node_in(p) else 0)
        elif nodes and not self.is_one_in(4):
            node = self.one_of(nodes)
            self.add("push#", node.place + self.below(node.size + 1))
        else:
            self.add("push#", self.one_of(NUMBERS))

    def look_at_stack(self):
        if self.is_one_in(3):
            self.add("peek", self.below(len(self.heap.stack) + 1), self.one_of(SLOTS))
        elif self.heap.stack or self.is_one_in(8):
            self.add("pop")

    def export(self):
        self.add("export", self.slot(), self.one_of(REGION_SLOTS))

    def import_slot(self):
        self.add("import", self.region_slot() if self.is_one_in(2) else self.one_of(REGION_SLOTS), self.one_of(SLOTS))

    def order(self):
        name = self.by_weight({"weaken": 6, "upgrade": 3, "copy": 2, "clear": 1, "totals": 1})
        slots = {"totals": [], "weaken": [self.region_slot()], "clear": [self.region_slot()]}
        self.add("at", self.one_of(THREADS), name, *slots.get(name, [self.region_slot(), self.one_of(REGION_SLOTS)]))

    def thread_line(self):
        """An order, a start of threads or a join, where it may stand."""
        if self.threads == "going":
            self.add("threads", "join")
            self.threads = "at rest"
        elif self.threads == "waiting" and not self.is_one_in(3):
            self.add("threads", "go")
            self.threads = "going"
        else:
            self.order()
            self.threads = "waiting"

    def stat(self):
        self.add("stat")

    def start(self):
        self.add("gc", "start")

    def step(self):
        self.add("gc", "step", self.one_of([1, 1, 2, 3, 5, 1000]))

    def want(self):
        """Mostly one that the stack doesn't refuse."""
        return "conservative" if self.is_one_in(3) or self.heap.stack and not self.is_one_in(6) else "precise"

    def finish(self):
        self.add("gc", "finish", self.want())

    def now(self):
        self.add("gc", "now", self.want())

    def sweep(self):
        self.add("sweep", "all" if self.is_one_in(4) else 1 + self.below(3))

    def fill_stack(self):
        """So many words that another one is refused."""
        for n in range(1025):
            self.add("push#", n)

    def end(self):
        """No order may wait at the end, and no thread run. Mostly the last collection is swept, so that its dead
        are told."""
        while self.threads != "at rest":
            self.thread_line()
        if self.is_marking() and not self.is_one_in(8):
            self.add("gc", "finish", "conservative")
        if self.is_sweeping() and not self.is_one_in(8):
            self.add("sweep", "all")


def drawn(seed, number, markers):
    """The words and the text of a script, which is at times one that the program generates."""
    drawing = DrawnScript(seed, number, markers)
    if drawing.is_one_in(40):
        turns = drawing.below(2**20), 1 + drawing.below(60)
        return [*drawing.words, "--generate", str(turns[0]), "--count", str(turns[1])], generated(*turns)
    count = 25 + drawing.below(50)
    if drawing.is_one_in(300):
        drawing.fill_stack()
    for _ in range(2 + drawing.below(8)):
        drawing.grow()
    for _ in range(count):
        getattr(drawing, drawing.kind())()
    drawing.end()
    return drawing.words, "\n".join(drawing.lines) + "\n"
