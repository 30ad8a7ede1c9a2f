"""The state of a heap as docs/DEFINITIONS.md has it: nodes with their fields, slots, stack and region."""

import math

from judging.places import Places


class Node:
    """A field holds a node's number or None, a pair of numbers or None, or a plain number."""

    def __init__(self, number, type, extra, place):
        self.number, self.type, self.place = number, type, place
        self.count = len(type.kinds) + extra
        self.size = 2 + type.words + extra
        self.fields, self.life = {}, "live"

    def kind(self, f):
        return self.type.kinds[f] if f < len(self.type.kinds) else "P"

    def get(self, f):
        return self.fields.get(f, 0 if self.kind(f) == "P" else None)

    def held(self, kind):
        """The fields of this kind that aren't null, with what they hold."""
        return [(f, it) for f, it in self.fields.items() if it is not None and self.kind(f) == kind]

    def shown(self):
        """The words that a prefinalizer is shown."""
        words = []
        for f, kind in enumerate(self.type.kinds):
            words += [self.get(f)] if kind == "P" else [int(self.get(f) is not None)] * (1 + (kind == "E"))
        return words[:64]


def closed(nodes, first, rounds=math.inf, with_pairs=True):
    """The first nodes with what they lead to, by strong fields and by pairs whose key is among them, in so
    many rounds at most."""
    found, edge, waiting = set(first), list(first), {}
    while edge and rounds > 0:
        reached = set()
        for n in edge:
            reached.update(it for _, it in nodes[n].held("S"))
            reached.update(waiting.pop(n, ()))
            for _, (key, value) in nodes[n].held("E") if with_pairs else ():
                if key in found:
                    reached.add(value)
                else:
                    waiting.setdefault(key, []).append(value)
        edge = list(reached - found)
        found |= reached
        rounds -= 1
    return found


class Heap:
    def __init__(self, options, types):
        self.types, self.markers = types, options.markers
        self.pages, self.page_words = options.pages, options.page_words
        self.places = Places(options.pages, options.page_words)
        self.nodes, self.registrations = [], []
        self.slots, self.weak, self.stack = {}, {}, []
        # What a slot of the region names, and whether strongly.
        self.region = {}
        self.queues, self.running = {j: [] for j in range(1, 9)}, []
        # How many pages are swept while a sweep is open, and which nodes this command finalised.
        self.cursor, self.swept = None, []
        # While marking goes on: what may be kept; what is marked at least, and at most, where no marker
        # runs; and how many objects the steps have traced.
        self.may, self.least, self.most, self.traced = None, set(), set(), 0
        self.objects = self.used = self.finalised = 0

    def totals(self):
        return f"objects {self.objects} used {self.used} pages {self.places.used_pages()}"

    def live(self):
        return {node.number for node in self.nodes if node.life == "live"}

    def strong_slots(self):
        """What the strong slots name, those of the region among them."""
        named = {n for n in self.slots.values() if n is not None}
        return named | {n for n, strong in self.region.values() if strong}

    def roots(self):
        return self.strong_slots() | {n for n, _ in self.stack if n is not None}

    def hits(self):
        """The nodes with a word at an address of the stack."""
        words = [it if n is None else self.nodes[n].place + it for n, it in self.stack]
        there = [node for node in self.nodes if node.life != "gone"]
        return {it.number for it in there if any(it.place <= w < it.place + it.size for w in words)}

    def read_weakly(self, n):
        """While marking goes on, what was read may be kept, with all that it reaches."""
        if self.may is not None:
            self.may = closed(self.nodes, self.may | {n})

    def wrote(self, n):
        """While marking goes on, a write marks what it stores."""
        if self.may is not None and n is not None:
            self.least.add(n)
            self.most.add(n)

    def sweep_to(self, pages):
        """Goes on with the sweep that is open until so many pages are swept."""
        limit = pages * self.page_words
        dead = [node for node in self.nodes if node.life == "dead" and node.place < limit]
        for node in sorted(dead, key=lambda it: it.place):
            node.life = "gone"
            self.swept.append(node.number)
            self.places.remove(node.place)
            self.objects, self.used, self.finalised = self.objects - 1, self.used - node.size, self.finalised + 1
        self.cursor = pages if pages < self.pages else None

    def sweep_to_end(self):
        if self.cursor is not None:
            self.sweep_to(self.pages)

    def place_for(self, size):
        """The place of a new object, or none; sweeps no more pages than it must."""
        place = self.places.fit(range(self.pages if self.cursor is None else self.cursor), size)
        while place is None and self.cursor is not None:
            page = self.cursor
            self.sweep_to(page + 1)
            place = self.places.fit([page], size)
        return self.places.empty_run(size) if place is None else place

    def add(self, type, extra, place):
        """The new node at this place."""
        node = Node(len(self.nodes), type, extra, place)
        self.nodes.append(node)
        self.places.add(place, node.size)
        self.objects, self.used = self.objects + 1, self.used + node.size
        self.registrations += [(node.number, callback) for callback in type.callbacks]
        if self.may is not None:
            self.may.add(node.number)
        return node
