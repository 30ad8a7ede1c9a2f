"""The loads: scripts, the heap that each runs on, and what its report must tell."""

import math
from collections import Counter, deque
from random import Random
from typing import Dict, List, NamedTuple

PAGE_WORDS = 16_384
COLLECTION = "gc now precise"
STACK_COLLECTION = "gc now conservative"
START = "gc start"
PAUSE = "gc finish precise"
SWEEP = "sweep all"

# For mixed objects: how many fields a table has, and the slots of a new leaf and of the table in use.
TABLE_FIELDS = 38
LEAF_SLOT = 254
TABLE_SLOT = 255

# For a side table: how many pairs a table has.
TABLE_PAIRS = 31

# For a drawn mix: its types, how many strong slots hold an object at any time, the slot that a line may leave
# empty, how many weak slots it uses, and how many lines lie between two collections.
DRAWN_TYPES = ["SSP", "SW", "SEP", "PP", "SSSSSSSS"]
DRAWN_SLOTS = 16
EMPTY_SLOT = 20
DRAWN_WEAK_SLOTS = 8
DRAWN_BETWEEN = 5_000


class Load(NamedTuple):
    """A script, its heap, and what else the words ask for. `tells` has how many lines of what is written begin
    with which text."""

    types: List[str]
    lines: List[str]
    tells: Dict[str, int]
    pages: int
    page_words: int = PAGE_WORDS
    words: List[str] = []

    def then(self, *lines):
        return self._replace(lines=self.lines + list(lines))

    def script(self):
        version = 2 if any(" weak " in fields for fields in self.types) else 1
        types = ["type " + fields for fields in self.types]
        return ("\n".join([f"oilpan {version}", *types, *self.lines]) + "\n").encode()

    def options(self):
        return ["--pages", str(self.pages), "--page-words", str(self.page_words), *self.words]

    def heap_words(self):
        return self.pages * self.page_words


def pages_for(count, size):
    """How many pages so many objects of one size fill."""
    return max(1, math.ceil(count / (PAGE_WORDS // size)))


def scaled_page_words(scale):
    """Words of a page for loads that are scaled by their pages, a size that a heap can have."""
    page_words = 256
    while page_words < PAGE_WORDS and 2 * page_words <= PAGE_WORDS * scale:
        page_words *= 2
    return page_words


def filling(count, room):
    """New objects of 3 words, on a heap that `room` of them fill."""
    return Load(["S"], ["new 0 0"] * count, {"node": count, "full": 0}, pages_for(room, 3))


def with_words(line, count, *before):
    """One object with a strong field and a plain one in slot 0, the same in slot 1, and weak slot 0 on it; then
    the lines that come before, and the same line, so many times."""
    lines = ["new 0 0", "copy 0 1", "weak 0 0", *before] + [line] * count
    return Load(["SP"], lines, {"full": 0, "refused": 0}, 1)


def written(count, room, *before):
    """New objects of 3 words, each of them written into the field of one that was made before these lines, on a
    heap that `room` of them fill."""
    lines = ["new 0 0", *before] + ["new 1 0", "set 0 0 1"] * count
    return Load(["S"], lines, {"node": 1 + count, "full": 0, "refused": 0}, pages_for(1 + room, 3))


def linked(count):
    """A list of objects of 3 words, the newest in slot 0 or 1, and each named by the next."""
    lines = []
    for number in range(count):
        newest = number % 2
        lines += [f"new {newest} 0", f"set {newest} 0 {1 - newest}"]
    return lines


def live_list(count, room, collections):
    """A list, and collections of it. Each but the first ends the sweep before it."""
    tells = {f"pause kept {count} dead 0 ": collections, "full": 0}
    return Load(["S"], linked(count) + [COLLECTION] * collections, tells, pages_for(room, 3))


def in_steps(count, most):
    """A collection of so many objects, in steps of `most` at most."""
    return [START] + [f"gc step {most}"] * math.ceil(count / most) + [PAUSE]


def listed_in_steps(count, room, most):
    """A list, a collection with its sweep, and a collection in steps, of which the pause traces nothing."""
    load = live_list(count, room, 1).then(SWEEP, *in_steps(count, most))
    tells = {f"pause kept {count} dead 0 crew 0 traced 0 walked 0": 1, "step": math.ceil(count / most)}
    return load._replace(tells={**tells, "started": 1, "full": 0, "refused": 0})


def leaf_size(number):
    """Of each 38 leaves in turn one has each size, 2 to 39 words in mixed order."""
    group, position = divmod(number, 38)
    return 2 + (position * 17 + group * 5) % 38


def new_leaf(number):
    return f"new {LEAF_SLOT} 1 {leaf_size(number) - 2}"


class Mixed:
    """Lines of mixed objects: leaves, which have no fields, and tables of 40 words.

    A position is a field of a table, and is free while it names no leaf. The tables are named by the
    fields of root tables, and these by the slots from 0 on. No table is dropped."""

    def __init__(self):
        self.lines, self.tells, self.free = [], Counter(), deque()
        self.roots, self.tables, self.leaves, self.standing = 0, 0, 0, 0

    def write(self, position, value):
        """Has a position name what the slot `value` names, or nothing if that is `-`."""
        table, field = divmod(position, TABLE_FIELDS)
        root, root_field = divmod(table, TABLE_FIELDS)
        self.lines += [f"get {root} {root_field} {TABLE_SLOT}", f"set {TABLE_SLOT} {field} {value}"]

    def make_leaf(self):
        """A leaf goes to the position that has been free for the longest time."""
        self.lines.append(new_leaf(self.leaves))
        self.write(self.free.popleft(), LEAF_SLOT)
        self.leaves += 1

    def make_table(self):
        root, field = divmod(self.tables, TABLE_FIELDS)
        self.lines += [f"new {TABLE_SLOT} 0", f"set {root} {field} {TABLE_SLOT}"]
        self.free.extend(range(TABLE_FIELDS * self.tables, TABLE_FIELDS * (self.tables + 1)))
        self.tables += 1

    def make_root(self):
        self.lines.append(f"new {self.roots} 0")
        self.roots += 1

    def make(self):
        """Makes an object: a leaf if a position is free, and else the table that is missing."""
        if self.free:
            self.make_leaf()
        elif self.tables < TABLE_FIELDS * self.roots:
            self.make_table()
        else:
            self.make_root()
        self.standing += 1

    def drop_tenth(self, shift):
        """Drops a tenth as many leaves as objects stand: every tenth leaf, and in place of tables, of
        which none is dropped, some of the leaves next after these."""
        free = set(self.free)
        taken = [position for position in range(TABLE_FIELDS * self.tables) if position not in free]
        every_tenth, next_after = taken[shift % 10::10], taken[(shift + 1) % 10::10]
        dropped = (every_tenth + next_after)[:self.standing // 10]
        for position in dropped:
            self.write(position, "-")
        self.free.extend(dropped)
        self.standing -= len(dropped)
        self.tells[f"pause kept {self.standing} dead {len(dropped)} "] += 1

    def collect(self):
        self.lines += [f"drop {LEAF_SLOT}", f"drop {TABLE_SLOT}", COLLECTION, SWEEP]


def mixed_pages(standing):
    """Pages for so many objects of mixed sizes, 21 words each on average, and 15 % more. Objects of four
    buckets can leave three pages almost empty."""
    return math.ceil(standing * 21 * 1.15 / PAGE_WORDS) + 3


def mixed(rounds, every, before=0):
    """`before` objects of 2 to 40 words, and then rounds of `every` more, after which a tenth of the objects
    that stand is dropped, collected and swept. At most ten times `every` stand at once."""
    load = Mixed()
    for _ in range(before):
        load.make()
    for shift in range(rounds):
        for _ in range(every):
            load.make()
        load.drop_tenth(shift)
        load.collect()
    nodes = sum(line.startswith(("new", "get")) for line in load.lines)
    finalised = before + rounds * every - load.standing
    tells = {**load.tells, "node": nodes, "finalise": finalised, "full": 0, "refused": 0}
    return Load(["S" * TABLE_FIELDS, "-"], load.lines, tells, mixed_pages(10 * every))


def mixed_news(count):
    """New leaves of mixed sizes, with no other lines between them."""
    return [new_leaf(number) for number in range(count)]


def page_with_holes(page_words):
    """The sizes of a page's objects in order: 29 of 7 words, then one of 4, until no 7 words are left."""
    sizes, left = [], page_words
    while left >= 7:
        sizes.append(4 if len(sizes) % 30 == 29 else 7)
        left -= sizes[-1]
    return sizes


def empty_pages(pages):
    return pages // 32


def holes_room(pages, page_words):
    """How many objects of 7 words the empty pages have room for."""
    return empty_pages(pages) * (page_words // 7)


def holes(pages, page_words, wanted):
    """Pages of objects of 7 words in a list, with a hole of 4 words after each 29; then objects of 7
    words are wanted. 31 of 32 pages are in use, and 203 of 207 words in these: 95 % of the heap's."""
    pages_in_use = pages - empty_pages(pages)
    sizes = page_with_holes(page_words) * pages_in_use
    lines, newest = [], 0
    for size in sizes:
        if size == 4:
            lines.append("new 2 1")
        else:
            newest = 1 - newest
            lines += [f"new {newest} 0", f"set {newest} 0 {1 - newest}"]
    kept = sizes.count(7)
    placed = min(wanted, holes_room(pages, page_words))
    lines += ["drop 2", COLLECTION, SWEEP, "stat"] + ["new 3 0"] * wanted
    stat = f"objects {kept} used {7 * kept} pages {pages_in_use}"
    tells = {stat: 1, "node": len(sizes) + placed, "full": wanted - placed}
    return Load(["SSSSS", "SS"], lines, tells, pages, page_words)


def tree(count):
    """A binary tree, as even as can be, with its root in slot 0 and no other slot in use."""
    lines = []

    def build(size, slot, free):
        parts = [part for part in (size // 2, (size - 1) // 2) if part > 0]
        for field, part in enumerate(parts):
            build(part, free + field, free + 2)
        lines.append(f"new {slot} 0")
        lines.extend(f"set {slot} {field} {free + field}" for field in range(len(parts)))

    build(count, 0, 1)
    lines += [f"drop {slot}" for slot in range(1, 2 * count.bit_length() + 3)]
    return Load(["SS"], lines, {"node": count, "full": 0, "refused": 0}, pages_for(count, 4))


def wide_tree(fields):
    """A tree of three levels below its root in slot 0, with so many objects below each of the upper ones; the
    lowest have no fields, and no other slot is in use."""
    lines = ["new 0 0"]
    for first in range(fields):
        lines += ["new 1 0", f"set 0 {first} 1"]
        for second in range(fields):
            lines += ["new 2 0", f"set 1 {second} 2"]
            for third in range(fields):
                lines += ["new 3 1", f"set 2 {third} 3"]
    lines += ["drop 1", "drop 2", "drop 3"]
    upper, lowest = 1 + fields + fields**2, fields**3
    pages = pages_for(upper, fields + 2) + pages_for(lowest, 2)
    return Load(["S" * fields, "-"], lines, {"node": upper + lowest, "full": 0, "refused": 0}, pages)


def own_holes(count):
    """A list of objects of 3 words, and after each one that is dead; all of them are swept."""
    lines = []
    for number in range(count):
        newest = number % 2
        lines += [f"new {newest} 0", f"set {newest} 0 {1 - newest}", "new 2 0"]
    tells = {f"pause kept {count} dead {count} ": 1, "finalise": count, "full": 0}
    return Load(["S"], lines + ["drop 2", COLLECTION, SWEEP], tells, pages_for(2 * count, 3))


def own_holes_filled(count):
    """New objects in all these holes."""
    load = own_holes(count)
    tells = {**load.tells, "node": 3 * count}
    return load.then(*["new 2 0"] * count)._replace(tells=tells)


def thousands(pages):
    """Objects of 1,000 words, 16 a page, in so many of 1,024 pages."""
    count = 16 * pages
    return Load(["-"], ["new 0 0 998"] * count, {"node": count, "full": 0}, 1024)


def weak(count):
    """A list of objects with two weak fields each: one names the object before, and the other the first
    object of the list, or, in each fifth, an object of two words that nothing else names."""
    lines = []
    for number in range(count):
        newest = number % 2
        lines += [f"new {newest} 0", f"set {newest} 0 {1 - newest}", f"set {newest} 1 {1 - newest}"]
        if number == 0:
            lines.append(f"copy {newest} 3")
        if number % 5 == 4:
            lines += ["new 2 1", f"set {newest} 2 2"]
        else:
            lines.append(f"set {newest} 2 3")
    pages = pages_for(count, 5) + pages_for(count // 5, 2)
    return Load(["SWW", "-"], lines + ["drop 2"], {"full": 0, "refused": 0}, pages)


def weak_read(count):
    """After a collection of that list: the weak fields of the last object of which one is cleared."""
    load = weak(count).then(COLLECTION)
    last = (count - 1) % 2
    tells = {**load.tells, f"pause kept {count} dead {count // 5} ": 1, "null": 1}
    return load.then(f"get {last} 1 4", f"get {last} 2 4")._replace(tells=tells)


def pair_chain(count):
    """A list of holders, the newest named by a slot, with a pair each, and a chain of pairs through them:
    each pair's key is the value of the next one in the list, and the key of the last one alone is named by
    a slot. So marking comes to every pair before its key lives, but for the last."""
    lines = ["new 2 1", "copy 2 4"]
    for number in range(count):
        holder = number % 2
        key, value = 2 + holder, 3 - holder
        lines += [f"new {value} 1", f"new {holder} 0", f"set {holder} 0 {1 - holder}"]
        lines.append(f"pair {holder} 1 {key} {value}")
    pages = pages_for(count, 5) + pages_for(count + 1, 2)
    return Load(["SE", "-"], lines + ["drop 2", "drop 3"], {"full": 0, "refused": 0}, pages)


def pair_chain_read(count):
    """After a collection of that chain: the value that only the whole chain keeps."""
    load = pair_chain(count).then(COLLECTION)
    tells = {**load.tells, f"pause kept {2 * count + 1} dead 0 ": 1, "null": 0}
    return load.then(f"val {(count - 1) % 2} 1 5")._replace(tells=tells)


def side_table(count):
    """A list of tables of 31 pairs. Every second pair's key is in a list that a slot names, and nothing
    names the other keys; nothing but its pair names a value."""
    lines = []
    for number in range(count):
        table, pair = divmod(number, TABLE_PAIRS)
        newest = table % 2
        if pair == 0:
            lines += [f"new {newest} 0", f"set {newest} 0 {1 - newest}"]
        key = 2 + number // 2 % 2 if number % 2 == 0 else 4
        lines.append(f"new {key} 1")
        if key != 4:
            lines.append(f"set {key} 0 {5 - key}")
        lines += ["new 5 2", f"pair {newest} {1 + pair} {key} 5"]
    # Keys of 3 words and values of 2 have pages in common.
    pages = pages_for(count // TABLE_PAIRS + 1, 3 + 2 * TABLE_PAIRS) + pages_for(count, 5) + 1
    types = ["S" + "E" * TABLE_PAIRS, "S", "-"]
    return Load(types, lines + ["drop 4", "drop 5"], {"full": 0, "refused": 0}, pages)


def side_table_kept(count):
    """How many objects of that table live on: the tables, every second key and every second value."""
    return math.ceil(count / TABLE_PAIRS) + 2 * math.ceil(count / 2)


def side_table_read(count):
    """After a collection of that table, with an even number of pairs: the last pair but one is whole, and
    the last is cleared."""
    load = side_table(count).then(COLLECTION)
    kept, newest = side_table_kept(count), (count - 1) // TABLE_PAIRS % 2
    tells = {**load.tells, f"pause kept {kept} dead {2 * (count // 2)} ": 1, "null": 2}
    last = [1 + number % TABLE_PAIRS for number in (count - 2, count - 1)]
    lines = [f"{part} {newest} {field} 6" for field in last for part in ("key", "val")]
    return load.then(*lines)._replace(tells=tells)


def prefinalizers(count):
    """Objects with two prefinalizers each, which add to a word of an object that lives. Nothing else names
    them, so that all of them die."""
    lines = ["new 0 0"] + ["new 1 1", "set 1 0 0"] * count + ["drop 1"]
    return Load(["SP", "S pre 2 3"], lines, {"full": 0, "refused": 0}, pages_for(count, 3) + 1)


def prefinalizers_read(count):
    """After their collection: one prefinalizer of each added 1, and the other one nothing."""
    load = prefinalizers(count).then(COLLECTION)
    tells = {**load.tells, "prefinalise ": 2 * count, f"word {count}": 1}
    return load.then("word 0 1")._replace(tells=tells)


def weak_callbacks(count, types):
    """Holders in a list, each of which has a weak field of its own object. These objects die, and whoever has a
    weak callback then adds 1 to a word of an object that lives."""
    lines = ["new 0 0"]
    for number in range(count):
        newest = 1 + number % 2
        lines += [f"new {newest} 1", f"set {newest} 0 0", f"set {newest} 2 {3 - newest}", "new 3 2", f"set {newest} 1 3"]
    pages = pages_for(count + 2, 5) + pages_for(count, 2) + 1
    return Load(types, lines + ["drop 3"], {"full": 0, "refused": 0}, pages)


def weak_callbacks_read(count, types):
    """After their collection: each added 1."""
    load = weak_callbacks(count, types).then(COLLECTION)
    return load.then("word 0 1")._replace(tells={**load.tells, "weakcall ": count, f"word {count}": 1})


def small_pages(pages):
    """A list that fills so many pages of 256 words, each with 85 objects of 3 words."""
    count = 85 * pages
    return Load(["S"], linked(count), {"full": 0}, pages, 256)


def inner_words(pages):
    """A stack with a word into each of these pages, each at another place of some object."""
    return [f"push# {256 * page + 37 * page % 255}" for page in range(pages)]


def stack_read(pages):
    """After a collection that looks at that stack: the list lives, whether or not it is hit."""
    load = small_pages(pages).then(*inner_words(pages), STACK_COLLECTION)
    return load._replace(tells={**load.tells, "ok": 86 * pages, f"pause kept {85 * pages} dead 0 ": 1})


def mostly_dead(pages, page_words):
    """Pages full of objects of 3 words, of which each tenth is in a list and the others are dropped, after
    a collection of them. No page is swept."""
    lines, newest, count = [], 0, pages * (page_words // 3)
    for number in range(count):
        if number % 10 == 9:
            newest = 1 - newest
            lines += [f"new {newest} 0", f"set {newest} 0 {1 - newest}"]
        else:
            lines.append("new 2 0")
    tells = {f"pause kept {count // 10} dead {count - count // 10} ": 1, "full": 0, "swept": 0}
    return Load(["S"], lines + ["drop 2", COLLECTION], tells, pages, page_words)


def news_in_sweep(load, count):
    """So many new objects of 3 words after that. Each tenth word that they might take is in use, so that
    the sweep has come past ten ninths of them, and at most to the end of its page."""
    per_page = load.page_words // 3
    dead = [per_page * page * 9 // 10 for page in range(load.pages + 1)]
    page = next(page for page in range(load.pages + 1) if dead[page] >= count)
    tells = {**load.tells, "node": load.pages * per_page + count, "finalise": dead[page]}
    return load.then(*["new 3 0"] * count)._replace(tells=tells), dead[page]


def dead_objects(count):
    """Objects of 3 words, all of them dead after the collection."""
    tells = {f"pause kept 0 dead {count} ": 1, "full": 0}
    return filling(count, count).then("drop 0", COLLECTION)._replace(tells=tells)


def live_objects(count):
    """A list of objects of 3 words, and after each 1,000 one that is dead after the collection."""
    lines, made = linked(count), count // 1000
    for number in reversed(range(made)):
        lines.insert(2000 * (number + 1), "new 2 0")
    tells = {f"pause kept {count} dead {made} ": 1, "full": 0}
    return Load(["S"], lines + ["drop 2", COLLECTION], tells, pages_for(count + made, 3))


def remainders(seed, count):
    """What decides each turn of `generated`: numbers by a rule, modulo 3."""
    number, found = seed % 65_537, []
    for _ in range(count):
        number = (number * 75 + 74) % 65_537
        found.append(number % 3)
    return found


def element_turn(turn, parent):
    """An element of a document: it goes before the first child of what slot `parent` names, has a weak field to
    the root, and is the newest element, in slot 2."""
    lines = ["new 1 0", f"put 1 3 {turn}", "set 1 2 0", f"get {parent} 0 3", "set 1 1 3", f"set {parent} 0 1"]
    return lines + ["copy 1 2", "drop 1", "drop 3"]


def table_turn(turn):
    """An entry of a side table, which is a list that slot 5 names: its pair's key and its value, which names the
    key, are elements that nothing else names, but for a weak slot, so that both die."""
    lines = ["new 1 0", "new 4 1", "set 4 0 5", "copy 4 5", "new 6 0", "set 6 0 1", "pair 4 1 1 6"]
    return lines + [f"weak {turn % 64} 1", "drop 1", "drop 4", "drop 6"]


def is_collected(turn):
    return turn >= 4 and turn & (turn - 1) == 0


def generated(seed, count):
    """A document with weak observers and a side table of pairs: so many turns, of which each keeps one object.
    Each turn whose number is a power of two, from 4 on, is done while marking goes on, and two collections end
    with it."""
    lines, found = ["new 0 0", "copy 0 2"], remainders(seed, count)
    for turn, remainder in enumerate(found, start=1):
        if is_collected(turn):
            lines += [START, "gc step 2"]
        lines += table_turn(turn) if remainder == 2 else element_turn(turn, 2 * remainder)
        if is_collected(turn):
            lines += [PAUSE, COLLECTION, SWEEP]
    entries = found.count(2)
    tells = {
        f"end objects {count + 1} used {6 * (count + 1) - entries} ": 1,
        "finalise": 2 * entries,
        "pause": 2 * sum(is_collected(turn) for turn in range(1, count + 1)) + 1,
        "full": 0, "refused": 0, "memory": 0,
    }
    return Load(["SSWP", "SE"], lines + [COLLECTION, SWEEP], tells, 64)


class Drawn:
    """Lines that are drawn by chance, with a seed, of all kinds that work on fields and slots. Slots from 0 on hold
    an object each, so that no line is refused, and what a field gives goes to a slot that no line begins at."""

    def __init__(self, seed):
        self.random, self.lines, self.held = Random(seed), [], []
        for slot in range(DRAWN_SLOTS):
            self.held.append(0)
            self.make(slot)

    def slot(self):
        return self.random.randrange(DRAWN_SLOTS)

    def make(self, slot):
        """A new object of some type, in each third case with some extra words."""
        self.held[slot] = self.random.randrange(len(DRAWN_TYPES))
        extra = self.random.choice(["", "", f" {self.random.randrange(1, 30)}"])
        self.lines.append(f"new {slot} {self.held[slot]}{extra}")

    def field(self, kinds):
        """A slot and a field of its object that has one of the kinds, if this draw finds one."""
        slot = self.slot()
        fields = [field for field, kind in enumerate(DRAWN_TYPES[self.held[slot]]) if kind in kinds]
        return (slot, self.random.choice(fields)) if fields else None

    def touch(self):
        """A line that reads or writes a field."""
        kinds = self.random.choice(["SW", "SW", "SW", "P", "E"])
        found = self.field(kinds)
        if found:
            forms = {
                "SW": ["set {} {} {}", "set {} {} {}", "set {} {} -", f"get {{}} {{}} {EMPTY_SLOT}"],
                "P": ["put {} {} {}", "word {} {}"],
                "E": ["pair {} {} {} {}", f"val {{}} {{}} {EMPTY_SLOT}", f"key {{}} {{}} {EMPTY_SLOT}"],
            }
            self.lines.append(self.random.choice(forms[kinds]).format(*found, self.slot(), self.slot()))

    def hold(self):
        """A line that copies, or that names an object weakly."""
        slot, weak_slot = self.slot(), self.random.randrange(DRAWN_WEAK_SLOTS)
        forms = [f"copy {slot} {EMPTY_SLOT}", f"weak {weak_slot} {slot}", f"read {weak_slot} {EMPTY_SLOT}"]
        self.lines.append(self.random.choice(forms))


def drawn(seed, count):
    """So many turns of a drawn mix, with a collection and a sweep after each 5,000 lines and at the end."""
    mix, collections = Drawn(seed), 0
    for _ in range(count):
        turn = mix.random.randrange(10)
        if turn < 3:
            mix.make(mix.slot())
        elif turn < 8:
            mix.touch()
        else:
            mix.hold()
        if len(mix.lines) > DRAWN_BETWEEN * (collections + 1):
            mix.lines += [COLLECTION, SWEEP]
            collections += 1
    tells = {"pause": collections + 1, "full": 0, "refused": 0, "memory": 0}
    return Load(DRAWN_TYPES, mix.lines + [COLLECTION, SWEEP], tells, 16)


def from_seed(seed, count):
    """The script of `generated` again, which the program makes itself, with a summary. Of its input nothing is read."""
    load, entries = generated(seed, count), remainders(seed, count).count(2)
    summary = (
        f"summary commands {len(load.lines)} cycles {load.tells['pause']} objects {count + 1} "
        f"used {6 * (count + 1) - entries} finalised {2 * entries} full 0"
    )
    words = ["--generate", str(seed), "--count", str(count), "--summary"]
    return Load([], [], {summary: 1, "": 1}, 64, words=words)
