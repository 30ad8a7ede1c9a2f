"""The commands whose answers the definitions fix: on fields, slots and the stack, and totals.

Each changes the heap, and gives the line that has to be written.
"""

MOST_STACK_WORDS = 1024


class Refused(Exception):
    """A command is refused, and changes nothing; the text says why."""


def named(heap, p):
    """The object that strong slot p names."""
    n = heap.slots.get(p)
    if n is None:
        raise Refused("null")
    return heap.nodes[n]


def holder(heap, p, f, kinds):
    """Slot p's object, which has a field f of one of these kinds."""
    node = named(heap, p)
    if f >= node.count:
        raise Refused("field")
    if node.kind(f) not in kinds:
        raise Refused("kind")
    return node


def read_into(heap, q, n, weakly):
    """Slot q gets what was read."""
    heap.slots[q] = n
    if n is None:
        return "null"
    if weakly:
        heap.read_weakly(n)
    return f"node {n}"


def set_field(heap, p, f, q):
    node = holder(heap, p, f, "SW")
    node.fields[f] = heap.slots.get(q)
    if node.kind(f) == "S":
        heap.wrote(node.fields[f])
    return "ok"


def get_field(heap, p, f, q):
    node = holder(heap, p, f, "SW")
    return read_into(heap, q, node.get(f), node.kind(f) == "W")


def set_pair(heap, p, f, k, v):
    node = holder(heap, p, f, "E")
    key, value = heap.slots.get(k), heap.slots.get(v)
    node.fields[f] = None if key is None or value is None else (key, value)
    if node.fields[f]:
        heap.wrote(value)
    return "ok"


def get_key(heap, p, f, q):
    pair = holder(heap, p, f, "E").get(f)
    return read_into(heap, q, pair and pair[0], True)


def get_value(heap, p, f, q):
    pair = holder(heap, p, f, "E").get(f)
    return read_into(heap, q, pair and pair[1], True)


def put(heap, p, f, n):
    holder(heap, p, f, "P").fields[f] = n
    return "ok"


def word(heap, p, f):
    return f"word {holder(heap, p, f, 'P').get(f)}"


def copy(heap, p, q):
    heap.slots[q] = heap.slots.get(p)
    return "ok"


def drop(heap, p):
    heap.slots[p] = None
    return "ok"


def weak(heap, w, p):
    heap.weak[w] = heap.slots.get(p)
    return "ok"


def read(heap, w, p):
    return read_into(heap, p, heap.weak.get(w), True)


def pushed(heap, n, at):
    if len(heap.stack) >= MOST_STACK_WORDS:
        raise Refused("stack")
    heap.stack.append((n, at))
    return "ok"


def push(heap, p, offset):
    node = named(heap, p)
    if offset >= node.size:
        raise Refused("field")
    return pushed(heap, node.number, offset)


def push_number(heap, n):
    return pushed(heap, None, n)


def pop(heap):
    if not heap.stack:
        raise Refused("empty")
    heap.stack.pop()
    return "ok"


def peek(heap, i, q):
    if i >= len(heap.stack):
        raise Refused("empty")
    n, _ = heap.stack[-1 - i]
    if n is None:
        raise Refused("kind")
    return read_into(heap, q, n, False)


def sweep(heap, n):
    if heap.cursor is None:
        raise Refused("phase")
    pages = heap.pages if n is None else min(heap.cursor + n, heap.pages)
    heap.sweep_to(pages)
    return f"swept to {pages}"


def stat(heap):
    return heap.totals()


ANSWERS = {
    "set": set_field,
    "get": get_field,
    "pair": set_pair,
    "key": get_key,
    "val": get_value,
    "put": put,
    "word": word,
    "copy": copy,
    "drop": drop,
    "weak": weak,
    "read": read,
    "push": push,
    "push#": push_number,
    "pop": pop,
    "peek": peek,
    "sweep": sweep,
    "stat": stat,
}
