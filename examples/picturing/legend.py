"""The legend of a picture: what its boxes, marks and arrows mean."""

from picturing.layout import LEFT, WIDTH
from picturing.marks import EDGES, FATES, box, colour, pin, points, text, width_of

# So many types are told.
MOST_TYPES = 12

HANDLES = {
    "s": "s3: strong slot 3",
    "r": "r3: slot 3 of the region",
    "w": "w3: weak slot 3",
    "k": "k0: last word of the stack",
}


def boxes(run, shown):
    """The kinds of boxes, each with what it means."""
    found = {run.fate(seen, node.number) for seen in shown for node in seen.nodes}
    for fate, said in FATES.items():
        if fate in found:
            yield f"{fate} c7", said
    yield "hole", "free words"


def types(run, shown):
    """The types of the objects that are shown."""
    found = sorted({run.type_of(node) for seen in shown for node in seen.nodes})
    for t in found[:MOST_TYPES]:
        yield f"live c{colour(t)}", f"type {t}: {run.types[t].kinds or 'no fields'}"
    if len(found) > MOST_TYPES:
        yield "hole", f"and {len(found) - MOST_TYPES} more types, whose colours come again"


def phases(run):
    """The phases that the commands had."""
    found = set(run.phases)
    told = {"pause": "the pause of a collection"}
    return [(phase, told.get(phase, phase)) for phase in ("idle", "marking", "pause", "sweeping") if phase in found]


def edges(run, shown):
    """The kinds of fields that few objects have."""
    kinds = {kind for seen in shown if seen.is_few for node in seen.nodes for kind in node.type.kinds}
    wanted = {"strong": "S", "weak": "W", "key": "E", "value": "E"}
    return [(kind, said) for kind, said in EDGES.items() if wanted[kind] in kinds]


def handles(shown):
    """What the marks of slots and of the stack mean."""
    marks = {mark for seen in shown for found in seen.handles.values() for mark in found}
    kinds = {mark.strip("()")[0] for mark in marks}
    said = [it for kind, it in HANDLES.items() if kind in kinds]
    return ", ".join(said + ["in parentheses what keeps nothing"] * any("(" in mark for mark in marks))


class Flow:
    """Samples with their texts, from left to right and then below."""

    def __init__(self, y):
        self.x, self.y, self.out = LEFT, y, []

    def add(self, draw, said):
        width = 34 + width_of(said) + 14
        if self.x + width > LEFT + WIDTH and self.x > LEFT:
            self.x, self.y = LEFT, self.y + 20
        self.out += [draw(self.x, self.y), text(self.x + 34, self.y + 11, said)]
        self.x += width

    def end_line(self):
        self.x, self.y = LEFT, self.y + 20 if self.x > LEFT else self.y


def legend(run, shown, y):
    """What is drawn, and the y below it."""
    flow = Flow(y)
    for group in (phases(run), boxes(run, shown), types(run, shown)):
        for kind, said in group:
            flow.add(lambda x, y, kind=kind: box(x, y, 27, 14, kind), said)
        flow.end_line()
    for kind, said in edges(run, shown):
        flow.add(lambda x, y, kind=kind: f'<path class="{kind}" d="M{points(x)} {points(y + 7)}h28"/>', said)
    if any(seen.handles for seen in shown):
        flow.add(lambda x, y: pin(x + 14, y + 10), handles(shown))
    flow.end_line()
    return flow.out, flow.y + 10
