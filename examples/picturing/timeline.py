"""Draws the phases of a run over its commands, how many objects there are, and the counts of its collections."""

import itertools

from picturing.layout import LEFT, WIDTH
from picturing.marks import box, points, text, width_of

BAND, GRAPH = 20, 44
# So many points of the graph are drawn.
MOST_POINTS = 800

COLUMNS = (
    "cycle",
    "from line",
    "to line",
    "new",
    "steps",
    "traced in steps",
    "by markers",
    "in the pause",
    "kept",
    "dead",
    "finalised",
)


def graph(run, y):
    """The number of objects that aren't finalised, after each command."""
    counts = [int(it.split(" ")[0]) for it in run.published]
    most, wide = max([*counts, 1]), WIDTH / max(len(counts) - 1, 1)
    bottom, part = y + GRAPH, -(-len(counts) // MOST_POINTS)
    path = f"M{LEFT} {points(bottom)}"
    for at in range(1, len(counts), part):
        high = max(counts[at : at + part])
        path += f"H{points(LEFT + (at - 1) * wide)}V{points(bottom - high / most * GRAPH)}"
    yield f'<path class="graph" d="{path}H{LEFT + WIDTH}V{points(bottom)}z"/>'
    yield text(LEFT - 8, y + 10, f"objects: {max(counts)}", "right")
    yield text(LEFT - 8, bottom, "0", "right note")


def segments(phases):
    """Each phase with its first command and how many it has; a pause has one."""
    at = 0
    for phase, group in itertools.groupby(phases):
        count = len(list(group))
        yield from [(phase, at + i, 1) for i in range(count)] if phase == "pause" else [(phase, at, count)]
        at += count


def band(run, lines, y):
    """The phase of each command, and below it the names of pauses that have room."""
    wide, pauses, room_from = WIDTH / max(len(run.phases), 1), 0, 0
    yield text(LEFT - 8, y + 14, "phase", "right")
    for phase, first, count in segments(run.phases):
        x, width = LEFT + first * wide, max(count * wide, 1.5)
        told = f"line {lines[first]}" if count == 1 else f"lines {lines[first]} to {lines[first + count - 1]}"
        yield box(x, y, width, BAND, phase, f"{phase}: {told}")
        pauses += phase == "pause"
        said = f"pause {pauses}, {told}"
        left = x + (width - width_of(said)) / 2
        if phase == "pause" and left >= room_from:
            yield text(x + width / 2, y + BAND + 14, said, "middle")
            room_from = left + width_of(said) + 8


def row_of(cycle, run, seen, lines):
    finalised = sum(n in run.gone for n in seen.dead)
    traced = (cycle.steps, cycle.in_steps, cycle.crew, cycle.traced)
    kept = f"walked, {cycle.kept}" if cycle.walked else cycle.kept
    return cycle.number, lines[cycle.start - 1], lines[cycle.end - 1], cycle.new, *traced, kept, cycle.dead, finalised


def table(run, shown, lines, y):
    """A row for each collection that is shown."""
    rows = [row_of(seen.cycle, run, seen, lines) for seen in shown if seen.cycle]
    for row in [COLUMNS, *rows] if rows else []:
        x = LEFT - 66
        for name, value in zip(COLUMNS, row):
            x += max(width_of(name), 40) + 26
            yield text(x, y, str(value), "right note" if row is COLUMNS else "right")
        y += 16


def timeline(run, shown, lines, y):
    """What is drawn, and the y below it."""
    out = [*graph(run, y), *band(run, lines, y + GRAPH + 6)]
    below = y + GRAPH + BAND + 46
    out += table(run, shown, lines, below)
    return out, below + 16 * (1 + sum(seen.cycle is not None for seen in shown)) + 8
