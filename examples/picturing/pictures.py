"""Puts a picture together: the title, the legend, the time line, and a panel for each moment that is shown."""

import itertools

from picturing.layout import LEFT, WIDTH, scale_for
from picturing.legend import legend
from picturing.marks import head_of_file, text
from picturing.panels import Panel
from picturing.timeline import timeline

# So many panels are shown, half of them the first and half the last.
MOST_PANELS = 12
# So many boxes are in one panel, and in all of them.
MOST_BOXES, ALL_BOXES = 15_000, 30_000
# So many weak handles that were cleared are named.
MOST_NAMED = 8

ABOUT = (
    "A panel has the heap at a pause, with what became of its dead until the next one, or at the end."
    " Widths are words; a large object's page is drawn whole.",
    "The report tells which objects are dead once they are finalised; before that it follows from the references.",
)


def chosen(seen):
    """The moments that are shown: the first and the last ones."""
    if len(seen) <= MOST_PANELS:
        return seen
    return seen[: MOST_PANELS // 2] + seen[-MOST_PANELS // 2 :]


def boxes_in(seen):
    """How many objects and holes between them there are."""
    return len(seen.nodes) + sum(one.place + one.size < two.place for one, two in itertools.pairwise(seen.nodes))


def with_boxes(shown):
    """Those in which each object has a box: the last ones first, as long as there are few enough boxes."""
    found, left = [], ALL_BOXES
    for seen in reversed(shown):
        count = boxes_in(seen)
        if count <= min(left, MOST_BOXES):
            found.append(seen)
            left -= count
    return found


def head_of(run, lines, seen):
    """What the panel is of."""
    if seen.cycle is None:
        return "At the end"
    cycle, (name, want) = seen.cycle, run.commands[seen.at - 1]
    finalised = sum(n in run.gone for n in seen.dead)
    until = "the end" if seen is run.seen[-2] else "the next pause"
    counts = f"{cycle.kept} kept, {cycle.dead} dead, {finalised} finalised by {until}"
    return f"Pause {cycle.number}, line {lines[seen.at - 1]}, {name} {want}: {counts}"


def notes_of(seen, is_boxed):
    """What else is told of it."""
    if seen.undecided:
        yield "The references and marks are those of one way in which this report may come about"
    if seen.cycle and seen.cycle.cleared:
        cleared = seen.cycle.cleared
        more = f" and {len(cleared) - MOST_NAMED} more" if len(cleared) > MOST_NAMED else ""
        yield f"Cleared by this pause: {', '.join(cleared[:MOST_NAMED])}{more}"
    if not is_boxed:
        yield f"{len(seen.nodes)} objects would be too many boxes: a bar has a page's words by what became of them"
    if not seen.nodes:
        yield "No object is there"


def panel(run, lines, seen, scale, is_boxed, y):
    out = [text(LEFT, y + 14, head_of(run, lines, seen), "head")]
    y += 24
    for note in notes_of(seen, is_boxed):
        out.append(text(LEFT, y + 10, note, "note"))
        y += 18
    drawn = Panel(run, lines, seen, scale, is_boxed, y)
    below = drawn.draw()
    return out + drawn.out, below + 22


def picture(run, lines, name):
    """The text of the file."""
    shown = chosen(run.seen)
    boxed = with_boxes(shown)
    scales = {is_few: scale_for([seen for seen in boxed if seen.is_few == is_few]) for is_few in (False, True)}
    out = [text(LEFT, 26, f"The heap of {name}", "title")]
    out += [text(LEFT, 46 + 16 * i, said, "note") for i, said in enumerate(ABOUT)]
    below, y = legend(run, shown, 72)
    out += below
    below, y = timeline(run, shown, lines, y + 6)
    out += below
    for seen in shown:
        if len(shown) < len(run.seen) and seen is shown[MOST_PANELS // 2]:
            left_out = len(run.seen) - len(shown)
            out.append(text(LEFT, y + 8, f"{left_out} pauses are left out here", "head"))
            y += 34
        below, y = panel(run, lines, seen, scales[seen.is_few], seen in boxed, y)
        out += below
    return "\n".join([*head_of_file(LEFT + WIDTH + 150, y), *out, "</svg>"]) + "\n"
