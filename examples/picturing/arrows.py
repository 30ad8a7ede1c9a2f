"""Draws the references of objects as arrows, from the word of the field to the header that it names."""

from picturing.marks import points

# How far an arrow within a line hangs below it.
LEAST_DEPTH, MOST_DEPTH = 9, 20


def references(node, fields):
    """What the node's fields name: the kind of edge, the offset of the word, and the number."""
    offset = 2
    for f, kind in enumerate(node.type.kinds):
        held = fields.get(f)
        if kind in "SW" and held is not None:
            yield "strong" if kind == "S" else "weak", offset, held
        if kind == "E" and held:
            yield "key", offset, held[0]
            yield "value", offset + 1, held[1]
        offset += 2 if kind == "E" else 1


def curve(source, target, height):
    """The path from a word to a header; both are a line with how far right."""
    (line, x), (other, end) = source, target
    if line is other:
        y = line.y + height
        depth = min(LEAST_DEPTH + abs(end - x) / 12, MOST_DEPTH) + (6 if end < x else 0)
        near = 0 if abs(end - x) > 12 else 8
        return f"M{points(x)} {points(y)}C{points(x + near)} {points(y + depth)}" \
            f" {points(end - near)} {points(y + depth)} {points(end)} {points(y + 1)}"
    down = other.y > line.y
    y, end_y = (line.y + height, other.y - 1) if down else (line.y, other.y + height + 1)
    bend = 18 if down else -18
    return f"M{points(x)} {points(y)}C{points(x)} {points(y + bend)} {points(end)} {points(end_y - bend)}" \
        f" {points(end)} {points(end_y)}"


def arrows(seen, places, height):
    """An arrow for each reference whose two ends are drawn."""
    nodes = {node.number: node for node in seen.nodes}
    for node in seen.nodes:
        for kind, offset, n in references(node, seen.fields[node.number]):
            source = places.at(node.place + offset)
            target = places.at(nodes[n].place) if n in nodes else None
            if source and target:
                yield f'<path class="{kind}" d="{curve(source, target, height)}"/>'
