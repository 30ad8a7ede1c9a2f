"""What the parts of a picture look like: colours, patterns, texts, and the legend that tells them."""

from xml.sax.saxutils import escape

# Colours of types, by the type's number; one more type takes the first again.
COLOURS = ("#6baed6", "#fdae61", "#74c476", "#df9fc8", "#c9b458", "#a5a0d8", "#c79a7a", "#9fb3b8")

FATES = {
    "live": "live",
    "unreached": "live, though no root reaches it",
    "dead": "dead: condemned, not yet finalised",
    "finalised": "dead and finalised since",
    "undecided": "dead or not: the report doesn't tell",
}

EDGES = {
    "strong": "a strong field",
    "weak": "a weak field",
    "key": "a pair's key",
    "value": "a pair's value",
}

STYLE = """
text{font:11px 'DejaVu Sans',Verdana,sans-serif;fill:#222}
.title{font-size:17px;font-weight:bold}
.head{font-size:13px;font-weight:bold}
.note{fill:#555}
.mark{font-size:10px;font-weight:bold;fill:#7a1f1f;paint-order:stroke;stroke:#fff;stroke-width:3px}
.number{font-size:10px;text-anchor:middle}
.halo{paint-order:stroke;stroke:#fff;stroke-width:3px}
.right{text-anchor:end}
.middle{text-anchor:middle}
.live,.unreached,.dead,.finalised,.undecided{stroke:#333;stroke-width:1}
.many .live,.many .unreached,.many .dead,.many .finalised,.many .undecided{stroke-width:.4}
.unreached{stroke-width:3;stroke-dasharray:3 2}
.many .unreached{stroke-width:1.2}
.dead{stroke-width:1.6}
.finalised{stroke-dasharray:2 2;fill-opacity:.28}
.undecided{stroke-dasharray:1 3}
.hole{fill:#f6f6f6;stroke:#777;stroke-width:.7;stroke-dasharray:1 2}
.pin{fill:#7a1f1f}
.pin,.mark,.number,.strong,.weak,.key,.value{pointer-events:none}
.strong,.weak,.key,.value{fill:none;stroke:#444;stroke-width:1.1;opacity:.8;marker-end:url(#tip)}
.weak{stroke-dasharray:5 3}
.key{stroke-dasharray:1.5 2.5}
.value{stroke-dasharray:8 2 2 2}
.idle{fill:#fff;stroke:#888}
.marking{fill:url(#marking);stroke:#888}
.sweeping{fill:url(#sweeping);stroke:#888}
.pause{fill:#222}
.line{fill:none;stroke:#888;stroke-width:.8}
.graph{fill:#e8edf2;stroke:#446;stroke-width:1}
"""


def colour(type):
    return type % len(COLOURS)


def points(number):
    """A number of points, as short as may be."""
    return f"{number:.1f}".removesuffix(".0")


def text(x, y, said, kind=""):
    kind = f' class="{kind}"' if kind else ""
    return f'<text x="{points(x)}" y="{points(y)}"{kind}>{escape(said)}</text>'


def box(x, y, width, height, kind, title=""):
    """A box; the title is shown where one points at it."""
    shape = f"M{points(x)} {points(y)}h{points(width)}v{points(height)}h{points(-width)}z"
    end = f"><title>{escape(title)}</title></path>" if title else "/>"
    return f'<path class="{kind}" d="{shape}"{end}'


def pin(x, y):
    """The mark over an object that a handle names."""
    return f'<path class="pin" d="M{points(x - 3)} {points(y - 5)}h6l-3 5z"/>'


def width_of(said, size=11):
    """How wide a text is, about."""
    return len(said) * size * 0.6


def patterns():
    """Hatching for what is dead, dots for what isn't told, both in the type's colour, and those of the phases."""
    for i, it in enumerate(COLOURS):
        yield (
            f'<pattern id="d{i}" width="5" height="5" patternUnits="userSpaceOnUse" patternTransform="rotate(45)">'
            f'<path d="M0 0h5v5h-5z" fill="#fff"/><path d="M0 0h2.4v5h-2.4z" fill="{it}"/></pattern>'
            f'<pattern id="u{i}" width="5" height="5" patternUnits="userSpaceOnUse">'
            f'<path d="M0 0h5v5h-5z" fill="#fff"/><circle cx="2.5" cy="2.5" r="1.4" fill="{it}"/></pattern>'
        )
    yield '<pattern id="marking" width="6" height="6" patternUnits="userSpaceOnUse" patternTransform="rotate(45)">'
    yield '<path d="M0 0h6v6h-6z" fill="#fff"/><path d="M0 0h2v6h-2z" fill="#777"/></pattern>'
    yield '<pattern id="sweeping" width="6" height="6" patternUnits="userSpaceOnUse">'
    yield '<path d="M0 0h6v6h-6z" fill="#fff"/><circle cx="3" cy="3" r="1.3" fill="#777"/></pattern>'
    yield '<marker id="tip" viewBox="0 0 8 8" refX="7" refY="4" markerWidth="7" markerHeight="7" orient="auto">'
    yield '<path d="M0 1l7 3l-7 3z" fill="#444"/></marker>'


def fills():
    """The fill of each fate in each colour."""
    for i, it in enumerate(COLOURS):
        yield f".live.c{i},.unreached.c{i},.finalised.c{i}{{fill:{it}}}"
        yield f".dead.c{i}{{fill:url(#d{i})}}.undecided.c{i}{{fill:url(#u{i})}}"


def head_of_file(width, height):
    return [
        f'<svg xmlns="http://www.w3.org/2000/svg" width="{points(width)}" height="{points(height)}"'
        f' viewBox="0 0 {points(width)} {points(height)}">',
        f"<style>{STYLE}{''.join(fills())}</style>",
        f"<defs>{''.join(patterns())}</defs>",
        f'<path d="M0 0h{points(width)}v{points(height)}h{points(-width)}z" fill="#fff"/>',
    ]
