"""Which words of the heap lie in which line of a picture: a page is a row of one or more lines."""

import bisect
import itertools

# In picture points: what stands left of the lines, and how wide they are.
LEFT, WIDTH = 112, 1120

# Points for a word, the first that fits.
SCALES = (26, 20, 16, 13, 10, 8, 6, 5, 4, 3, 2.5, 2, 1.5, 1, 0.7, 0.5, 0.35, 0.25, 0.15, 0.1, 0.07)
# So many lines more than pages the panel of few objects may take, and that of many.
MORE_LINES_OF_FEW, MORE_LINES_OF_MANY = 3, 80

# So many pages of a large object are drawn before the others are only counted.
MOST_PAGES = 3
# So many lines in a row without an object are not drawn.
LEAST_FREE_LINES = 3


class Line:
    """The words from first to end of one page. A piece is a node with its words there."""

    def __init__(self, page, first, end, scale, is_whole=False):
        self.page, self.first, self.end, self.scale = page, first, end, scale
        # Whether the page of a large object has this line alone.
        self.is_whole = is_whole
        # Where a free run begins and ends that goes on from the line before, and to the next one.
        self.free_from, self.free_to = first, end
        self.pieces, self.lanes, self.y = [], [], 0

    def x(self, address):
        return LEFT + (address - self.first) * self.scale

    def holes(self):
        """The free words of the line, each part of a run with the whole run."""
        at = self.first
        for first, end in [*((first, end) for _, first, end in self.pieces), (self.end, self.end)]:
            if first > at:
                run = self.free_from if at == self.first else at, self.free_to if first == self.end else first
                yield (at, first), run
            at = end


class Skipped:
    """Pages in a row that are not drawn: free ones, or the later ones of a large object."""

    def __init__(self, first, end, node):
        self.first, self.end, self.node = first, end, node

    def __str__(self):
        pages = f"page {self.first}" if self.end == self.first + 1 else f"pages {self.first} to {self.end - 1}"
        if self.node is not None:
            return f"{pages}: all of node {self.node.number}"
        return f"{pages}: free"


class Free:
    """Lines in a row without an object, which are not drawn."""

    def __init__(self, lines):
        self.first, self.end, self.pieces = lines[0].first, lines[-1].end, []

    def __str__(self):
        return f"{self.end - self.first} words from {self.first} on: free"


def folded(lines):
    """The lines of a page, of which free ones in a row are one."""
    for is_taken, group in itertools.groupby(lines, lambda it: bool(it.pieces)):
        found = list(group)
        yield from found if is_taken or len(found) < LEAST_FREE_LINES else [Free(found)]


def nodes_by_page(seen):
    """The nodes of each page that has some."""
    found = {}
    for node in seen.nodes:
        for page in range(node.place // seen.page_words, (node.place + node.size - 1) // seen.page_words + 1):
            found.setdefault(page, []).append(node)
    return found


def words_in_line(scale):
    return max(int(WIDTH / scale), 1)


def is_large(seen, nodes):
    return nodes[0].size > seen.page_words // 2


def lines_of_page(seen, page, nodes, scale):
    """As many lines as the words up to the last one that is taken need; a large object's page is one line."""
    start, end = page * seen.page_words, (page + 1) * seen.page_words
    if is_large(seen, nodes):
        lines = [Line(page, start, end, WIDTH / seen.page_words, is_whole=True)]
    else:
        count, taken = words_in_line(scale), nodes[-1].place + nodes[-1].size
        lines = [Line(page, at, min(at + count, end), scale) for at in range(start, taken, count)]
    for node in nodes:
        first, last = max(node.place, start), min(node.place + node.size, end)
        at = bisect.bisect_right(lines, first, key=lambda it: it.first) - 1
        while at < len(lines) and lines[at].first < last:
            lines[at].pieces.append((node, max(first, lines[at].first), min(last, lines[at].end)))
            at += 1
    join_holes(lines, start, end)
    return lines


def join_holes(lines, start, end):
    """Tells the lines of a page where the free runs at their ends begin and end."""
    for line in lines:
        line.free_from = start
        start = line.pieces[-1][2] if line.pieces else start
    for line in reversed(lines):
        line.free_to = end
        end = line.pieces[0][1] if line.pieces else end


def rows_of(seen, scale):
    """The rows of a panel from page 0 on: lists of lines, and pages that are skipped."""
    rows, taken = [], nodes_by_page(seen)
    for page in range(seen.pages):
        nodes = taken.get(page)
        node = nodes[0] if nodes and page - nodes[0].place // seen.page_words >= MOST_PAGES - 1 else None
        skips = nodes is None or node and (page + 1) * seen.page_words < node.place + node.size
        if not skips:
            rows.append(list(folded(lines_of_page(seen, page, nodes, scale))))
        elif rows and isinstance(rows[-1], Skipped) and rows[-1].node is node:
            rows[-1].end = page + 1
        else:
            rows.append(Skipped(page, page + 1, node))
    return rows


def lines_needed(seen, scale):
    """How many lines more than pages the panel takes."""
    more = 0
    for nodes in nodes_by_page(seen).values():
        if not is_large(seen, nodes):
            taken = (nodes[-1].place + nodes[-1].size - 1) % seen.page_words + 1
            more += -(-taken // words_in_line(scale)) - 1
    return more


def scale_for(panels):
    """The points for a word that these panels share, which all have few objects or all many."""
    for scale in SCALES:
        limits = [MORE_LINES_OF_FEW if seen.is_few else MORE_LINES_OF_MANY for seen in panels]
        if all(lines_needed(seen, scale) <= limit for seen, limit in zip(panels, limits)):
            return scale
    return SCALES[-1]


class Places:
    """Where an address of a drawn line is in the picture."""

    def __init__(self, lines):
        self.lines = lines
        self.firsts = [line.first for line in lines]

    def at(self, address):
        """The line, and how far right the middle of the word is; none where it isn't drawn."""
        i = bisect.bisect_right(self.firsts, address) - 1
        if i < 0 or address >= self.lines[i].end:
            return None
        line = self.lines[i]
        return line, line.x(address) + line.scale / 2
