"""Draws what was seen of a heap at one moment: its pages as rows, and its objects as boxes at their places."""

from picturing.arrows import arrows
from picturing.layout import LEFT, WIDTH, Free, Places, Skipped, rows_of
from picturing.marks import FATES, box, colour, pin, points, text, width_of

# The heights of a line of few objects and of one of many, and of a lane of marks.
HIGH, LOW, LANE = 24, 9, 13
# What is left free below a line for arrows, and below one without.
ARROWS, GAP = 22, 3

# So many marks of one object are shown.
MOST_MARKS = 6

class Panel:
    """The rows of one moment, with the y at which each line begins."""

    def __init__(self, run, lines, seen, scale, is_boxed, y):
        self.run, self.lines, self.seen, self.scale, self.is_boxed, self.y = run, lines, seen, scale, is_boxed, y
        self.out, self.drawn = [], []
        self.height = HIGH if seen.is_few else LOW

    def title_of(self, node):
        """What is told where one points at an object."""
        run, n = self.run, node.number
        parts = [f"node {n}", f"type {run.type_of(node)}", f"at {node.place}", f"{node.size} words"]
        parts.append(f"made by line {self.lines[run.made[n] - 1]}")
        fate = run.fate(self.seen, n)
        if fate == "finalised":
            parts.append(f"condemned by this pause, finalised by line {self.lines[run.gone[n] - 1]}")
        else:
            parts.append(FATES[fate])
        if n in self.seen.dead and n in run.prefinalised:
            parts.append(f"prefinalizers that ran: {' '.join(run.prefinalised[n])}")
        if n in self.seen.handles:
            parts.append(f"named by {' '.join(self.seen.handles[n])}")
        return ", ".join(parts)

    def draw(self):
        """Draws all rows, and gives the y below them."""
        self.out.append(f'<g class="{"few" if self.seen.is_few else "many"}">')
        for row in rows_of(self.seen, self.scale):
            if isinstance(row, Skipped):
                self.draw_note(row)
            elif self.is_boxed:
                self.draw_row(row)
            else:
                self.draw_bar(row)
        for line in self.drawn:
            self.draw_marks(line)
        if self.seen.is_few:
            self.out += arrows(self.seen, Places(self.drawn), HIGH)
        self.out.append("</g>")
        return self.y

    def draw_note(self, skipped):
        self.out.append(text(LEFT, self.y + 11, str(skipped), "note"))
        self.y += 18

    def draw_row(self, lines):
        """The lines of a page, the first of which stands beside its number."""
        is_first = True
        for line in lines:
            if isinstance(line, Free):
                self.draw_name(lines[-1].page, line.first, self.y + 11, is_first)
                self.draw_note(line)
            else:
                self.place(line)
                self.draw_name(line.page, line.first, line.y + (HIGH / 2 if self.seen.is_few else 8), is_first)
                self.draw_line(line)
            is_first = False
        self.draw_rest(lines[-1])
        self.y += 0 if self.seen.is_few else 5

    def place(self, line):
        """Gives the line its y, below the lanes of its marks and above the arrows within it."""
        if self.seen.is_few:
            line.lanes = self.lanes_of(line)
            self.y += LANE * (1 + max((lane for lane, *_ in line.lanes), default=-1)) + 6
        line.y = self.y
        self.y += self.height + (ARROWS if self.seen.is_few else GAP)
        self.drawn.append(line)

    def draw_name(self, page, address, y, is_first):
        """What stands left of a line."""
        if is_first:
            self.out.append(text(LEFT - 8, y, f"page {page}", "right"))
        if self.seen.is_few:
            self.out.append(text(LEFT - 8, y + 12, f"at {address}", "right note"))

    def draw_rest(self, line):
        """How much of the page is free behind its last line, or that the page is drawn whole."""
        left = line.free_to - line.end
        if left or line.is_whole:
            said = f"{left} more words free" if left else "page drawn whole"
            self.out.append(text(line.x(line.end) + 4, line.y + self.height / 2 + 4, said, "note"))

    def draw_hole(self, line, first, end, run):
        """Free words; how many the run has is told too where it begins and an object follows."""
        x, width, count = line.x(first), (end - first) * line.scale, run[1] - run[0]
        title = f"free: {count} words from {run[0]} on"
        title += ", where no other object comes" if line.is_whole else ""
        self.out.append(box(x, line.y, width, self.height, "hole", title))
        said, is_last = f"{count} free", run[1] % self.seen.page_words == 0
        if self.seen.is_few and first == run[0] and not is_last and width_of(said, 10) < width:
            self.out.append(text(x + width / 2, line.y + HIGH / 2 + 4, said, "number note"))

    def draw_line(self, line):
        for (first, end), run in line.holes():
            self.draw_hole(line, first, end, run)
        for node, first, end in line.pieces:
            fate = self.run.fate(self.seen, node.number)
            kind = f"{fate} c{colour(self.run.type_of(node))}"
            x, width = line.x(first), (end - first) * line.scale
            self.out.append(box(x, line.y, width, self.height, kind, self.title_of(node)))
            if self.seen.is_few:
                self.draw_number(node, fate, x + width / 2, line.y + HIGH / 2 + 4, width)

    def draw_number(self, node, fate, x, y, width):
        long = f"node {node.number}, {node.size} words"
        said = next((it for it in (long, str(node.number)) if width_of(it, 10) + 4 <= width), None)
        if said:
            said += "?" if fate == "undecided" else ""
            self.out.append(text(x, y, said, "number" if fate == "live" else "number halo"))

    def marks_of(self, node):
        marks = self.seen.handles.get(node.number, [])
        more = [f"+{len(marks) - MOST_MARKS}"] if len(marks) > MOST_MARKS else []
        return " ".join(marks[:MOST_MARKS] + more)

    def lanes_of(self, line):
        """The texts over a line, each in the lowest lane that has room: lane, x and text."""
        ends, found = [], []
        for node, first, _ in line.pieces:
            said = self.marks_of(node)
            if said and first == node.place:
                # An arrow comes to the header's word.
                x = line.x(first) + line.scale
                lane = next((i for i, end in enumerate(ends) if end <= x), len(ends))
                ends[lane:lane + 1] = [x + width_of(said, 10) + 14]
                found.append((lane, x, said))
        return found

    def draw_marks(self, line):
        """What names an object stands over it."""
        if self.seen.is_few:
            for lane, x, said in line.lanes:
                y = line.y - 3 - lane * LANE
                if lane:
                    self.out.append(f'<path class="line" d="M{points(x + 4)} {points(line.y - 4)}V{points(y)}"/>')
                self.out += [pin(x + 4, line.y), text(x + 10, y, said, "mark")]
            return
        for node, first, _ in line.pieces:
            if first == node.place and node.number in self.seen.handles:
                self.out.append(pin(line.x(first) + node.size * line.scale / 2, line.y + 4))

    def draw_bar(self, lines):
        """A page with its words by what became of them, since there are too many objects for boxes."""
        page, words = lines[-1].page, {}
        start = page * self.seen.page_words
        for line in lines:
            for node, first, end in line.pieces:
                fate = self.run.fate(self.seen, node.number)
                words[fate] = words.get(fate, 0) + end - first
        x, scale = LEFT, WIDTH / self.seen.page_words
        self.out.append(text(LEFT - 8, self.y + 12, f"page {page}", "right"))
        for fate in [*filter(words.get, FATES), "hole"]:
            count = words.get(fate, self.seen.page_words - sum(words.values()))
            told = FATES.get(fate, "free")
            self.out.append(box(x, self.y, count * scale, 15, f"{fate} c7", f"{told}: {count} words of {start} on"))
            x += count * scale
        self.y += 20
