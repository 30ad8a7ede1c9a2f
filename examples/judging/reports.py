"""A report by its commands: which lines each has written, and which part of the region's history it took."""

import re

FINALISING = ("new", "gc start", "gc now", "sweep")

OWN = r"0 (export \d+ \d+|import \d+|start|pause \d+)"
OTHER = r"\d ((copy|upgrade) \d+ \d+|(clear|weaken) \d+)"

# The lines of which a command may have any number, by their first word.
SHAPES = {
    "finalise": r"finalise \d+",
    "prefinalise": r"prefinalise \d+ \d+",
    "reply": r"reply \d .+",
    "entry": rf"entry ({OWN}|{OTHER}) (done|null|node \d+)",
}

# How the line begins by which a command tells that it made an entry.
DONE = {"export": "ok", "import": ("node ", "null"), "gc start": "started", "gc finish": "pause ", "gc now": "pause "}


class Unlawful(Exception):
    """The report isn't lawful; the text says why."""


class Undecided(Exception):
    """Too many sets may have been kept."""


def require(test, why):
    if not test:
        raise Unlawful(why)


class Outcome:
    """The lines of a command: those of finalisations, the one that answers it, and those behind a pause. For
    a join, those of replies and of entries stand before the one that answers it."""

    def __init__(self):
        self.finalised, self.replies, self.entries, self.prefinalised, self.line = [], [], [], [], None
        # For each entry of the owner the entries of threads before it, and itself; none where none is told.
        self.pieces = []


class Lines:
    def __init__(self, text):
        self.lines = text.split("\n")
        require(self.lines.pop() == "", "the last line has no end")
        self.at = 0

    def next(self):
        require(self.at < len(self.lines), "the report ends too soon")
        self.at += 1
        return self.lines[self.at - 1]

    def all_with(self, word):
        """The lines from here on that begin with this word."""
        first = self.at
        while self.at < len(self.lines) and self.lines[self.at].startswith(f"{word} "):
            self.at += 1
        found = self.lines[first : self.at]
        wrong = next((it for it in found if not re.fullmatch(SHAPES[word], it)), None)
        require(wrong is None, f"`{wrong}` is no line")
        return found


def outcome_of(command, lines):
    outcome = Outcome()
    if command[0] in FINALISING:
        outcome.finalised = lines.all_with("finalise")
    if command[0] == "threads join":
        outcome.replies, outcome.entries = lines.all_with("reply"), lines.all_with("entry")
    outcome.line = lines.next()
    if outcome.line.startswith("pause "):
        outcome.prefinalised = lines.all_with("prefinalise")
    return outcome


def own_entries(command, outcome):
    """How many entries of its own the command has made."""
    if command[0] not in DONE or not outcome.line.startswith(DONE[command[0]]):
        return 0
    return 2 if command[0] == "gc now" else 1


def next_piece(entries):
    """The entries up to and with the owner's next one, which are taken away."""
    at = next((i for i, it in enumerate(entries) if it.startswith("entry 0 ")), None)
    require(at is not None, "an entry of the owner is missing at the next join")
    piece = entries[: at + 1]
    del entries[: at + 1]
    return piece


def part_history(commands, outcomes):
    """Gives each command the part of the history that it took, by the entries that the next join tells."""
    first = 0
    for i, command in enumerate(commands):
        if command[0] == "threads join":
            entries = list(outcomes[i].entries)
            for before, outcome in zip(commands[first:i], outcomes[first:i]):
                outcome.pieces = [next_piece(entries) for _ in range(own_entries(before, outcome))]
            outcomes[i].pieces = [entries]
            first = i + 1


def read_report(text, types, commands):
    """The outcomes of the commands, and the end line."""
    lines = Lines(text)
    for t in range(len(types)):
        require(lines.next() == f"type {t}", f"type {t} isn't told as it should be")
    outcomes = [outcome_of(command, lines) for command in commands]
    end = lines.next()
    require(lines.at == len(lines.lines), f"lines stand behind `{end}`")
    part_history(commands, outcomes)
    return outcomes, end
