"""Judges a report: each outcome of it is one that the definitions allow in the state before."""

from judging.commands import ANSWERS, Refused
from judging.heap import Heap
from judging.history import at, export, import_slot, threads_go, threads_join
from judging.pauses import gc_finish, gc_now, gc_start, gc_step
from judging.reports import Undecided, Unlawful, read_report, require

# How many ways to take the sets that are kept are looked at.
MOST_WAYS = 3000


def new(run, p, t, extra):
    heap, type = run.heap, run.types[t]
    if type.callbacks and run.wants_memory():
        return "memory"
    place = heap.place_for(2 + type.words + extra)
    if place is None:
        return "full"
    node = heap.add(type, extra, place)
    heap.slots[p] = node.number
    return f"node {node.number} at {place}"


# The commands whose answers depend on what is free, or on the history.
FREE_ANSWERS = {
    "new": new,
    "gc start": gc_start,
    "gc step": gc_step,
    "gc finish": gc_finish,
    "gc now": gc_now,
    "export": export,
    "import": import_slot,
    "at": at,
    "threads go": threads_go,
    "threads join": threads_join,
}


class Run:
    """One way to take the sets that the pauses kept, where the report doesn't tell them."""

    def __init__(self, options, types, commands, outcomes, ample, choices):
        self.types, self.commands, self.outcomes, self.ample = types, commands, outcomes, ample
        self.heap = Heap(options, types)
        self.at, self.went, self.taken, self.outcome = 0, 0, 0, None
        # The totals after so many commands.
        self.published = ["0 0 0"]
        # Which set is taken at each pause, and out of how many.
        self.choices, self.counts = choices, []

    def wants_memory(self):
        """Whether the command, which may, answers that memory is wanting."""
        return self.outcome.line == "memory" and not self.ample

    def others_come(self):
        """Where entries aren't told no thread runs."""

    def chosen(self, sets):
        require(sets, "no closed set with so many nodes goes with what is told of the dead")
        self.counts.append(len(sets))
        if len(self.choices) < len(self.counts):
            self.choices.append(0)
        return sets[self.choices[len(self.counts) - 1]]

    def answer(self, name, numbers):
        try:
            return ANSWERS[name](self.heap, *numbers) if name in ANSWERS else FREE_ANSWERS[name](self, *numbers)
        except Refused as refused:
            return f"refused {refused}"

    def step(self):
        """Judges the outcome of one command."""
        (name, *numbers), self.outcome = self.commands[self.at], self.outcomes[self.at]
        self.taken, self.heap.swept = 0, []
        line = self.answer(name, numbers)
        finalised = [f"finalise {n}" for n in self.heap.swept]
        require(self.outcome.finalised == finalised, f"{self.heap.swept} should be finalised")
        require(self.outcome.line == line, f"`{self.outcome.line}` stands where `{line}` should")
        self.published.append(f"{self.heap.objects} {self.heap.used} {self.heap.finalised}")
        self.at += 1

    def judge(self, end):
        while self.at < len(self.commands):
            self.step()
        wanted = f"end {self.heap.totals()}"
        require(end == wanted, f"`{end}` stands where `{wanted}` should")


def is_last(run):
    """Goes on to the next way to take the sets; whether there is none."""
    choices = run.choices
    while choices and choices[-1] + 1 >= run.counts[len(choices) - 1]:
        choices.pop()
    if choices:
        choices[-1] += 1
    return not choices


def told(run, fault):
    if run.at == len(run.commands):
        return f"the end: {fault}"
    name, *numbers = run.commands[run.at]
    return f"command {run.at + 1}, {name} {numbers}: {fault}"


def judge(options, types, commands, text, ample=False, kind=Run):
    """The run, of this kind, that the report is of; raises Unlawful where it isn't lawful. Where memory is ample,
    no want of it explains anything."""
    outcomes, end = read_report(text, types, commands)
    choices, furthest = [], (-1, "")
    for _ in range(MOST_WAYS):
        run = kind(options, types, commands, outcomes, ample, choices)
        try:
            run.judge(end)
            return run
        except Unlawful as fault:
            furthest = max(furthest, (run.at, told(run, fault)))
        if is_last(run):
            raise Unlawful(furthest[1])
    raise Undecided("too many sets may have been kept")
