"""Judges the line of a summary. It is one of those of the ways in which threads may come in turn, where none of
them changes with what a pause is free to keep; or else it has its count of commands alone to be judged by."""

import re

from judging.history import do_order
from judging.plays import Play
from judging.reports import require
from judging.runs import MOST_WAYS, is_last


class Turns(Play):
    """A heap whose threads do their orders in one of the ways that are open to them."""

    def __init__(self, options, types, keeps_most, choices):
        super().__init__(options, types, keeps_most)
        # Who comes at each turn, and out of how many.
        self.choices, self.counts, self.left = choices, [], {}

    def chosen(self, who):
        self.counts.append(len(who))
        if len(self.choices) < len(self.counts):
            self.choices.append(0)
        return who[self.choices[len(self.counts) - 1]]

    def threads_come(self):
        self.left = {j: list(self.heap.queues[j]) for j in self.heap.running}

    def others_come(self, is_join=False):
        """Some of the orders that are left are done before the owner goes on, and before a join all."""
        while ready := [j for j, orders in self.left.items() if orders]:
            j = self.chosen(ready if is_join else [None, *ready])
            if j is None:
                return
            name, *numbers = self.left[j].pop(0)
            if numbers:
                do_order(self.heap, name, *map(int, numbers))


def summary_of(play, commands):
    for command in commands:
        play.do(*command)
    heap = play.heap
    counts = f"objects {heap.objects} used {heap.used} finalised {heap.finalised} full {play.full}"
    return f"summary commands {len(commands)} cycles {play.pauses} {counts}\n"


def summaries_of(options, types, commands, keeps_most):
    """The line of each way in which the threads may come in turn, or nothing where these are too many."""
    choices, lines = [], []
    while len(lines) < MOST_WAYS:
        turns = Turns(options, types, keeps_most, choices)
        lines.append(summary_of(turns, commands))
        if is_last(turns):
            return lines
    return None


def judge_summary(options, types, commands, text, ample=False):
    """Raises Unlawful where the line isn't that of a lawful run."""
    least, most = (summaries_of(options, types, commands, keeps_most) for keeps_most in (False, True))
    is_free = not ample or least is None or least != most
    require(is_free or text in least, f"`{text}` stands where one of {set(least or ())} should")
    shape = rf"summary commands {len(commands)} cycles \d+ objects \d+ used \d+ finalised \d+ full \d+\n"
    require(re.fullmatch(shape, text), f"`{text}` counts the commands wrongly")
