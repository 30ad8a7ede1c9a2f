"""Does the commands of a script by the definitions alone, without a report."""

from judging.commands import ANSWERS, Refused
from judging.heap import Heap
from judging.history import at, do_order, export, import_slot, threads_go
from judging.pauses import bounds, check_stack, end_pause, gc_start, start_with_entry
from judging.reports import Outcome
from judging.runs import new


class Play:
    """A heap on which memory never wants; each pause keeps the least that it may, or the most."""

    def __init__(self, options, types, keeps_most=False):
        self.heap, self.types, self.keeps_most = Heap(options, types), types, keeps_most
        self.at = self.taken = self.pauses = self.full = 0
        self.outcome = Outcome()

    def wants_memory(self):
        return False

    def pause(self, want):
        end_pause(self.heap, bounds(self.heap, want, False)[self.keeps_most])
        self.pauses += 1

    def threads_come(self):
        """The threads do their orders one after the other, before the owner goes on: one way of many."""
        for name, *numbers in [order for j in self.heap.running for order in self.heap.queues[j]]:
            if numbers:
                do_order(self.heap, name, *map(int, numbers))

    def others_come(self, is_join=False):
        """No order is left."""

    def do(self, name, *numbers):
        """Does a command, and says whether it was refused."""
        self.at += 1
        try:
            ANSWERS[name](self.heap, *numbers) if name in ANSWERS else PLAYS[name](self, *numbers)
        except Refused:
            return True
        return False


def make(play, p, t, extra):
    play.full += new(play, p, t, extra) == "full"


def step(play, most):
    if play.heap.may is None:
        raise Refused("phase")


def finish(play, want):
    step(play, None)
    check_stack(play.heap, want)
    play.pause(want)


def collect(play, want):
    if play.heap.may is not None:
        raise Refused("phase")
    check_stack(play.heap, want)
    start_with_entry(play)
    play.pause(want)


def go(play):
    threads_go(play)
    play.threads_come()


def join(play):
    play.others_come(is_join=True)
    play.heap.queues.update({j: [] for j in play.heap.running})
    play.heap.running = []


PLAYS = {
    "new": make,
    "gc start": gc_start,
    "gc step": step,
    "gc finish": finish,
    "gc now": collect,
    "export": export,
    "import": import_slot,
    "at": at,
    "threads go": go,
    "threads join": join,
}
