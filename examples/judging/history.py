"""The region's history: what entries and orders do to the slots that threads share, and what they answer."""

import re

from judging.commands import named, read_into
from judging.reports import require


def node_in(heap, x):
    return heap.region.get(x, (None, False))[0]


def answer_in(heap, name, x):
    """What a call on the region answers."""
    if name not in ("import", "upgrade"):
        return "done"
    n = node_in(heap, x)
    return "null" if n is None else f"node {n}"


def read_region(heap, x):
    """A read from a weak slot is a weak read."""
    n, strong = heap.region.get(x, (None, False))
    if n is not None and not strong:
        heap.read_weakly(n)


def do_order(heap, name, x, y=None):
    """Does what an order of a thread says to the slots of the region."""
    if name == "upgrade":
        read_region(heap, x)
    slot = heap.region.pop(x, None)
    if slot and name != "clear":
        heap.region[x] = (slot[0], False) if name == "weaken" else slot
    if y is not None:
        heap.region.pop(y, None)
        if slot:
            heap.region[y] = (slot[0], True) if name == "upgrade" else slot


def take_other(heap, entry):
    """Takes an entry of a thread that runs."""
    _, j, name, *rest = entry.split(" ")
    require(int(j) in heap.running, f"`{entry}` is of no thread that runs")
    numbers = [int(it) for it in rest[: 2 if name in ("copy", "upgrade") else 1]]
    answer = answer_in(heap, name, numbers[0])
    wanted = " ".join(map(str, ["entry", j, name, *numbers, answer]))
    require(entry == wanted, f"`{entry}` stands where `{wanted}` should")
    do_order(heap, name, *numbers)


def take_others(run):
    """Takes the entries of threads before the owner's next one, and gives that, or nothing where it isn't told."""
    if run.taken == len(run.outcome.pieces):
        run.others_come()
        return None
    *others, own = run.outcome.pieces[run.taken]
    run.taken += 1
    for entry in others:
        take_other(run.heap, entry)
    return own


def check_own(own, text):
    wanted = f"entry 0 {text}"
    require(own in (None, wanted), f"`{own}` stands where `{wanted}` should")


def export(run, p, x):
    node = named(run.heap, p)
    if run.wants_memory():
        return "memory"
    own = take_others(run)
    check_own(own, f"export {x} {node.number} done")
    run.heap.region[x] = (node.number, True)
    return "ok"


def import_slot(run, x, p):
    if run.wants_memory():
        return "memory"
    own = take_others(run)
    check_own(own, f"import {x} {answer_in(run.heap, 'import', x)}")
    read_region(run.heap, x)
    return read_into(run.heap, p, node_in(run.heap, x), False)


def at(run, j, order):
    if run.wants_memory():
        return "memory"
    run.heap.queues[j].append(order)
    return "queued"


def threads_go(run):
    run.heap.running = [j for j, queue in run.heap.queues.items() if queue]
    run.went = run.at
    return f"going {len(run.heap.running)}"


def check_totals(run, answer, least):
    """Totals are those after one command, from the last before the threads went to the last before the join."""
    found = re.fullmatch(r"totals (\d+) .*", answer)
    ordinal = int(found[1]) if found else -1
    require(least <= ordinal <= run.at, f"`{answer}` isn't of a command between")
    wanted = f"totals {ordinal} {run.published[ordinal]}"
    require(answer == wanted, f"`{answer}` stands where `{wanted}` should")
    return ordinal


def check_thread(run, j, replies, entries):
    """A thread's replies are to its orders, and its entries are what these did."""
    least = run.went
    for order in run.heap.queues[j]:
        reply = next(replies, "no reply")
        require(reply.startswith(f"reply {j} "), f"`{reply}` stands where thread {j}'s reply to {order[0]} should")
        answer = reply.removeprefix(f"reply {j} ")
        if order[0] == "totals":
            least = check_totals(run, answer, least)
        elif answer != "memory" or run.ample:
            entry, wanted = next(entries, "no entry"), " ".join(["entry", str(j), *order, answer])
            require(entry == wanted, f"`{entry}` stands where `{wanted}` should")
    require(next(entries, None) is None, f"thread {j} has an entry of no order")


def threads_join(run):
    heap, outcome = run.heap, run.outcome
    for entry in outcome.pieces[0]:
        take_other(heap, entry)
    replies = iter(outcome.replies)
    for j in heap.running:
        check_thread(run, j, replies, iter([it for it in outcome.entries if it.startswith(f"entry {j} ")]))
    require(next(replies, None) is None, "a reply is to no order")
    joined, heap.running = heap.running, []
    heap.queues.update({j: [] for j in joined})
    return f"joined {len(joined)}"
