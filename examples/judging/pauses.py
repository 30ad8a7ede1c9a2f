"""Collections: what a start marks, what a step traces, and which sets a pause may keep."""

import itertools
import math
import re

from judging.commands import Refused
from judging.heap import closed
from judging.history import check_own, take_others
from judging.reports import Undecided, require

# How many sets are looked at for one pause.
MOST_SETS = 10_000


def begin(heap):
    """The start of a collection: what the roots reach may be kept, and what the strong slots name is marked."""
    heap.may, heap.traced = closed(heap.nodes, heap.roots()), 0
    heap.least, heap.most = heap.strong_slots(), heap.strong_slots()


def start_with_entry(run):
    run.heap.sweep_to_end()
    own = take_others(run)
    check_own(own, "start done")
    begin(run.heap)


def gc_start(run):
    if run.heap.may is not None:
        raise Refused("phase")
    if run.wants_memory():
        return "memory"
    start_with_entry(run)
    return "started"


def traced_by(heap, traced, done, ample):
    """Without markers: what is marked after the steps have traced so many objects."""
    heap.most = closed(heap.nodes, heap.most, traced)
    heap.traced += traced
    if done and ample:
        heap.least = closed(heap.nodes, heap.least, with_pairs=False)
        require(heap.traced >= len(heap.least), "a step was done while a marked object was not traced")
    require(heap.traced <= len(heap.most), "more objects were traced than can be marked")
    # Once a step is done, all that is marked is traced, so that many objects are.
    if done and ample and heap.traced == len(heap.most):
        heap.least = set(heap.most)
    if done and ample and heap.traced == len(heap.least):
        heap.most = set(heap.least)


def gc_step(run, most):
    if run.heap.may is None:
        raise Refused("phase")
    found = re.fullmatch(r"step traced (\d+) (done|more)", run.outcome.line)
    traced = int(found[1]) if found else 0
    if run.heap.markers:
        run.heap.traced += traced
        require(run.heap.traced <= len(run.heap.may), "more objects were traced than may be kept")
    else:
        traced_by(run.heap, traced, traced < most, run.ample)
    return f"step traced {min(traced, most)} {'done' if traced < most else 'more'}"


def check_stack(heap, want):
    if want == "precise" and heap.stack:
        raise Refused("stack")


def gc_finish(run, want):
    if run.heap.may is None:
        raise Refused("phase")
    check_stack(run.heap, want)
    return pause(run, want, run.heap.markers, not run.heap.markers)


def gc_now(run, want):
    if run.heap.may is not None:
        raise Refused("phase")
    check_stack(run.heap, want)
    if run.wants_memory():
        return "memory"
    start_with_entry(run)
    return pause(run, want, 0, False)


def pause(run, want, markers, by_marks):
    """A pause: one of the sets that it may keep is taken, and what follows from that is looked at."""
    heap, own = run.heap, take_others(run)
    least, most = bounds(heap, want, by_marks)
    line, kept_count = counts_in(run, markers)
    kept = run.chosen(list(kept_sets(run, least, most, kept_count)))
    mask, prefinalised = end_pause(heap, kept)
    check_own(own, f"pause {mask} done")
    require(run.outcome.prefinalised == prefinalised, f"the prefinalizers that ran should be {prefinalised}")
    return line


def bounds(heap, want, by_marks):
    """The least and the most that a pause keeps; where no marker runs, what is marked tells more."""
    hits = heap.hits() if want == "conservative" else set()
    least, most = closed(heap.nodes, heap.roots() | hits), closed(heap.nodes, heap.may | hits)
    if by_marks:
        least = closed(heap.nodes, least | heap.least)
        most &= closed(heap.nodes, heap.roots() | hits | heap.most)
    return least, most


def counts_in(run, markers):
    """Looks at the numbers of a pause's line, and gives the line as it should be, and how many are kept."""
    heap = run.heap
    found = re.fullmatch(r"pause kept (\d+) dead (\d+) crew (\d+) traced (\d+) walked ([01])", run.outcome.line)
    require(found, f"`{run.outcome.line}` stands where the line of a pause should")
    kept, _, crew, traced, walked = map(int, found.groups())
    require(markers or not crew, "a crew traced where no marker runs")
    require(heap.traced + crew + traced == kept, "steps, crew and pause have not traced each kept object once")
    require(not (walked and run.ample), "a pause walked where memory was there")
    dead = len(heap.live()) - kept
    return f"pause kept {kept} dead {dead} crew {crew} traced {traced} walked {walked}", kept


def told_dead(run):
    """What is told of a pause's dead later: those that the sweep finalised, and whether the sweep was ended."""
    numbers = set()
    for outcome in run.outcomes[run.at + 1 :]:
        numbers.update(int(it.split(" ")[1]) for it in outcome.finalised)
        if outcome.line in ("started", f"swept to {run.heap.pages}") or outcome.line.startswith("pause "):
            return numbers, True
    return numbers, False


def kept_sets(run, least, most, count):
    """The closed sets between these two with so many nodes that go with what is told of the dead."""
    heap, live = run.heap, run.heap.live()
    dead, whole = told_dead(run)
    ran = {int(it.split(" ")[1]) for it in run.outcome.prefinalised}
    dead |= ran
    registered = {n for n, _ in heap.registrations}
    known = live - dead if whole else registered - ran
    least = closed(heap.nodes, least | (known & most))
    open_ones = sorted(most - least - dead)
    more = count - len(least)
    fits = 0 <= more <= len(open_ones) and not least & dead
    require(fits, f"{count} are kept, where {sorted(least)} have to be and {open_ones} may be")
    if math.comb(len(open_ones), more) > MOST_SETS:
        raise Undecided(f"too many sets of {more} of {open_ones} may have been kept")
    for chosen in itertools.combinations(open_ones, more):
        kept = least | set(chosen)
        if closed(heap.nodes, kept) == kept:
            yield kept


def end_pause(heap, kept):
    """Condemns the others: weak handles are cleared, and then prefinalizers run. Gives the number for the slots
    of the region that were cleared, and the lines of the prefinalizers."""
    dead = heap.live() - kept
    for n in dead:
        heap.nodes[n].life = "dead"
    clear_fields(heap, dead)
    heap.weak = {w: n for w, n in heap.weak.items() if n not in dead}
    cleared = [x for x, (n, strong) in heap.region.items() if n in dead and not strong]
    for x in cleared:
        del heap.region[x]
    last_first = [it for it in reversed(heap.registrations) if it[0] in dead]
    for n, callback in last_first:
        run_callback(heap, heap.nodes[n], callback)
    heap.registrations = [it for it in heap.registrations if it[0] not in dead]
    heap.may, heap.cursor = None, 0
    return sum(2**x for x in cleared), [f"prefinalise {n} {callback}" for n, callback in last_first]


def clear_fields(heap, dead):
    """Clears the weak fields of live nodes that name dead ones, and the pairs whose key is dead."""
    for node in heap.nodes:
        if node.life == "live":
            cleared = [f for f, n in node.held("W") if n in dead]
            cleared += [f for f, (key, _) in node.held("E") if key in dead]
            node.fields.update({f: None for f in cleared})


def run_callback(heap, node, callback):
    """Does the action that callback 0 to 4 answers."""
    shown = node.shown()
    own = shown[1] if len(shown) > 1 else 0
    if node.kind(0) != "S" or node.get(0) is None:
        return
    other = heap.nodes[node.get(0)]
    if callback == 1 or callback == 4 and own:
        if other.count and other.kind(0) != "P":
            other.fields[0] = None
    elif callback in (2, 3) and other.count > 1 and other.kind(1) == "P":
        other.fields[1] = (other.get(1) + (1 if callback == 2 else own)) % 2**64
