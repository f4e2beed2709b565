"""What is left out of the code again: numbers that are there already, what nobody reads, and jumps that go nowhere."""

from .code import (
    ENDING_CALLS,
    FAULTING,
    FIELDS,
    OPPOSITES,
    ZERO,
    changes,
    has_target,
    instructions_of,
    is_label,
    places_of,
    steps_of,
    successors,
    writes,
)
from .flow import live_before, live_behind, mask


def cleaned(items, always):
    """The items, of which nothing more can be left out. `always` has the numbers that registers hold for good."""
    while True:
        count = len(items)
        items = without_repeated_numbers(with_shorter_jumps(items), always)
        items = without_dead(items)
        if len(items) == count:
            return items


def without(items, places):
    """The items without the instructions at these places."""
    left, place = [], 0
    for item in items:
        if is_label(item) or place not in places:
            left.append(item)
        place += not is_label(item)
    return left


def without_dead(items):
    """Without the instructions whose result nobody reads, and without those that do nothing."""
    steps, code = steps_of(items), instructions_of(items)
    set_up = mask(*(one.d for one in code if one.source == "setup" and one.op == "const"))
    live = live_before(steps)
    dead = {place for place, one in enumerate(code) if is_dead(one, live_behind(steps[place], live), set_up)}
    return without(items, dead)


def is_dead(one, behind, set_up):
    if one.source == "setup":
        return one.op == "call" and not behind & set_up
    if one.op == "move" and one.d == one.a:
        return True
    return "d" in FIELDS[one.op] and one.op not in FAULTING and not writes(one) & behind


def with_shorter_jumps(items):
    """A branch over a jump is the opposite branch, a jump to the next place is none, a call before a ret is a jump, and what can't
    be reached isn't there."""
    made, place = [], 0
    while place < len(items):
        one, count = shortened(items, place)
        place += count
        if one is not None:
            made.append(one)
            place = next_label(items, place) if is_end(one) else place
    return made


def shortened(items, place):
    """What stands for the first items from a place on, None for nothing, and for how many."""
    one, behind = items[place], items[place + 1 : place + 3]
    if is_label(one):
        return one, 1
    if one.op in OPPOSITES and len(behind) == 2 and is_op(behind[0], "jump", "") and behind[1] == one.imm:
        return one._replace(op=OPPOSITES[one.op], imm=behind[0].imm), 2
    if is_op(one, "call", "", "pointer") and behind and is_op(behind[0], "ret", ""):
        return one._replace(op="jump"), 2
    if has_target(one) and one.op != "call" and goes_on_at(one.imm, items, place + 1):
        return None, 1
    return one, 1


def is_op(item, op, *callees):
    return not is_label(item) and item.op == op and item.callee in callees


def is_end(one):
    """Whether an item is an instruction behind which nothing comes."""
    return not is_label(one) and (one.op in ("jump", "ret") or one.op == "sys" and one.imm in ENDING_CALLS)


def next_label(items, place):
    while place < len(items) and not is_label(items[place]):
        place += 1
    return place


def goes_on_at(label, items, place):
    """Whether a label stands in front of the next instruction."""
    while place < len(items) and is_label(items[place]):
        if items[place] == label:
            return True
        place += 1
    return False


# Numbers that registers hold, by all ways that lead to a place.


def without_repeated_numbers(items, always):
    """Without the loads of numbers that their registers hold already."""
    code, places = instructions_of(items), places_of(items)
    repeated = set()
    for first, known in known_at_blocks(items, code, places, always).items():
        for place in block(first, code, set(places.values())):
            one = code[place]
            if one.op == "const" and known.get(one.d) == one.imm:
                repeated.add(place)
            known = known_behind(one, known, always)
    return without(items, repeated)


def known_behind(one, known, always):
    """What registers hold behind an instruction."""
    changed = changes(one)
    if one.op == "const":
        return known | {one.d: one.imm}
    if not changed:
        return known
    left = {register: value for register, value in known.items() if not changed >> register & 1}
    return left | always if one.op == "call" else left


def block(first, code, starts):
    """The places from one on, up to the next that is reached from elsewhere, or up to one behind which others come."""
    for place in range(first, len(code)):
        if place > first and place in starts:
            return
        yield place
        if code[place].op in OPPOSITES or is_end(code[place]):
            return


def known_at_blocks(items, code, places, always):
    """What registers hold at the first place of each block: what they hold by all ways to it. A function begins with what holds
    always."""
    starts = set(places.values())
    called = {places[one.imm] for one in code if one.op == "call" and not one.callee} | from_elsewhere(items, places)
    known = {place: dict(always) for place in called} | {place: {ZERO: 0} for place in first_places(places)}
    called |= first_places(places)
    ahead = sorted(known, reverse=True)
    while ahead:
        first = ahead.pop()
        here, place = known[first], first
        for place in block(first, code, starts):
            here = known_behind(code[place], here, always)
        for successor in successors(place, code[place], places):
            if successor < len(code) and successor not in called:
                before = known.get(successor)
                met = here if before is None else {r: v for r, v in before.items() if here.get(r) == v}
                if met != before:
                    known[successor] = dict(met)
                    ahead.append(successor)
    return known


def first_places(places):
    """The places that come before the numbers are there that hold always."""
    return {place for label, place in places.items() if label.startswith("entry_") or label == "setup"}


def from_elsewhere(items, places):
    """The places that are reached by more than what names their labels: helpers, and what the dispatch goes to."""
    found = {place for label, place in places.items() if label.startswith("helper_") or label == "dispatch"}
    dispatched = {item.imm for item in items if not is_label(item) and item.source == "dispatch" and has_target(item)}
    return found | {places[label] for label in dispatched}
