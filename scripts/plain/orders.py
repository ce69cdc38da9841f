"""Lists at random, each in each order that is handed in: their fields lie where a plain reading of placement has them."""
from dataclasses import replace

from plain.fields import known
from plain.layouts import layout_of
from plain.placing import some_list
from plain.rows import Tally, asked
from plain.words import listed

# So that no list has more than 24 orders.
MOST_FIELDS = 4


def with_free_order(it):
    """The list, whose repr is to leave the order free."""
    return replace(it, repr=replace(it.repr, is_c=False))


def judged(it, order, answer):
    """What a list in this order is found to be: placed as the order has it; refused, since the order isn't allowed, or by its first fault
    in memory order; or wrong."""
    if not it.may_have(order):
        return "bad-order" if answer == "refused BadOrder" else "wrong"
    fault, layout = it.fault(order), layout_of(answer)
    if fault and answer == fault:
        return "unsized" if fault == "refused UnexpectedUnsized" else "too-large"
    if fault or not layout or layout.order != list(order) or layout.size != it.size(order):
        return "wrong"
    return "placed" if dict(enumerate(layout.offsets)) == dict(zip(order, it.places(order)[0])) else "wrong"


def tried(row):
    """`random-orders SEED COUNT ( L .. )`"""
    data_layout, fields = yield from known(row)
    lists = [with_free_order(some_list(row.dice, data_layout, fields, MOST_FIELDS)) for _ in range(row.count)]
    tries = [(it, order) for it in lists for order in it.all_orders()]
    lines = [row.line("univariant-in-order", it.repr, it.kind, listed(order), it) for it, order in tries]
    [answers] = yield from asked(lines)
    tally = Tally("placed", "bad-order", "too-large", "unsized")
    for (it, order), line, answer in zip(tries, lines, answers):
        tally.count(judged(it, order, answer), line, answer)
    return tally
