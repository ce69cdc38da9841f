"""Lists at random: their size is the least that trying every order finds."""
from plain.fields import known
from plain.layouts import layout_of
from plain.placing import some_list
from plain.rows import Tally, asked

MOST_FIELDS = 6


def judged(it, answer):
    """What a list is found to be: of the least size, which source order has too, or `less` than source order has; refused for an unsized
    field that it has; refused, and too large in each order; or wrong."""
    layout, fits = layout_of(answer), it.least_size < it.data_layout.bound
    if answer == "refused UnexpectedUnsized" and it.has_unsized():
        return "unsized"
    if answer == "refused SizeOverflow" and not fits:
        return "too-large"
    if not layout or not fits or it.has_unsized() or layout.size != it.least_size:
        return "wrong"
    return "less" if it.source_size() > it.least_size else "least"


def tried(row):
    """`random-lists SEED COUNT ( L .. )`"""
    data_layout, fields = yield from known(row)
    lists = [some_list(row.dice, data_layout, fields, MOST_FIELDS) for _ in range(row.count)]
    lines = [row.line("univariant", it.repr, it.kind, it) for it in lists]
    [answers] = yield from asked(lines)
    tally = Tally("least", "less", "too-large", "unsized")
    for it, line, answer in zip(lists, lines, answers):
        tally.count(judged(it, answer), line, answer)
    return tally
