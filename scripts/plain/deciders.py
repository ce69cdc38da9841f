"""Types at random: a byte decides exactly where it isn't padding and each type in the type has values."""
from plain.grown import grown
from plain.layouts import layout_or_stop, runs_of
from plain.rows import Tally, asked

# So many places of a type are asked for, and the one behind it.
MOST_PLACES = 8


def places_of(runs):
    return {place for start, end in runs_of(runs) for place in range(start, end)}


def some_places(dice, size):
    """All places of a type of this size, or some, and the one behind it."""
    return [*(range(size) if size <= MOST_PLACES else sorted({dice.roll(size) for _ in range(MOST_PLACES)})), size]


def differ_at(a, b, size, place):
    """Whether two byte lists of this size differ at this place alone."""
    a, b = a.split(), b.split()
    return len(a) == len(b) == size and [at for at in range(size) if a[at] != b[at]] == [place]


def judged(size, place, decides, answer, held):
    """What a place of a type is found to be, where bytes have to decide or not: the pair that is told differs there alone, and what the
    first bytes hold the second don't; no bytes do; or wrong."""
    if answer == "none":
        return "wrong" if decides else "none"
    (a, _, b), (value, other) = answer.partition(" | "), held
    return "pair" if decides and differ_at(a, b, size, place) and value not in ("none", other) else "wrong"


def tried(row):
    """`random-deciders SEED COUNT`"""
    row.words.end()
    texts = [it.text for it in grown(row.dice, row.count)]
    told = yield from asked(*([row.line(name, text) for text in texts] for name in ("layout", "laid-padding", "all-inhabited")))
    tries = []
    for text, layout, padding, inhabited in zip(texts, *told):
        size = layout_or_stop(layout).size
        data = set(range(size)) - places_of(padding) if inhabited == "true" else set()
        tries += [(text, size, place, place in data) for place in some_places(row.dice, size)]
    lines = [row.line("decider", text, place) for text, _, place, _ in tries]
    [answers] = yield from asked(lines)
    pairs = [answer.partition(" | ") for answer in answers]
    reads = [[row.line("read", text, pair[at]) for (text, *_), pair in zip(tries, pairs) if pair[1]] for at in (0, 2)]
    held = iter(zip(*(yield from asked(*reads))))
    tally = Tally("pair", "none")
    for (_, size, place, decides), line, answer, pair in zip(tries, lines, answers, pairs):
        tally.count(judged(size, place, decides, answer, next(held) if pair[1] else ("none", "none")), line, answer)
    return tally
