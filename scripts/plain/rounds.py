"""Rows that are answered side by side: what all of them ask in a round is asked at once, so that ./calls is started a few times only."""
import re

from plain import coroutines, deciders, enums, lists, orders, uniform, values
from plain.rows import Row
from plain.words import Stop

READINGS = {
    "random-lists": lists.tried,
    "random-orders": orders.tried,
    "random-enums": enums.tried,
    "random-coroutines": coroutines.tried,
    "random-uniform": uniform.tried,
    "random-deciders": deciders.tried,
    "random-values": values.tried,
}


def reading(call):
    """Asks lists of lines, is sent the answers to each, and returns that of the call: a call that isn't at random is itself a line."""
    name = re.match(r"(?:under +\S+ +)?(\S*)", call)[1]
    if name not in READINGS:
        return (yield [call])[0]
    try:
        return str((yield from READINGS[name](Row(call))))
    except Stop as stop:
        return str(stop)


def answered(calls, ask):
    """The answer of each call. `ask` is given the lines of a round, each once, and answers each."""
    found, sent, going = {}, {}, {place: reading(call) for place, call in enumerate(calls)}
    while going:
        asked = {}
        for place, it in going.items():
            try:
                asked[place] = it.send(sent.get(place))
            except StopIteration as end:
                found[place] = end.value
        lines = list(dict.fromkeys(line for own in asked.values() for line in own))
        told = dict(zip(lines, ask(lines))) if lines else {}
        sent = {place: [told[line] for line in own] for place, own in asked.items()}
        going = {place: going[place] for place in asked}
    return [found[place] for place in range(len(calls))]
