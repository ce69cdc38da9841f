"""Coroutines at random: locals share no byte that they may not share, and where the states may share all their bytes, the size is the one
that follows (docs/RULES.md, "Coroutines")."""
from dataclasses import dataclass
from itertools import combinations

from plain.fields import DataLayout, Field, known, read_sized
from plain.layouts import Layout, layout_of
from plain.placing import ALWAYS_SIZED, FieldList, ListKind, Repr, whole_size
from plain.rows import Tally, asked
from plain.words import listed

MOST_PREFIX, MOST_LOCALS = 2, 6


@dataclass
class Place:
    """Bytes of a coroutine: of which local, unless they are a prefix field's or the tag's; and of which state."""

    local: int
    state: int
    start: int
    end: int

    def is_apart(self, other):
        return self.end <= other.start or other.end <= self.start


@dataclass
class Coroutine:
    data_layout: DataLayout
    prefix: list
    locals: list
    # for each state the indices of its locals
    states: list
    # pairs of locals that may not share bytes, in either direction
    conflicts: list

    def __str__(self):
        states, conflicts = map(listed, self.states), (local for pair in self.conflicts for local in pair)
        return f"coroutine {listed(self.prefix)} {listed(self.locals)} {listed(states)} {listed(conflicts)}"

    def stand_together(self, a, b):
        """Whether a state holds both locals."""
        return any(a in held and b in held for held in self.states)

    def do_clash(self, a, b):
        """Whether two locals may not share bytes: the conflicts name them, or some state holds both."""
        return (a, b) in self.conflicts or (b, a) in self.conflicts or self.stand_together(a, b)

    def has_shared(self):
        """Whether some local stands in several states."""
        held = [local for held in self.states for local in held]
        return len(held) > len(set(held))

    def may_overlap(self):
        """Whether the states may share all their bytes: each local stands in one state, two states hold locals, and no conflict names
        locals of different states."""
        is_each_held = sorted(local for held in self.states for local in held) == list(range(len(self.locals)))
        return is_each_held and sum(map(bool, self.states)) >= 2 and all(self.stand_together(a, b) for a, b in self.conflicts)

    def tag(self):
        """The least integer that has the last state's number, which is one of a byte."""
        return Field("u8", Layout(size=1, align=self.data_layout.integers[1]))

    def places(self, layout):
        """Where the locals of each state lie, and with them the prefix fields and the tag behind them. None where one has no place."""
        places, shared = [], [*self.prefix, self.tag()]
        if len(layout.offsets) != len(shared) or len(layout.variants) != len(self.states):
            return None
        for state, (held, variant) in enumerate(zip(self.states, layout.variants)):
            if len(variant.offsets) != len(held):
                return None
            parts = [(None, it, offset) for it, offset in zip(shared, layout.offsets)]
            parts += [(local, self.locals[local], offset) for local, offset in zip(held, variant.offsets)]
            places += [Place(local, state, offset, offset + it.layout.size) for local, it, offset in parts]
        return places

    def agree(self, a, b):
        """Whether two places are as they have to be: those of one local the same, and those that clash, or stand in one state, apart."""
        if a.local is None or b.local is None:
            return a.is_apart(b) or a.state != b.state
        if a.local == b.local:
            return a.start == b.start
        return a.is_apart(b) or not self.do_clash(a.local, b.local)

    def lies_well(self, layout):
        """Whether each part has a place that ends inside, and each two are as they have to be."""
        places = self.places(layout)
        if places is None or any(it.end > layout.size for it in places):
            return False
        return all(self.agree(a, b) for a, b in combinations(places, 2))

    def overlap_size(self):
        """How large it has to be where its states may share all their bytes: the prefix fields and the tag are a list, and each state is
        one behind them, all in the best order."""
        first = FieldList(self.data_layout, [*self.prefix, self.tag()], Repr(), ALWAYS_SIZED)
        kind = ListKind("prefixed", first.least_size, first.align())
        lists = [first] + [FieldList(self.data_layout, [self.locals[it] for it in held], Repr(), kind) for held in self.states]
        return whole_size(lists)


def some_states(dice, count):
    """Two to five states of so many locals: each local in one of them, and in half of the cases now and then in another."""
    sharing, states = dice.is_one_of(2), 2 + dice.roll(4)
    homes = [dice.roll(states) for _ in range(count)]
    return [[local for local in range(count) if homes[local] == state or (sharing and dice.is_one_of(6))] for state in range(states)]


def some_conflicts(dice, count):
    """Some pairs of so many locals."""
    if not count or dice.is_one_of(3):
        return []
    return [(dice.roll(count), dice.roll(count)) for _ in range(dice.roll(6))]


def some_coroutine(dice, data_layout, fields):
    prefix, own = dice.some_of(fields, MOST_PREFIX), dice.some_of(fields, MOST_LOCALS)
    return Coroutine(data_layout, prefix, own, some_states(dice, len(own)), some_conflicts(dice, len(own)))


def judged(it, answer):
    """What a coroutine is found to be: with states that may share all their bytes, and of the size that follows; else with a local that
    several states hold; else right all the same; or wrong."""
    layout = layout_of(answer)
    if not layout or not it.lies_well(layout):
        return "wrong"
    if it.may_overlap():
        return "overlapping" if layout.size == it.overlap_size() else "wrong"
    return "shared" if it.has_shared() else "other"


def tried(row):
    """`random-coroutines SEED COUNT ( T .. )`"""
    data_layout, fields = yield from known(row, read_sized)
    coroutines = [some_coroutine(row.dice, data_layout, fields) for _ in range(row.count)]
    lines = [row.line("layout", it) for it in coroutines]
    [answers] = yield from asked(lines)
    tally = Tally("shared", "overlapping", "other")
    for it, line, answer in zip(coroutines, lines, answers):
        tally.count(judged(it, answer), line, answer)
    return tally
