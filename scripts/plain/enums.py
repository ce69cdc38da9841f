"""Enums at random: their size is the one that the rules have (docs/RULES.md, "Structs, and enums with a tag", "Enums with a niche")."""
from dataclasses import dataclass
from functools import cached_property

from plain.fields import DataLayout, known, read_sized
from plain.layouts import layout_of, width_of
from plain.placing import ALWAYS_SIZED, FieldList, ListKind, Repr, rounded_up, whole_size
from plain.rows import Tally, asked
from plain.words import listed

MOST_FIELDS = 5


@dataclass
class Enum:
    data_layout: DataLayout
    repr: Repr
    # for each variant its discriminant, and its fields
    numbers: list
    variants: list

    def __str__(self):
        variants = (f"{number} {listed(fields)}" for number, fields in zip(self.numbers, self.variants))
        return f"enum {self.repr} {listed(variants)}"

    @cached_property
    def width(self):
        """The bytes of the tag's integer: the one that is named, or the least that has 0 and the discriminants that count, which are all
        under C, and else those of variants with values. Under C it has no fewer than an `int`, where an index has as many."""
        if self.repr.integer:
            return int(self.repr.integer[1:]) // 8
        counting = [number for number, fields in zip(self.numbers, self.variants) if self.repr.is_c or has_values(fields)]
        least = width_with([0, *counting])
        return max(least, min(4, self.data_layout.index)) if self.repr.is_c else least

    def has_several(self):
        """Whether there are several variants to tell apart: two that are present, or any where the layout isn't free."""
        return sum(not is_absent(fields) for fields in self.variants) > 1 or not self.repr.is_free()

    def lists(self, kind):
        """The list of each variant."""
        return [FieldList(self.data_layout, fields, self.repr, kind) for fields in self.variants]

    def tagged(self):
        """The lists behind the tag's integer, which is aligned as any field is where C is asked for."""
        fields = [it for fields in self.variants for it in fields] if self.repr.is_c else []
        align = max([self.data_layout.integers[self.width], *(it.layout.align for it in fields)])
        return self.lists(ListKind("prefixed", self.width, align))

    @cached_property
    def untagged(self):
        """The lists that have nothing before them."""
        return self.lists(ALWAYS_SIZED)

    @cached_property
    def greatest(self):
        """The index of the greatest variant, the last of equals."""
        return max(range(len(self.untagged)), key=lambda at: (self.untagged[at].least_size, at))

    def free(self, layout):
        """How many numbers the largest niche of a layout has free."""
        if not layout.niche:
            return 0
        scalar = layout.niche[1]
        return (scalar.start - scalar.end - 1) % (1 << 8 * width_of(scalar, self.data_layout.pointer))

    def span(self):
        """How many variants there are from the first to the last that need a number: those that aren't absent, but for the greatest."""
        places = [at for at, fields in enumerate(self.variants) if at != self.greatest and not is_absent(fields)]
        return places[-1] - places[0] + 1 if places else 0

    def may_have_niche(self):
        """Whether the layout is free, and a field of the greatest variant has a number free for each variant that needs one."""
        fields = self.variants[self.greatest]
        return self.repr.is_free() and max((self.free(it.layout) for it in fields), default=0) >= self.span()

    def greatest_line(self, row):
        """The line that asks for the list of the greatest variant."""
        return row.line("univariant", self.repr, ALWAYS_SIZED, self.untagged[self.greatest])

    def leaves_room(self, layout):
        """Whether each list but the greatest, which has this layout, ends before its niche; or, laid after it, inside the whole."""
        start, scalar = layout.niche
        end, whole = start + width_of(scalar, self.data_layout.pointer), whole_size(self.untagged)
        others = [it for at, it in enumerate(self.untagged) if at != self.greatest]
        return all(it.least_size <= start or rounded_up(end, it.align()) + it.least_size <= whole for it in others)

    def expected(self, layout):
        """How large the enum has to be, or which refusal it has to have; the layout is that of the greatest variant's list, where it may be
        the one with the niche."""
        if self.repr.pack:
            return "refused ReprConflict"
        size = whole_size(self.tagged())
        if size >= self.data_layout.bound:
            return "refused SizeOverflow"
        return whole_size(self.untagged) if layout and layout.niche and self.leaves_room(layout) else size


def integer(width, is_signed):
    return f"{'i' if is_signed else 'u'}{8 * width}"


def width_with(numbers):
    """The bytes of the least integer that has these numbers, with a sign where one is negative."""
    is_signed = min(numbers) < 0
    return next(it for it in (1, 2, 4, 8, 16) if max(max(numbers), -1 - min(numbers)) < 1 << 8 * it - is_signed)


def has_values(fields):
    return not any(it.layout.is_uninhabited for it in fields)


def is_absent(fields):
    """Whether a variant is absent: without values, and without room."""
    takes_room = any(it.layout.is_unsized or it.layout.size > 0 or it.layout.align > 1 for it in fields)
    return not takes_room and not has_values(fields)


def some_repr(dice):
    """What is asked of an enum: in half of the cases nothing."""
    roll = dice.roll(16)
    if roll in (0, 1):
        return Repr(is_c=True)
    if roll in (2, 3):
        return Repr(integer=integer(dice.width(8), dice.is_one_of(2)))
    if roll == 4:
        return Repr(pack=dice.align())
    if roll in (5, 6):
        return Repr(align=dice.align())
    return Repr(is_c=True, align=dice.align()) if roll == 7 else Repr()


def some_numbers(dice, repr, data_layout, count):
    """So many discriminants, one after another, from 0 or -1 on, but for the last one, which needs an integer of a width at random."""
    most = int(repr.integer[1:]) // 8 if repr.integer else data_layout.index
    is_signed = not (repr.integer or "i").startswith("u")
    first, last = -1 if is_signed and dice.is_one_of(3) else 0, 1 << 8 * (dice.width(most) - 1)
    return [first + place for place in range(count - 1)] + [max(last, first + count - 1)]


def some_enum(dice, data_layout, fields):
    """An enum of two to six variants of at most five of these fields."""
    repr, count = some_repr(dice), 2 + dice.roll(5)
    numbers = some_numbers(dice, repr, data_layout, count)
    return Enum(data_layout, repr, numbers, [dice.some_of(fields, MOST_FIELDS) for _ in range(count)])


def judged(it, answer, greatest):
    """What an enum is found to be: without several variants; told apart by a niche or a tag, and as large as it has to be; refused, as it
    has to be; or wrong."""
    if not it.has_several():
        return "other"
    expected, layout = it.expected(greatest), layout_of(answer)
    if expected in ("refused ReprConflict", "refused SizeOverflow") and answer == expected:
        return "packed" if it.repr.pack else "too-large"
    if not layout or not layout.tag or layout.size != expected:
        return "wrong"
    return "tag" if layout.is_direct else "niche"


def tried(row):
    """`random-enums SEED COUNT ( T .. )`"""
    data_layout, fields = yield from known(row, read_sized)
    enums = [some_enum(row.dice, data_layout, fields) for _ in range(row.count)]
    lines = [row.line("layout", it) for it in enums]
    # (where the niche lies is told by the greatest variant's own list)
    own = {at: it.greatest_line(row) for at, it in enumerate(enums) if it.may_have_niche()}
    answers, lists = yield from asked(lines, list(own.values()))
    greatest = dict(zip(own, map(layout_of, lists)))
    tally = Tally("niche", "tag", "packed", "too-large", "other")
    for at, (it, line, answer) in enumerate(zip(enums, lines, answers)):
        tally.count(judged(it, answer, greatest.get(at)), line, answer)
    return tally
