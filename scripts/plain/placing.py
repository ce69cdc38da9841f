"""Where the fields of a list lie, order by order: no groups, no niches, no sorting (docs/RULES.md, "Lists of fields")."""
from dataclasses import dataclass
from functools import cached_property
from itertools import permutations

from plain.fields import DataLayout
from plain.words import listed


def rounded_up(number, align):
    """The least multiple of the alignment that is no less."""
    return -(-number // align) * align


@dataclass(frozen=True)
class Repr:
    is_c: bool = False
    integer: str = None
    pack: int = None
    align: int = None

    def __str__(self):
        words = {"C": self.is_c, self.integer: self.integer, f"packed={self.pack}": self.pack, f"align={self.align}": self.align}
        return ",".join(word for word, is_asked in words.items() if is_asked) or "-"

    def is_free(self):
        """Whether it leaves the order of fields to the calculator, and how variants are told apart."""
        return not self.is_c and not self.integer

    def cut(self, align):
        """The alignment, but no more than the pack's."""
        return min(align, self.pack or align)


@dataclass(frozen=True)
class ListKind:
    """What a list is; of a prefixed one the size and the alignment of what comes before it."""

    word: str
    size: int = 0
    align: int = 1

    def __str__(self):
        return f"{self.word} {self.size} {self.align}" if self.word == "prefixed" else self.word


ALWAYS_SIZED = ListKind("always-sized")
MAYBE_UNSIZED = ListKind("maybe-unsized")


@dataclass
class FieldList:
    data_layout: DataLayout
    fields: list
    repr: Repr
    kind: ListKind

    def __str__(self):
        return listed(self.fields)

    def align(self):
        """The greatest alignment of the fields, and of what comes before them, each no more than the pack's; and what is asked for."""
        own = self.data_layout.integers[1] if self.repr.pack else self.data_layout.aggregate
        aligns = [self.kind.align, *(it.layout.align for it in self.fields)]
        return max(own, self.repr.align or 1, *map(self.repr.cut, aligns))

    def places(self, order):
        """Where the fields of this order begin, one after another, and the end of the last."""
        places, end = [], rounded_up(self.kind.size, self.repr.cut(self.kind.align))
        for index in order:
            layout = self.fields[index].layout
            places.append(rounded_up(end, self.repr.cut(layout.align)))
            end = places[-1] + layout.size
        return places, end

    def size(self, order):
        return rounded_up(self.places(order)[1], self.align())

    def source_size(self):
        return self.size(range(len(self.fields)))

    def is_tail(self, index):
        """Whether the field may be unsized, and has to stay last."""
        return self.kind == MAYBE_UNSIZED and index == len(self.fields) - 1

    def has_unsized(self):
        """Whether a field is unsized that may not be."""
        return any(it.layout.is_unsized and not self.is_tail(index) for index, it in enumerate(self.fields))

    def all_orders(self):
        return permutations(range(len(self.fields)))

    def may_have(self, order):
        """Whether a list of this kind may have the order."""
        return self.kind != MAYBE_UNSIZED or self.is_tail(order[-1])

    @cached_property
    def least_size(self):
        """The least size over the orders that the list may have, by its kind and its repr."""
        if not self.repr.is_free():
            return self.source_size()
        return rounded_up(min(self.places(order)[1] for order in self.all_orders() if self.may_have(order)), self.align())

    def fault(self, order):
        """Which refusal the list has in this order: the first fault in memory order, or its size; None where it has a layout."""
        for index, place in zip(order, self.places(order)[0]):
            layout = self.fields[index].layout
            if layout.is_unsized and not self.is_tail(index):
                return "refused UnexpectedUnsized"
            if place + layout.size >= self.data_layout.bound:
                return "refused SizeOverflow"
        return "refused SizeOverflow" if self.size(order) >= self.data_layout.bound else None


def whole_size(lists):
    """The greatest of the least sizes of these lists, rounded up to their greatest alignment."""
    return rounded_up(max(it.least_size for it in lists), max(it.align() for it in lists))


def some_repr(dice):
    """What a list may ask for."""
    return Repr(
        is_c=dice.is_one_of(4),
        pack=dice.align() if dice.is_one_of(4) else None,
        align=dice.align() if dice.is_one_of(6) else None,
    )


def some_kind(dice, count):
    """What a list of so many fields may be."""
    roll = dice.roll(3)
    if roll == 0:
        return ALWAYS_SIZED
    if roll == 1 and count:
        return MAYBE_UNSIZED
    return ListKind("prefixed", dice.roll(12), dice.align())


def some_list(dice, data_layout, fields, most):
    """A list of at most so many of these fields."""
    some, repr = dice.some_of(fields, most), some_repr(dice)
    return FieldList(data_layout, some, repr, some_kind(dice, len(some)))
