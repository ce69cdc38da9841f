"""Types that grow from a few."""
from dataclasses import dataclass, field

from plain.words import listed

LEAVES = ["u8", "u16", "u32", "i32", "f32", "f64", "ppcf128", "ptr", "simd 4 f32", "unit", "never", "array 0 u32", "pair u8 u8"]
STRUCTS = ["struct -", "struct C", "struct C", "struct packed=1"]
UNIONS = ["union -", "union C"]
ENUMS = ["enum -", "enum u8", "enum C", "enum u32"]
# So many types stand beside one another, before others are begun.
MOST_BESIDE = 60
# No text of a type is longer.
MOST_LETTERS = 200


@dataclass
class Grown:
    """A type: its text, and the types of its fields, list by list; a type that isn't made of others has no list."""

    text: str
    lists: list = field(default_factory=list)

    def __str__(self):
        return self.text


def some_types(dice, types, usual):
    """At most four types: mostly of one, and now and then of another."""
    return [dice.one_of(types) if dice.is_one_of(6) else usual for _ in range(dice.roll(5))]


def next_type(dice, types):
    """A type that is made of these."""
    usual = dice.one_of(types)
    if dice.is_one_of(4):
        head = dice.one_of(ENUMS)
        lists = [some_types(dice, types, usual) for _ in range(dice.roll(4))]
        return Grown(f"{head} {listed(f'{number} {listed(it)}' for number, it in enumerate(lists))}", lists)
    if dice.is_one_of(5):
        return Grown(f"array {dice.roll(4)} {usual}", [[usual]])
    head, fields = dice.one_of(STRUCTS + UNIONS), some_types(dice, types, usual)
    return Grown(f"{head} {listed(fields)}", [fields])


def is_refused(it):
    """Whether the type has no layout: it is a union without fields."""
    return it.text.startswith("union") and it.lists == [[]]


def grown(dice, count):
    """So many types that come up one after another, but for those that are refused or whose text is too long."""
    types, found = [], []
    for _ in range(count):
        if not types or len(types) >= MOST_BESIDE:
            types = [Grown(text) for text in LEAVES]
        it = next_type(dice, types)
        if len(it.text) <= MOST_LETTERS and not is_refused(it):
            types.append(it)
            found.append(it)
    return found
