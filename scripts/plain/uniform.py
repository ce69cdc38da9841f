"""Types at random: they are uniform with a register exactly where a plain reading finds it. Each register that its parts have, and none, is
tried: a type is uniform with a register where its parts fill it, each of them is uniform with that register or with none, and one of them
with it; with none where each part is (docs/RULES.md, "Walks over types")."""
from dataclasses import dataclass

from plain.grown import LEAVES, Grown, grown
from plain.layouts import layout_or_stop, width_of
from plain.rows import Tally, asked

NONE = "NoData"


@dataclass
class Part:
    """Where a part begins, how large it is, and which registers it is uniform with."""

    offset: int
    size: int
    registers: set


@dataclass
class Run:
    """The parts that all variants share, and where they end; then those of each variant, which begin there."""

    parts: list
    end: int
    variants: list


def register_of(primitive, size):
    """The register of a scalar that is so large."""
    if primitive == "ppcf128":
        return f"PpcF128 {size}"
    return f"{'Float' if primitive.startswith('f') else 'Integer'} {size}"


def chain_end(parts, start):
    """Where parts end that begin at the start, each where the one before ends; None where they don't."""
    for it in parts:
        if it.offset != start:
            return None
        start += it.size
    return start


def chained(parts):
    return Run(parts, chain_end(parts, 0), [])


class Reading:
    """What is found of types, whose layouts are known: a type stands behind those that it is made of."""

    def __init__(self, layouts, pointer):
        self.layouts, self.pointer, self.found = layouts, pointer, {}

    def part(self, it, offset):
        return Part(offset, self.layouts[it.text].size, self.found[it.text])

    def is_place_only(self, it):
        layout = self.layouts[it.text]
        return layout.size == 0 and layout.align == 1

    def fields(self, types, offsets):
        """The parts that fields are, but for those that are nothing but a place."""
        return [self.part(it, offset) for it, offset in zip(types, offsets) if not self.is_place_only(it)]

    def scalar(self, scalar, offset):
        size = width_of(scalar, self.pointer)
        return Part(offset, size, {register_of(scalar.primitive, size)})

    def run(self, it, layout):
        """How the parts of a type run; None where they run nowhere."""
        if layout.tag:
            tag = chained([self.scalar(layout.tag, offset) for offset in layout.offsets])
            variants = [self.fields(types, variant.offsets) for types, variant in zip(it.lists, layout.variants)]
            return Run(tag.parts, tag.end, variants)
        if layout.variant is None:
            return None
        if not it.lists and len(layout.seen) == 2:
            return chained([self.scalar(scalar, offset) for offset, scalar in layout.seen])
        types = it.lists[layout.variant] if it.lists else []
        if layout.shape == "union":
            parts = self.fields(types, [0] * len(types))
            return Run(parts, max((it.size for it in parts), default=0), [])
        if layout.shape == "stride":
            return Run([self.part(it, 0) for it in types] if layout.count else [], layout.size, [])
        return chained(self.fields(types, layout.offsets)) if layout.shape == "offsets" else None

    def of_parts(self, it, layout):
        """The registers that a type is uniform with as its parts."""
        run = self.run(it, layout)
        if not run or run.end is None:
            return set()
        ends = [chain_end(parts, run.end) for parts in run.variants]
        if None in ends or max([run.end, *ends]) != layout.size:
            return set()
        parts = run.parts + [part for parts in run.variants for part in parts]
        return {register for register in {NONE}.union(*(part.registers for part in parts)) if are_with(parts, register)}

    def read(self, it):
        """Finds the registers that a type is uniform with, NONE where that is none."""
        layout, found = self.layouts[it.text], set()
        if len(layout.seen) == 1:
            found.add(register_of(layout.seen[0][1].primitive, layout.size))
        elif layout.lane:
            found.add(f"Vector {layout.size} of {layout.lane.primitive}")
        elif not layout.is_unsized:
            found = self.of_parts(it, layout)
        self.found[it.text] = found


def are_with(parts, register):
    """Whether these parts are uniform with the register together: each with it or with none, and one of them with it."""
    occurs = register == NONE or any(register in it.registers for it in parts)
    return occurs and all(register in it.registers or NONE in it.registers for it in parts)


def judged(found, answer):
    """What a type is found to be: uniform with a register, or without bytes, or neither, as it is read; or wrong."""
    if answer == "Heterogeneous":
        return "wrong" if found else "refused"
    if found != {answer}:
        return "wrong"
    return "no-data" if answer == NONE else "register"


def tried(row):
    """`random-uniform SEED COUNT`"""
    row.words.end()
    leaves, types = [Grown(text) for text in LEAVES], grown(row.dice, row.count)
    lines = [row.line("uniform", it.text) for it in types]
    answers, told = yield from asked(lines, [row.line("layout", it.text) for it in leaves + types])
    layouts = {it.text: layout_or_stop(layout) for it, layout in zip(leaves + types, told)}
    reading = Reading(layouts, layouts["ptr"].size)
    for it in leaves + types:
        reading.read(it)
    tally = Tally("register", "no-data", "refused")
    for it, line, answer in zip(types, lines, answers):
        tally.count(judged(reading.found[it.text], answer), line, answer)
    return tally
