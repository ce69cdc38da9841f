"""Values at random: they are written and read back the same; bytes at random hold a value that is written and read back the same, or none;
and values that are spoiled are refused."""
from plain.layouts import layout_or_stop, runs_of
from plain.rows import Tally, asked
from plain.types import read_type
from plain.words import Stop, listed

# No type is larger, in bytes, and no array has more elements.
MOST_BYTES = 65_536


class NoValue(Exception):
    """A type without a value came up, or too many values."""


class Source:
    """Values of a type, as texts. Of the scalars and the unions in it the layouts are known, and how many data bytes a union has."""

    def __init__(self, dice, it, layouts, data_bytes):
        self.dice, self.it, self.layouts, self.data_bytes = dice, it, layouts, data_bytes
        # whether the next number is to be one that is too wide
        self.spoils = False

    def number(self, it):
        """A number of the scalar: an end of its range, or any in it; or one that is too wide, where one can be told."""
        layout = self.layouts[it.text]
        count, scalar = 1 << 8 * layout.size, layout.seen[0][1]
        if self.spoils and layout.size < 16:
            self.spoils = False
            return self.dice.one_of([count, 1 << 127])
        if scalar.start is None:
            return self.dice.roll(count)
        within = (scalar.end - scalar.start) % count + 1
        return (scalar.start + self.dice.one_of([0, within - 1, self.dice.roll(within)])) % count

    def each(self, types):
        return listed(map(self.value, types))

    def value(self, it):
        if it.what == "scalar":
            return str(self.number(it))
        if it.what == "pair":
            return " ".join(["pair", *(str(self.number(half)) for half in it.lists[0])])
        if it.what == "unit":
            return "( )"
        if it.what == "elements" and it.count <= MOST_BYTES:
            return self.each(it.lists[0] * it.count)
        if it.what == "fields":
            return self.each(it.lists[0])
        if it.what == "union":
            return f"union {listed(self.dice.bytes(self.data_bytes[it.text]).hex(' ').split())}"
        if it.what == "variants" and it.lists:
            index = self.dice.roll(len(it.lists))
            return f"variant {index} {self.each(it.lists[index])}"
        if it.what == "states":
            (prefix, held), state = it.lists, self.dice.roll(len(it.states))
            return f"state {state} {self.each(prefix)} {self.each([held[local] for local in it.states[state]])}"
        raise NoValue

    def right(self):
        """A value of the type, if one comes up."""
        try:
            return self.value(self.it)
        except NoValue:
            return None

    def wide(self):
        """The same with a first number that is too wide, if it has one."""
        self.spoils = True
        value = self.right()
        is_spoiled, self.spoils = not self.spoils, False
        return value if is_spoiled else None

    def long(self):
        """The same with one part more, if it has parts."""
        value = self.right()
        return value and value.endswith(")") and f"{value[:-1]}{'00' if value.startswith('union') else '0'} )"

    def some(self, way, count):
        """So many values of this way, as far as they come up."""
        return [value for value in (way() for _ in range(count)) if value]

    def contents(self, count):
        """So many byte lists of the type's size."""
        return [self.dice.bytes(self.layouts[self.it.text].size).hex(" ") for _ in range(count)]


def source_of(row, it):
    """Asks for what has to be known of the type to make values of it."""
    parts = {part.text: part for part in it.each() if part is it or part.what in ("scalar", "union")}
    unions = [text for text, part in parts.items() if part.what == "union"]
    told, paddings = yield from asked([row.line("layout", text) for text in parts], [row.line("laid-padding", text) for text in unions])
    layouts = {text: layout_or_stop(layout) for text, layout in zip(parts, told)}
    if layouts[it.text].size > MOST_BYTES:
        raise Stop("asks size")
    data_bytes = {text: layouts[text].size - sum(end - start for start, end in runs_of(runs)) for text, runs in zip(unions, paddings)}
    return Source(row.dice, it, layouts, data_bytes)


def write_each(row, it, values):
    return [row.line("write", it.text, value) for value in values]


def read_each(row, it, contents):
    """The lines that read these bytes; no bytes are written as `none`."""
    return [row.line("read", it.text, content.replace("none", "")) for content in contents]


def meant(answers):
    """The values that are read, as they are handed in: no bytes of a union are written as `none`."""
    return [answer.replace("( none )", "( )") for answer in answers]


def tried(row):
    """`random-values SEED COUNT T`"""
    it = read_type(row.words)
    row.words.end()
    source = yield from source_of(row, it)
    values, spoiled = source.some(source.right, row.count), source.some(source.wide, row.count) + source.some(source.long, row.count)
    contents = source.contents(row.count)

    writes, reads, spoils = write_each(row, it, values), read_each(row, it, contents), write_each(row, it, spoiled)
    written, found, refusals = yield from asked(writes, reads, spoils)
    held = [(line, value) for line, value in zip(reads, meant(found)) if value != "none"]
    kept, again = yield from asked(read_each(row, it, written), write_each(row, it, [value for _, value in held]))
    [held_again] = yield from asked(read_each(row, it, again))

    tally = Tally("kept", "held", "unread", "refused")
    tally.counts["unread"] = len(contents) - len(held)
    for value, line, answer, back in zip(values, writes, written, meant(kept)):
        tally.count("kept" if back == value else "wrong", line, answer)
    for (line, value), back in zip(held, meant(held_again)):
        tally.count("held" if back == value else "wrong", line, value)
    for line, answer in zip(spoils, refusals):
        tally.count("refused" if answer == "refused NotAValue" else "wrong", line, answer)
    return tally
