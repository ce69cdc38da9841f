"""Types, as the words of docs/FORMATS.md tell them."""
from dataclasses import dataclass, field


@dataclass
class Type:
    """A type: its text, what it is, and the types of its parts, list by list: those of an array's and of a vector's elements, of a pair's
    numbers, of the fields, of each variant, or those of a coroutine's prefix and those of its locals."""

    text: str
    what: str
    lists: list = field(default_factory=list)
    # how many elements there are
    count: int = 0
    # for each state of a coroutine the indices of its locals
    states: list = field(default_factory=list)

    def each(self):
        """The type, and each type in it."""
        yield self
        for part in (part for parts in self.lists for part in parts):
            yield from part.each()


def read_number(words):
    return words.number()


def read_numbers(words):
    return words.list(read_number)


def read_primitive(words):
    if words.word() == "ptrin":
        words.number()


def read_scalar(words):
    first = words.at
    if words.takes("range"):
        read_primitive(words)
        words.number()
        words.number()
    else:
        words.takes("unionof")
        read_primitive(words)
    return Type(words.since(first), "scalar")


def read_types(words):
    return words.list(read_type)


def read_variant(words):
    """The fields of a variant, behind its discriminant."""
    words.word()
    return read_types(words)


def read_parts(words):
    """What the type is that is next, and behind that what `Type` has."""
    if words.takes("never"):
        return "never", []
    if words.takes("unit"):
        return "unit", []
    if words.takes("pair"):
        return "pair", [[read_scalar(words), read_scalar(words)]]
    if words.takes("array", "simd", "psimd"):
        count = words.number()
        return "elements", [[read_type(words)]], count
    if words.takes("struct"):
        words.word()
        return "fields", [read_types(words)]
    if words.takes("ordered"):
        words.word()
        read_numbers(words)
        return "fields", [read_types(words)]
    if words.takes("union"):
        words.word()
        return "union", [read_types(words)]
    if words.takes("enum"):
        words.word()
        return "variants", words.list(read_variant)
    if words.takes("coroutine"):
        lists, states = [read_types(words), read_types(words)], words.list(read_numbers)
        read_numbers(words)
        return "states", lists, 0, states
    read_scalar(words)
    return "scalar", []


def read_type(words):
    first = words.at
    parts = read_parts(words)
    return Type(words.since(first), *parts)
