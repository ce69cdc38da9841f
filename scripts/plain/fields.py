"""What a row knows of its data layout, and the fields that its types are made of."""
import re
from dataclasses import dataclass

from plain.layouts import Layout, layout_or_stop, numbers_of
from plain.rows import asked
from plain.types import read_type
from plain.words import Stop


@dataclass
class DataLayout:
    # no size reaches it
    bound: int
    # the bytes of a pointer, and of the integer that indexes
    pointer: int
    index: int
    # the alignment of each integer by its bytes, and of lists of fields
    integers: dict
    aggregate: int


@dataclass
class Field:
    """The text of its type, and its layout."""

    text: str
    layout: Layout

    def __str__(self):
        return self.text


def data_layout_of(bound, parts):
    """The data layout of which `bound` and `read-data-layout` answer so."""
    if not bound[0].isdecimal():
        raise Stop(bound)
    (most, bits), pointer = numbers_of(bound), re.search(r"pointer_size: Size\((\d+)", parts)[1]
    aligns = {name: int(align) for name, align in re.findall(r"(\w+)_align: Align\((\d+)", parts)}
    integers = {width: aligns[f"i{8 * width}"] for width in (1, 2, 4, 8, 16)}
    return DataLayout(most, int(pointer), bits // 8, integers, aligns["aggregate"])


def read_sized(words):
    """The text of a type."""
    return read_type(words).text


def read_field(words):
    """The text of a type, or of a slice of one."""
    first = words.at
    words.takes("slice")
    read_type(words)
    return words.since(first)


def known(row, read=read_field):
    """Asks for the row's data layout, and for the layouts of the fields between its parentheses, each read by this."""
    texts = row.words.list(read)
    row.words.end()
    if not texts:
        raise Stop("asks fields")
    facts = [row.line(name, row.data_layout) for name in ("bound", "read-data-layout")]
    told, layouts = yield from asked(facts, [row.line("layout", text) for text in texts])
    return data_layout_of(*told), [Field(text, layout_or_stop(layout)) for text, layout in zip(texts, layouts)]
