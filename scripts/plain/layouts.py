"""Layouts, as ./calls writes them (docs/FORMATS.md, "Layouts and lists")."""
import re
from dataclasses import dataclass, field

from plain.words import Stop

RANGE = r"(?:\d+\.\.=\d+|\(\.\.=\d+\) \| \(\d+\.\.\))"
SCALAR = rf"(?:union \S+|\S+ {RANGE})"
SHAPE = r"(?P<shape>primitive|union \d+|stride \d+ count (?P<count>\d+)|offsets(?P<offsets>(?: \d+)*) order(?P<order>(?: \d+)*))"
SEEN = rf"(?P<first>{SCALAR})(?: and (?P<second>{SCALAR}) at (?P<at>\d+))?|\d+ of (?P<lane>{SCALAR})|\d+ scalable \d+ of {SCALAR}"
LAYOUT = re.compile(
    rf"size (?P<size>\d+) align (?P<align>\d+)(?P<uninhabited> uninhabited)? {SHAPE} niche (?:none|(?P<place>\d+) (?P<niche>{SCALAR}))"
    rf"(?P<unsized> unsized)?(?: seen (?:{SEEN}))?(?: unadjusted \d+)?(?: max-repr-align \d+)?(?: repr-c)?"
    rf"(?P<empty> no-variant)?(?: variant (?P<variant>\d+))?(?: tag \d+ (?P<tag>{SCALAR}) (?P<encoding>direct|niche .*))?"
)


@dataclass
class Scalar:
    """A primitive, and the start and the end of its range, which that of a union hasn't."""

    primitive: str
    start: int = None
    end: int = None


@dataclass
class Layout:
    size: int
    align: int
    is_uninhabited: bool = False
    is_unsized: bool = False
    # how the fields lie: "primitive", "union", "stride" or "offsets"
    shape: str = "primitive"
    # how many elements an array has
    count: int = 0
    # the offsets of fields in source order, and their order in memory
    offsets: list = field(default_factory=list)
    order: list = field(default_factory=list)
    # the offset of the largest niche, and what lies there
    niche: tuple = None
    # what code generators see in place of bytes: one scalar or two, each at its offset, or the lane of a vector
    seen: list = field(default_factory=list)
    lane: Scalar = None
    # the index of the only variant, where there is one
    variant: int = None
    # the tag that tells variants apart, whether its number is the discriminant, and the variants
    tag: Scalar = None
    is_direct: bool = False
    variants: list = field(default_factory=list)


def numbers_of(text):
    return [int(it) for it in re.findall(r"\d+", text or "")]


def runs_of(text):
    """Runs of bytes: the first byte of each, and the one behind its last."""
    return [(int(start), int(end)) for start, end in re.findall(r"(\d+)\.\.(\d+)", text)]


def scalar_of(text):
    primitive, _, rest = text.partition(" ")
    if primitive == "union":
        return Scalar(rest)
    ends = numbers_of(rest)
    return Scalar(primitive, *(reversed(ends) if rest.startswith("(") else ends))


def seen_of(found):
    seen = [("0", found["first"]), (found["at"], found["second"])]
    return [(int(at), scalar_of(scalar)) for at, scalar in seen if scalar]


def whole_of(text):
    """The layout that a text tells, without its variants; None where it tells none."""
    found = LAYOUT.fullmatch(text)
    return found and Layout(
        size=int(found["size"]),
        align=int(found["align"]),
        is_uninhabited=bool(found["uninhabited"]),
        is_unsized=bool(found["unsized"]),
        shape=found["shape"].split()[0],
        count=int(found["count"] or 0),
        offsets=numbers_of(found["offsets"]),
        order=numbers_of(found["order"]),
        niche=(int(found["place"]), scalar_of(found["niche"])) if found["niche"] else None,
        seen=seen_of(found),
        lane=scalar_of(found["lane"]) if found["lane"] else None,
        variant=None if found["empty"] or found["tag"] else int(found["variant"] or 0),
        tag=scalar_of(found["tag"]) if found["tag"] else None,
        is_direct=found["encoding"] == "direct",
    )


def layout_of(answer):
    """The layout that an answer tells; None where it tells none."""
    whole, *variants = answer.split("; ")
    layout = whole_of(whole)
    if layout:
        layout.variants = [whole_of(re.sub(r"^variant \d+ ", "", it)) for it in variants]
    return layout if layout and all(layout.variants) else None


def layout_or_stop(answer):
    """The layout that an answer tells; an answer that tells none is the row's, too."""
    layout = layout_of(answer)
    if not layout:
        raise Stop(answer)
    return layout


def width_of(scalar, pointer):
    """How many bytes a scalar's number has; a pointer has those that are handed in."""
    if scalar.primitive == "pointer":
        return pointer
    found = re.fullmatch(r"[a-z]+(\d+)b?", scalar.primitive)
    if not found:
        raise Stop(f"unreadable {scalar.primitive}")
    return int(found[1]) // 8
