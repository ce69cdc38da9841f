#!/usr/bin/env python3
"""structured.py LIBRARY [COUNT [SEED]]: tries the calls by numbers of the shared library at LIBRARY against its texts: of COUNT types at random
(20,000, where it isn't told) it asks for the layout of the same type by text and by numbers, and writes the lines of the text anew from the
numbers. Of the values that bytes at random hold each has to be read as the same from what is written of it, and some have bytes as C and Rust
have them. What may be done with bytes has to agree with the values that are read, and of some types it is known. Prints the first that differs, or how many agreed; the status is 0 where all did."""
import os, random, struct, sys

sys.dont_write_bytecode = True
sys.path.insert(0, os.path.join(os.path.dirname(os.path.dirname(os.path.abspath(__file__))), "bindings/python"))
import rustc_abi
from rustc_abi import BOOL, F32, I32, U8, U16, U32, U64, U128, Many, Number, Primitive, Repr, Scalar, Shared, State, Two, Type, Variant

STRINGS = [
    "", "e-p:64:64-i64:64-i128:128", "E-p:32:32-i64:32-i128:64-f64:32", "e-p:16:16-i32:16-p1:32:32", "e-p:64:64:64:32-p5:32:32-a:8:16", "e-p:64",
    "e-i33:9", "e-p:7:8", "p:64:64-P1-A5-v64:32", "e-i128:x",
]
FLOATS = ("f16", "f32", "f64", "f128", "f16b", "ppcf128")
BITS = {"f16": 16, "f32": 32, "f64": 64, "f128": 128, "f16b": 16, "ppcf128": 128}


def primitive(dice):
    """A word, and the primitive with its width in bits; no pointers, whose width the string has, but into a space with a range."""
    if dice.random() < 0.75:
        signed, which = dice.random() < 0.3, dice.randrange(5)
        return f"{'i' if signed else 'u'}{8 << which}", Primitive(0, which, signed), 8 << which
    name = dice.choice(FLOATS)
    return name, Primitive(1, FLOATS.index(name)), BITS[name]


def scalar(dice):
    """A scalar as words and as an object."""
    what = dice.randrange(12)
    if what == 0:
        return "bool", Scalar(Primitive(0, 0), 0, 1)
    if what == 1:
        return "char", Scalar(Primitive(0, 2), 0, 0x10FFFF)
    if what == 2:
        space, start, end = dice.choice([0, 1, 5, 300]), dice.choice([0, 1, 7]), dice.choice([0, 65535, (1 << 32) - 1])
        word = "ptr" if space == 0 else f"ptrin {space}"
        if dice.random() < 0.3:
            return f"unionof {word}", Scalar(Primitive(2, space))
        return f"range {word} {start} {end}", Scalar(Primitive(2, space), start, end)
    name, it, bits = primitive(dice)
    if what == 3:
        return f"unionof {name}", Scalar(it)
    if what < 7:
        top = (1 << bits) - 1 if dice.random() < 0.95 else (1 << 128) - 1
        start, end = (dice.choice([0, 1, 2, top >> 1, top - 1, top, dice.randrange(top + 1)]) for _ in range(2))
        return f"range {name} {start} {end}", Scalar(it, start, end)
    return name, Scalar(it, 0, (1 << bits) - 1)


def asked(dice, kind):
    """A repr as a word and as an object, and whether the struct is always sized."""
    words, how, sized = [], {}, True
    if dice.random() < 0.25:
        words, how["c"] = [*words, "C"], True
    if dice.random() < 0.07:
        words, how["transparent"] = [*words, "transparent"], True
    if dice.random() < 0.1:
        words, how["linear"] = [*words, "linear"], True
    for name, key in (("packed", "packed"), ("align", "align")):
        if dice.random() < (0.03 if kind == "enum" else 0.15):
            how[key] = 1 << dice.choice([0, 1, 2, 3, 4, 7, 29])
            words.append(f"{name}={how[key]}")
    if dice.random() < (0.3 if kind == "enum" else 0.03):
        how["int"] = dice.choice(["usize", "isize", "u8", "i8", "u16", "i16", "u32", "i32", "u64", "i64", "u128", "i128"])
        words.append(how["int"])
    if kind == "struct" and dice.random() < 0.1:
        words, sized = [*words, "tail"], False
    dice.shuffle(words)
    return ",".join(words) or "-", Repr(**how), sized


def many(dice, depth, most):
    all = [random_type(dice, depth - 1) for _ in range(dice.randrange(most + 1))]
    return " ".join(it[0] for it in all), [it[1] for it in all]


def random_type(dice, depth):
    """A type as text, and as an object."""
    what = dice.randrange(16) if depth > 0 else dice.randrange(6)
    if what < 4:
        text, it = scalar(dice)
        return text, Type.scalar(it)
    if what == 4:
        (a, x), (b, y) = scalar(dice), scalar(dice)
        return f"pair {a} {b}", Type.pair(x, y)
    if what == 5:
        return dice.choice([("never", Type.never()), ("unit", Type.unit())])
    if what < 8:
        count = dice.choice([0, 1, 2, 3, 7, 300, 1 << 40, (1 << 64) - 1])
        text, it = random_type(dice, depth - 1)
        return f"array {count} {text}", Type.array(count, it)
    if what == 8:
        lanes, packed = dice.choice([0, 1, 2, 3, 4, 16, 32768, 32769]), dice.random() < 0.5
        text, it = random_type(dice, depth - 1 if dice.random() < 0.1 else 0)
        return f"{'psimd' if packed else 'simd'} {lanes} {text}", Type.vector(lanes, it, packed)
    if what < 12:
        word, repr, sized = asked(dice, "struct")
        text, all = many(dice, depth, 6)
        if dice.random() < 0.15:
            order = list(range(len(all)))
            dice.shuffle(order)
            if dice.random() < 0.1:
                order.append(dice.randrange(8))
            return f"ordered {word} ( {' '.join(map(str, order))} ) ( {text} )", Type.struct(all, repr, sized, order)
        return f"struct {word} ( {text} )", Type.struct(all, repr, sized)
    if what == 12:
        word, repr, _ = asked(dice, "union")
        text, all = many(dice, depth, 4)
        return f"union {word} ( {text} )", Type.union(all, repr)
    if what < 15:
        word, repr, _ = asked(dice, "enum")
        texts, all = [], []
        for index in range(dice.randrange(5)):
            number = index if dice.random() < 0.7 else dice.choice([-1, -128, 255, 256, 1 << 40, -(1 << 127), (1 << 128) - 1, 0])
            text, fields = many(dice, depth, 3)
            texts.append(f"{number} ( {text} )")
            all.append((number, fields))
        return f"enum {word} ( {' '.join(texts)} )", Type.enum(all, repr)
    (prefix, ps), (locals, ls) = many(dice, depth, 2), many(dice, depth, 4)
    most = len(ls) + (dice.random() < 0.05)
    states = [sorted(dice.sample(range(most), dice.randrange(most + 1))) for _ in range(dice.choice([0, 1, 2, 3, 3, 4]))]
    conflicts = [(dice.randrange(most), dice.randrange(most)) for _ in range(dice.randrange(4))] if most else []
    text = f"coroutine ( {prefix} ) ( {locals} ) ( {' '.join('( ' + ' '.join(map(str, it)) + ' )' for it in states)} ) ( {' '.join(f'{a} {b}' for a, b in conflicts)} )"
    return text, Type.coroutine(ps, ls, states, conflicts)


# ---- a layout's lines

def range_text(it):
    return f"{it.start}..={it.end}" if it.start <= it.end else f"(..={it.end}) | ({it.start}..)"


def scalar_text(it):
    return it.primitive.name if it.is_union else f"{it.primitive.name} {range_text(it)}"


def lines(layout):
    """The lines that `./layout` prints of it, but for the bytes that a variant leaves unused."""
    found = [f"size {layout.size} align {layout.align}"]
    if layout.is_uninhabited:
        found.append("uninhabited")
    fields = layout.fields
    if fields.kind == 2:
        found.append(f"elements stride {fields.stride} count {fields.count}")
    for index, offset in enumerate([0] * fields.count if fields.kind == 1 else fields.offsets):
        found.append(f"field {index} offset {offset}")
    variants = layout.variants
    for number, it in enumerate(variants.all):
        found += [f"variant {number}", *(f"field {index} offset {offset}" for index, offset in enumerate(it.offsets))]
    if variants.kind == 2:
        tag = f"tag {variants.index} {'direct' if variants.niche is None else 'niche'} {scalar_text(variants.tag)}"
        if variants.niche is not None:
            untagged, first, last, start = variants.niche
            tag += f" untagged {untagged} variants {first}..={last} start {start}"
        found.append(tag)
    niche = layout.largest_niche
    found.append("niche none" if niche is None else f"niche {niche.offset} {niche.scalar.primitive.name} {range_text(niche.scalar)}")
    found += ["padding not listed"] if layout.padding is None else [f"padding {at}..{at + size}" for at, size in layout.padding]
    return found


def structured(layouts, string, it):
    """The status and the lines that the numbers make."""
    try:
        return 0, lines(layouts.lay_out(string, it))
    except rustc_abi.Refused as refused:
        return 1, [f"refused {refused.name}"]


# ---- values

LITTLE, BIG = "e-p:64:64-i64:64-i128:128", "E-p:64:64-i64:64-i128:128"
C = Repr(c=True)
REFERENCE = Type.scalar(Scalar(Primitive(2, 0), 1, (1 << 64) - 1))

#: Values with their bytes as the processor, a C compiler and rustc have them.
WORKED = [
    (LITTLE, U32, Number(0x01020304), struct.pack("<I", 0x01020304)),
    (BIG, U32, Number(0x01020304), struct.pack(">I", 0x01020304)),
    (LITTLE, I32, Number((1 << 32) - 5), struct.pack("<i", -5)),
    (LITTLE, F32, Number(0x3FC00000), struct.pack("<f", 1.5)),
    (LITTLE, U128, Number((7 << 64) + 9), struct.pack("<QQ", 9, 7)),
    (BIG, U128, Number((7 << 64) + 9), struct.pack(">QQ", 7, 9)),
    (LITTLE, Type.unit(), Many(()), b""),
    (LITTLE, Type.array(3, U16), Many((Number(1), Number(2), Number(0xABCD))), struct.pack("<3H", 1, 2, 0xABCD)),
    (LITTLE, Type.struct([U8, U32, U16], C), Many((Number(7), Number(8), Number(9))), struct.pack("<BxxxIHxx", 7, 8, 9)),
    (BIG, Type.struct([U8, U32, U16], C), Many((Number(7), Number(8), Number(9))), struct.pack(">BxxxIHxx", 7, 8, 9)),
    (LITTLE, Type.pair(Scalar(Primitive(0, 0), 0, 255), Scalar(Primitive(0, 2), 0, (1 << 32) - 1)), Two(1, 2), struct.pack("<BxxxI", 1, 2)),
    (LITTLE, Type.enum([(3, []), (200, [])], Repr(int="u8")), Variant(1, ()), b"\xc8"),
    (LITTLE, Type.enum([(0, []), (1, [U32])], C), Variant(1, (Number(5),)), struct.pack("<II", 1, 5)),
    # (`Option<bool>`: `Some(true)` and `None`)
    (LITTLE, Type.enum([(0, []), (1, [BOOL])]), Variant(1, (Number(1),)), b"\x01"),
    (LITTLE, Type.enum([(0, []), (1, [BOOL])]), Variant(0, ()), b"\x02"),
    # (`Option<&T>`: `None`)
    (LITTLE, Type.enum([(0, []), (1, [REFERENCE])]), Variant(0, ()), bytes(8)),
    (LITTLE, Type.union([U8, U16], C), Shared(b"\x01\x02"), b"\x01\x02"),
]

#: A type, and what is no value of it.
NONE = [
    (BOOL, Number(2)), (U8, Number(256)), (U8, Many(())), (REFERENCE, Number(0)), (Type.never(), Many(())), (Type.array(2, U8), Many((Number(1),))),
    (Type.enum([(0, []), (1, [U64])]), Variant(2, ())), (Type.union([U8], C), Shared(b"")), (Type.struct([U8]), State(0, (), ())),
]

NUMBER = lambda which, signed, start, end: Type.scalar(Scalar(Primitive(0, which, signed), start, end))
HALF = Type.enum([(0, []), (1, [NUMBER(0, False, 0, 252)]), (2, []), (3, [])])

#: Types under the default data layout, and whether zeros hold a value of them, all bytes do, and all that hold one are initialised: found by
#: trying all bytes.
USES = [
    (Type.pair(Scalar(Primitive(0, 0), 0, 1), Scalar(Primitive(0, 0, True), 0, 255)), "yes no yes"), (NUMBER(1, True, 18429, 18428), "yes yes yes"),
    (NUMBER(0, True, 195, 164), "yes no yes"), (NUMBER(1, False, 24808, 36166), "no no yes"), (Type.never(), "no no yes"), (HALF, "yes no no"),
    (Type.enum([(it, []) for it in range(252, 256)], Repr(int="u8")), "no no yes"), (Type.enum([(0, []), (1, [])], Repr(align=2)), "yes no no"),
    (Type.struct([Type.scalar(Scalar(Primitive(0, 0)))], Repr(packed=1, align=2)), "yes yes no"), (Type.coroutine([], [], [[], []]), "yes no yes"),
]

#: Two types, and whether each value of the first is one of the second, with the least bytes that show a no; found so, too.
GOES = [
    (BOOL, U8, "yes"), (NUMBER(0, True, 0, 9), U16, "other size"), (U8, BOOL, "no", 2), (NUMBER(0, False, 255, 0), U8, "yes"), (U8, NUMBER(0, True, 42, 48), "no", 0),
    (Type.array(2, NUMBER(0, False, 1, 2)), NUMBER(1, False, 256, 767), "yes"), (Type.struct([U8, U8]), U16, "yes"), (Type.union([U16]), Type.array(2, U8), "no", 0, None),
    (BOOL, Type.enum([(0, []), (1, [BOOL])]), "yes"), (NUMBER(1, False, 256, 767), NUMBER(1, False, 1, 257), "no", 1, 2),
    (Type.scalar(Scalar(Primitive(2, 0), 0, (1 << 64) - 1)), U64, "yes"),
]


def worked_bytes(layouts):
    """What is wrong with the types of which it is known what may be done with their bytes."""
    for it, wanted in USES:
        found = layouts.bytes_of("", it)
        words = " ".join(answer.word for answer in (found.is_from_zeros, found.is_from_bytes, found.is_into_bytes))
        if words != wanted:
            return f"{it} has the answers {words}, and not {wanted}"
    for a, b, word, *cells in GOES:
        found = layouts.transmute("", a, b)
        if (found.goes.word, list(found.goes.cells)) != (word, cells) or found.has_pointer != (a.numbers[:3] == (0, 0, 2)):
            return f"{found} is answered for {a} and {b}"
    refusals = [((b"\xff", U8, U8), (2, [0])), ((b"", U8, Type((11,))), (2, [1])), ((b"e-p:7:8", U8, U8), (1, [1])), ((b"", Type.union([]), Type((11,))), (1, [12]))]
    for asked, wanted in refusals:
        found = layouts.transmute_numbers(asked[0], asked[1].numbers, asked[2].numbers)
        if found != wanted:
            return f"{found} is answered for {asked}"
    return None


def uses_agree(layouts, string, it, size):
    """What is wrong with the answers about a type's bytes, by the values that are read from these."""
    found, content = layouts.bytes_of(string, it), lambda cells: bytes(cell or 0 for cell in cells)
    if bool(found.is_from_zeros) != (layouts.read_value(string, it, bytes(size)) is not None):
        return f"zeros: {found.is_from_zeros}"
    if not found.is_from_bytes and layouts.read_value(string, it, content(found.is_from_bytes.cells)) is not None:
        return f"bytes: {found.is_from_bytes}"
    cells = found.is_into_bytes.cells
    if not found.is_into_bytes and (None not in cells or layouts.read_value(string, it, content(cells)) is None):
        return f"initialised: {found.is_into_bytes}"
    return None if layouts.transmute(string, it, it).goes else "its values aren't its own"


def worked_values(layouts):
    """What is wrong with the values whose bytes are known, and with what is none."""
    for string, it, value, content in WORKED:
        if layouts.write_value(string, it, value) != content or layouts.read_value(string, it, content) != value:
            return f"{value} of {it} isn't {content} under {string!r}"
        if layouts.read_value(string, it, content + b"\0") is not None:
            return f"{it} is read from a byte more than it has"
        if layouts.write_value_numbers(string.encode(), it.numbers, (*value.numbers, 0)) != (2, [2]):
            return f"{value} is written with a number more"
    for it, value in NONE:
        if layouts.write_value_numbers(LITTLE.encode(), it.numbers, value.numbers) != (3, []):
            return f"{value} of {it} is written"
    refusals = [((b"\xff", U8), (2, [0])), ((b"", Type((11,))), (2, [1])), ((b"e-p:7:8", U8), (1, [1])), ((b"e-i128:x", U8), (1, [33]))]
    for (string, it), wanted in refusals:
        found = layouts.write_value_numbers(string, it.numbers, Number(0).numbers), layouts.read_value_numbers(string, it.numbers, b"\0")
        if found != (wanted, wanted):
            return f"{found} is answered for {it} under {string!r}"
    return None


def read_back(layouts, dice, string, text, it):
    """How many values were read from bytes at random, and what is wrong with one of these. (A value is a list of its elements, also of those
    that take no bytes, and for too many there is no room.)"""
    layout = layouts.lay_out(string, it)
    if layout.size > 256 or any(many in text for many in (f"array {1 << 40} ", f"array {(1 << 64) - 1} ", "array 300 array 300 ")):
        return 0, None
    wrong = uses_agree(layouts, string, it, layout.size)
    if wrong:
        return 0, wrong
    found = 0
    for among in ([0], [0, 1], range(256)):
        content = bytes(dice.choice(among) for _ in range(layout.size))
        value = layouts.read_value(string, it, content)
        if value is None:
            continue
        found += 1
        written = layouts.write_value(string, it, value)
        if len(written) != layout.size or layouts.read_value(string, it, written) != value:
            return found, f"{value}, read from {content}, isn't read from {written}, which is written of it"
        unpadded = bytearray(content)
        for at, size in layout.padding:
            unpadded[at : at + size] = dice.randbytes(size)
            if any(written[at : at + size]):
                return found, f"{written}, written of {value}, isn't 0 in the padding at {at}"
        if layouts.read_value(string, it, bytes(unpadded)) != value:
            return found, f"{value}, read from {content}, isn't read from {bytes(unpadded)}, other in padding alone"
    return found, None


def write_asked(path, count, seed=0):
    """Writes what scripts/numbers.c asks: types at random, cut ones, and one nested in as many others as can be and in one more."""
    dice = random.Random(seed)
    asked = [(dice.choice(STRINGS), random_type(dice, dice.randrange(4))[1].numbers) for _ in range(count)]
    asked += [(string, numbers[: dice.randrange(len(numbers) + 1)]) for string, numbers in asked[: count // 4]]
    asked += [("", (4, 1) * depth + Type.unit().numbers) for depth in (200, 201, 5000)]
    asked += [("", (6, 0, 0, 0, 0, 0, 0, 1, 1) * depth + Type.unit().numbers) for depth in (200, 201)]
    with open(path, "wb") as file:
        for string, numbers in asked:
            it = string.encode()
            file.write(struct.pack(f"<I{len(it)}sI{len(numbers)}Q", len(it), it, len(numbers), *numbers))


def main():
    library = sys.argv[1]
    count = int(sys.argv[2]) if len(sys.argv) > 2 else 20000
    seed = int(sys.argv[3]) if len(sys.argv) > 3 else 0
    layouts, dice, statuses, values = rustc_abi.load(library), random.Random(seed), {}, 0
    wrong = worked_values(layouts) or worked_bytes(layouts)
    if wrong:
        print(f"structured: {wrong}")
        return 1
    for number in range(count):
        string = dice.choice(STRINGS[:4]) if dice.random() < 0.9 else dice.choice(STRINGS)
        text, it = random_type(dice, dice.randrange(4))
        answer = layouts.layout(string, text)
        wanted = answer.status, [line for line in answer.text.splitlines() if not line.startswith("unused ")]
        found = structured(layouts, string, it)
        if found != wanted:
            print(f"structured: {string!r}, {text}: by text {wanted}, by numbers {found}")
            return 1
        for behind in ((*it.numbers, 0), it.numbers[:-1]):
            if layouts.lay_out_numbers(string.encode(), behind)[0] == 0:
                print(f"structured: {text} with a number more or less is laid out: {behind}")
                return 1
        statuses[answer.status] = statuses.get(answer.status, 0) + 1
        held, wrong = read_back(layouts, dice, string, text, it) if answer.status == 0 else (0, None)
        if wrong:
            print(f"structured: {string!r}, {text}: {wrong}")
            return 1
        values += held
    if count >= 1000 and min(statuses.get(0, 0), statuses.get(1, 0), values) * 20 < count:
        print(f"structured: too few of a kind: {statuses}, and {values} values")
        return 1
    print(f"structured: {count} types have one layout by text and by numbers: {statuses.get(0, 0)} laid out, {statuses.get(1, 0)} refused; "
          f"{values} values were read from what was written of them")
    return 0


if __name__ == "__main__":
    sys.exit(main())
