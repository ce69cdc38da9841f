"""Texts with bytes that don't belong there, or without some that do."""


def break_text(source, dice):
    """A source with some bytes put in, taken out or doubled."""
    source = bytearray(source)
    for _ in range(dice.randint(1, 4)):
        at, length = dice.randrange(len(source) + 1), dice.choice([1, 1, 2, 5, 40])
        kind = dice.randrange(4)
        if kind == 0:
            source[at:at] = bytes(dice.choice(b"{}()[]<>;:,'\"#!&*=/\\ \n0x1_ar\xc3\x80\xff") for _ in range(length))
        elif kind == 1:
            del source[at : at + length]
        elif kind == 2:
            source[at:at] = source[at : at + length]
        else:
            other = dice.randrange(len(source) + 1)
            source[at:at] = source[other : other + length]
    return bytes(source)
