#!/usr/bin/env python3
"""check_header.py LIBRARY FILE.rs FILE.h [TRIPLE]: writes a C file that a compiler takes where the types under `repr(C)` of a Rust source that a header names
lie in C as they do in Rust: their sizes, their alignments, and the offsets of their fields, which the header has to name as the source does.

    python3 bindings/c/check_header.py target/librustc_abi.so src/lib.rs include/lib.h > check.c && cc -fsyntax-only check.c

The target is x86_64-unknown-linux-gnu where no triple is told. The status is 1 where the header names none of the types, and 2 where the source has a fault."""
import os, pathlib, re, sys

sys.dont_write_bytecode = True
sys.path.insert(0, os.path.join(os.path.dirname(os.path.abspath(__file__)), "../python"))
import rustc_abi


def c_names(header):
    """What C calls each type of a header, by its name there."""
    text = re.sub(r"/\*.*?\*/|//[^\n]*", " ", header, flags=re.S)
    names = {it[2]: f"{it[1]} {it[2]}" for it in re.finditer(r"\b(struct|union|enum)\s+(\w+)", text)}
    # (a typedef's last word, which stands for what is before it)
    names.update((it[1], it[1]) for it in re.finditer(r"\btypedef\b(?:[^;{]|\{[^}]*\})*?\b(\w+)\s*;", text))
    return names


def assertions(name, it):
    """The lines for a type, as C calls it."""
    facts = [(f"sizeof({name})", it.size), (f"_Alignof({name})", it.align)]
    facts += [(f"offsetof({name}, {field.name.removeprefix('r#')})", field.offset) for field in it.fields.values()]
    return [f'_Static_assert({what} == {number}, "{what} is {number} in Rust");' for what, number in facts]


def main(library, source, header, target="x86_64-unknown-linux-gnu"):
    try:
        module = rustc_abi.load(library).source(pathlib.Path(source), target)
    except rustc_abi.SourceFault as fault:
        print(f"check_header: {fault}", file=sys.stderr)
        return 2
    names = c_names(pathlib.Path(header).read_text(encoding="utf-8"))
    lines = [f'#include "{os.path.abspath(header)}"', "#include <stddef.h>"]
    for it in module.values():
        name = names.get(it.name.rpartition("::")[2])
        if name is not None and it.is_of_c:
            lines += assertions(name, it)
    for fault in module.faults:
        print(f"check_header: {fault}", file=sys.stderr)
    print("\n".join(lines))
    return 2 if module.faults else 1 if len(lines) == 2 else 0


if __name__ == "__main__":
    if len(sys.argv) not in (4, 5):
        sys.exit(__doc__)
    sys.exit(main(*sys.argv[1:]))
