"""Rust's types in gdb, by the shared library:

    (gdb) source bindings/python/rustc_abi_gdb.py
    (gdb) rust-source target/librustc_abi.so src/main.rs
    (gdb) rust-layout net::Header
    (gdb) rust-layout net::Header at $rsp+16
    (gdb) rust-check message

`rust-source` reads a source, with the files in its folder and below where it is a `main.rs` or a `lib.rs`, for a target if one stands behind it.
`rust-layout` tells where the parts of a type lie, or the value at an address; `rust-check` whether the bytes of an expression hold a value of its
type, and which, or the part whose bytes hold none; both with the bytes of each field. A type is called as the source does, without its crate.
"""

from __future__ import annotations

import os
import pathlib
import sys
from typing import Any, Optional

import gdb  # type: ignore[import-not-found, unused-ignore]

sys.path.insert(0, os.path.dirname(os.path.abspath(__file__)))
import rustc_abi

_read: Optional[rustc_abi.Module] = None


def _type_of(name: str) -> rustc_abi.TypeLayout:
    """The type of this name, which may have its crate's before it."""
    if _read is None:
        raise gdb.GdbError("no source is read: rust-source LIBRARY FILE [TRIPLE]")
    for known in (name, name.partition("::")[2]):
        if known in _read:
            return _read[known]
    fault = next((it for it in _read.faults if it.name in (name, name.partition("::")[2])), None)
    raise gdb.GdbError(f"no type is called {name}" if fault is None else str(fault))


def _evaluated(expression: str) -> Any:
    try:
        return gdb.parse_and_eval(expression)
    except gdb.error as error:
        raise gdb.GdbError(str(error))


def _held(it: rustc_abi.TypeLayout, address: int) -> str:
    """What the bytes at an address hold: the value, or the part whose bytes hold none; and the bytes by field."""
    content = gdb.selected_inferior().read_memory(address, it.size).tobytes() if it.size else b""
    try:
        value, wrong, parts = it.read(content), it.wrong_part(content), it.parts_of(content)
    except rustc_abi.Unsupported as error:
        raise gdb.GdbError(str(error))
    first = repr(value) if wrong is None else f"no value of {it.name}" + (f": {wrong} holds none" if wrong else "")
    return "\n".join([first, *(f"  {name}: {own.hex(' ')}" for name, own in parts or [("bytes", content)])])


def _lines(it: rustc_abi.TypeLayout) -> list[str]:
    lists = [("", it.fields), *((f"{variant}.", fields) for variant, fields in it.variants.items())]
    fields = [f"  {before}{field.name}: {field.type} at {field.offset}, {field.size} bytes" for before, all in lists for field in all.values()]
    return [f"{it.name}: size {it.size}, align {it.align}", *fields, *(f"  padding {start}..{end}" for start, end in it.padding or [])]


class _Command(gdb.Command):  # type: ignore[misc, unused-ignore]
    """A command that is carried out by a function over its argument."""

    def __init__(self, name: str, run: Any) -> None:
        self.__doc__ = run.__doc__
        super().__init__(name, gdb.COMMAND_DATA)
        self.run = run

    def invoke(self, argument: str, from_tty: bool) -> None:
        self.run(argument)


def _source(argument: str) -> None:
    """rust-source LIBRARY FILE [TRIPLE]: reads a Rust source."""
    global _read
    words = gdb.string_to_argv(argument)
    if len(words) not in (2, 3):
        raise gdb.GdbError("rust-source LIBRARY FILE [TRIPLE]")
    try:
        _read = rustc_abi.load(words[0]).source(pathlib.Path(words[1]), *words[2:])
    except (OSError, rustc_abi.SourceFault) as error:
        raise gdb.GdbError(str(error))
    print(f"{len(_read)} types, and {len(_read.faults)} faults")


def _layout(argument: str) -> None:
    """rust-layout TYPE [at ADDRESS]: where the parts of a type lie, or the value at an address."""
    name, _, place = argument.partition(" at ")
    it = _type_of(name.strip())
    print(_held(it, int(_evaluated(place))) if place else "\n".join(_lines(it)))


def _check(argument: str) -> None:
    """rust-check EXPR: whether the bytes of an expression hold a value of its type, and which."""
    value = _evaluated(argument)
    it = _type_of(str(value.type.strip_typedefs()))
    if value.type.sizeof != it.size:
        raise gdb.GdbError(f"{it.name} has {value.type.sizeof} bytes in the program, and {it.size} by its source")
    if value.address is None:
        raise gdb.GdbError(f"{argument} isn't in memory")
    print(_held(it, int(value.address)))


for _name, _run in (("rust-source", _source), ("rust-layout", _layout), ("rust-check", _check)):
    _Command(_name, _run)
