"""Lays out one type, and prints the answer: python3 bindings/python/example.py target/librustc_abi.so"""

import sys

import rustc_abi

layouts = rustc_abi.load(sys.argv[1])
answer = layouts.layout("e-p:64:64-i64:64-i128:128", "struct - ( u8 u32 u16 )")
print(answer.text, end="")
sys.exit(answer.status)
