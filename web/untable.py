#!/usr/bin/env python3
"""untable.py MODULE.wasm: takes the empty table out of a module for wasm64. The linker always makes one, with places of 64 bits, which
Debian's binaryen and node can't read. No function is called through it: it stops where a function stands in the table, and a call through
it would make the module invalid without the table, which each engine checks as it loads the module."""
import pathlib
import sys

HEADER = 8
TABLE, ELEMENTS = 4, 9


def number_at(module, at):
    """An unsigned number of seven bits a byte: the number, and where it ends."""
    number = shift = 0
    while True:
        byte = module[at]
        at += 1
        number |= (byte & 127) << shift
        shift += 7
        if byte < 128:
            return number, at


def without_table(module):
    out, at = bytearray(module[:HEADER]), HEADER
    while at < len(module):
        size, begin = number_at(module, at + 1)
        end = begin + size
        if module[at] == ELEMENTS:
            sys.exit('untable.py: functions stand in the table')
        if module[at] != TABLE:
            out += module[at:end]
        at = end
    return out


def main():
    file = pathlib.Path(sys.argv[1])
    file.write_bytes(without_table(file.read_bytes()))


if __name__ == '__main__':
    main()
