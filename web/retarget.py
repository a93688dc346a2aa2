#!/usr/bin/env python3
"""retarget.py < X86.ll > WASM.ll: LLVM's text of a module for x86-64, as one for wasm64. Both lay data out alike: pointers of 64 bits,
integers of 64 bits aligned to 8 bytes and those of 128 bits to 16. What is x86's own stands in the attributes of functions alone. It stops
where the module is not as that says."""
import re
import sys

X86 = 'x86_64-unknown-linux-gnu'
X86_LAYOUT = 'e-m:e-p270:32:32-p271:32:32-p272:64:64-i64:64-i128:128-f80:128-n8:16:32:64-S128'
LAYOUT = 'e-m:e-p:64:64-p10:8:8-p20:8:8-i64:64-i128:128-n32:64-S128-ni:1:10:20'
X86_ATTRIBUTES = re.compile(
    r' (?:sanitize_address|"(?:probe-stack|stack-probe-size|target-cpu|target-features|tune-cpu|frame-pointer)"="[^"]*")')

ASSEMBLY = re.compile(r'^module asm |\bcall [^"]*\basm (?:[a-z]+ )*"')


def retargeted(line):
    if line.startswith('target datalayout'):
        if X86_LAYOUT not in line:
            sys.exit(f'retarget.py: the layout is none that it knows: {line.strip()}')
        return f'target datalayout = "{LAYOUT}"\n'
    if line.startswith('target triple'):
        if X86 not in line:
            sys.exit(f'retarget.py: the module is not for {X86}: {line.strip()}')
        return 'target triple = "wasm64-unknown-unknown"\n'
    if 'asm ' in line and ASSEMBLY.search(line):
        sys.exit(f'retarget.py: there is assembly in the module: {line.strip()[:100]}')
    if line.startswith('attributes #'):
        # An empty list is no list for LLVM.
        return X86_ATTRIBUTES.sub('', line).replace('{ }', '{ "none" }')
    return line


def main():
    for line in sys.stdin:
        sys.stdout.write(retargeted(line))


if __name__ == '__main__':
    main()
