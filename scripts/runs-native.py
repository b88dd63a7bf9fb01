#!/usr/bin/env python3
"""Runs functions with sandvec and as clang 22 compiles them, on the same inputs, and compares what they return.

One function for each operation, comparison and cast, at several widths, on numbers at their edges; inputs on which the operation is
undefined or gives poison are left out. Skipped, with status 0, where clang-22 or the built program is missing.
"""
import pathlib
import shutil
import subprocess
import sys
import tempfile

TOP = pathlib.Path(__file__).resolve().parent.parent
PROGRAM = TOP / "crates" / "sandvec" / "out" / "sandvec"
BINARY = ["add", "sub", "mul", "udiv", "sdiv", "urem", "srem", "shl", "lshr", "ashr", "and", "or", "xor"]
PREDICATES = ["eq", "ne", "ugt", "uge", "ult", "ule", "sgt", "sge", "slt", "sle"]
WIDTHS = [8, 16, 32, 64]


def numbers(width):
    top = 1 << (width - 1)
    return [0, 1, 2, 7, top - 1, -1, -2, -top]


def is_defined(op, width, x, y):
    least = -(1 << (width - 1))
    if op in ("udiv", "urem", "sdiv", "srem") and y == 0:
        return False
    if op in ("sdiv", "srem") and x == least and y == -1:
        return False
    return op not in ("shl", "lshr", "ashr") or 0 <= y < width


def functions():
    """The text of each function, and the calls with their arguments, by name."""
    texts, calls = [], []
    for width in WIDTHS:
        for op in BINARY:
            name = f"{op}_{width}"
            texts.append(f"define i{width} @{name}(i{width} %x, i{width} %y) {{\n  %z = {op} i{width} %x, %y\n  ret i{width} %z\n}}\n")
            calls += [(name, width, width, (x, y)) for x in numbers(width) for y in numbers(width) if is_defined(op, width, x, y)]
        for predicate in PREDICATES:
            name = f"icmp_{predicate}_{width}"
            texts.append(
                f"define i8 @{name}(i{width} %x, i{width} %y) {{\n  %c = icmp {predicate} i{width} %x, %y\n"
                f"  %z = select i1 %c, i8 1, i8 0\n  ret i8 %z\n}}\n"
            )
            calls += [(name, width, 8, (x, y)) for x in numbers(width) for y in numbers(width)]
    for narrow in WIDTHS:
        for wide in WIDTHS:
            if narrow < wide:
                for op, source, target in (("zext", narrow, wide), ("sext", narrow, wide), ("trunc", wide, narrow)):
                    name = f"{op}_{source}_{target}"
                    texts.append(f"define i{target} @{name}(i{source} %x) {{\n  %z = {op} i{source} %x to i{target}\n  ret i{target} %z\n}}\n")
                    calls += [(name, source, target, (x,)) for x in numbers(source)]
    return texts, calls


def literal(x):
    return f"({x}LL)" if x > -(1 << 63) else "(-9223372036854775807LL - 1)"


def driver(calls):
    """A C program that prints what each call returns, a line each."""
    lines = ["#include <stdint.h>", "#include <stdio.h>"]
    for name, source, target, arguments in {call[0]: call for call in calls}.values():
        parameters = ", ".join(f"int{source}_t" for _ in arguments)
        lines.append(f"int{target}_t {name}({parameters});")
    lines.append("int main(void) {")
    for name, _, _, arguments in calls:
        lines.append(f'    printf("%lld\\n", (long long){name}({", ".join(literal(x) for x in arguments)}));')
    lines += ["    return 0;", "}"]
    return "\n".join(lines) + "\n"


def main():
    clang = shutil.which("clang-22")
    if clang is None or not PROGRAM.exists():
        print("runs-native: skipped, no clang-22 or no built program")
        return 0
    texts, calls = functions()
    with tempfile.TemporaryDirectory() as folder:
        work = pathlib.Path(folder)
        (work / "calls.ll").write_text("\n".join(texts))
        (work / "main.c").write_text(driver(calls))
        subprocess.run([clang, "-w", "-O0", "-o", work / "calls", work / "main.c", work / "calls.ll"], check=True)
        native = subprocess.run([work / "calls"], check=True, capture_output=True, text=True).stdout.split()
        wrong = 0
        for (name, _, _, arguments), wanted in zip(calls, native, strict=True):
            word = f"{name}({','.join(str(x) for x in arguments)})"
            with open(work / "calls.ll", encoding="ascii") as module:
                found = subprocess.run([PROGRAM, "run", "--steps", "1", word], stdin=module, capture_output=True, text=True)
            if found.stdout != f"returned {wanted}\n":
                print(f"runs-native: {word}: {found.stdout.strip()}, and native code returns {wanted}", file=sys.stderr)
                wrong += 1
    print(f"runs-native: {len(calls)} calls, {wrong} wrong")
    return 1 if wrong else 0


if __name__ == "__main__":
    sys.exit(main())
