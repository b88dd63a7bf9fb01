#!/usr/bin/env python3
"""Times the built program on large modules, beside Debian's opt-22 where that is installed, and prints the rows of docs/MEASURES.md.

The modules are two functions of triples `load`, `add` with a literal, `store`, each with names of its own: once with short names, and
once with names of 100 bytes, which is near the most bytes that an input may have. They are made anew in a folder that is removed.
For each command the least processor time of some runs is told, with the wall time and the peak memory of that run. Then come 16
million empty lines, and 100,000 functions of one `ret void`. Where Debian's valgrind is installed, the instructions of the
processor on 30,000 instructions of the module are counted, which no load changes, with their ratio to opt-22's.

usage: scripts/measure.py [RUNS]
"""
import os
import pathlib
import shutil
import subprocess
import sys
import tempfile
import time

TOP = pathlib.Path(__file__).resolve().parent.parent
PROGRAM = TOP / "crates/sandvec/out/sandvec"
TRIPLES = 16_666


def module(width, triples=TRIPLES):
    """The text of the module of so many triples in each function, whose names have so many bytes at least."""
    lines = []
    for function in range(2):
        lines.append(f"define void @f{function}(ptr %p, ptr %q) {{")
        for place in range(triples):
            loaded, added = f"%x{place}".ljust(width, "x"), f"%y{place}".ljust(width, "y")
            lines.append(f"  {loaded} = load i32, ptr %p, align 4")
            lines.append(f"  {added} = add i32 {loaded}, {place}")
            lines.append(f"  store i32 {added}, ptr %q, align 4")
        lines += ["  ret void", "}", ""]
    return "\n".join(lines[:-1]) + "\n"


def run(words, source, target):
    """The processor time, wall time and peak memory in MB of one run."""
    with open(source, "rb") as given, open(target, "wb") as taken:
        start = time.monotonic()
        child = subprocess.Popen(words, stdin=given, stdout=taken)
        _, status, used = os.wait4(child.pid, 0)
        wall = time.monotonic() - start
    if status != 0:
        sys.exit(f"measure: {words[0]} failed")
    return used.ru_utime + used.ru_stime, wall, used.ru_maxrss / 1000


def count(words, source, room):
    """The instructions of the processor that a run takes, in millions."""
    counts = f"{room}/counts"
    with open(source, "rb") as given:
        subprocess.run(["valgrind", "--tool=callgrind", f"--callgrind-out-file={counts}", *words], stdin=given,
                       stdout=subprocess.DEVNULL, stderr=subprocess.DEVNULL, check=True)
    for line in pathlib.Path(counts).read_text().splitlines():
        if line.startswith("summary:"):
            return int(line.split()[1]) / 1e6
    sys.exit("measure: callgrind told no summary")


def name_of(words):
    return " ".join([pathlib.Path(words[0]).name, *words[1:]])


def time_all(commands, text, runs, room, title):
    """Times each command on a text."""
    source, target = f"{room}/in.ll", f"{room}/out.ll"
    pathlib.Path(source).write_text(text)
    print(f"{title}: {len(text)} bytes, load {os.getloadavg()[0]:.1f}")
    for words in commands:
        used, wall, peak = min(run(words, source, target) for _ in range(runs))
        print(f"  {name_of(words)}: {used:.2f} s of processor time, {wall:.2f} s, {peak:.0f} MB")


def count_all(ours, theirs, room):
    """Counts the instructions of the processor of our commands, each beside the one of opt-22."""
    source = f"{room}/in.ll"
    pathlib.Path(source).write_text(module(0, 5_000))
    print("30,002 instructions, by callgrind")
    for place, words in enumerate(ours):
        found = count(words, source, room)
        print(f"  {name_of(words)}: {found:.1f} million instructions of the processor")
        if place < len(theirs):
            other = count(theirs[place], source, room)
            print(f"  {name_of(theirs[place])}: {other:.1f} million; ratio {found / other:.2f}")


def main():
    runs = int(sys.argv[1]) if len(sys.argv) > 1 else 5
    if not PROGRAM.is_file():
        sys.exit("measure: the program is not built; ./sandvec builds it")
    ours = [[str(PROGRAM), "print"], [str(PROGRAM), "opt"]]
    theirs = [["opt-22", "-S", f"-passes={name}"] for name in ("verify", "sandbox-vectorizer")] if shutil.which("opt-22") else []
    with tempfile.TemporaryDirectory() as room:
        for width in (0, 101):
            time_all(ours + theirs, module(width), runs, room, f"{6 * TRIPLES + 2} instructions, names of {max(width, 2)} bytes and more")
        time_all(ours[:1], "\n" * 16_000_000, runs, room, "empty lines")
        small = "".join(f"define void @f{place}() {{\n  ret void\n}}\n" for place in range(100_000))
        time_all(ours[:1] + theirs[:1], small, runs, room, "100,000 functions of one return")
        if shutil.which("valgrind"):
            count_all(ours, theirs, room)


if __name__ == "__main__":
    main()
