#!/usr/bin/env python3
"""Measures what `reach` and `order` cost for regions of 16 stores in windows of 256 instructions, and prints the rows of docs/MEASURES.md.

Three kinds of region are made. In `loads` the values that are stored are sums of loads; nothing in the window conflicts. In `last` its last
store is named first, of which alone `reach` then asks. In `stores` all that stands between is stores that conflict with one another, which
gives nearly as many edges as there are pairs. `sandvec-inspect` asks for the order of one such region many times: differences between two
numbers of times take out the reading of the module. Its view scans the module at each question; where Debian's valgrind is installed, the
instructions of the processor are counted, and those of the view apart from those of `reach` and `order`, by the calls that callgrind saw.
Then comes a module of as many functions of one region as 100,000 instructions hold, of which some, spread evenly, are asked for.

usage: scripts/bench.py [TIMES [REGIONS]]     how often a question is asked to be timed (500 where it is not told), and how many
                                              regions of the module are asked for (5; all 389 of them take five minutes)
"""
import os
import pathlib
import shutil
import subprocess
import sys
import tempfile
import time

TOP = pathlib.Path(__file__).resolve().parent.parent
PROGRAM = TOP / "crates/inspect/out/inspect"
PARAMS = "ptr noalias %p, ptr noalias %q, ptr %a, i32 %c"
REGIONS = 389
FUNCTION = 4 + 256 + 1


def sum_of_loads(group):
    """Sixteen instructions that make the value and the pointer of a store, and the store."""
    lines, last = [f"  %q{group} = getelementptr i8, ptr %q, i64 {4 * group}"], "%c"
    for part in range(5):
        at = f"{group}.{part}"
        lines.append(f"  %p{at} = getelementptr i8, ptr %p, i64 {4 * (16 * part + group)}")
        lines.append(f"  %x{at} = load i32, ptr %p{at}, align 4")
        lines.append(f"  %s{at} = add i32 %x{at}, {last}")
        last = f"%s{at}"
    return lines + [f"  store i32 {last}, ptr %q{group}, align 4"]


def of_loads():
    """The lines of a region at the head of a block, whose stores have values of their own."""
    lines = ["  store i32 %c, ptr %q, align 4"]
    for group in range(1, 16):
        lines += sum_of_loads(group)
    return lines, 0


def of_stores():
    """The lines of a region among stores that conflict with one another, and how many stand before it."""
    lines = [f"  %q{group} = getelementptr i8, ptr %q, i64 {4 * group}" for group in range(16)]
    for group in range(16):
        lines += ["  store i32 %c, ptr %a, align 4"] * (16 if group else 0)
        lines.append(f"  store i32 %c, ptr %q{group}, align 4")
    return lines, 16


def function(name, lines):
    return "\n".join([f"define void @{name}({PARAMS}) {{", *lines, "  ret void", "}", ""])


def stores_from(first):
    """The names of the stores of a region whose first instruction has this number in the module."""
    return [f"#{first + 17 * place}" for place in range(16)]


def order_of(stores):
    return ["order", ",".join(stores)]


def run(words, source):
    """The processor time of a run that asks something."""
    with open(source, "rb") as given:
        child = subprocess.Popen([str(PROGRAM), *words], stdin=given, stdout=subprocess.DEVNULL)
        _, status, used = os.wait4(child.pid, 0)
    if status != 0:
        sys.exit(f"bench: inspect failed on {' '.join(words)[:80]}")
    return used.ru_utime + used.ru_stime


def time_of(words, source, times):
    """Seconds for one time that something is asked: the least of five, less what asking once takes."""
    many, once = (min(run(["repeat", str(number), *words], source) for _ in range(5)) for number in (times + 1, 1))
    return (many - once) / times


def name_in(text, names):
    """The name of a function in a line of callgrind's, which tells it in full only once."""
    number, _, name = text.partition(" ")
    if name:
        names[number] = name.strip()
    return names[number.strip()]


def calls_in(path):
    """The instructions of all calls that callgrind saw, by caller and callee."""
    names, calls, caller, callee = {}, {}, "", ""
    lines = iter(pathlib.Path(path).read_text().splitlines())
    for line in lines:
        if line.startswith("fn="):
            caller = name_in(line[3:], names)
        elif line.startswith("cfn="):
            callee = name_in(line[4:], names)
        elif line.startswith("calls="):
            key = caller, callee
            calls[key] = calls.get(key, 0) + int(next(lines).split()[-1])
    return calls


def counts(words, source, room):
    """Instructions of the processor in a run: in questions, in `reach`, in the view for `reach`, in the view, and there in copies."""
    path = f"{room}/counts"
    with open(source, "rb") as given:
        subprocess.run(["valgrind", "--tool=callgrind", f"--callgrind-out-file={path}", str(PROGRAM), *words], stdin=given,
                       stdout=subprocess.DEVNULL, stderr=subprocess.DEVNULL, check=True)
    calls = calls_in(path)

    def into(callee, caller=""):
        return sum(cost for (above, below), cost in calls.items() if below.startswith(callee) and above.startswith(caller))

    answer, reached, view = "vec_inspect::ask::answer::", "vec_inspect::ask::reached::", "vx_view::plain::PlainViewView::ask"
    found = into(answer), into(reached), into(view, reached), into(view), into("ir_types::inst::InstTryClone", view) + into("__mem", view)
    if 0 in found:
        sys.exit("bench: callgrind saw no call of a function that is sought; it may be inlined now")
    return found


def parts_of(words, source, room, times=4):
    """Instructions of the processor for one question: `reach` and `order` without the view, the view for each, and its copies."""
    many, once = (counts(["repeat", str(number), *words], source, room) for number in (times + 1, 1))
    answer, reached, view_reached, view, copies = ((more - less) / times for more, less in zip(many, once))
    return reached - view_reached, answer - reached - (view - view_reached), view_reached, view - view_reached, copies


def tell_region(title, text, stores, room, times):
    """Times and counts the order of one region."""
    source = f"{room}/in.ll"
    pathlib.Path(source).write_text(text)
    spent = time_of(order_of(stores), source, times)
    print(f"{title}: {spent * 1e6:.0f} us a question with the scanning view, load {os.getloadavg()[0]:.1f}")
    if not shutil.which("valgrind"):
        return
    reach, order, view_reach, view_order, copies = (part / 1e6 for part in parts_of(order_of(stores), source, room))
    whole = reach + order + view_reach + view_order
    print(f"  {whole:.2f} million instructions of the processor: reach {reach:.3f}, order {order:.3f}, "
          f"the view for reach {view_reach:.3f}, for order {view_order:.3f}; {copies:.3f} of the view's copy answers")
    print(f"  without the view, if all instructions take the same time: reach {spent * 1e6 * reach / whole:.0f} us, "
          f"order {spent * 1e6 * order / whole:.0f} us")


def tell_module(some, room):
    """Times the order of some regions of a module, spread evenly."""
    source = f"{room}/in.ll"
    lines, _ = of_loads()
    pathlib.Path(source).write_text("\n".join(function(f"f{place}", lines) for place in range(REGIONS)))
    asked = [(2 * place + 1) * REGIONS // (2 * some) for place in range(some)]
    read = min(run(["form", "#0"], source) for _ in range(3))
    for title, turn in (("named in the order of the block", list), ("the last named first", reversed)):
        questions = [order_of(list(turn(stores_from(FUNCTION * place + 4)))) for place in asked]
        words = [word for question in questions for word in (*question, "/")][:-1]
        spent = run(words, source) - read
        print(f"{some} of {REGIONS} regions, {title}: {spent:.2f} s with the scanning view, {spent / some:.3f} s a region, "
              f"load {os.getloadavg()[0]:.1f}; reading took {read:.2f} s", flush=True)


def main():
    times = int(sys.argv[1]) if len(sys.argv) > 1 else 500
    some = int(sys.argv[2]) if len(sys.argv) > 2 else 5
    if not PROGRAM.is_file():
        sys.exit("bench: the program is not built; ./sandvec-inspect builds it")
    with tempfile.TemporaryDirectory() as room:
        for title, make, turn in (("loads", of_loads, list), ("last", of_loads, reversed), ("stores", of_stores, list)):
            lines, before = make()
            tell_region(title, function("f", lines), list(turn(stores_from(4 + before))), room, times)
        tell_module(some, room)


if __name__ == "__main__":
    main()
