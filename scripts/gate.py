#!/usr/bin/env python3
"""Runs the gate and tells where its processor time goes: minutes of each crate's proof, tests and must-fail edits.

While `rt ci` runs, the processes of the prover below it are looked at twice a second; what a process used when it was last seen is
counted for its crate. Tests are checks with `--test`, edits those in a folder of their own. What the gate says is passed on as it
comes, and its status is the script's. On Linux alone, since it reads /proc.

usage: scripts/gate.py [--anew] [CRATE..]     the words are handed to `rt ci`
"""
import collections
import os
import pathlib
import subprocess
import sys
import threading
import time

TICKS = os.sysconf("SC_CLK_TCK")
STAGES = ("proof", "tests", "edits")


def parents():
    """The parent of each process that is there."""
    found = {}
    for entry in pathlib.Path("/proc").iterdir():
        if entry.name.isdigit():
            try:
                found[int(entry.name)] = int((entry / "stat").read_text().rsplit(")", 1)[1].split()[1])
            except (OSError, ValueError, IndexError):
                pass
    return found


def is_below(pid, root, above):
    """Whether a process stands below another."""
    while pid in above and pid != root:
        pid = above[pid]
    return pid == root


def look(pid):
    """The crate and stage of a process of the prover, when it began, and the seconds that it used; nothing of another process."""
    folder = pathlib.Path(f"/proc/{pid}")
    try:
        words = (folder / "cmdline").read_bytes().decode(errors="replace").split("\0")
        place = os.readlink(folder / "cwd")
        fields = (folder / "stat").read_text().rsplit(")", 1)[1].split()
    except OSError:
        return None
    if not words[0].endswith("/rattle") or "--crate-name" not in words:
        return None
    crate = words[words.index("--crate-name") + 1]
    stage = "edits" if "/rt-edit" in place else "tests" if "--test" in words else "proof"
    return (pid, fields[19]), (crate, stage), (int(fields[11]) + int(fields[12])) / TICKS


def watch(root, used, done):
    """Notes what the prover's processes use until the gate has ended."""
    while not done.wait(0.5):
        above = parents()
        for pid in above:
            if is_below(pid, root, above):
                seen = look(pid)
                if seen:
                    used[seen[0]] = seen[1:]


def main():
    start = time.monotonic()
    gate = subprocess.Popen(["rt", "ci", *sys.argv[1:]])
    used, done = {}, threading.Event()
    watcher = threading.Thread(target=watch, args=(gate.pid, used, done))
    watcher.start()
    status = gate.wait()
    done.set()
    watcher.join()
    minutes = collections.defaultdict(float)
    for place, seconds in used.values():
        minutes[place] += seconds / 60
    print("\n| Crate | Proof | Tests | Edits | Minutes of a processor |\n|---|---|---|---|---|")
    crates = sorted({crate for crate, _ in minutes}, key=lambda crate: -sum(minutes[crate, stage] for stage in STAGES))
    for crate in [*crates, "all"]:
        row = [sum(n for (c, s), n in minutes.items() if s == stage and crate in (c, "all")) for stage in STAGES]
        print(f"| {crate} | " + " | ".join(f"{n:.1f}" for n in row) + f" | {sum(row):.1f} |")
    print(f"\n{(time.monotonic() - start) / 60:.0f} minutes, {os.cpu_count()} processors, load {os.getloadavg()[0]:.1f}")
    return status


if __name__ == "__main__":
    sys.exit(main())
