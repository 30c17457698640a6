#!/usr/bin/env python3
"""What the gate costs, by crate: runs `rt ci` and adds up the processor seconds of its own processes.

    bench/gate.py [WORD ..]           runs `rt ci WORD ..` at the top of the repository (`--anew` proves all)
    bench/gate.py --follow PID        follows a run of `rt ci` that goes on already

The table has a row a crate: its functions, and the seconds of its proof, its tests, the ground that its edits
begin with, and its edits. It is printed at the end, and so is the sum, user and system.
"""

import os
import re
import subprocess
import sys
import time

TICKS = os.sysconf("SC_CLK_TCK")
TOP = os.path.dirname(os.path.dirname(os.path.abspath(__file__)))
PAUSE = 0.25


def children():
    """The processes that run now: the parent, the start and the processor seconds of each."""
    found = {}
    for name in os.listdir("/proc"):
        if not name.isdigit():
            continue
        try:
            with open(f"/proc/{name}/stat", "rb") as stat:
                fields = stat.read().rpartition(b")")[2].split()
        except OSError:
            continue
        found[int(name)] = (int(fields[1]), int(fields[19]), (int(fields[11]) + int(fields[12])) / TICKS)
    return found


def below(pid, found):
    """The processes that pid started, and those that they did."""
    by_parent = {}
    for child, (parent, _, _) in found.items():
        by_parent.setdefault(parent, []).append(child)
    reached, waiting = [], [pid]
    while waiting:
        for child in by_parent.get(waiting.pop(), []):
            reached.append(child)
            waiting.append(child)
    return reached


def told(pid):
    """What a process was started with, and where it runs."""
    try:
        with open(f"/proc/{pid}/cmdline", "rb") as line:
            words = [word.decode(errors="replace") for word in line.read().split(b"\0")]
        return words, os.readlink(f"/proc/{pid}/cwd")
    except OSError:
        return [], ""


def part_of(words, folder):
    """The crate that a process works for, and what it does for it. Edits are tried over what a check of the crate left in a folder `seed`."""
    if "--crate-name" not in words:
        return "", "other"
    crate = words[words.index("--crate-name") + 1]
    if "rt-edit-" in folder:
        over = words[words.index("--incremental") + 1] if "--incremental" in words else ""
        return crate, "ground" if over.endswith("/seed") else "edits"
    return crate, "tests" if "--test" in words else "proof"


def follow(pid, running):
    """Adds up the processor seconds of what pid starts, until it ends: by crate and part."""
    spent, kinds = {}, {}
    while running():
        found = children()
        for child in below(pid, found):
            _, start, seconds = found[child]
            key = (child, start)
            if key not in kinds or kinds[key][1] == "other":
                words, folder = told(child)
                kinds[key] = part_of(words, folder)
            spent[key] = seconds
        time.sleep(PAUSE)
    table = {}
    for key, seconds in spent.items():
        crate, part = kinds[key]
        row = table.setdefault(crate or "(all others)", {})
        row[part] = row.get(part, 0.0) + seconds
    return table


def functions_of(crate):
    count = 0
    for folder, _, files in os.walk(os.path.join(TOP, "crates", crate, "src")):
        for name in files:
            if name.endswith(".rt"):
                with open(os.path.join(folder, name), encoding="utf-8") as text:
                    count += len(re.findall(r"^\s*(?:pub(?:\(crate\))? )?(?:const )?fn ", text.read(), re.M))
    return count


def show(table):
    parts = ["proof", "tests", "ground", "edits", "other"]
    print("| Crate | functions | " + " | ".join(parts) + " | all |")
    print("|---|" + "---|" * (len(parts) + 2))
    sums = dict.fromkeys(parts, 0.0)
    for crate, row in sorted(table.items(), key=lambda item: -sum(item[1].values())):
        for part in parts:
            sums[part] += row.get(part, 0.0)
        cells = [f"{row.get(part, 0.0):.0f}" for part in parts]
        print(f"| {crate} | {functions_of(crate)} | " + " | ".join(cells) + f" | {sum(row.values()):.0f} |")
    whole = sum(sums.values())
    print("| sum | | " + " | ".join(f"{sums[part]:.0f}" for part in parts) + f" | {whole:.0f} |")
    print(f"\n{whole / 60:.0f} processor minutes")


def main():
    if sys.argv[1:2] == ["--follow"]:
        pid = int(sys.argv[2])
        show(follow(pid, lambda: os.path.exists(f"/proc/{pid}")))
        return 0
    begun = time.time()
    run = subprocess.Popen(["rt", "ci", *sys.argv[1:]], cwd=TOP)
    table = follow(run.pid, lambda: run.poll() is None)
    show(table)
    print(f"{(time.time() - begun) / 60:.0f} minutes by the clock, status {run.returncode}")
    return run.returncode


if __name__ == "__main__":
    sys.exit(main())
