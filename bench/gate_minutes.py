#!/usr/bin/env python3
"""bench/gate_minutes.py: what a gate takes, by crate, while `rt ci` runs beside it.

Looks at the running processes every two seconds and sums the processor time of the prover and of LLVM by crate and kind: proof, tests,
seed (the second proof, over which a crate's wrong edits are tried), edits, llvm. The table is written anew each time, to the file that
is named or to gate_minutes.txt. Stop it by an interrupt once the gate has ended. What begins and ends between two looks is lost.
"""
import collections
import os
import sys
import time

PERIOD = 2
TICK = os.sysconf("SC_CLK_TCK")
KINDS = ("proof", "tests", "seed", "edits", "llvm")


def told(pid, parent, first):
    """The crate and the kind of a process, if it is one of the gate's. The first that checks an edit over a folder fills it: the seed."""
    with open(f"/proc/{pid}/cmdline") as it:
        words = it.read().split("\0")
    folder, name = os.readlink(f"/proc/{pid}/cwd"), os.path.basename(words[0])
    if name == "rattle" and "--crate-name" in words:
        crate = words[words.index("--crate-name") + 1]
        if "rt-edit" not in folder:
            return crate, "tests" if "--test" in words else "proof"
        over = words[words.index("--incremental") + 1] if "--incremental" in words else folder
        is_seed = over != folder and first.setdefault(over, pid) in (pid, parent)
        return crate, "seed" if is_seed or over.endswith("/seed") else "edits"
    return (os.path.basename(folder), "llvm") if name.startswith("clang") else None


def spent(pid):
    """When the process began, its parent, and the seconds of the processor that it has taken."""
    with open(f"/proc/{pid}/stat") as it:
        fields = it.read().rpartition(")")[2].split()
    return fields[19], fields[1], (int(fields[11]) + int(fields[12])) / TICK


def look(seen, first, sums):
    """Adds what each process has taken since the last look."""
    for pid in filter(str.isdigit, os.listdir("/proc")):
        try:
            born, parent, seconds = spent(pid)
            # a fork has its parent's words until it runs a program of its own
            row = told(pid, parent, first)
        except (OSError, ValueError, IndexError):
            continue
        if row:
            sums[row] += seconds - seen.get((pid, born), 0)
            seen[pid, born] = seconds


def table(sums, minutes):
    """A line a crate, the dearest first, in processor minutes, and one for all."""
    crates = collections.defaultdict(lambda: dict.fromkeys(KINDS, 0.0))
    for (crate, kind), seconds in sums.items():
        crates[crate][kind] += seconds / 60
    rows = sorted(crates.items(), key=lambda it: -sum(it[1].values()))
    rows.append(("all", {kind: sum(row[kind] for row in crates.values()) for kind in KINDS}))
    head = f"{'crate':18}" + "".join(f"{kind:>8}" for kind in (*KINDS, "sum"))
    lines = [f"{name:18}" + "".join(f"{row[kind]:8.1f}" for kind in KINDS) + f"{sum(row.values()):8.1f}" for name, row in rows]
    return "\n".join([f"minutes by the clock: {minutes:.1f}", head, *lines, ""])


def main():
    to = sys.argv[1] if len(sys.argv) > 1 else "gate_minutes.txt"
    seen, first, sums, start = {}, {}, collections.Counter(), time.time()
    # what ran before isn't counted
    look(seen, first, collections.Counter())
    while True:
        look(seen, first, sums)
        with open(to, "w") as it:
            it.write(table(sums, (time.time() - start) / 60))
        time.sleep(PERIOD)


if __name__ == "__main__":
    try:
        main()
    except KeyboardInterrupt:
        pass
