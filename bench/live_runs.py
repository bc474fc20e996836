#!/usr/bin/env python3
"""live_runs.py PROGRAM [SCENARIO RUNS]: runs by workers, of 20 generated scenarios with 1, 4 and 16 workers, or so many runs of a scenario
with 4. Each must end with status 0, be accepted by `check`, take no frame by `serve` (that is, by the run on one thread), let the frames of
each port enter in their order, and leave nothing to do. It tells how many didn't."""
import subprocess
import sys


def run(command, text):
    return subprocess.run(command, input=text, capture_output=True)


def frames(lines):
    """The frames that enter, by their ports."""
    by_port = {}
    for line in lines:
        if line.startswith(b"rx "):
            _, port, frame = line.split()
            by_port.setdefault(port, []).append(frame)
    return by_port


def fault(program, workers, text):
    """What is wrong with a run, or None."""
    ran = run([program, "live", "--workers", str(workers)], text)
    if ran.returncode != 0:
        return f"status {ran.returncode}"
    lines = ran.stdout.splitlines()
    steps = lines[: lines.index(b"transcript 1")]
    if run([program, "check"], ran.stdout).stdout != b"yes\n":
        return "check says no"
    if b"serve" in steps:
        return "the run on one thread"
    # packets of a capture enter as frames, too
    if b"\ncapture " not in text and frames(steps) != frames(text.splitlines()):
        return "frames out of order"
    if not lines[-1].endswith(b" 0 0"):
        return lines[-1].decode()
    return None


def main():
    program = sys.argv[1]
    if len(sys.argv) > 2:
        with open(sys.argv[2], "rb") as file:
            rows = [(4, file.read())] * int(sys.argv[3])
    else:
        texts = [run([program, "gen", str(number), "500"], b"").stdout for number in range(1, 21)]
        rows = [(workers, text) for text in texts for workers in (1, 4, 16)]
    faults = [why for why in (fault(program, workers, text) for workers, text in rows) if why]
    print("\n".join(faults + [f"{len(rows)} runs, {len(faults)} with a fault"]))
    return 1 if faults else 0


if __name__ == "__main__":
    sys.exit(main())
