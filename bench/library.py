#!/usr/bin/env python3
"""bench/library.py: lines of a scenario a second by the library, in C and in Python, whole and line by line, and its memory. Needs `make -C c`, cc
and the program."""
import ctypes
import os
import pathlib
import subprocess
import sys
import tempfile
import time

sys.dont_write_bytecode = True
TOP = pathlib.Path(__file__).resolve().parent.parent
PROGRAM = os.environ.get("SWITCHBR", TOP / "crates/switchbr/out/switchbr")
sys.path.append(str(TOP / "python"))
import switchbr

TIMES = 10
# glibc's mallinfo2
Heap = type("Heap", (ctypes.Structure,), {"_fields_": [(name, ctypes.c_size_t) for name in (
    "arena", "ordblks", "smblks", "hblks", "hblkhd", "usmblks", "fsmblks", "uordblks", "fordblks", "keepcost")]})
LIBC = ctypes.CDLL(None)
LIBC.mallinfo2.restype = Heap


def least(call, rounds=5):
    found = []
    for _ in range(rounds):
        begun = time.process_time()
        call()
        found.append(time.process_time() - begun)
    return min(found)


def main():
    mixed = subprocess.run([PROGRAM, "gen", "7", "100000"], check=True, capture_output=True).stdout
    short = b"scenario 1\nport 1 p1 chip 1\ncmd port up p1\nend\n"
    with tempfile.TemporaryDirectory() as folder:
        in_c = pathlib.Path(folder, "in_c")
        wrapped = ["-Wl,--wrap=malloc", "-Wl,--wrap=realloc"]
        subprocess.run(["cc", "-O2", "-o", in_c, TOP / "c/commands.c", TOP / "c/out/libswitchbr.a", *wrapped, "-pthread"], check=True)

        def c_seconds(text, times, command="replay"):
            """Of one call: several more in one process less a single one."""
            def once(count):
                before = os.times()
                subprocess.run([in_c, "--room", "16000000", "--times", str(count), command], input=text, check=True, capture_output=True)
                after = os.times()
                return after.children_user + after.children_system - before.children_user - before.children_system
            return (min(once(times + 1) for _ in range(5)) - min(once(1) for _ in range(5))) / times
        lines = mixed.count(b"\n")
        seconds = c_seconds(mixed, TIMES)
        print(f"C: {seconds:.3f} s for {lines:,} lines, {lines / seconds:,.0f} a second; {c_seconds(short, 2000) * 1e6:.0f} us for a scenario of one step")
        seconds = c_seconds(mixed, TIMES, "session")
        print(f"C: a session {seconds:.3f} s, {lines / seconds:,.0f} lines a second; {c_seconds(short, 2000, 'session') * 1e6:.0f} us for one of one step")
        peak = subprocess.run(["/usr/bin/time", "-f", "%M kB", in_c, "--room", "16000000", "replay"], input=mixed, capture_output=True, check=True)
        print(f"C: {peak.stderr.decode().split()[-2]} kB at most, {len(mixed):,} bytes in and room for 16,000,000 of text included")
    seconds = least(lambda: switchbr.replay(mixed))
    told = switchbr.replay(mixed)
    print(f"Python: {seconds:.3f} s, {lines / seconds:,.0f} lines a second; {least(lambda: [switchbr.replay(short) for _ in range(1000)]) * 1e3:.0f} us for one step")
    seconds = least(lambda: step_by_step(mixed))
    print(f"Python: a session {seconds:.3f} s, {lines / seconds:,.0f} lines a second")
    step_by_step(mixed, show_heap=True)
    print(f"Python: check {least(lambda: switchbr.check(mixed, told)):.3f} s, follow of a monitor's messages in {followed(mixed):.4f} s")


def held():
    info = LIBC.mallinfo2()
    return info.uordblks + info.hblkhd


def step_by_step(text, show_heap=False):
    """A session over a generated scenario."""
    before = held()
    with switchbr.Session() as session:
        sizes = [held() - before]
        for at, line in enumerate(text.splitlines()):
            session.line(line)
            if at == 7:
                sizes.append(held() - before)
        sizes.append(held() - before)
    if show_heap:
        print("a session holds {:,} bytes at first, {:,} behind its first step, {:,} at its end".format(*sizes))


def followed(text):
    messages = subprocess.run([PROGRAM, "monitor"], input=text, check=True, capture_output=True).stdout
    return least(lambda: switchbr.follow(messages))


if __name__ == "__main__":
    main()
