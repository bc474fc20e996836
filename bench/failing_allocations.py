#!/usr/bin/env python3
"""failing_allocations.py PROGRAM [PORTS [ROUNDS]]: each command, where the Nth allocation fails, for N from 1 until a run in which
none fails. `replay` and `show` read frames that leave so many ports (60), of which each third is a chip's, and so many rounds (300) of
frames that wait, are held, teach and are swept; commands that write at the end a tenth of these rounds. It tells how many runs ended with
each status, and which left a torn line: `replay` must write whole lines of the transcript, and then the line `no memory`, the others that
line alone, or each its whole output, where it could do without that memory. What `live` writes may differ, and must be what `check`
accepts."""
import collections
import os
import subprocess
import sys
import tempfile

# stands before the C library's calls, by which the program allocates
FAILING = """
void *__libc_malloc(unsigned long), *__libc_realloc(void *, unsigned long);
char *getenv(const char *); long atol(const char *); long write(int, const void *, unsigned long);
static long left = -1;
static int fails(void) {
    if (left < 0) { char *n = getenv("FAILING_ALLOCATION"); left = n ? atol(n) : 0; }
    if (left == 0 || --left != 0) return 0;
    write(2, "failed", 6);
    return 1;
}
void *malloc(unsigned long n) { return fails() ? 0 : __libc_malloc(n); }
void *realloc(void *p, unsigned long n) { return fails() ? 0 : __libc_realloc(p, n); }
"""


def scenario(ports, rounds, last):
    yield "scenario 1"
    for i in range(1, ports + 1):
        yield f"port {i} p{i} " + ("soft" if i % 3 else "chip 1")
    for i in range(1, ports + 1):
        yield f"cmd port up p{i}"
    yield "cmd vlan add vid 5 dev p1 pvid untagged"
    for i in range(2, ports + 1):
        yield f"cmd vlan add vid 5 dev p{i}" + " pvid untagged" * (i % 2)
    yield "publish"
    for length in 14, 60, 1500:
        for _ in range(2):
            for port in 1, 3:
                yield f"rx {port} ffffffffffff02000000000a88b5" + "5a" * (length - 14)
                yield "serve"
    for i in range(rounds):
        station, port = f"0200000{i:05x}", i % ports + 1
        # back to the station itself, which no port gets; the last two are held, and go in the other order
        for _ in range(4):
            yield f"rx {port} {station}{station}88b5{i:04x}"
        yield from ("serve", "serve", "hold", "hold")
        yield from (f"post {4 * i + 16}", f"post {4 * i + 15}")
        yield f"cmd mdb add 239.1.{i // 250}.{i % 250} dev p{port} vlan 5"
        yield from ("report 1", "turn 1", "publish")
    yield from ("sweep 1", "now 400000", last)


def preload(folder):
    kit = os.path.dirname(subprocess.run(["rt", "doc"], capture_output=True, text=True, check=True).stdout.strip())
    library = os.path.join(folder, "failing.so")
    clang = [f"{kit}/toolchain/bin/clang", "--no-default-config", "--target=x86_64-unknown-linux-gnu", "-fuse-ld=lld"]
    subprocess.run([*clang, "-w", "-shared", "-fPIC", "-nostdlib", "-x", "c", "-", "-o", library], input=FAILING.encode(), check=True)
    return library


def failing(command, text, library):
    """Runs a command until no allocation fails. Whether some failed, and each left what it should."""
    statuses, torn, number = collections.Counter(), [], 0

    def run(number):
        environment = {**os.environ, "LD_PRELOAD": library, "FAILING_ALLOCATION": str(number)}
        return subprocess.run(command, input=text, capture_output=True, env=environment)

    whole = run(0)
    lines = whole.stdout.splitlines(keepends=True)
    while True:
        number += 1
        ran = run(number)
        if not ran.stderr:
            break
        written = ran.stdout.splitlines(keepends=True)
        statuses[ran.returncode] += 1
        if (ran.returncode, ran.stdout) == (whole.returncode, whole.stdout):
            continue
        if command[1] == "live" and ran.returncode == 0:
            if subprocess.run([command[0], "check"], input=ran.stdout, capture_output=True).stdout == b"yes\n":
                continue
        before = lines[: len(written) - 1] if command[1] == "replay" else []
        if ran.returncode != 6 or written != before + [b"no memory\n"]:
            torn.append(number)
            print(f"allocation {number}: status {ran.returncode}, {ran.stdout[-60:]!r}")
    told = ", ".join(f"{count} of status {status}" for status, count in sorted(statuses.items()))
    print(f"{' '.join(command[1:])}: {len(lines)} lines; {number - 1} runs with a failed allocation: {told}; torn lines in {len(torn)}")
    return bool(statuses) and not torn


def main():
    program, ports, rounds = os.path.abspath(sys.argv[1]), *[int(n) for n in sys.argv[2:] + ["60", "300"][len(sys.argv) - 2 :]]

    def text(rounds, last):
        return "".join(line + "\n" for line in scenario(ports, rounds, last)).encode()

    def written(words, text):
        return subprocess.run([program, *words], input=text, capture_output=True).stdout

    broken, whole, short = text(rounds, "bad line"), text(rounds // 10, "end"), text(rounds // 30, "end")
    commands = [
        (["replay"], broken), (["show", "fdb"], broken), (["gen", "8", "20"], b""), (["demo", "8", "20"], b""),
        (["audit"], whole), (["monitor"], whole), (["follow"], written(["monitor"], whole)),
        (["querier", "10.0.0.1", "fe80:0000:0000:0000:0000:0000:0000:0001"], whole),
        (["check"], whole + written(["replay"], whole)), (["live", "--workers", "1"], short), (["live", "--workers", "4"], short),
    ]
    with tempfile.TemporaryDirectory() as folder:
        library = preload(folder)
        return not all([failing([program, *words], text, library) for words, text in commands])


if __name__ == "__main__":
    sys.exit(main())
