#!/usr/bin/env python3
"""growth.py PROGRAM [NAME ..]: instructions of `PROGRAM replay` for one more small command, counted by callgrind.

Each line below is an input that ends in N repetitions of the same command. It is counted at two numbers, and the difference is
divided: what one more costs, beside a table of the size that the line tells. With NAMEs only these are counted.
"""
import subprocess
import sys
import tempfile

from scenarios import ports


def mac(number):
    digits = f"{0x020000000000 + number:012x}"
    return ":".join(digits[i:i + 2] for i in range(0, 12, 2))


def entries(count, kind="static"):
    for i in range(count):
        yield f"cmd fdb add {mac(i)} dev p1 vlan 1 {kind}"


def spoken(count):
    """Frames of so many stations at port 1, to an address that is never forwarded."""
    for i in range(count):
        yield f"rx 1 0180c2000014{0x020000000000 + i:012x}88b50102"
        yield "serve"


def switched(count, first, then):
    yield from ports(4, "chip 1")
    for vid in range(2, 4002):
        yield f"cmd vlan add vid {vid} dev p1"
    for _ in range(count):
        yield f"cmd link p1 {first}"
        yield f"cmd link p1 {then}"


def flaps(count):
    for _ in range(count):
        yield "cmd port down p2"
        yield "cmd port up p2"


def groups(spread):
    """1,000 groups, each of one of so many ports."""
    for group in range(1000):
        yield f"cmd mdb add 239.1.{group // 250}.{group % 250} dev p{1 + group % spread} vlan 1"


def flag(n):
    """a flag off and on, of a chip port in 4,000 VLANs"""
    yield from switched(n, "flood off", "flood on")


def quiet_flag(n):
    """a flag that shows in no row off and on, of a chip port in 4,000 VLANs"""
    yield from switched(n, "isolated on", "isolated off")


def flap(n):
    """a port down and up, nothing else"""
    yield from ports(2)
    yield from flaps(n)


def flap_beside_addresses(n):
    """a port down and up, beside 16,384 addresses at another port"""
    yield from ports(2)
    yield from entries(16384)
    yield from flaps(n)


def flap_beside_groups(n):
    """a port down and up, beside 1,000 groups of another port in its VLAN"""
    yield from ports(4)
    yield from groups(1)
    yield from flaps(n)


def vlan(n):
    """`vlan add`, then `vlan del`, of a chip port among eight"""
    yield from ports(8, "chip 1")
    for i in range(n):
        yield f"cmd vlan add vid {2 + i % 4000} dev p{1 + i % 8}"
        yield f"cmd vlan del vid {2 + i % 4000} dev p{1 + i % 8}"


def sweep(n):
    """a sweep beside 16,384 static entries"""
    yield from ports(2, "chip 1")
    yield from entries(16384)
    for _ in range(16384):
        yield "turn 1"
    for _ in range(n):
        yield "sweep 1"


def tree(n):
    """a second with the spanning tree on, 63 ports"""
    yield from ports(63)
    yield "cmd stp on"
    for second in range(1, n + 1):
        yield f"now {1000 * second}"


def ageing(n):
    """an entry that is learned and ends, each at a moment of its own"""
    yield from ports(1)
    yield "cmd ageing 20"
    for i in range(n):
        yield f"now {i + 1}"
        yield f"rx 1 0180c2000014{0x020000000000 + i:012x}88b50102"
        yield "serve"
    for i in range(n):
        yield f"now {20001 + i}"


def moment(n):
    """a moment at which nothing ends, beside 16,384 learned entries"""
    yield from ports(1)
    yield from spoken(16384)
    for i in range(n):
        yield f"now {i + 1}"


def moment_beside_groups(n):
    """a moment at which nothing ends, beside 1,000 groups"""
    yield from ports(16)
    yield from groups(16)
    for second in range(1, n + 1):
        yield f"now {1000 * second}"


def reported(n):
    """a frame whose source waits to be reported, behind 254 other reports"""
    yield from ports(2, "chip 1")
    yield from spoken(255)
    for _ in range(n):
        yield f"rx 1 0180c2000014{0x0200000000FE:012x}88b50102"
        yield "serve"


def heard(n):
    """a frame whose source is known, nothing else"""
    yield from ports(2)
    yield from spoken(1)
    for _ in range(n):
        yield from spoken(1)


NAMED = [(flag, 10), (quiet_flag, 1000), (flap, 1000), (flap_beside_addresses, 1000), (flap_beside_groups, 100), (vlan, 2000),
         (sweep, 100), (tree, 1000), (ageing, 2000), (moment, 1000), (moment_beside_groups, 1000), (reported, 1000), (heard, 1000)]


def instructions(program, lines):
    with tempfile.NamedTemporaryFile("w+") as scenario:
        scenario.writelines(f"{line}\n" for line in lines)
        scenario.write("end\n")
        scenario.flush()
        scenario.seek(0)
        ran = subprocess.run(
            ["valgrind", "--tool=callgrind", "--callgrind-out-file=/dev/null", program, "replay"],
            stdin=scenario, stdout=subprocess.DEVNULL, stderr=subprocess.PIPE, text=True)
    if ran.returncode:
        sys.exit(f"{program} ended with {ran.returncode}: {ran.stderr}")
    return next(int(line.split()[-1]) for line in ran.stderr.splitlines() if "Collected" in line)


def main():
    program, *names = sys.argv[1:]
    for made, n in NAMED:
        if names and made.__name__ not in names:
            continue
        once, twice = (instructions(program, made(count)) for count in (n, 2 * n))
        print(f"{made.__name__}: {(twice - once) // n:,} ({made.__doc__})", flush=True)


if __name__ == "__main__":
    main()
