"""Recorded scenarios: what left in the kernel stands in comments, so that they are judged without it.

Before a line `rx` stands `# Linux: 2 0/81000007`: the numbers of the ports by which the frame left, each with its tag where it had one,
0 for the host; or `# Linux: nowhere`. Before that stands `# Linux differs: NAME` where the difference has a name. Frames without such a
comment aren't compared.
"""
import collections
import os
import re

import packets
import verdict
from model import HOST

SENT, DIFFERS = "# Linux:", "# Linux differs:"
FLOODED = "leave-flood"  # the difference by which Linux floods a frame
QUIETED = re.compile("cmd link (?!HOST |QUERIER ).* mcast_flood off")
Kept = collections.namedtuple("Kept", "line linux name")  # of a frame: its line, the (number, tag) of what left, and its name


def file_name(title, folder):
    """A name that no file there has, of the record's name and the bridge's."""
    title = re.sub(r"^\d\d-|\.sh\b|\.pcapng\b|\.gz\b", "", title)  # the number and the ends of a file of kernel/selftests
    name = "".join(letter if letter.isalnum() or letter in "_-" else "-" for letter in title).strip("-")
    while "--" in name:
        name = name.replace("--", "-")
    number = 1
    while os.path.exists(os.path.join(folder, name + (".%d" % number if number > 1 else "") + ".scenario")):
        number += 1
    return name + (".%d" % number if number > 1 else "")


def write(folder, title, judged):
    with open(os.path.join(folder, file_name(title, folder) + ".scenario"), "w") as file:
        file.write("\n".join(["# Recorded: " + title] + lines_of(judged)) + "\n")


def lines_of(judged):
    """The scenario with its comments. Frames that nothing explains aren't kept for comparison, nor those that went by other tables."""
    names = {each.frame: each.name for each in judged.differences}
    lines = list(judged.head)
    for item in judged.outcome.items:
        if item.frame is not None and names.get(item.frame, "") is not None and item.frame not in judged.beside:
            if item.frame in names:
                lines.append("%s %s" % (DIFFERS, names[item.frame]))
            left = sorted((number, packets.tag_of(data).hex()) for number, data in verdict.of_linux(item.frame))
            lines.append("%s %s" % (SENT, " ".join("%d%s" % (number, "/" + tag if tag else "") for number, tag in left) or "nowhere"))
        lines.append(item.text)
    return lines + ["end"]


def read(text):
    """The lines of a scenario without comments, and by number its frames that are compared."""
    lines, kept, linux, name, frames = [], {}, None, None, 0
    for line in text.splitlines():
        if line.startswith(SENT):
            words = [word.partition("/") for word in line[len(SENT):].split() if word != "nowhere"]
            linux = {(int(number), tag) for number, _, tag in words}
        elif line.startswith(DIFFERS):
            name = line[len(DIFFERS):].strip()
        elif line and not line.startswith("#"):
            lines.append(line)
            if line.startswith("rx "):
                frames += 1
                if linux is not None:
                    kept[frames] = Kept(line, linux, name)
                linux = name = None
    return lines, kept


def flooded(lines, kept):
    """By the number of each frame that the kernel is said to flood where it would leave if it went to a group that nobody asked for. What the
    host sends is flooded to ports with `mcast_flood off`, too."""
    found = {}
    for by_host in (False, True):
        numbers = {number for number, frame in kept.items() if frame.name == FLOODED and (port_of(frame.line) == HOST) == by_host}
        if numbers:
            given = [line for line in lines if not (by_host and QUIETED.fullmatch(line))]
            sent = verdict.sent_by_number(verdict.run(["replay"], list(to_unknown_groups(given, numbers))))
            found.update({number: verdict.seen(HOST if by_host else 0, b"", sent[number]) for number in numbers})
    return found


def port_of(line):
    return int(line.split()[1])


def to_unknown_groups(lines, numbers):
    """The lines, in which these frames go to a group that nobody asks for."""
    frames = 0
    for line in lines:
        if line.startswith("rx "):
            frames += 1
            if frames in numbers:
                _, port, digits = line.split()
                line = "rx %s %s" % (port, packets.to_unknown_group(bytes.fromhex(digits)).hex())
        yield line


def compare(name, text, counts):
    """Lines for people about the frames that leave otherwise than in the kernel; counts what was compared."""
    lines, kept = read(text)
    sent = verdict.sent_by_number(verdict.run(["replay"], lines))
    floods = flooded(lines, kept)
    for number, frame in kept.items():
        _, port, digits = frame.line.split()
        data = bytes.fromhex(digits)
        ours = verdict.seen(int(port), data, sent[number])
        counts["frames"] += 1
        counts["sent"] += bool(frame.linux)
        differs = {(port, packets.tag_of(each)) for port, each in ours} != {(port, bytes.fromhex(tag)) for port, tag in frame.linux}
        differs = differs or any(packets.bare(each) != packets.bare(data) for _, each in ours)
        counts["named"] += differs and frame.name is not None
        counts["flooded"] += number in floods
        why = why_unfit(frame, differs, floods.get(number))
        if why is not None:
            counts["differ"] += 1
            yield "%s frame %d: %s\n  switchbr: %s\n  Linux:    %s%s" % (name, number, packets.describe(data), ports(ours), ports(frame.linux), why)


def why_unfit(frame, differs, flood):
    """Why a frame isn't as the kernel's words say, or None."""
    if differs != (frame.name is not None):
        return "\n  named, and doesn't differ: " + frame.name if frame.name else ""
    if flood is not None and {port for port, _ in frame.linux} != {port for port, _ in flood}:
        return "\n  named %s, and a flood leaves by %s" % (frame.name, ports(flood))
    return None


def ports(sent):
    return ", ".join(str(number) for number, _ in sorted(sent)) or "nowhere"
