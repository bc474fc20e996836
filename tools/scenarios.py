"""Scenarios and transcripts, read line by line. What is bad isn't told: `switchbr` does that."""
import collections
import struct

# head: the bytes before the first step; ports: names by number; domains: chips by number, 0 for software; steps: of each line of a step
# its words and all its bytes, those of a section too; remarks: of each such line the comments above it
Scenario = collections.namedtuple("Scenario", "head ports domains steps remarks")


def read(data, before=None):
    """A scenario up to its line `end`, or up to the line of this number."""
    found = Scenario(b"", {0: "host"}, {0: 0}, [], [])
    head, at, number, remark = b"", 0, 0, []
    while at < len(data):
        end = data.find(b"\n", at) + 1 or len(data)
        line, at, number = data[at:end], end, number + 1
        words = line.decode("ascii", "replace").split()
        if line.startswith(b"#"):
            remark.append(line[1:].decode("utf-8", "replace").strip())
        if not words or line.startswith(b"#"):
            continue
        if words[0] == "end" or number == before:
            break
        if words[0] == "capture":
            line, at = line + data[at:at + int(words[1])], at + int(words[1])
        if words[0] in ("scenario", "bridge", "port"):
            head += line
            if words[0] == "port":
                found.ports[int(words[1])] = words[2]
                found.domains[int(words[1])] = int(words[4]) if words[3:4] == ["chip"] else 0
        else:
            found.steps.append((words, line))
            found.remarks.append(" ".join(remark))
        remark = []
    return found._replace(head=head)


def packets(section):
    """Interface and bytes of each packet of a section, as the program reads them."""
    at, order = 0, "<"
    while at < len(section):
        if section[at:at + 4] == b"\x0a\x0d\x0d\x0a":
            order = "<" if section[at + 8:at + 9] == b"\x4d" else ">"
        kind, length = struct.unpack_from(order + "2I", section, at)
        if kind == 6:
            interface, _, _, captured = struct.unpack_from(order + "4I", section, at + 8)
            yield interface, section[at + 28:at + 28 + captured]
        at += length
