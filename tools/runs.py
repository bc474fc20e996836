"""What a run does at each step, from what the program prints: one run of the program for each listing, and a few more.

The program lists what stands at the end, not what each step changed. That is found so:

- Address changes are the messages of `monitor`. Each has the number of deferred changes before it; how many a step made is told by one
  run more, in which an unused chip applies each at once (`deferred_by_a_chip`).
- Members of groups are listed behind steps in which a message or time may have changed them (`Probes`). A message changes members at its
  own port and of groups that it names, so one listing serves all steps up to it that change different ones (`listed_behind`).
"""
import bisect
import collections
import concurrent.futures
import itertools
import os
import pathlib
import re
import shutil
import subprocess

import scenarios

BUILT = pathlib.Path(__file__).resolve().parent.parent / "crates/switchbr/out/switchbr"
# of an installation that is the one on the PATH
PROGRAM = os.environ.get("SWITCHBR") or (None if BUILT.exists() else shutil.which("switchbr")) or BUILT
LISTINGS = ("monitor", "show fdb", "show vlan", "show mdb", "audit")
COMES, OFFLOADED, EXTERN = 28, 0x20, 0x10
# a step has at most a line for each port and the host, a message of the tree for each port, and four more
MOST_LINES = 255 + 255 + 4
KINDS = {0x80: "local", 0x40: "static", 0x02: "learned"}
# what may be a group's address in a message, behind the headers of version 4 and of version 6
GROUPS = ((re.compile(rb"(?=([\xe0-\xef]...))", re.S), 34), (re.compile(rb"(?=(\xff.{15}))", re.S), 54))

# text: a step's line in the scenario, or its packet's; words: the line's; remark: the comments above it; size: how many bytes of the
# scenario's steps end with it; frame: the port and the bytes that enter
Given = collections.namedtuple("Given", "text words remark size frame")
# given; lines: of the transcript; accepted, published: how many changes behind the step; deferred: how many of them are deferred; turns:
# of each chip how many of these it has applied; frame: the frame that enters, is held or is sent, and the port that it entered;
# addresses, groups, vlans: what changes, each a key and what stands there then (None: nothing)
Step = collections.namedtuple("Step", "given lines accepted published deferred turns frame addresses groups vlans")
# ended: the last line of the transcript; deferred: the deferred changes, each "a" or "g", a key and what stands there then; listings: at
# the end, by their words
Run = collections.namedtuple("Run", "scenario ended steps deferred listings")
# what a step may have changed of the members of groups: in which VLAN, of which groups and at which port; None is any
Cause = collections.namedtuple("Cause", "vlan groups port")
# a message of `monitor`
Message = collections.namedtuple("Message", "ticket key value")


class Failed(Exception):
    pass


def program(words, data):
    """The lines that the program writes."""
    if not os.path.exists(PROGRAM):
        raise Failed(f"{PROGRAM}: there is no such program; `rt ci` makes it, or `rt run` in crates/switchbr")
    run = subprocess.run([PROGRAM, *words.split()], input=data, capture_output=True)
    lines = run.stdout.decode().splitlines()
    if run.returncode not in (0, 3):
        raise Failed(f"{words} ends with status {run.returncode}: {lines[-1:]}")
    return lines


def message(line, names):
    """The message of an entry that comes, changes or goes; None where a chip has got one."""
    data = bytes.fromhex(line.split()[1])
    kind, ticket, index, state, vlan = (int.from_bytes(data[at:end], "little") for at, end in ((4, 6), (8, 12), (20, 24), (24, 26), (44, 46)))
    if data[26] & OFFLOADED:
        return None
    value = (names[index - 1], "extern" if data[26] & EXTERN else KINDS[state])
    return Message(ticket, (vlan, data[32:38].hex(":")), value if kind == COMES else None)


def members(listing):
    """VLAN, group and port of each line of `show mdb`."""
    return {(int(words[5]), words[3], words[1]) for words in map(str.split, listing[:-1])}


def given(scenario):
    """The steps of a scenario."""
    ports, size = [port for port in scenario.ports if port], 0
    for (words, line), remark in zip(scenario.steps, scenario.remarks):
        size += len(line)
        if words[0] != "capture":
            frame = (int(words[1]), bytes.fromhex(words[2])) if words[0] == "rx" else None
            yield Given(" ".join(words), words, remark, size, frame)
        else:
            for at, (interface, data) in enumerate(scenarios.packets(line[line.index(b"\n") + 1:]), 1):
                text = f"rx {ports[interface]} {data.hex()}"
                yield Given(f"packet {at} of the capture: {text}", text.split(), remark, size, (ports[interface], data))


def told_of(step, frame, lines):
    """The lines of the transcript that belong to this step, of those from its first one on."""
    if step.words[0] == "hold":
        return lines[:1]
    count = 0
    if step.frame:
        while lines[count].split()[0] in ("chip", "unread", "overrun", "tx") and lines[count].split()[1] == str(frame):
            count += 1
        return lines[:count]
    while lines[count].split()[0] not in ("ok", "refused"):
        count += 1
    return lines[:count + 1]


def by_group(keys):
    """Members by group and port."""
    found = collections.defaultdict(set)
    for key in keys:
        found[key[1:]].add(key)
    return found


def within(table, cause):
    """The members, by group and port, that may have changed by it."""
    if cause.groups is None:
        return {key for keys in table.values() for key in keys if cause.vlan in (None, key[0]) and cause.port in (None, key[2])}
    return {key for group in cause.groups for key in table.get((group, cause.port), ()) if cause.vlan in (None, key[0])}


class Probes:
    """Runs of the program on the steps up to one of them."""

    def __init__(self, scenario, steps):
        self.head, self.body, self.steps = scenario.head, b"".join(line for _, line in scenario.steps), steps
        self.pool = concurrent.futures.ThreadPoolExecutor(os.cpu_count())

    def begin(self, step, words):
        return self.pool.submit(program, words, self.head + self.body[:self.steps[step].size] + b"end\n")

    def pending(self, step):
        return int(self.begin(step, "replay").result()[-1].split()[3])

    def members(self, places):
        """The members of groups behind the step that this names for each, by runs side by side."""
        listings = {place: self.begin(place, "show mdb") for place in sorted(set(places.values()))}
        found = {place: by_group(members(listing.result())) for place, listing in listings.items()}
        return {number: found[place] for number, place in places.items()}


class Bridge:
    """The tables of the bridge, from step to step."""

    def __init__(self, scenario, messages, listed):
        # listed: at each message or moment that may have changed members of groups, those that a listing tells
        self.edition, self.listed = int(scenario.head.split()[1]), listed
        self.messages = collections.deque(messages)
        self.turns = {chip: 0 for chip in sorted({1, *scenario.domains.values()} - {0})}
        self.groups, self.vlans, self.pvids, self.deferred = by_group([]), {("host", 1): "untagged"}, {}, []

    def change_addresses(self, behind):
        """Takes the messages of the deferred changes up to this number of them."""
        changes = []
        while self.messages and self.messages[0].ticket < behind:
            changes.append(self.messages.popleft())
        return changes

    def change_groups(self, number, words, cause):
        """What a step changes of the members that it may have changed: a message or moment as listed, commands as they say."""
        if not cause:
            return []
        before, behind = within(self.groups, cause), within(self.listed.get(number, {}), cause)
        if words[:3] == ["cmd", "mdb", "add"]:
            behind = {(int(words[7]), words[3].lower(), words[5])}
        for key in before ^ behind:
            self.groups[key[1:]] ^= {key}
        return [(key, "member") for key in sorted(behind - before)] + [(key, None) for key in sorted(before - behind)]

    def change_vlans(self, words):
        if words[:3] == ["cmd", "port", "up"]:
            return self.join(words[3], 1, ["pvid", "untagged"])
        if words[:3] == ["cmd", "vlan", "add"]:
            return self.join(words[6], int(words[4]), words[7:])
        if words[:3] == ["cmd", "port", "down"]:
            return [self.part(key) for key in list(self.vlans) if key[0] == words[3]]
        return [self.part((words[6], int(words[4])))] if words[:3] == ["cmd", "vlan", "del"] else []

    def join(self, port, vlan, marks):
        self.vlans[port, vlan] = "untagged" if "untagged" in marks else "tagged"
        touched = {vlan}
        if "pvid" in marks:
            touched |= {self.pvids.get(port, vlan)}
            self.pvids[port] = vlan
        return [((port, at), self.vlans[port, at] + (" pvid" if self.pvids.get(port) == at else "")) for at in sorted(touched)]

    def part(self, key):
        del self.vlans[key]
        if self.pvids.get(key[0]) == key[1]:
            del self.pvids[key[0]]
        return key, None

    def defer(self, addresses, groups, behind):
        """Adds the deferred changes of a step, by their tickets. One that no listing tells is None."""
        groups = collections.deque(groups if self.edition == 2 else [])
        by_ticket = {change.ticket: change for change in addresses}
        for ticket in range(len(self.deferred), behind):
            if ticket in by_ticket:
                self.deferred.append(("a", by_ticket[ticket].key, by_ticket[ticket].value))
            else:
                self.deferred.append(("g", *groups.popleft()) if groups else None)


class Transcript:
    """The lines of each step, and the frames that entered."""

    def __init__(self, steps, lines):
        # entered: the port and the bytes of each frame; told: lines, changes made, and the frame, of each step
        self.entered, self.told, at = {}, [], 1
        for step in steps:
            if step.frame:
                self.entered[len(self.entered) + 1] = step.frame
            told = told_of(step, len(self.entered), lines[at:at + MOST_LINES])
            at += len(told)
            made = int(told[-1].split()[2]) if told and told[-1].startswith("ok ") else 0
            decided = [int(line.split()[1]) for line in told if line.startswith(("soft ", "held "))]
            self.told.append((told, made, len(self.entered) if step.frame else decided[0] if decided else None))


def unused(scenario):
    """A chip that the scenario doesn't use, and the line that declares a port there; None if it uses all chips or ports."""
    domain = next((domain for domain in range(2, 5) if domain not in scenario.domains.values()), None)
    number = next((number for number in range(1, 255) if number not in scenario.ports), None)
    name = next(name for name in map("unused{}".format, range(256)) if name not in scenario.ports.values())
    return domain and number and (domain, f"port {number} {name} chip {domain}\n".encode())


def deferred_by_a_chip(scenario, steps, made, total, chip):
    """How many deferred changes are accepted behind each step, by an unused chip: behind each step that made changes it has as many turns.
    Since it had applied all before, the turns that aren't refused are as many as the step's deferred changes."""
    domain, line = chip
    body, parts, at = b"".join(line for _, line in scenario.steps), [scenario.head, line], 0
    turns = [min(changes, total) for changes in made]
    for step, count in zip(steps, turns):
        if count:
            parts += [body[at:step.size], f"turn {domain}\n".encode() * count]
            at = step.size
    lines = program("replay", b"".join([*parts, body[at:], b"end\n"]))
    accepted = {int(line.split()[1]) for line in lines if line.startswith("ok ")}
    behind, number = [], 0
    for count in turns:
        number += 1 + count
        behind.append(sum(turn in accepted for turn in range(number - count + 1, number + 1)))
    return list(itertools.accumulate(behind))


def deferred_by_halves(made, total, count):
    """The same without an unused chip: `count` tells it behind one step. Where the steps in between made no deferred change, or no other,
    none of them is asked for."""
    found = [0] * len(made)

    def halve(low, high, before, behind):
        if high - low == 1 or behind == before:
            found[low:high] = [behind] * (high - low)
        elif behind - before == sum(made[low:high]):
            found[low:high] = [before + changes for changes in itertools.accumulate(made[low:high])]
        else:
            middle = (low + high) // 2
            between = count(middle - 1)
            halve(low, middle, before, between)
            halve(middle, high, between, behind)

    halve(0, len(made), 0, total)
    return found


def deferred_behind(scenario, steps, transcript, probes, audit):
    """How many deferred changes are accepted behind each step."""
    chips = len({1, *scenario.domains.values()} - {0})
    made = [changes for _, changes, _ in transcript.told]
    turned = list(itertools.accumulate(step.words[0] == "turn" and lines[-1].startswith("ok ")
                                       for step, (lines, _, _) in zip(steps, transcript.told)))
    total = (sum(int(line.split()[1]) for line in audit if line.startswith("pending ")) + sum(turned[-1:])) // chips
    if not total:
        return [0] * len(steps)
    if chip := unused(scenario):
        return deferred_by_a_chip(scenario, steps, made, total, chip)
    return deferred_by_halves(made, total, lambda number: (probes.pending(number) + turned[number]) // chips)


def named(data):
    """What may be the groups that a message names, as listings write them."""
    four, six = ({found[1] for found in pattern.finditer(data, start)} for pattern, start in GROUPS)
    return {".".join(map(str, address)) for address in four} | {address.hex(":", 2) for address in six}


def cause_of(step, entered, names):
    """What a step that made changes besides those of addresses may have changed of the members of groups; None is nothing."""
    words = step.words
    if words[0] == "now":
        return Cause(None, None, None)
    if words[:2] == ["cmd", "mdb"]:
        return Cause(int(words[7]), {words[3].lower()}, words[5])
    if words[:3] == ["cmd", "port", "down"]:
        return Cause(None, None, words[3])
    if words[:3] == ["cmd", "vlan", "del"]:
        return Cause(int(words[4]), None, words[6])
    if words[0] in ("serve", "post") and entered[1][:1] in (b"\x01", b"\x33"):
        groups = named(entered[1])
        return Cause(None, groups, names[entered[0]]) if groups else None
    return None


def causes_of(scenario, steps, transcript, behind, messages):
    """Of each step what it may have changed of the members of groups; None is nothing."""
    tickets, both = [message.ticket for message in messages], scenario.head.split()[1] == b"2"
    told_before = deferred_before = 0
    for step, (_, made, frame), deferred in zip(steps, transcript.told, behind):
        told = bisect.bisect_left(tickets, deferred)
        others = (deferred - deferred_before if both else made) - (told - told_before)
        told_before, deferred_before = told, deferred
        yield cause_of(step, transcript.entered.get(frame), scenario.ports) if others else None


def apart(taken, cause):
    """Whether it changes other members than these may: of each port (None: of any) its groups (None: any)."""
    if cause.port is None or None in taken:
        return not taken
    return cause.port not in taken or None not in (cause.groups, taken[cause.port]) and taken[cause.port].isdisjoint(cause.groups)


def listed_behind(steps, causes):
    """At each message or moment that may have changed members of groups, the step behind which a listing tells how. One serves as many
    steps as change different members."""
    places, taken, batch = {}, {}, []
    for number, (step, cause) in enumerate(zip(steps, causes)):
        if not cause:
            continue
        if not apart(taken, cause):
            taken, batch = {}, []
        taken[cause.port] = None if cause.groups is None else taken.get(cause.port, set()) | cause.groups
        if step.words[0] != "cmd":
            batch.append(number)
            places.update(dict.fromkeys(batch, number))
    return places


def follow(bridge, steps, transcript, behind, causes):
    """The steps with all that they do."""
    accepted = published = 0
    for number, (step, (lines, made, frame)) in enumerate(zip(steps, transcript.told)):
        words, taken = step.words, bool(lines) and lines[-1].startswith("ok ")
        addresses = bridge.change_addresses(behind[number])
        groups = bridge.change_groups(number, words, causes[number])
        vlans = bridge.change_vlans(words) if taken else []
        bridge.defer(addresses, groups, behind[number])
        accepted += made
        if taken and words[0] == "publish":
            published = accepted
        if taken and words[0] == "turn":
            bridge.turns[int(words[1])] += 1
        yield Step(step, lines, accepted, published, len(bridge.deferred), dict(bridge.turns), frame and (frame, transcript.entered[frame][0]),
                   [change[1:] for change in addresses], groups, vlans)


def run(data, most=None):
    """The run of a scenario, up to its end or to a bad line; one of more steps than `most` is refused."""
    lines = program("replay", data)
    scenario = scenarios.read(data, int(lines[-1].split()[1]) if lines[-1].startswith("bad ") else None)
    whole = scenario.head + b"".join(line for _, line in scenario.steps) + b"end\n"
    with concurrent.futures.ThreadPoolExecutor() as pool:
        listings = dict(zip(LISTINGS, pool.map(lambda words: program(words, whole), LISTINGS)))
    if listings["audit"][-1] != "end":
        raise Failed(f"the run ends before its first step: {lines[-1]}")
    steps = list(given(scenario))
    if most is not None and len(steps) > most:
        raise Failed(f"{len(steps)} steps; at most {most} are shown")
    messages = [found for line in listings["monitor"][:-1] if (found := message(line, scenario.ports))]
    transcript, probes = Transcript(steps, lines), Probes(scenario, steps)
    behind = deferred_behind(scenario, steps, transcript, probes, listings["audit"])
    causes = list(causes_of(scenario, steps, transcript, behind, messages))
    bridge = Bridge(scenario, messages, probes.members(listed_behind(steps, causes)))
    followed = list(follow(bridge, steps, transcript, behind, causes))
    probes.pool.shutdown()
    return Run(scenario, lines[-1], followed, bridge.deferred, listings)
