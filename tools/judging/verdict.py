"""The replay of a scenario, and what of it differs from the record."""
import collections
import os
import shutil
import subprocess

import named
import packets
from model import HOST, PUBLISH, QUERIER, SERVE, Item

BUILT = os.path.join(os.path.dirname(os.path.abspath(__file__)), "../../crates/switchbr/out/switchbr")
PROGRAM = os.environ.get("SWITCHBR") or (BUILT if os.path.exists(BUILT) else shutil.which("switchbr") or BUILT)
MOST_PLACES = 64
MOST_SECONDS = 600
MOST_TRIED = 3 * 10**7  # lines that are replayed for frames near changes, at most

# frame, and what is compared: sets of (number, bytes); names: of the ports, by number; is_checked: whether the name says how Linux decides it
Difference = collections.namedtuple("Difference", "frame ours linux name is_checked names")
Row = collections.namedtuple("Row", "time table text side name")


class Broken(Exception):
    """The program doesn't take the scenario."""


def run(words, lines):
    done = subprocess.run([PROGRAM, *words], input=("\n".join(lines) + "\n").encode(), stdout=subprocess.PIPE, timeout=MOST_SECONDS)
    out = done.stdout.decode(errors="replace").splitlines()
    if done.returncode:
        words = out[-1].split() if out else []
        number = int(words[1]) if words[:1] == ["bad"] and words[1:2] and words[1].isdigit() else 0
        line = lines[number - 1][:200] if 0 < number <= len(lines) else ""
        raise Broken("switchbr doesn't take the scenario: %s%s" % (out[-1] if out else "status %d" % done.returncode, ": " * bool(line) + line))
    return out


def flat(items):
    """The lines of the scenario with the corrections at quiet moments, as items."""
    for item in items:
        if item.cut:
            yield from item.cut.corrections
        else:
            yield item


class Outcome:
    """What `switchbr replay` says: by frame the (number, bytes) that left, and the commands that it refused."""

    def __init__(self, head, items):
        self.items = list(flat(items))
        self.frames = [item.frame for item in self.items if item.text.startswith("rx ")]
        self.sent, self.refused, self.by_number = collections.defaultdict(set), [], {}
        self.lines = head + [item.text for item in self.items] + ["end"]

    def replay(self):
        told = run(["replay"], self.lines)
        self.by_number = sent_by_number(told)
        for number, sent in self.by_number.items():
            if self.frames[number - 1] is not None:
                self.sent[self.frames[number - 1]] |= sent
        refused = [line.split(" ") for line in told if line.startswith("refused ")]
        steps = [(self.items[int(step) - 1], why) for _, step, why in refused]
        self.refused = [(item.text, why) for item, why in steps if not item.may_fail]
        return self

    def last_sent(self):
        """What left of the last frame."""
        return self.by_number.get(len(self.frames), set())


def sent_by_number(lines):
    """By the number of a frame the (port, bytes) that left by a transcript, the host's pseudo port counted as the host."""
    sent = collections.defaultdict(set)
    for line in lines:
        if line.startswith("tx "):
            _, frame, port, digits = line.split(" ")
            if port != str(QUERIER):
                sent[int(frame)].add((0 if int(port) == HOST else int(port), bytes.fromhex(digits)))
    return sent


def seen(number, data, sent):
    """What is compared of a frame: without the host where the host sent it, or its copy isn't seen."""
    if number == HOST or packets.is_reserved(data):
        sent = {each for each in sent if each[0]}
    return sent


def of_linux(frame):
    """What left in the kernel, as the scenario would have it."""
    if not frame.kept_tag:
        return seen(frame.number, frame.data, set(frame.out))
    bare = {(number, packets.bare(data) if packets.tag_of(data) == frame.kept_tag else b"another tag") for number, data in frame.out}
    return seen(frame.number, frame.data, bare)


def place_of_row(table, text):
    """The address or group of a row of a table, and its VLAN."""
    words = text.split(" ")
    return (words[0], int(words[4])) if table == "fdb" else (words[3], int(words[5]))


class Verdict:
    """The judgement of one window of a case."""

    def __init__(self, case, window):
        self.case, self.window, self.head = case, window, window.model.head()
        self.names = {**window.model.names, 0: "the host", HOST: "the host"}
        self.counts, self.differences, self.rows, self.looks = collections.Counter(), [], [], 0
        self.refused, self.fault, self.outcome, self.tried = [], None, None, 0
        self.untried = 0  # frames near a change that weren't judged, since there are too many
        self.beside = set()  # frames that went by the tables of the other side of a change
        self.corrected = set()  # rows that a correction made

    def judge(self):
        try:
            self.compare_tables()
            self.outcome = Outcome(self.head, self.window.model.items).replay()
            self.refused = self.outcome.refused
            for frame in self.window.frames:
                self.compare_frame(frame)
        except (Broken, subprocess.SubprocessError) as fault:
            self.fault = str(fault)
        return self

    # ---- frames ----

    def seen(self, frame, sent):
        """What is compared of what the scenario sends: at far ends the host's copies aren't seen."""
        return {each for each in seen(frame.number, frame.data, sent) if each[0] or self.case.sees_host}

    def compare_frame(self, frame):
        linux = of_linux(frame)
        self.counts["frames"] += 1
        self.counts["leave"] += bool(linux)
        self.counts["from the host"] += frame.number == HOST
        if frame.expected is not None:
            ours, numbers = None, {number for number, _ in self.seen(frame, {(number, b"") for number in frame.expected.ports})}
            if {number for number, _ in linux} == numbers and self.keeps_bytes(frame, linux):
                self.differ(frame, set(), linux, frame.expected.name)
                return
        else:
            ours = self.seen(frame, self.outcome.sent.get(frame, set()))
            if ours == linux or self.case.bounds.chip and self.beside_chip(frame, ours) == linux:
                self.counts["same"] += 1
                return
        self.compare_near(frame, ours, linux)

    def compare_near(self, frame, ours, linux):
        """Compares a frame with what the tables of the other side of a change say."""
        sides = list(self.sides(frame))
        if linux in sides:
            self.counts["same"] += 1
            self.counts["by the tables of the other side of a change"] += 1
            self.beside.add(frame)
            return
        named_sides = (self.name_of(frame, side, linux) for side in ([] if ours is None else [ours]) + sides)
        name = next(filter(None, named_sides), None)
        if name is None and None in sides:
            self.counts["frames"] -= 1
            self.untried += 1
            return
        self.differ(frame, ours or set(), linux, name)

    def beside_chip(self, frame, sent):
        """What software sends of a frame that the chip of its port has forwarded: nothing to that chip's ports."""
        switches = frame.view.switches
        chip = switches.get(frame.number)
        return {each for each in sent if chip is None or switches.get(each[0]) != chip}

    def name_of(self, frame, ours, linux):
        if ours is None or not self.same_bytes(frame, ours, linux):
            return None
        return named.name_of(self.case, frame, {each for each, _ in ours}, {each for each, _ in linux})

    def differ(self, frame, ours, linux, name):
        is_checked = name is not None and named.is_checked(frame, name, {each for each, _ in linux})
        self.differences.append(Difference(frame, ours, linux, name, is_checked, self.names))

    def keeps_bytes(self, frame, linux):
        """Whether nothing but the tag changed."""
        return all(packets.bare(data) == packets.bare(frame.data) for _, data in linux)

    def same_bytes(self, frame, ours, linux):
        """Whether the two agree where both send, or a setting may change the bytes."""
        here, there = dict(ours), dict(linux)
        if any(frame.view.on[setting] for setting in named.CHANGES_BYTES):
            return True
        return all(here[number] == there[number] for number in here.keys() & there.keys())

    def sides(self, frame):
        """What the tables of the other sides of changes near the frame give; None where that would take too long."""
        items = self.window.model.items
        before, after = self.near(items, frame)
        nearby = before + after
        if not 0 < len(nearby) <= MOST_PLACES:
            return
        given = packets.bare(frame.data) if frame.kept_tag else frame.data
        entry = [PUBLISH, Item("rx %d %s" % (frame.number, given.hex()), frame=frame), SERVE]
        kept = [items[at] for at in range(self.place(frame)) if at not in set(before)]
        for applied in range(len(nearby) + 1):
            if applied == len(before) and frame.expected is None:
                continue  # where it entered
            self.tried += len(kept)
            if self.tried > MOST_TRIED:
                yield None
                return
            yield self.seen(frame, Outcome(self.head, kept + [items[at] for at in nearby[:applied]] + entry).replay().last_sent())

    def place(self, frame):
        """The place in the scenario at which the frame enters, or would enter."""
        return frame.item - 2 if frame.expected is None else frame.item + 1

    def near(self, items, frame):
        """The places of the commands near a frame, those before it and those after it."""
        before, after = [], []
        at = self.place(frame) - 1
        while at >= 0 and self.is_near(items, at, frame):
            if items[at].end and not items[at].is_old:
                before.insert(0, at)
            at -= 1
        at = frame.item + 1
        while at < len(items) and self.is_near(items, at, frame):
            if items[at].end and not items[at].is_old:
                after.append(at)
            at += 1
        return before, after

    def is_near(self, items, at, frame):
        item, near = items[at], self.case.bounds.near
        if item.end and not item.is_old:
            return item.begin - near <= frame.time <= item.end + near
        if item.frame:
            return abs(item.frame.time - frame.time) <= near
        return True

    # ---- tables ----

    def compare_tables(self):
        items = self.window.model.items
        for cut in self.window.cuts:
            self.compare_cut(cut, Outcome(self.head, items[:cut.place]).lines)

    def compare_cut(self, cut, lines):
        for table, linux in (("fdb", cut.fdb), ("mdb", cut.mdb)):
            self.looks += 1
            ours = {line.replace("dev HOST ", "dev host ") for line in run(["show", table], lines)[:-1] if "dev QUERIER " not in line}
            differ = {text for text in linux.keys() ^ ours if place_of_row(table, text) not in cut.recent}
            for text in sorted(differ & linux.keys()):
                name = self.by_sources(cut, table, text) or named.of_row(self.case, linux[text], cut)
                self.rows.append(Row(cut.time, table, text, "Linux", name))
                if name != "late-end":
                    self.put_in(cut, table, text)
            for text in sorted(differ & ours):
                if text not in self.corrected:
                    self.rows.append(Row(cut.time, table, text, "switchbr", self.by_sources(cut, table, text)))
                self.take_out(cut, table, text)

    def by_sources(self, cut, table, text):
        return named.BY_SOURCES if table == "mdb" and place_of_row(table, text) in cut.sources else None

    def take_out(self, cut, table, text):
        words = text.split(" ")
        if table == "fdb":
            cut.corrections.append(Item("cmd fdb del %s vlan %s" % (words[0], words[4]), may_fail=True))
            return
        for name in (words[1], "HOST") if words[1] == "host" else (words[1],):
            cut.corrections.append(Item("cmd mdb del %s dev %s vlan %s" % (words[3], name, words[5]), may_fail=True))

    def put_in(self, cut, table, text):
        words = text.split(" ")
        self.corrected.add(text)
        if table == "mdb":
            cut.corrections.append(Item("cmd mdb add %s dev %s vlan %s" % (words[3], words[1], words[5]), may_fail=True))
        elif words[5] == "learned" and self.window.model.number_named(words[2]):
            vlans = self.window.model.vlans.get(words[2], {})
            tag = None if vlans.get(int(words[4]), (False,))[0] else int(words[4])
            cut.corrections.append(Item("cmd fdb del %s vlan %s" % (words[0], words[4]), may_fail=True))
            digits = packets.teaching(words[0], tag)
            cut.corrections += [PUBLISH, Item("rx %d %s" % (self.window.model.number_named(words[2]), digits)), SERVE]
