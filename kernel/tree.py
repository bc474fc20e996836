"""Scenarios of the spanning tree, here and in the kernel.

Compared are, of each step, the frames that leave, the messages that the bridge sends, and whether a command is taken; and at each moment
at which something changed or was sent, and some others, when all has happened there, the state of each port, who is the root, at which
cost and by which port. What `switchbr` has of the last it
writes nowhere, so it is asked: the scenario up to there is replayed with frames and messages behind it whose effect tells it (`Asked`).

In a message the source address, the padding and the age differ by name everywhere (`message-bytes`, `message-age`): the address isn't
compared, the bytes are up to their end, and Linux's age must be ours without the second that we add, and what the guest took.

A comment `# Linux differs: ..` names a difference in the next line, which then must differ in what leaves, in what is sent or, if the line is the
last one of its moment, in the states. Comments `# Linux's bytes differ: 6 to 11: ..` name ranges of bytes: each must differ in the
messages that the next line sends, and no other byte.

A recorded scenario has behind its line `end`, where nothing is looked at, what the guest told.
"""
import collections
import concurrent.futures
import itertools
import os
import subprocess

import machine
import trees

SECOND = 256  # of a message's age
SHOWN = 10
SLACK = 32  # by how much of a second's 256 parts a message of the guest may be younger or older: a port that comes or goes takes it some 30 ms
TCN, CONFIG = "80", "00"
ASKING = "020000000f%02x"
MORE, MORE_NUMBER = "more", 254
BLOCKING, LISTENING, LEARNING, FORWARDING = "4", "1", "2", "3"
SOURCE = os.path.join(machine.PEER, "stp/stp")
KIND = trees.KIND
NO_FRAMES = "no frames"  # what stp.c tells first
MARK, BYTES = "# Linux differs:", "# Linux's bytes differ:"

# first: the number of its first step, last: of its last; frame: its number, or 0; named: the mark's words; ranges: those of bytes
Step = collections.namedtuple("Step", "line first last frame named ranges")


def replayed(program, lines):
    done = subprocess.run([program, "replay"], input=("\n".join(lines) + "\n").encode(), stdout=subprocess.PIPE, timeout=60)
    return done.stdout.decode().splitlines()


class Scenario:
    """A scenario's lines with what the program needs besides, and its steps."""

    def __init__(self, name, text):
        self.name, self.lines, self.steps = name, [], []
        self.ends = []  # behind each step: how many lines of the scenario there are
        self.recorded, self.kept = None, []
        count = frames = 0
        named, ranges = None, []
        for at, line in enumerate(text.splitlines()):
            words = line.split()
            if line.startswith(MARK):
                named = line[len(MARK):].strip()
            if line.startswith(BYTES):
                ranges.append(range(int(words[4]), int(words[6].rstrip(":")) + 1))
            if words[:1] == ["end"]:
                self.recorded = text.splitlines()[at + 1:]
                break
            if line != KIND:
                self.kept.append(line)
            if not words or line.startswith("#"):
                continue
            if words[0] in ("scenario", "bridge", "port"):
                self.lines.append(line)
                continue
            parts = ["publish", line, "serve"] if words[0] == "rx" else [line]
            frames += words[0] == "rx"
            self.lines += parts
            self.steps.append(Step(line, count + 1, count + len(parts), frames if words[0] == "rx" else 0, named, ranges))
            self.ends.append(len(self.lines))
            count += len(parts)
            named, ranges = None, []
        self.lines.append("end")

    def kernel_text(self):
        return "\n".join(["tree"] + self.lines) + "\n"

    def moments(self):
        """The last step of each moment."""
        for at, step in enumerate(self.steps):
            if at + 1 == len(self.steps) or self.steps[at + 1].line.startswith("now"):
                yield at


class Told:
    """What one side told: by step the messages as (port, bytes) and the answer, by frame the (port, bytes) of what left, and of the
    tree the states, the root and whether a topology change was detected, as they were behind each step."""

    def __init__(self, lines):
        self.messages, self.answers, self.sent = collections.defaultdict(list), {}, collections.defaultdict(list)
        self.states, self.root, self.change, self.fault = collections.defaultdict(dict), {}, {}, None
        self.has_frames = True
        self.changed = set()  # steps that changed something
        waiting = []
        for line in lines:
            words = line.split()
            if words[0] == "ctl" and len(words) == 3:
                waiting.append((int(words[1]), words[2]))
            elif words[0] == "ctl":
                self.messages[int(words[1])].append((int(words[2]), words[3]))
            elif words[0] == "tx":
                self.sent[int(words[1])].append((int(words[2]), words[3]))
            elif words[0] in ("ok", "refused"):
                self.answers[int(words[1])] = words[0]
                if words[0] == "ok" and words[2:] not in ([], ["0"]):
                    self.changed.add(int(words[1]))
                self.messages[int(words[1])] += waiting
                waiting = []
            elif words[0] == "state":
                self.states[int(words[1])][int(words[2])] = words[3]
                self.changed.add(int(words[1]))
            elif words[0] in ("root", "change"):
                getattr(self, words[0])[int(words[1])] = words[2:]
                self.changed.add(int(words[1]))
            elif words[0] in ("bad", "fatal"):
                self.fault = line
            elif line == NO_FRAMES:
                self.has_frames = False

    def messages_of(self, step):
        return sorted(each for number in range(step.first, step.last + 1) for each in self.messages[number])


class Asked:
    """What the program has of the tree behind some lines: it is told by what the bridge does with frames and messages that come then.

    A frame to all reaches the host where its port forwards; its source is an entry where the port learns. A port more comes up, which is
    designated and has sent nothing: it answers a notification with the root and the cost. Where the bridge isn't the root, a notification
    at a designated port goes on by the root port; at the root it is acknowledged there, at once or when the port may send again. A
    port that is neither is blocking.
    """

    def __init__(self, program, lines, up, clock, on):
        asking = ["publish"]
        for port in up:
            asking += ["rx %d %s%s88b5%s" % (port, "f" * 12, ASKING % port, "0" * 92), "serve"]
        asking += ["cmd fdb del %s vlan 1" % bytes.fromhex(ASKING % port).hex(":") for port in up]
        if on:
            asking.append("cmd port up " + MORE)
            for port in [MORE_NUMBER] + up:
                asking += ["rx %d %s" % (port, trees.message_frame(ASKING % port, trees.TCN)), "serve"]
            asking.append("now %d" % (clock + 1000))
        head = next((at for at, line in enumerate(lines) if line.split()[0] not in ("scenario", "bridge", "port")), len(lines))
        lines = lines[:head] + ["port %d %s soft" % (MORE_NUMBER, MORE)] + lines[head:]
        self.states, self.root, self.cost, self.port = {}, None, None, None
        self.read(replayed(program, lines + asking + ["end"]), up, on)

    def read(self, told, up, on):
        answers, messages, to_host, waiting = [], [], set(), []
        for line in told:
            words = line.split()
            if words[0] == "ctl":
                waiting.append((int(words[1]), words[2]))
            elif words[0] in ("ok", "refused"):
                answers.append(words[0])
                messages.append(waiting)
                waiting = []
            elif words[0] == "tx" and words[2] == "0":
                to_host.add(words[3][12:24])
        asked = -(len(up) + 3) if on else 0
        taken = answers[asked - len(up):asked or None]
        active = self.read_roles(messages[asked + 1:], up) if on else ()
        for port, answer in zip(up, taken):
            without = LISTENING if port in active else BLOCKING
            self.states[port] = FORWARDING if ASKING % port in to_host else LEARNING if answer == "ok" else without

    def read_roles(self, messages, up):
        """The ports that are designated or the root port, by the messages of each step: those of the port more and of each port, and of the
        moment a second later."""
        self.port = next((by for by, data in messages[0] if data[40:42] == TCN), 0)
        data = next((data for by, data in messages[0] if by == MORE_NUMBER), None)
        if data:  # else what the root port has kept is too old to be passed on
            self.root, self.cost = data[44:60], int(data[60:68], 16)
        active = {by for step in messages for by, data in step if data[40:42] == CONFIG and int(data[42:44], 16) & 0x80}
        active |= {port for port, step in zip(up, messages[1:]) if any(data[40:42] == TCN for _, data in step)}
        return active | {self.port}


def without_age(data, port):
    """What is compared of a message beside its age: without the source, and padded."""
    data = data.ljust(120, "0")
    return port, data[:12] + data[24:88] + data[92:]


def same_messages(ours, linux):
    if [without_age(data, port) for port, data in ours] != [without_age(data, port) for port, data in linux]:
        return False
    return all(data[40:42] == TCN or same_age(data, other) for (_, data), (_, other) in zip(ours, linux))


def same_age(data, other):
    """The root tells no age; else ours is older by a second."""
    age, its = int(data[88:92], 16), int(other[88:92], 16)
    return age == its == 0 or abs(its - (age - SECOND)) <= SLACK


def other_bytes(ours, linux, ranges):
    """What of the messages' bytes differs where it isn't named, or doesn't where it is."""
    differ = set()
    for (port, data), (its, other) in itertools.zip_longest(ours, linux, fillvalue=(None, "")):
        if port != its:
            return "messages by ports %s and %s" % (port, its)
        differ |= {at for at in range(max(len(data), len(other)) // 2) if data[2 * at:2 * at + 2] != other[2 * at:2 * at + 2]}
    if not differ <= set().union(*ranges) or not all(differ & set(each) for each in ranges):
        return "the bytes that differ are %s" % sorted(differ)
    return None


def describe(messages):
    return "; ".join("port %d %s" % (port, data[34:104] if data[40:42] == CONFIG else "TCN") for port, data in messages) or "nothing"


class Comparison:
    """Compares a scenario step by step; what differs first is told, and what follows from it isn't looked at."""

    def __init__(self, program, scenario, linux, counts):
        self.program, self.scenario, self.counts = program, scenario, counts
        self.ours, self.linux = Told(replayed(program, scenario.lines)), Told(linux)
        self.states, self.root, self.detected = {}, None, False
        self.up, self.clock, self.on = set(), 0, False
        self.again = None  # when a notification was sent again here that Linux didn't send

    def fault(self):
        return self.ours.fault or self.linux.fault

    def run(self):
        """What differs, in words, or None."""
        moments, looks = set(self.scenario.moments()), 0
        for at, step in enumerate(self.scenario.steps):
            words = self.follow(step)
            if step.named or self.changes(step):
                looks = 1
            if at in moments and (looks or self.counts["steps"] % 15 == 0):
                looks = max(0, looks - 1)
                words.append(self.of_moment(at))
            words = list(filter(None, words))
            self.counts["named"] += bool(step.named and words) + len(step.ranges)
            if step.named and not words:
                words = ["named, and doesn't differ: " + step.named]
            elif step.named:
                words = []
            if words:
                return "%s (moment %d): %s" % (step.line[:150], self.clock, words[0])
        return None

    def follow(self, step):
        words = step.line.split()
        if words[0] == "now":
            self.clock = int(words[1])
        opened = self.note(step)
        if self.ours.answers.get(step.last) == "ok" and words[:2] == ["cmd", "port"]:
            (self.up.add if words[2] == "up" else self.up.discard)(int(words[3][1:]))
        if self.ours.answers.get(step.last) == "ok" and words[:2] == ["cmd", "stp"] and words[2] in ("on", "off"):
            self.on = words[2] == "on"
        difference = self.of_step(step, opened)
        for number in range(step.first, step.last + 1):
            if number in self.linux.change:
                self.detected = self.linux.change[number][1] == "1"
        if not self.detected:
            self.again = None
        return difference

    def changes(self, step):
        """Whether the step changed or sent something on either side: then the tree is looked at in its moment."""
        numbers = set(range(step.first, step.last + 1))
        return bool(numbers & (self.ours.changed | self.linux.changed) or self.ours.messages_of(step) or self.linux.messages_of(step))

    def note(self, step):
        """Follows Linux's tree; tells whether a port became forwarding, or left learning or forwarding, in the step."""
        opened = False
        for number in range(step.first, step.last + 1):
            for port, state in self.linux.states[number].items():
                opened = opened or state == FORWARDING or (state == BLOCKING and self.states.get(port) in (LEARNING, FORWARDING))
                self.states[port] = state
            self.root = self.linux.root.get(number, self.root)
        return opened

    def of_step(self, step, opened):
        self.counts["steps"] += 1
        return [self.of_frame(step) if step.frame else self.of_command(step), self.of_messages(step, opened)]

    def of_frame(self, step):
        if not self.linux.has_frames:
            return None
        self.counts["frames"] += 1
        ours, linux = sorted(self.ours.sent[step.frame]), sorted(self.linux.sent[step.frame])
        self.counts["sent"] += ours != []
        return None if ours == linux else "\n  switchbr: %s\n  Linux:    %s" % (ours, linux)

    def of_command(self, step):
        ours, linux = self.ours.answers.get(step.last), self.linux.answers.get(step.last)
        return "\n  switchbr: %s\n  Linux:    %s" % (ours, linux) if step.line.startswith("cmd") and ours != linux else None

    def of_messages(self, step, opened):
        ours, linux = self.ours.messages_of(step), self.linux.messages_of(step)
        self.counts["messages"] += len(linux)
        if step.ranges:
            return other_bytes(ours, linux, step.ranges)
        if same_messages(*((ours, linux) if step.named else self.without_again(step, ours, linux, opened))):
            return None
        return "\n  switchbr sends: %s\n  Linux sends:    %s" % (describe(ours), describe(linux))

    def without_again(self, step, ours, linux, opened):
        """Both without notifications that `tcn-again` names: a topology change while one is notified is told again here, which begins the
        time to the next one anew."""
        mine, its = ([each for each in all_of if each[1][40:42] == TCN] for all_of in (ours, linux))
        if not self.detected or mine == its:
            return ours, linux
        is_cause = opened or (step.frame and step.line.split()[2][40:42] == TCN)
        is_later = self.again is not None and (not mine or self.clock - self.again == 2000)
        if not (mine and is_cause) and not is_later:
            return ours, linux
        if mine:
            self.again = self.clock
        self.counts["named"] += 1
        return [each for each in ours if each not in mine], [each for each in linux if each not in its]

    def of_moment(self, at):
        asked = Asked(self.program, self.scenario.lines[:self.scenario.ends[at]], sorted(self.up), self.clock, self.on)
        self.counts["moments"] += 1
        for port, state in asked.states.items():
            self.counts["states"] += 1
            if state != self.states.get(port):
                return "\n  switchbr: port %d in state %s\n  Linux:    %s" % (port, state, self.states.get(port))
        if not self.on:
            return None
        root, cost, port = self.root[0].replace(".", ""), int(self.root[1]), int(self.root[2])
        self.counts["roots"] += 1
        if asked.port == port and (asked.root is None or (asked.root, asked.cost) == (root, cost)):
            return None
        return "\n  switchbr: root %s at cost %s by port %s\n  Linux:    %s" % (asked.root, asked.cost, asked.port, self.root)


def judge(program, scenario, linux):
    """What was compared, and what differs, in words, or None."""
    counts = collections.Counter(scenarios=1)
    comparison = Comparison(program, scenario, linux, counts)
    words = comparison.fault()
    counts["broken"] += words is not None
    if not words:
        words = comparison.run()
        counts["differ"] += words is not None
    return counts, words


def tell(judged):
    """Tells the first ten that differ, and all counts; whether nothing differs. Judged are names with what `judge` gives."""
    counts = collections.Counter()
    for name, (mine, words) in judged:
        counts.update(mine)
        if words and counts["differ"] + counts["broken"] <= SHOWN:
            print("%s %s" % (name, words))
    print("%d scenarios of the tree, %d differ, %d broken (%d steps; %d frames, %d leave somewhere; %d messages; at %d moments %d states of "
          "ports and %d of roots; %d named differences)" % tuple(counts[each] for each in (
              "scenarios", "differ", "broken", "steps", "frames", "sent", "messages", "moments", "states", "roots", "named")))
    return counts["differ"] == counts["broken"] == 0 < counts["scenarios"]


def compare_source(program, todo, folder=None):
    """Whether scenarios are the same by the kernel's sources in a process: all but what frames do. Of a folder see `compare`."""
    def one(scenario):
        done = subprocess.run([SOURCE], input=scenario.kernel_text(), stdout=subprocess.PIPE, text=True, timeout=60)
        counts, words = judge(program, scenario, done.stdout.splitlines())
        if folder and not words:
            keep(folder, scenario, done.stdout.splitlines())
        return scenario.name, (counts, words)

    with concurrent.futures.ThreadPoolExecutor() as pool:
        return tell(list(pool.map(one, todo)))


def compare(program, todo, boots, limit, folder=None):
    """Whether scenarios are the same in kernels; in a folder those that are are kept with what the kernel told."""
    linux, texts = {}, [(each.name, each.kernel_text()) for each in todo]
    with concurrent.futures.ThreadPoolExecutor() as pool:
        for told in pool.map(lambda part: machine.scenarios(part, limit), filter(None, (texts[i::boots] for i in range(boots)))):
            linux.update(told)
        none = ["fatal the kernel didn't end it"]
        judged = list(pool.map(lambda each: (each.name, judge(program, each, linux.get(each.name, none))), todo))
    for scenario, (_, (_, words)) in zip(todo, judged):
        if folder and not words:
            keep(folder, scenario, linux[scenario.name])
    return tell(judged)


def keep(folder, scenario, linux):
    with open(os.path.join(folder, "tree-%s.scenario" % scenario.name), "w") as file:
        file.write("\n".join([KIND, *scenario.kept, "# Linux " + machine.release(), "end", *linux]) + "\n")


def compare_recorded(program, todo):
    return tell([(each.name, judge(program, each, each.recorded)) for each in todo])
