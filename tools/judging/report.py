"""What is told of the verdicts on a bridge."""
import collections

import packets

SHOWN, SHOWN_NAMED, SHOWN_DIGITS = 40, 3, 400


def listed(counts):
    return ", ".join("%d %s" % (count, words) for words, count in sorted(counts.items()) if count) or "nothing"


class Tally:
    """The verdicts on a bridge, window by window: what is counted, and as much of the rest as is shown. `began`: the record's first moment."""

    def __init__(self, case, name, began, shows_all):
        self.case, self.name, self.began, self.shows_all = case, name, began, shows_all
        self.counts, self.not_judged = collections.Counter(), collections.Counter()
        self.as_linux, self.named, self.row_names = collections.Counter(), collections.Counter(), collections.Counter()
        self.differences, self.rows, self.refused, self.strangers, self.faults = [], [], [], [], []
        self.shown, self.commands, self.silent = collections.Counter(), 0, collections.Counter()

    def add(self, verdict):
        self.counts["windows"] += 1
        self.counts["looks"] += verdict.looks
        if verdict.fault:
            self.faults.append(verdict.fault)
            self.not_judged["of a window that switchbr didn't take"] += len(verdict.window.frames) + len(verdict.window.strangers)
            return
        self.counts.update(verdict.counts)
        self.not_judged["near a change, too many to try"] += verdict.untried
        for each in verdict.differences:
            self.add_difference(each)
        for row in verdict.rows:
            self.row_names[row.name or "unexplained"] += 1
            self.keep(self.rows, row, row.name)
        for words, number in verdict.refused:
            self.counts["refused"] += 1
            self.keep(self.refused, (words, number), None)
        for time, number, data in verdict.window.strangers:
            self.counts["strangers"] += 1
            self.keep(self.strangers, (time, verdict.names.get(number, str(number)), data), None)

    def add_difference(self, each):
        counts = self.as_linux if each.is_checked else self.named if each.name else self.counts
        counts[each.name or "unexplained"] += 1
        self.keep(self.differences, each, each.name)

    def keep(self, found, each, name):
        """Keeps what is shown."""
        self.shown[id(found), name] += 1
        if self.shows_all or self.shown[id(found), name] <= (SHOWN if name is None else SHOWN_NAMED):
            found.append(each)

    def unexplained(self):
        """How much nothing explains."""
        return (self.counts["unexplained"] + self.row_names["unexplained"] + self.counts["strangers"] + self.counts["refused"] +
                len(self.faults))

    def left_out(self):
        """The packets that weren't judged, by reason."""
        return +(self.not_judged + self.case.uncompared)

    def unread(self):
        """What is set and not understood, in words."""
        for owner, unread in [(self.case.bridge.name, self.case.bridge.unread)] + [
                (port.name, port.unread) for port in self.case.known_ports.values()]:
            for attribute, value in sorted(unread.items()):
                if value is not None:
                    yield "%s = %d at %s" % (attribute, value, owner)

    # ---- for people ----

    def seconds(self, time):
        return (time - self.began) / 1e9

    def lines(self):
        counts = self.counts
        for fault in self.faults:
            yield "%s: unexplained: %s" % (self.name, fault)
        yield "%s: %d frames (%d from the host, %d leave), %d same; as Linux: %s; named: %s; %d unexplained" % (
            self.name, counts["frames"], counts["from the host"], counts["leave"], counts["same"], listed(self.as_linux), listed(self.named),
            counts["unexplained"])
        beside = counts["by the tables of the other side of a change"]
        yield "  tables: %d looks, %s differ; windows: %d%s" % (counts["looks"], listed(self.row_names).replace("nothing", "0"), counts["windows"],
                                                            "; %d same by the tables of the other side of a change" % beside if beside else "")
        if self.left_out():
            yield "  not judged: %s" % listed(self.left_out())
        if self.case.notes:
            yield "  notes: %s" % listed(self.case.notes)
        for words in self.unread():
            yield "  not understood: %s" % words
        if self.case.bridge.switch_ports:
            yield "  %s: of a switch, whose chip forwards unseen: use --port, or --chip" % ", ".join(sorted(map(str, self.case.bridge.switch_ports)))
        if self.commands or self.silent:
            yield "  commands: %d show in some frame; silent: %s" % (self.commands, listed(self.silent))
        yield from self.what_differs()

    def what_differs(self):
        for words, number in self.refused:
            yield "  unexplained: switchbr refuses (%s) what the kernel took: %s" % (number, words)
        for time, name, data in self.strangers:
            yield "  %10.3f unexplained: left %s without having entered: %s" % (self.seconds(time), name, packets.describe(data))
        for row in self.rows:
            yield "  %10.3f %s: %s, by %s alone" % (self.seconds(row.time), row.name or "unexplained", row.text, row.side)
        for each in self.differences:
            yield from self.difference(each)
        kept = collections.Counter(each.name for each in self.differences)
        counts = self.as_linux + self.named
        left = {name or "unexplained": (counts[name] if name else self.counts["unexplained"]) - count for name, count in kept.items()}
        if any(left.values()):
            yield "  not shown (--all shows them): %s" % listed(left)

    def difference(self, each):
        frame = each.frame
        yield "  %10.3f %s: in at %s: %s" % (self.seconds(frame.time), each.name or "unexplained", each.names[frame.number],
                                          packets.describe(frame.data))
        ours = "isn't asked" if frame.expected is not None else port_names(each, each.ours)
        words = "switchbr: %s; Linux: %s" % (ours, port_names(each, each.linux))
        if frame.expected is None and dict(each.ours).keys() == dict(each.linux).keys():
            ours, linux = [" ".join(data.hex()[:SHOWN_DIGITS] for _, data in sorted(sent)) for sent in (each.ours, each.linux)]
            words += "; other bytes: %s and %s" % (ours, linux)
        yield "             %s; %s has: %s" % (words, each.names[frame.number], frame.settings)

    # ---- for programs ----

    def data(self):
        counts = self.counts
        return {
            "bridge": self.case.bridge.name, "frames": counts["frames"], "from_host": counts["from the host"], "leave": counts["leave"],
            "same": counts["same"], "as_linux": dict(self.as_linux), "named": dict(self.named), "unexplained": self.unexplained(),
            "not_judged": dict(self.left_out()), "windows": counts["windows"], "looks": counts["looks"], "rows": dict(self.row_names),
            "notes": dict(self.case.notes), "not_understood": list(self.unread()), "faults": self.faults,
            "refused": [{"command": words, "refusal": number} for words, number in self.refused],
            "strangers": [{"seconds": self.seconds(time), "port": name, "frame": data.hex()} for time, name, data in self.strangers],
            "table_rows": [{"seconds": self.seconds(row.time), "table": row.table, "row": row.text, "by": row.side, "name": row.name}
                           for row in self.rows],
            "differences": [self.difference_data(each) for each in self.differences]}

    def difference_data(self, each):
        frame = each.frame
        return {"seconds": self.seconds(frame.time), "port": each.names[frame.number], "frame": frame.data.hex(), "length": frame.length,
                "name": each.name, "checked": each.is_checked, "asked": frame.expected is None,
                "switchbr": sent_data(each, each.ours), "linux": sent_data(each, each.linux), "settings": frame.settings}


def port_names(each, sent):
    return ", ".join(each.names.get(number, str(number)) for number, _ in sorted(sent)) or "nowhere"


def sent_data(each, sent):
    return [{"port": each.names.get(number, str(number)), "bytes": data.hex()} for number, data in sorted(sent)]


def table(tallies):
    """A line for each bridge, as a table."""
    lines = ["", "| record and bridge | frames | same | as Linux | named or left out | unexplained | looks at tables (differ) |"]
    lines.append("|---|---|---|---|---|---|---|")
    totals = collections.Counter()
    for tally in tallies:
        cells = {"frames": tally.counts["frames"], "same": tally.counts["same"], "as_linux": sum(tally.as_linux.values()),
                 "named": sum(tally.named.values()), "unexplained": tally.unexplained(), "looks": tally.counts["looks"],
                 "rows": sum(tally.row_names.values())}
        totals.update(cells)
        as_linux, named = ("; ".join("%d %s" % (count, name) for name, count in sorted(names.items())) for names in (tally.as_linux, tally.named))
        lines.append("| %s | %d | %d | %s | %s | %d | %d (%d) |" % (
            tally.name, cells["frames"], cells["same"], as_linux, named, cells["unexplained"], cells["looks"], cells["rows"]))
    if len(tallies) > 1:
        lines.append("| together | %(frames)d | %(same)d | %(as_linux)d | %(named)d | %(unexplained)d | %(looks)d (%(rows)d) |" % totals)
    return "\n".join(lines)
