"""A window of a bridge's record: what is judged by one scenario."""
import collections

MOST_WEIGHT, MOST_SIZE = 700000, 1 << 27  # of a window: changes, and bytes

# What a person may set: moments from which and until which is judged (None: all), ns round a change within which a frame may be as the tables
# of either side say, ns by which the kernel's timers are late, ns without frames and commands behind which the tables are compared, ns within
# which a frame leaves, whether ports of a switch are judged, and frames of a window
Bounds = collections.namedtuple("Bounds", "since until near late quiet flight chip frames",
                                defaults=(None, None, 10**7, 20 * 10**9, 9 * 10**8, 10**9, False, 50000))


class Frame:
    """A frame that entered, of which `data` are the bytes that decide something. `out`: (number, bytes) of what left; `expected`: the named
    difference that decides it by itself, with the numbers of the ports that the kernel uses then, or None; `item`: its place in the
    scenario; `view`: what the kernel's tables said; `settings`: the configuration of its port."""
    __slots__ = ("time", "number", "data", "out", "expected", "item", "view", "kept_tag", "settings", "length")

    def __init__(self, time, number, data, length):
        self.time, self.number, self.data, self.length = time, number, data, length
        self.out, self.expected, self.item, self.view, self.kept_tag, self.settings = [], None, None, None, b"", ""


class Cut:
    """A quiet moment, or the end of a window: the kernel's tables (rows with their keys), the keys of what is due in them, or late, when each
    came, which (address or group, VLAN) was heard just now, the groups where sources count, and the commands that set the scenario right where
    the tables differed."""

    def __init__(self, time, fdb, mdb, sources):
        self.time, self.fdb, self.mdb, self.sources, self.corrections = time, fdb, mdb, sources, []
        self.due, self.late, self.came, self.recent, self.place = set(), set(), {}, set(), 0


class Window:
    """A part of the record with a scenario of its own. `skip`: why it isn't judged, or None."""

    def __init__(self, begin, model, skip=None):
        self.begin, self.model, self.skip, self.end, self.looked = begin, model, skip, None, 0
        self.frames, self.cuts, self.strangers = [], [], []
        self.followed, self.taught = set(), set()  # members and addresses that the judge put in, whose ends it follows

    def is_full(self, bounds):
        return len(self.frames) >= bounds.frames or self.is_heavy()

    def is_heavy(self):
        return self.model.weight > MOST_WEIGHT or self.model.size > MOST_SIZE
