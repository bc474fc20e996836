"""A model of the Linux bridge with switchdev offload: transcripts of scenarios, whole or line by line, and checks of them, by libswitchbr.so.

The shared object is $SWITCHBR_LIB, or the one beside this file, or that of the repository (c/out), or an installed one. Texts are as
docs/FORMATS.md of the repository has them. What is said of each call in c/switchbr.h holds here, too.
"""
import ctypes
import dataclasses
import os
import pathlib
from types import TracebackType
from typing import Callable, Dict, List, Optional, Type, Union

__all__ = ["BadLine", "Sent", "Session", "TooLong", "check", "follow", "generate", "replay", "show"]
__version__ = "0.1.0"

Text = Union[str, bytes]

_DIFFERS, _USAGE, _BAD_LINE, _NO_MEMORY, _TOO_LONG, _NO_ROOM, _CLOSED = 1, 2, 3, 6, 7, 16, 17
_HERE = pathlib.Path(__file__).resolve().parent
_PLACES = (_HERE / "libswitchbr.so", _HERE.parent.parent / "c/out/libswitchbr.so")


class _Handle(ctypes.Structure):
    _fields_ = [("at", ctypes.c_void_p), ("is_open", ctypes.c_bool)]


_handle = ctypes.POINTER(_Handle)
_size, _bytes, _room, _len = ctypes.c_size_t, ctypes.c_char_p, ctypes.c_void_p, ctypes.POINTER(ctypes.c_size_t)
_DECLARED = {
    "switchbr_abi": (ctypes.c_uint32, []),
    "switchbr_replay": (ctypes.c_uint8, [_bytes, _size, _room, _size, _len]),
    "switchbr_follow": (ctypes.c_uint8, [_bytes, _size, _room, _size, _len]),
    "switchbr_generate": (ctypes.c_uint8, [ctypes.c_uint64, ctypes.c_uint32, _room, _size, _len]),
    "switchbr_show": (ctypes.c_uint8, [ctypes.c_uint8, _bytes, _size, _room, _size, _len]),
    "switchbr_check": (ctypes.c_uint8, [_bytes, _size, _bytes, _size, ctypes.POINTER(ctypes.c_uint32)]),
    "switchbr_open": (ctypes.c_uint8, [_handle]),
    "switchbr_line": (ctypes.c_uint8, [_handle, _bytes, _size, _room, _size, _len]),
    "switchbr_try": (ctypes.c_uint8, [_handle, _bytes, _size, _room, _size, _len]),
    "switchbr_shown": (ctypes.c_uint8, [_handle, ctypes.c_uint8, _room, _size, _len]),
    "switchbr_section": (ctypes.c_uint8, [_handle, _bytes, _size, _room, _size, _len]),
    "switchbr_text": (ctypes.c_uint8, [_handle, _room, _size, _len]),
    "switchbr_end": (ctypes.c_uint8, [_handle]),
}


def _opened() -> ctypes.CDLL:
    near = next((str(place) for place in _PLACES if place.exists()), "libswitchbr.so.0.1")
    try:
        lib = ctypes.CDLL(os.environ.get("SWITCHBR_LIB") or near)
    except OSError as fault:
        raise ImportError(f"{fault}; build the library by `make -C c` and install it, or say by $SWITCHBR_LIB where it is") from fault
    for name, (result, words) in _DECLARED.items():
        call = getattr(lib, name)
        call.restype, call.argtypes = result, words
    if lib.switchbr_abi() != 3:
        raise ImportError(f"{lib._name} is of another version than this package ({__version__})")
    return lib


_LIB = _opened()


class BadLine(ValueError):
    """A line of the input is bad. `line`: its number, counted from 1. `cause`: in the words of docs/FORMATS.md, and `text`: all that is
    told up to it and of it, in a session since the line before; of `check` both are empty."""

    def __init__(self, line: int, cause: str, text: str) -> None:
        super().__init__(line, cause, text)
        self.line, self.cause, self.text = line, cause, text

    def __str__(self) -> str:
        return f"line {self.line} is bad" + (f": {self.cause}" if self.cause else "")


class TooLong(ValueError):
    """The input is longer than 2^28 bytes, or more than 100,000 frames are asked for."""


def _given(text: Text) -> bytes:
    return text.encode() if isinstance(text, str) else bytes(text)


def _no_fault(status: int) -> None:
    if status == _NO_MEMORY:
        raise MemoryError
    if status == _TOO_LONG:
        raise TooLong


def _is_wanted(status: int) -> None:
    if status in (_USAGE, _CLOSED):
        raise ValueError("the session is closed, or its scenario has ended" if status == _CLOSED else "another line or section is wanted")
    _no_fault(status)


def _no_bad_line(status: int, text: str) -> None:
    if status == _BAD_LINE:
        _, line, cause = text.splitlines()[-1].split(" ", 2)
        raise BadLine(int(line), cause, text)


def _told(room: int, call: Callable[..., int]) -> str:
    size = ctypes.c_size_t(room)
    while True:
        out = ctypes.create_string_buffer(size.value)
        status = call(out, len(out), ctypes.byref(size))
        if status != _NO_ROOM:
            break
    _is_wanted(status)
    text = ctypes.string_at(out, size.value).decode()
    _no_bad_line(status, text)
    return text


def replay(scenario: Text) -> str:
    """The transcript of a scenario, as `switchbr replay` writes it."""
    given = _given(scenario)
    return _told(4 * len(given) + 4096, lambda *out: _LIB.switchbr_replay(given, len(given), *out))


def follow(messages: Text) -> str:
    """The table that lines of messages give, as `switchbr follow` writes it; `switchbr monitor` writes such lines."""
    given = _given(messages)
    return _told(len(given) + 4096, lambda *out: _LIB.switchbr_follow(given, len(given), *out))


_TABLES = {"fdb": 0, "vlan": 1, "mdb": 2}


def _table(table: str) -> int:
    if table not in _TABLES:
        raise ValueError("table must be fdb, vlan or mdb")
    return _TABLES[table]


def show(table: str, scenario: Text) -> str:
    """A table at the end of a scenario, as `switchbr show TABLE` writes it: `fdb`, `vlan` or `mdb`."""
    number, given = _table(table), _given(scenario)
    return _told(len(given) + 4096, lambda *out: _LIB.switchbr_show(number, given, len(given), *out))


def generate(number: int, count: int) -> str:
    """A scenario of so many frames, as `switchbr gen` writes it."""
    if not 0 <= number < 1 << 64 or not 0 <= count < 1 << 32:
        raise ValueError("number must be below 2^64, count below 2^32")
    return _told(256 * min(count, 100_000) + 4096, lambda *out: _LIB.switchbr_generate(number, count, *out))


def check(scenario: Text, transcript: Text) -> Optional[int]:
    """The number of the first line in which the transcript isn't the scenario's, counted from 1; None where it is."""
    one, two, line = _given(scenario), _given(transcript), ctypes.c_uint32()
    status = _LIB.switchbr_check(one, len(one), two, len(two), ctypes.byref(line))
    _no_fault(status)
    if status == _BAD_LINE:
        raise BadLine(line.value, "", "")
    return line.value if status == _DIFFERS else None


@dataclasses.dataclass(frozen=True)
class Sent:
    """What became of one frame."""

    ports: Dict[int, bytes] = dataclasses.field(default_factory=dict)
    """By which ports it left (0 is the host), and as which bytes."""
    chip: Optional[str] = None
    """The class that the chip of its port gave it (`drop`, `trap`, `copy`, `forward`); None at a software port."""
    soft: Optional[int] = None
    """The point by which software decided it: so many changes; None where it didn't come to software."""
    unread: Optional[str] = None
    """Why its bytes are no frame: `short`, `tagshort` or `long`."""
    overrun: bool = False
    """4,096 frames waited already, so it never reaches software."""
    refused: Optional[int] = None
    """The number of the refusal where the bridge couldn't learn from it (8); the frame was sent all the same."""
    before: List[str] = dataclasses.field(default_factory=list)
    """What was told of frames that had waited longer, and were served first."""


def _ports(words: List[List[str]]) -> Dict[int, bytes]:
    return {int(line[2]): bytes.fromhex(line[3]) for line in words if line[0] == "tx"}


class Session:
    """A scenario line by line. Each call gives the lines of the transcript that it tells, without their line feeds. A bad line raises
    `BadLine`, and the scenario has ended, as behind its line `end`. A line that has a line feed, or that isn't wanted, as behind the end or in
    the place of a section, is a `ValueError`, and nothing is done. A session stays in the thread that has made it. With `publish=True` each
    line that changes something is followed by a line `publish`, as in Linux, where software sees each change at once."""

    def __init__(self, publish: bool = False) -> None:
        self._publish = publish
        self._entered: Optional[int] = 0
        self._handle, self._len, self._room = _Handle(), ctypes.c_size_t(), ctypes.create_string_buffer(4096)
        self._session = ctypes.byref(self._handle)
        _no_fault(_LIB.switchbr_open(self._session))

    def _given(self, status: int) -> List[str]:
        if status == _NO_ROOM:
            self._room = ctypes.create_string_buffer(self._len.value)
            status = _LIB.switchbr_text(self._session, self._room, len(self._room), ctypes.byref(self._len))
        _is_wanted(status)
        text = ctypes.string_at(self._room, self._len.value).decode()
        _no_bad_line(status, text)
        return text.splitlines()

    def _taken(self, line: Text) -> List[str]:
        given = _given(line)
        return self._given(_LIB.switchbr_line(self._session, given, len(given), self._room, len(self._room), ctypes.byref(self._len)))

    def line(self, line: Text) -> List[str]:
        """Takes the next line."""
        told = self._taken(line)
        if _given(line).split()[:1] == [b"rx"] and self._entered is not None:
            self._entered += 1
        changed = any(last.startswith("ok ") and not last.endswith(" 0") for last in told[-1:])
        return told + self._taken("publish") if self._publish and changed else told

    def try_line(self, line: Text) -> Optional[BadLine]:
        """What `line` would raise of the line, as a bad one; None where it would be taken. The session is as before."""
        given, out = _given(line), ctypes.create_string_buffer(64)
        status = _LIB.switchbr_try(self._session, given, len(given), out, len(out), ctypes.byref(self._len))
        _is_wanted(status)
        try:
            _no_bad_line(status, ctypes.string_at(out, self._len.value).decode())
        except BadLine as bad:
            return bad
        return None

    def show(self, table: str) -> List[str]:
        """The lines of a table of all that was taken (`fdb`, `vlan` or `mdb`), wherever the scenario stands; their last one is `end`."""
        number = _table(table)
        return _told(4096, lambda *out: _LIB.switchbr_shown(self._session, number, *out)).splitlines()

    def section(self, section: bytes) -> List[str]:
        """Takes the whole section of the line `capture LENGTH` before."""
        self._entered = None
        return self._given(_LIB.switchbr_section(self._session, section, len(section), self._room, len(self._room), ctypes.byref(self._len)))

    def send(self, port: int, frame: bytes) -> Sent:
        """A frame enters at the port, and where it comes to software, all that wait are served up to it: what became of it. All else, `line`
        does: `rx PORT HEX`, then `serve` or `hold`. Behind a section at software ports alone one `serve` more is made, which is refused."""
        words = [line.split() for line in self.line(f"rx {port} {frame.hex()}")]
        if words[:1] and words[0][0] == "unread":
            self._entered = int(words[0][1])
            return Sent(unread=words[0][2])
        chip = words[0] if words and words[0][0] == "chip" else None
        if words:
            self._entered = int(words[0][1])
        sent = Sent(_ports(words), chip[-1] if chip else None, overrun=words[-1:] == [["overrun", str(self._entered)]])
        return sent if sent.overrun or sent.chip in ("drop", "forward") else self._served(sent)

    def _served(self, sent: Sent) -> Sent:
        """Frames wait in the order in which they came: the last that waits is this one."""
        before: List[str] = []
        told: List[str] = []
        while self._entered is None or not told or told[0].split()[:2] != ["soft", str(self._entered)]:
            serve = self.line("serve")
            if serve[0].startswith("refused") and serve[0].endswith(" 10"):
                break
            before, told = before + told, serve
        words = [line.split() for line in told]
        refused = next((int(number) for kind, *_, number in words if kind == "refused"), None)
        self._entered = int(words[0][1])
        return dataclasses.replace(sent, ports={**sent.ports, **_ports(words)}, soft=int(words[0][3]), refused=refused, before=before)

    def close(self) -> None:
        """Frees the session, wherever it stands."""
        _LIB.switchbr_end(self._session)

    def __enter__(self) -> "Session":
        return self

    def __exit__(self, kind: Optional[Type[BaseException]], fault: Optional[BaseException], trace: Optional[TracebackType]) -> None:
        self.close()

    def __del__(self) -> None:
        self.close()
