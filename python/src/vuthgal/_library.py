"""libvuthgal: where it is, and how it is called."""
import ctypes
import os
import struct
import threading
from typing import Any, List, Optional, Tuple

from ._errors import NoLibrary

_HERE = os.path.dirname(os.path.realpath(__file__))

# how many bytes a room for the output has at first, and how many it may have to be kept
_ROOM = 1 << 16
_KEPT_ROOM = 1 << 24
_LINE_ROOM = 1 << 12


def _load() -> ctypes.CDLL:
    """The library that VUTHGAL_LIBRARY names, that of this package, that of the clone, or the installed one."""
    clone = os.path.join(os.path.dirname(os.path.dirname(os.path.dirname(_HERE))), "lib")
    places = (os.path.join(folder, "libvuthgal.so.2") for folder in (_HERE, clone))
    there = [path for path in places if os.path.isfile(path)]
    try:
        return ctypes.CDLL(os.environ.get("VUTHGAL_LIBRARY") or (*there, "libvuthgal.so.2")[0])
    except OSError as error:
        raise NoLibrary(f"libvuthgal can't be loaded: {error}") from error


_library = _load()
_size = ctypes.c_size_t
_out = [ctypes.c_void_p, _size, ctypes.c_void_p]
_in = [ctypes.c_char_p, _size]


def _call(name: str, inputs: "List[Any]", result: Any = ctypes.c_uint8) -> Any:
    """A call of the library, by what it gets and what it returns."""
    try:
        call = getattr(_library, "vuthgal_" + name)
    except AttributeError:
        raise NoLibrary(f"{_library._name} is no libvuthgal, or an older one: it has no vuthgal_{name}") from None
    call.argtypes, call.restype = inputs, result
    return call


def _declared(name: str, inputs: int, extra: Tuple[Any, ...] = ()) -> Any:
    return _call(name, _in * inputs + [*extra] + _out + _out)


_calls = {
    "run": _declared("run", 2),
    "both": _declared("both", 1),
    "asm": _declared("asm", 1),
    "list": _declared("list", 1),
    "compare": _declared("compare", 2),
    "choices": _declared("choices", 1),
    "plan": _declared("plan", 2, (ctypes.c_uint32, ctypes.c_uint8)),
    "seeds": _declared("seeds", 2, (ctypes.c_uint32, ctypes.c_uint32, ctypes.c_uint32, ctypes.c_uint8)),
    "draw": _declared("draw", 2, (ctypes.c_uint16,)),
    "debug": _declared("debug", 2),
    "explain": _declared("explain", 1),
    "mistake": _call("mistake", _in + [ctypes.c_uint8] + _in + [ctypes.c_void_p] + _out * 2),
}


class _Handle(ctypes.Structure):
    """`vuthgal_session`: only the library looks into it."""

    _fields_ = [("at", ctypes.c_void_p), ("is_open", ctypes.c_uint64)]


_handle = [ctypes.POINTER(_Handle)]
_at = ctypes.c_void_p
_byte = ctypes.c_uint8
_open = _call("session_open", _handle + _in + _out)
_command = _call("session_command", _handle + _in + _out)
_reply = _call("session_reply", _handle + _out)
_close = _call("session_close", _handle, None)
_step = _call("session_step", _handle + [_byte, _byte, _at])
_back = _call("session_back", _handle)
_enabled = _call("session_enabled", _handle + [_at, _at])
_look = _call("session_look", _handle + [_at] + [_at, _size] * 4)
_stack = _call("session_stack", _handle + [_byte, _at, _size, _at])
_outputs = _call("session_outputs", _handle + [_byte, _at, _size, _at])
_copy = _call("session_copy", _handle * 2)
_go_to = _call("session_go_to", _handle + _in + [ctypes.c_uint64])
_other = _call("session_other", _handle + [_byte, _byte, ctypes.c_uint32] + _in + _out)
_expect = _call("expect", _in * 2)
_version = _call("version", _out, None)


class _Room:
    """What a call writes to, and `places`, as the call takes them."""

    __slots__ = ("size", "places", "_output", "_line", "_count", "_line_count")

    def __init__(self, size: int) -> None:
        self.size = size
        self._output = ctypes.create_string_buffer(size)
        self._line = ctypes.create_string_buffer(_LINE_ROOM)
        self._count = _size()
        self._line_count = _size()
        self.places = (
            ctypes.addressof(self._output), size, ctypes.addressof(self._count),
            ctypes.addressof(self._line), _LINE_ROOM, ctypes.addressof(self._line_count),
        )

    @property
    def count(self) -> int:
        return self._count.value

    def output(self) -> bytes:
        return ctypes.string_at(self._output, self._count.value)

    def line(self) -> bytes:
        return ctypes.string_at(self._line, min(self._line_count.value, _LINE_ROOM))


def free_rooms() -> None:
    """Frees what this thread keeps for its next call: a room of at most 16 MiB."""
    _thread.free.clear()


class _Thread(threading.local):
    """The room of a thread while no call has it: a handler of a signal may call while another call of its thread goes on."""

    def __init__(self) -> None:
        self.free: List[_Room] = []


_thread = _Thread()


def called(name: str, *words: object) -> Tuple[int, bytes, bytes]:
    """The status, the output and the line of a call. Where the output doesn't fit, the call is made again with more room."""
    call = _calls[name]
    free = _thread.free
    try:
        here = free.pop()
    except IndexError:
        here = _Room(_ROOM)
    status = call(*words, *here.places)
    while here.count > here.size:
        here = _Room(here.count)
        status = call(*words, *here.places)
    output, line = here.output(), here.line()
    if here.size <= _KEPT_ROOM and not free:
        free.append(here)
    return status, output, line


def fitted(name: str, *words: object, room: int, line_room: int) -> Tuple[int, bytes, int, bytes, int]:
    """One call with so much room, for tests: the status; the whole room, which held `#`, and a byte behind it; the length of all;
    and the same of the line."""
    output = (ctypes.c_char * (room + 1))()
    ctypes.memset(output, 35, room + 1)
    line = (ctypes.c_char * (line_room + 1))()
    ctypes.memset(line, 35, line_room + 1)
    count, line_count = _size(), _size()
    status = _calls[name](
        *words,
        ctypes.addressof(output), room, ctypes.addressof(count),
        ctypes.addressof(line), line_room, ctypes.addressof(line_count),
    )
    return status, output.raw, count.value, line.raw, line_count.value


def mistaken(program: bytes, kind: int, text: bytes) -> Tuple[int, bytes, bytes, Tuple[int, ...]]:
    """The status of a program, or of a plan or a schedule for it; what helps; the line; and the place: its line, column, length and
    input."""
    place = ctypes.create_string_buffer(_PLACE.size)
    told = called("mistake", program, len(program), kind, text, len(text), ctypes.addressof(place))
    return (*told, _PLACE.unpack(place))


def version_text() -> str:
    count = _size()
    output = ctypes.create_string_buffer(512)
    _version(ctypes.addressof(output), 512, ctypes.addressof(count))
    return output.raw[: count.value].decode()


def expects(state: bytes, expectation: bytes) -> int:
    """0 where a state is as an expectation says, 1 where it isn't, 3 where that is none."""
    status: int = _expect(state, len(state), expectation, len(expectation))
    return status


# the structs of the header, as bytes: a place, an event, a state, a thread, a phaser, a barrier, an entry of a stack
_PLACE = struct.Struct("<QQQB7x")
_EVENT = struct.Struct("<QiiHHBB2x")
_STATE = struct.Struct("<QIBBBB")
_THREAD = struct.Struct("<9i3H3B3x")
_PHASER = struct.Struct("<i4H")
_BARRIER = struct.Struct("<3HBx")
_ENTRY = struct.Struct("<HBx")
_CELLS = struct.Struct("<32i")


class _Rooms:
    """Rooms for a look at any state, which all sessions of a thread share. Each is bytes, and where they are."""

    __slots__ = ("event", "state", "threads", "phasers", "barriers", "cells", "entries", "values", "places", "words", "word_places")

    def __init__(self) -> None:
        self.event = ctypes.create_string_buffer(_EVENT.size)
        self.state = ctypes.create_string_buffer(_STATE.size)
        self.threads = ctypes.create_string_buffer(64 * _THREAD.size)
        self.phasers = ctypes.create_string_buffer(64 * _PHASER.size)
        self.barriers = ctypes.create_string_buffer(64 * _BARRIER.size)
        self.cells = ctypes.create_string_buffer(_CELLS.size)
        self.entries = ctypes.create_string_buffer(64 * _ENTRY.size)
        self.values = (ctypes.c_int32 * 4096)()
        self.places = (
            ctypes.addressof(self.state),
            ctypes.addressof(self.threads), 64,
            ctypes.addressof(self.phasers), 64,
            ctypes.addressof(self.barriers), 64,
            ctypes.addressof(self.cells), 32,
        )
        self.words = (ctypes.c_uint64 * 2)()
        at = ctypes.addressof(self.words)
        self.word_places = (at, at + 8)


class Held:
    """A session that the library holds. One thread may use it at a time."""

    __slots__ = ("_handle", "_at", "_room", "_count", "_places", "_rooms")

    def __init__(self) -> None:
        self._handle = _Handle()
        self._at = ctypes.byref(self._handle)
        self._room = ctypes.create_string_buffer(512)
        self._count = _size()
        self._places = (ctypes.addressof(self._room), 512, ctypes.addressof(self._count))
        self._rooms: Optional[_Rooms] = None

    def rooms(self) -> _Rooms:
        if self._rooms is None:
            self._rooms = _Rooms()
        return self._rooms

    @property
    def is_open(self) -> bool:
        return bool(self._handle.is_open)

    def open(self, program: bytes) -> Tuple[int, bytes]:
        """The status, and the line."""
        status = _open(self._at, program, len(program), *self._places)
        return status, ctypes.string_at(self._room, self._count.value)

    def command(self, line: bytes) -> Tuple[int, bytes]:
        """The status, and the reply."""
        status = _command(self._at, line, len(line), *self._places)
        count = self._count.value
        if count <= 512:
            return status, ctypes.string_at(self._room, count)
        room = ctypes.create_string_buffer(count)
        status = _reply(self._at, ctypes.addressof(room), count, ctypes.addressof(self._count))
        return status, room.raw

    def step(self, thread: int, expiry: bool) -> Tuple[int, Tuple[int, ...]]:
        """The status, and the event: its number, value, view, row, object, what and mark."""
        event = self.rooms().event
        status = _step(self._at, thread, expiry, event)
        return status, _EVENT.unpack(event)

    def back(self) -> int:
        """The status: 1 where nothing is kept that could be taken back."""
        status: int = _back(self._at)
        return status

    def go_to(self, played: bytes, number: int) -> int:
        """The status: 1 where fewer choices were played."""
        status: int = _go_to(self._at, played, len(played), number)
        return status

    def enabled(self) -> Tuple[int, int, int]:
        """The status, and the two words: whose turn would do something, and whose time-out."""
        rooms = self.rooms()
        status = _enabled(self._at, *rooms.word_places)
        return status, rooms.words[0], rooms.words[1]

    def look(self) -> Tuple[int, Tuple[int, ...], "List[Any]", "List[Any]", "List[Any]", Tuple[int, ...]]:
        """The status, and the numbers of the state, the threads, the phasers, the barriers and the cells."""
        rooms = self.rooms()
        status = _look(self._at, *rooms.places)
        state = _STATE.unpack(rooms.state)
        return (
            status,
            state,
            [*_THREAD.iter_unpack(rooms.threads.raw[: state[2] * _THREAD.size])],
            [*_PHASER.iter_unpack(rooms.phasers.raw[: state[3] * _PHASER.size])],
            [*_BARRIER.iter_unpack(rooms.barriers.raw[: state[4] * _BARRIER.size])],
            _CELLS.unpack(rooms.cells),
        )

    def stack(self, thread: int) -> "List[Any]":
        """The number and the kind of each entry of a thread's stack."""
        entries = self.rooms().entries
        _stack(self._at, thread, entries, 64, ctypes.addressof(self._count))
        return [*_ENTRY.iter_unpack(entries.raw[: self._count.value * _ENTRY.size])]

    def outputs(self, thread: int) -> "List[int]":
        """The values that a thread put out."""
        values = self.rooms().values
        _outputs(self._at, thread, values, 4096, ctypes.addressof(self._count))
        return values[: self._count.value]

    def copy_to(self, other: "Held") -> int:
        """The status."""
        status: int = _copy(self._at, other._at)
        return status

    def other(self, thread: int, expiry: bool, most: int, rest: bytes) -> Tuple[int, bytes]:
        """The status, and the schedule of the other run."""
        here = ctypes.create_string_buffer(_ROOM)
        places = (ctypes.addressof(here), _ROOM, ctypes.addressof(self._count))
        status = _other(self._at, thread, expiry, most, rest, len(rest), *places)
        if self._count.value > _ROOM:
            size = self._count.value
            here = ctypes.create_string_buffer(size)
            status = _other(self._at, thread, expiry, most, rest, len(rest), ctypes.addressof(here), size, places[2])
        return status, ctypes.string_at(here, self._count.value)

    def close(self) -> None:
        _close(self._at)
