"""Cekarum for test benches: the calls of include/cekarum.h over ctypes and libcekarum.so.

    import cekarum
    device = cekarum.Device()
    device.start(cekarum.Settings(directions=2, accepts_limits=True))
    device.join(3, rank=1, time=100)
    number, response = device.frame(3, 100, bytes.fromhex("00000013a5010702010305040105a2011a00a875000400"))
    device.ask()

The library is the file that CEKARUM_LIBRARY names, else the one beside this file, else the one of the release that this file is
part of. Calls give the kernel's numbers as they are, refusals among them: nothing is raised for a refusal. A number that 64 bits
cannot hold is a ValueError, since no call could be told it. Absent is None here where it is -1 in C.
"""
import ctypes
import enum
import os
import platform
from dataclasses import dataclass, field
from pathlib import Path

VERSION = "0.13.0"
INTERFACE = 2  # the header's CEKARUM_INTERFACE, which stands in the names of the library's functions

WORDS = 191
VALUES = 11
ROW = 1 + VALUES
FRAME_MAX = 2052
RESPONSE_MAX = 49
REQUEST_MAX = 62
PLAN_MAX = 960
ROWS_MAX = 80
REPORT_MAX = 96
MEASUREMENT_MAX = 326
LAST_SECOND = 2**40 - 1
NONE = 2**64 - 1  # no contractual maximum


class Refusal(enum.IntEnum):
    OK = 0
    BAD_LENGTH = 1
    BAD_CBOR = 2
    BAD_MESSAGE = 3
    NOT_SERVED = 4
    BAD_TIME = 5
    BAD_ZONE = 6
    ALREADY = 7
    FULL = 8
    NOT_JOINED = 9
    LINK_DOWN = 10
    NOT_SUPPORTED = 11
    OVERRIDDEN = 12
    BAD_VALUE = 13
    BELOW_MINIMUM = 14
    NO_SPACE = 15
    BAD_SETTINGS = 16
    NOT_ASCENDING = 17
    BAD_OVERRIDE = 18


class State(enum.IntEnum):
    AUTONOMOUS = 0
    CONTROLLED = 1
    LIMITED = 2
    FAILSAFE = 3
    OVERRIDE = 4


class Flow(enum.IntEnum):
    ABSENT = 0
    NONE = 1
    IN = 2
    OUT = 3


# ---- the library
_WORD, _WORD_POINTER = ctypes.c_uint64, ctypes.POINTER(ctypes.c_uint64)
_SIGNED_POINTER, _BYTES, _SHORTS = ctypes.POINTER(ctypes.c_int64), ctypes.POINTER(ctypes.c_uint8), ctypes.POINTER(ctypes.c_uint16)

# What each function takes; each gives its number, save the ask.
_TAKES = {
    "start": [_WORD_POINTER, _WORD_POINTER],
    "join": [_WORD_POINTER, _WORD, _WORD, _WORD],
    "leave": [_WORD_POINTER, _WORD, _WORD],
    "lost": [_WORD_POINTER, _WORD, _WORD],
    "back": [_WORD_POINTER, _WORD, _WORD],
    "override": [_WORD_POINTER, _WORD, _WORD, _WORD],
    "clear": [_WORD_POINTER, _WORD],
    "move": [_WORD_POINTER, _WORD],
    "ask": [_WORD_POINTER, _SIGNED_POINTER],
    "plan": [_WORD_POINTER, _SIGNED_POINTER, _WORD, _WORD_POINTER],
    "plain_plan": [_WORD_POINTER, _SIGNED_POINTER, _WORD, _WORD_POINTER],
    "frame": [_WORD_POINTER, _WORD, _WORD, _BYTES, _WORD, _BYTES, _WORD, _WORD_POINTER],
    "receive": [_WORD_POINTER, _BYTES, _WORD, _BYTES, _WORD, _WORD_POINTER],
    "tick": [_WORD_POINTER, _WORD, _SIGNED_POINTER],
    "read_request": [_BYTES, _WORD, _WORD_POINTER, _SIGNED_POINTER],
    "write_request": [_WORD_POINTER, _SIGNED_POINTER, _BYTES, _WORD, _WORD_POINTER],
    "read_response": [_WORD, _BYTES, _WORD, _WORD_POINTER, _SIGNED_POINTER],
    "write_response": [_WORD, _WORD_POINTER, _SIGNED_POINTER, _BYTES, _WORD, _WORD_POINTER],
    "report": [_WORD_POINTER, _SHORTS, _WORD, _WORD_POINTER, _WORD, _WORD_POINTER],
    "read_measurement": [_BYTES, _WORD, _WORD_POINTER],
    "write_measurement": [_WORD_POINTER, _BYTES, _WORD, _WORD_POINTER],
    "power_flow": [_WORD_POINTER],
    "dc_flow": [_WORD_POINTER],
    "phase_flow": [_WORD_POINTER, _WORD],
}


def _place():
    named = os.environ.get("CEKARUM_LIBRARY")
    here = Path(__file__).resolve().parent
    release = here.parent.parent / "lib" / f"{platform.machine()}-linux"
    places = [Path(named)] if named else [here / "libcekarum.so", release / "libcekarum.so"]
    for place in places:
        if place.is_file():
            return place
    raise ImportError(f"no libcekarum.so at {' or '.join(map(str, places))}: name it by CEKARUM_LIBRARY=/path/to/libcekarum.so")


def _load(place):
    library = ctypes.CDLL(str(place))
    calls = {}
    for name, takes in _TAKES.items():
        symbol = f"cekarum_interface_{INTERFACE}_{name}"
        try:
            call = library[symbol]
        except AttributeError:
            raise ImportError(f"{place} has no {symbol}: it is of another interface than {INTERFACE}") from None
        call.argtypes, call.restype = takes, None if name == "ask" else _WORD
        calls[name] = call
    return library, calls


_LIBRARY, _CALLS = _load(_place())


def made_by():
    """One line that says what the library is: version, commit, target, toolchain, and whether it is proved."""
    return ctypes.string_at(ctypes.addressof(ctypes.c_char.in_dll(_LIBRARY, "cekarum_made_by"))).decode()


# ---- numbers
def _unsigned(number, bits=64):
    number = int(number)
    if not 0 <= number < 1 << bits:
        raise ValueError(f"{number} is no number of {bits} bits")
    return number


def _signed(number):
    number = int(number)
    if not -(1 << 63) <= number < 1 << 63:
        raise ValueError(f"{number} is no signed number of 64 bits")
    return number


def _words(numbers):
    numbers = [_unsigned(number) for number in numbers]
    return (_WORD * len(numbers))(*numbers)


def _values(numbers):
    numbers = [-1 if number is None else _signed(number) for number in numbers]
    return (ctypes.c_int64 * len(numbers))(*numbers)


def _bytes(data):
    return (ctypes.c_uint8 * max(1, len(data))).from_buffer_copy(bytes(data) or b"\0"), len(data)


def _room(count, kind=ctypes.c_uint8):
    """Room for so many; a pointer is never NULL, not even beside the count 0."""
    count = _unsigned(count, 32)
    return (kind * max(1, count))(), count


def _call(name, *words):
    number = _CALLS[name](*words)
    return None if number is None else Refusal(number)


def _numbers(*numbers):
    return [_unsigned(number) for number in numbers]


def _present(number):
    return None if number == -1 else number


def _written(name, words, room):
    """What a writer left in room for so many bytes: its number and the bytes."""
    out, length = _room(room)
    count = _WORD()
    number = _call(name, *words, out, length, ctypes.byref(count))
    return number, bytes(out[: count.value])


# ---- the device
@dataclass
class Settings:
    """Powers in mW; pairs go by direction, consumption first. The defaults are what a refused start leaves."""

    directions: int = 0
    accepts_limits: bool = False
    accepts_setpoints: bool = False
    minimum: int = 0
    maximum: tuple = (None, None)
    failsafe: tuple = (0, 0)
    failsafe_duration: int = 7200
    energy_manager: bool = False
    phases: int = 1
    accepts_current_limits: bool = False

    def words(self):
        maxima = [NONE if maximum is None else maximum for maximum in self.maximum]
        if NONE in [maximum for maximum in self.maximum if maximum is not None]:
            raise ValueError("the largest number of 64 bits says that there is no maximum: give None")
        start = [self.directions, bool(self.accepts_limits), bool(self.accepts_setpoints), self.minimum]
        rest = [self.failsafe_duration, bool(self.energy_manager), self.phases, bool(self.accepts_current_limits)]
        return _words([*start, *maxima, *self.failsafe, *rest])


class Device:
    """One energy endpoint. Before its first start it is what a refused start leaves."""

    def __init__(self):
        self.words = (_WORD * WORDS)()
        self.start(Settings(phases=0))

    def start(self, settings):
        return _call("start", self.words, settings.words())

    def join(self, zone, rank, time):
        return _call("join", self.words, *_numbers(zone, rank, time))

    def leave(self, zone, time):
        return _call("leave", self.words, *_numbers(zone, time))

    def lost(self, zone, time):
        return _call("lost", self.words, *_numbers(zone, time))

    def back(self, zone, time):
        return _call("back", self.words, *_numbers(zone, time))

    def override(self, reason, direction, time):
        return _call("override", self.words, *_numbers(reason, direction, time))

    def clear(self, time):
        return _call("clear", self.words, *_numbers(time))

    def move(self, time):
        return _call("move", self.words, *_numbers(time))

    def ask(self):
        """The control state, limits and setpoints in mW, current limits in mA by phase; consumption before production."""
        values = (ctypes.c_int64 * VALUES)()
        _call("ask", self.words, values)
        return [_present(number) for number in values]

    def _rows(self, name, room, numbers_a_row):
        rows, count = (ctypes.c_int64 * max(1, room * numbers_a_row))(), _WORD()
        number = _call(name, self.words, rows, _unsigned(room, 32), ctypes.byref(count))
        return number, [[_present(n) for n in rows[ROW * i : ROW * (i + 1)]] for i in range(count.value)]

    def plan(self, room=PLAN_MAX):
        """A number and the rows: a second, then what an ask shows from then on. Room is counted in numbers."""
        return self._rows("plan", room, 1)

    def plain_plan(self, room=ROWS_MAX):
        """The same rows made the slow way. Room is counted in rows."""
        return self._rows("plain_plan", room, ROW)

    def frame(self, zone, time, frame, room=RESPONSE_MAX):
        """A number and the response frame, which may stand beside a refusal too."""
        return _written("frame", [self.words, *_numbers(zone, time), *_bytes(frame)], room)


# ---- frames in scraps, ticks
class Receiver:
    """One connection's stream of frames, all zero when it is made."""

    def __init__(self):
        self.words, self.room = (_WORD * 3)(), (ctypes.c_uint8 * FRAME_MAX)()

    def receive(self, scrap, room=FRAME_MAX):
        """A number, how many bytes of the scrap were taken, and the frame that is whole now (or b"")."""
        counts = (_WORD * 2)()
        number = _call("receive", self.words, self.room, min(_unsigned(room), FRAME_MAX), *_bytes(scrap), counts)
        return number, counts[0], bytes(self.room[: counts[1]])


class Front:
    """Turns the readings of a counter of milliseconds in 32 bits into seconds."""

    def __init__(self):
        self.words = (_WORD * 4)()

    def tick(self, tick):
        """A number and the seconds since the first reading."""
        seconds = ctypes.c_int64(-1)
        number = _call("tick", self.words, _unsigned(tick, 32), ctypes.byref(seconds))
        return number, _present(seconds.value)


# ---- messages
ABSENT = "absent"  # what a field of a Set command is where it is neither None (null) nor a number


@dataclass
class Request:
    """The header's cekarum_request; a field is ABSENT, None for null, or a number."""

    id: int = 0
    endpoint: int = 1
    feature: int = 5
    command: int = 0
    consumption: object = ABSENT
    production: object = ABSENT
    duration: int = 0
    cause: int = 0
    directed: bool = False
    direction: int = 0
    phases: list = field(default_factory=lambda: [ABSENT] * 3)
    duration_omitted: bool = False


def _kind(value):
    return 0 if value is ABSENT else 1 if value is None else 2


def _field(kind, value):
    return [ABSENT, None, value][kind]


def read_request(frame):
    """A number and the request, None beside a refusal."""
    w, v = (_WORD * 14)(), (ctypes.c_int64 * 5)()
    number = _call("read_request", *_bytes(frame), w, v)
    if number:
        return number, None
    phases = [_field(w[10 + phase], v[2 + phase]) for phase in range(3)]
    fields = [_field(w[4], v[0]), _field(w[5], v[1])]
    return number, Request(*w[:4], *fields, w[6], w[7], bool(w[8]), w[9], phases, bool(w[13]))


def write_request(request, room=REQUEST_MAX):
    """A number and the frame."""
    r = request
    fields = [r.consumption, r.production]
    words = [r.id, r.endpoint, r.feature, r.command, *map(_kind, fields), r.duration, r.cause, bool(r.directed), r.direction]
    words += [*map(_kind, r.phases), bool(r.duration_omitted)]
    values = [0 if value in (ABSENT, None) else value for value in [*fields, *r.phases]]
    return _written("write_request", [_words(words), _values(values)], room)


@dataclass
class Response:
    """The header's cekarum_response; absent is None."""

    id: int = 0
    status: int = 0
    result: bool = False
    applied: bool = False
    state: int = 0
    consumption: int = None
    production: int = None
    reason: int = None
    currents: list = field(default_factory=lambda: [None] * 3)


def read_response(command, frame):
    """A number and the response to a command, None beside a refusal."""
    w, v = (_WORD * 5)(), (ctypes.c_int64 * 6)()
    number = _call("read_response", _unsigned(command), *_bytes(frame), w, v)
    if number:
        return number, None
    values = [_present(value) for value in v]
    return number, Response(w[0], w[1], bool(w[2]), bool(w[3]), w[4], *values[:3], values[3:])


def write_response(command, response, room=RESPONSE_MAX):
    """A number and the frame."""
    r = response
    words = _words([r.id, r.status, bool(r.result), bool(r.applied), r.state])
    values = _values([r.consumption, r.production, r.reason, *r.currents])
    return _written("write_response", [_unsigned(command), words, values], room)


# ---- conformance
@dataclass
class Inputs:
    """The header's cekarum_inputs."""

    type: int = 0
    map: int = 0
    phases: int = 1
    directions: int = 0
    accepts_limits: bool = False
    accepts_current_limits: bool = False
    accepts_setpoints: bool = False
    has_process: bool = False


def report(inputs, attributes, room=REPORT_MAX):
    """A number and the breaches, pairs of a group and a bit or attribute. Room is counted in numbers."""
    i = inputs
    flags = map(bool, [i.accepts_limits, i.accepts_current_limits, i.accepts_setpoints, i.has_process])
    words = _words([i.type, i.map, i.phases, i.directions, *flags])
    attributes = [_unsigned(attribute, 16) for attribute in attributes]
    listed = (ctypes.c_uint16 * max(1, len(attributes)))(*attributes)
    pairs, length = _room(room, _WORD)
    count = _WORD()
    number = _call("report", words, listed, len(attributes), pairs, length, ctypes.byref(count))
    return number, [(pairs[2 * n], pairs[2 * n + 1]) for n in range(count.value)]


# ---- what the box measures
# The attributes of document 002 in the order of their places, with how many places each has.
ATTRIBUTES = {
    "ac_active_power": 1,
    "ac_reactive_power": 1,
    "ac_apparent_power": 1,
    "ac_active_power_per_phase": 3,
    "ac_reactive_power_per_phase": 3,
    "ac_apparent_power_per_phase": 3,
    "ac_current_per_phase": 3,
    "ac_voltage_per_phase": 3,
    "ac_voltage_phase_to_phase_pair": 3,
    "ac_frequency": 1,
    "power_factor": 1,
    "ac_energy_consumed": 1,
    "ac_energy_produced": 1,
    "dc_power": 1,
    "dc_current": 1,
    "dc_voltage": 1,
    "dc_energy_in": 1,
    "dc_energy_out": 1,
    "state_of_charge": 1,
    "state_of_health": 1,
    "state_of_energy": 1,
    "useable_capacity": 1,
    "cycle_count": 1,
    "temperature": 1,
}
PLACES = sum(ATTRIBUTES.values())


def _cell(number):
    """Two words for a place: 0 for nothing, 1 and n for n, 2 and n for -1 - n."""
    return [0, 0] if number is None else [1, number] if number >= 0 else [2, -1 - number]


def _measured(mark, n):
    return [None, n, -1 - n][mark]


def _measurement_words(measurement):
    unknown = set(measurement) - set(ATTRIBUTES)
    if unknown:
        raise ValueError(f"no attribute has the name {sorted(unknown)[0]}")
    words = []
    for name, places in ATTRIBUTES.items():
        cells = measurement.get(name, [None] * places if places > 1 else None)
        cells = [cells] if places == 1 else list(cells)
        if len(cells) != places:
            raise ValueError(f"{name} has {places} places")
        words += sum(map(_cell, cells), [])
    return _words(words)


def read_measurement(payload):
    """A number and the attributes that are there, by name; those with three places as a list, with None for one that is absent."""
    words = (_WORD * (2 * PLACES))()
    number = _call("read_measurement", *_bytes(payload), words)
    cells = [_measured(words[2 * place], words[2 * place + 1]) for place in range(PLACES)]
    there, place = {}, 0
    for name, places in ATTRIBUTES.items():
        own, place = cells[place : place + places], place + places
        if any(cell is not None for cell in own):
            there[name] = own[0] if places == 1 else own
    return number, there


def write_measurement(measurement, room=MEASUREMENT_MAX):
    """A number and the payload."""
    return _written("write_measurement", [_measurement_words(measurement)], room)


def power_flow(measurement):
    return Flow(_CALLS["power_flow"](_measurement_words(measurement)))


def dc_flow(measurement):
    return Flow(_CALLS["dc_flow"](_measurement_words(measurement)))


def phase_flow(measurement, phase):
    return Flow(_CALLS["phase_flow"](_measurement_words(measurement), _unsigned(phase)))
