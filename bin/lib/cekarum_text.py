"""What the tools of bin/ that are written in Python know of the kernel: its names and units, bench records, the lines of a text
script, and settings lines. Document 01 and docs/CONSOLE.md decide."""
import difflib
import re
from typing import NamedTuple

# ---- names and units
DIRECTIONS = ("consumption", "production")
PHASES = ("A", "B", "C")
STATES = ("AUTONOMOUS", "CONTROLLED", "LIMITED", "FAILSAFE", "OVERRIDE")
OVERRIDE_REASONS = ("SELF_PROTECTION", "SAFETY", "LEGAL_REQUIREMENT", "UNCONTROLLED_LOAD", "UNCONTROLLED_PRODUCER")
POWER, CURRENT = "mW", "mA"

# The ten quantities in the order of an ask: name and unit.
QUANTITIES = tuple(
    [(f"{direction} {kind}", POWER) for kind in ("limit", "setpoint") for direction in DIRECTIONS]
    + [(f"{direction} current limit {phase}", CURRENT) for phase in PHASES for direction in DIRECTIONS]
)

REFUSALS = (
    "accepted",
    "prefix or payload length wrong",
    "payload is not the strict CBOR",
    "not a map, a needed key missing, or a known key with a wrong type or range",
    "endpoint, feature or command is not served",
    "time out of order or past the end",
    "join: id outside 1 to 255, or rank outside 1 to 3",
    "already so: a joined id, a link as told, or no override to clear",
    "eight zones are joined",
    "zone not joined",
    "the zone's link is down",
    "not accepted, or a named direction not supported",
    "an override is set",
    "a negative value, nothing named, or a phase that the device does not have",
    "a consumption limit below the minimum",
    "no room in the lent buffer",
    "bad settings, or conformance inputs out of range",
    "attribute list not strictly ascending",
    "override reason and direction do not go together",
)


def refusal(number):
    return REFUSALS[number] if 0 <= number < len(REFUSALS) else "no refusal number"


class Fault(ValueError):
    """What is wrong with a line, a record or a file, in words for whoever wrote it."""


# ---- numbers as people write them
BYTE, HALF, WORD, POSITIVE = 2**8 - 1, 2**16 - 1, 2**32 - 1, 2**63 - 1


def shown(word):
    """A word as a message can quote it."""
    text = "".join(c if c.isprintable() else "?" for c in word)
    return f"'{text[:40]}..'" if len(text) > 40 else f"'{text}'"


def grouped(number):
    return f"{number:,}"


def number(word, what, most):
    """Digits, alone or in groups of three that are parted by commas; up to what the field can hold."""
    if re.fullmatch(r"-[0-9][0-9,]*", word):
        raise Fault(f"{what} is {shown(word)}, and negative numbers have no place there")
    if not re.fullmatch(r"[0-9]+|[0-9]{1,3}(,[0-9]{3})+", word):
        raise Fault(f"{what} is {shown(word)}, which is no number: digits are, and groups of three as in 1,000,000")
    found = digits(word, most)
    if found is None:
        raise Fault(f"{what} is {shown(word)}, and its field holds 0 to {grouped(most)}")
    return found


def digits(word, most):
    """The number that digits say, however many; None above the most."""
    significant = word.replace(",", "").lstrip("0") or "0"
    return int(significant) if len(significant) <= len(str(most)) and int(significant) <= most else None


def hex_bytes(word, what):
    if not re.fullmatch(r"[0-9a-fA-F]*", word):
        raise Fault(f"{what} is {shown(word)}, which is not hex")
    if len(word) % 2:
        raise Fault(f"{what} has {len(word)} digits of hex, an odd number")
    return bytes.fromhex(word)


# ---- CBOR, as far as requests need it
def head(major, n):
    if n < 24:
        return bytes([major * 32 + n])
    for info, width in ((24, 1), (25, 2), (26, 4), (27, 8)):
        if n < 1 << 8 * width:
            return bytes([major * 32 + info]) + n.to_bytes(width, "big")
    raise Fault("a number above 64 bits")


def item(value):
    if value is None:
        return b"\xf6"
    if isinstance(value, dict):
        return head(5, len(value)) + b"".join(head(0, k) + item(v) for k, v in sorted(value.items()))
    return head(0, value)


def read_item(data, at=0):
    """The unsigned number, null or map of such at a place, and where it ends. Anything else is a fault."""
    if at >= len(data):
        raise Fault("the payload ends early")
    major, info = divmod(data[at], 32)
    if data[at] == 0xF6:
        return None, at + 1
    width = {24: 1, 25: 2, 26: 4, 27: 8}.get(info, 0)
    n = int.from_bytes(data[at + 1 : at + 1 + width], "big") if width else info
    at += 1 + width
    if major == 0 and info < 28:
        return n, at
    if major == 5 and n <= 16:
        return read_map(data, at, n)
    raise Fault("no item of a request that a line can say")


def read_map(data, at, count):
    found = {}
    for _ in range(count):
        key, at = read_item(data, at)
        if not isinstance(key, int):
            raise Fault("a key that is no number")
        found[key], at = read_item(data, at)
    return found, at


# ---- records
MARK = b"MH"
HEAD = 10
JOIN, LEAVE, LOST, BACK, FRAME, PLAN, OVERRIDE, CLEAR, MOVE, ASK = KINDS = range(1, 11)
KIND_NAMES = dict(zip(KINDS, ("join", "leave", "lost", "back", "frame", "plan", "override", "clear", "move", "ask")))
BODY_LENGTHS = {JOIN: (1, 1), FRAME: (4, 2052), OVERRIDE: (2, 2)}  # the other kinds have none


class Record(NamedTuple):
    kind: int
    zone: int
    time: int
    body: bytes = b""


def body_fits(kind, length):
    least, most = BODY_LENGTHS.get(kind, (0, 0))
    return least <= length <= most


def record_bytes(record):
    kind, zone, time, body = record
    if kind not in KINDS:
        raise Fault(f"kind {kind}: kinds are 1 to {ASK}")
    if not body_fits(kind, len(body)):
        least, most = BODY_LENGTHS.get(kind, (0, 0))
        wanted = f"{least} to {grouped(most)}" if least < most else f"{least}"
        raise Fault(f"a body of {len(body)} bytes: kind {kind}, {KIND_NAMES[kind]}, has {wanted}")
    return MARK + bytes([kind, zone]) + time.to_bytes(4, "big") + len(body).to_bytes(2, "big") + body


def record_at(data, at):
    """The record at a place and where it ends."""
    mark, start = data[at : at + 2], data[at : at + HEAD]
    if mark != MARK[: len(mark)]:
        raise Fault("it does not begin with the mark 4D 48")
    if len(start) > 2 and start[2] not in KINDS:
        raise Fault(f"there is no kind {start[2]}")
    if len(start) < HEAD:
        raise Fault(f"the file is cut: {len(start)} of its {HEAD} bytes before the body are there")
    length = int.from_bytes(start[8:], "big")
    if not body_fits(start[2], length):
        raise Fault(f"kind {start[2]} has no body of {length} bytes")
    body = data[at + HEAD : at + HEAD + length]
    if len(body) < length:
        raise Fault(f"the file is cut: {len(body)} of the body's {length} bytes are there")
    return Record(start[2], start[3], int.from_bytes(start[4:8], "big"), body), at + HEAD + length


def records_of(data):
    """All records of a bench script. A fault names the record and its byte."""
    records, at = [], 0
    while at < len(data):
        try:
            record, at = record_at(data, at)
        except Fault as fault:
            raise Fault(f"record {len(records) + 1} is bad, at byte {at}: {fault}") from None
        records.append(record)
    return records


# ---- requests
ENDPOINT, FEATURE = 1, 5
SET_LIMIT, CLEAR_LIMIT, SET_SETPOINT, CLEAR_SETPOINT, SET_CURRENT, CLEAR_CURRENT = COMMANDS = range(1, 7)
DURATION, CAUSE = 3, 4  # keys of every Set command


def request_frame(message, command, parameters):
    payload = item({1: message, 2: ENDPOINT, 3: FEATURE, 4: command, 5: parameters})
    return len(payload).to_bytes(4, "big") + payload


def request_of(frame):
    """Message id, command and parameters of a frame that a line may be able to say."""
    found, _ = read_item(frame, 4)
    return found[1], found[4], found[5]


# ---- the words of a line
LONGEST_LINE = 16384  # as the console has it
BYTE_ORDER_MARK = b"\xef\xbb\xbf"  # which some editors write at the front of UTF-8


def without_mark(data):
    return data[len(BYTE_ORDER_MARK) :] if data.startswith(BYTE_ORDER_MARK) else data


def line_text(line):
    """The text of a line of bytes without its line end; nothing for a comment."""
    line = line[:-1] if line.endswith(b"\r") else line
    if line.lstrip(b" \t").startswith(b"#"):
        return ""
    if len(line) > LONGEST_LINE:
        raise Fault(f"it has {grouped(len(line))} characters, and a line has at most {grouped(LONGEST_LINE)}")
    try:
        text = line.decode()
    except UnicodeDecodeError as fault:
        raise Fault(f"its byte {fault.start + 1}, {line[fault.start]:02X}, is not UTF-8: save the file as UTF-8") from None
    if "\0" in text:
        raise Fault(f"its character {text.index(chr(0)) + 1} is a NUL: this is no text")
    return text


class Words:
    """The words of a line that are still to be read."""

    def __init__(self, text):
        self.words = text.replace("\t", " ").split(" ")
        self.words = [word for word in self.words if word]

    def next(self):
        return self.words[0] if self.words else None

    def take(self, wanted):
        if not self.words:
            raise Fault(f"the line ends where {wanted} is expected")
        return self.words.pop(0)

    def keyword(self, word):
        found = self.take(f"'{word}'")
        if found != word:
            raise Fault(f"{shown(found)} stands where '{word}' is expected")

    def number(self, what, most):
        return number(self.take(what), what, most)

    def value(self, wanted, what, most):
        """A number that the word before it wants: where it was forgotten, the next word stands in its place."""
        found = self.next()
        if found is None or re.fullmatch(r"[a-zA-Z-]+", found):
            raise Fault(f"{wanted}, and {shown(found) if found else 'the end of the line'} stands there")
        return self.number(what, most)

    def direction(self):
        found = self.take("a direction")
        if found in DIRECTIONS:
            return DIRECTIONS.index(found)
        if re.fullmatch("[0-9]+", found):  # the form of earlier scripts
            return number(found, "the direction", BYTE)
        raise Fault(f"{shown(found)} stands where a direction is expected: consumption or production")

    def zone(self):
        return self.number("the zone", BYTE)

    def time(self):
        """The last words of a line."""
        self.keyword("at")
        time = self.value("'at' wants a time in seconds", "the time", WORD)
        self.end("a line ends with its time")
        return time

    def end(self, wanted):
        if self.words:
            raise Fault(f"{shown(' '.join(self.words))} is left over: {wanted}")


# ---- lines that are no requests
def join(words):
    zone = words.zone()
    words.keyword("rank")
    rank = words.value("'rank' wants a number", "the rank", BYTE)
    return Record(JOIN, zone, words.time(), bytes([rank]))


def of_zone(kind):
    return lambda words: Record(kind, words.zone(), words.time())


def of_device(kind):
    return lambda words: Record(kind, 0, words.time())


def without_time(kind):
    def line(words):
        words.end(f"{KIND_NAMES[kind]} takes no time; write the line 'move at TIME' before it")
        return Record(kind, 0, 0)

    return line


def frame(words):
    zone = words.zone()
    body = hex_bytes(words.take("the frame in hex"), "the frame")
    return sound(Record(FRAME, zone, words.time(), body))


def override(words):
    reason = words.number("the reason", BYTE)
    direction = words.direction()
    return Record(OVERRIDE, 0, words.time(), bytes([reason, direction]))


def any_record(words):
    kind, zone, time = words.number("the kind", BYTE), words.zone(), words.number("the time", WORD)
    body = words.take("the body in hex, or -,")
    words.end("a line 'record' ends with its body")
    return sound(Record(kind, zone, time, b"" if body == "-" else hex_bytes(body, "the body")))


def sound(record):
    record_bytes(record)
    return record


PLAIN = {
    "join": join,
    "leave": of_zone(LEAVE),
    "lost": of_zone(LOST),
    "back": of_zone(BACK),
    "frame": frame,
    "override": override,
    "clear": of_device(CLEAR),
    "move": of_device(MOVE),
    "ask": without_time(ASK),
    "plan": without_time(PLAN),
    "record": any_record,
}


# ---- lines that are requests
class Options:
    """The fields of a Set command's line, each once: its name, then its value."""

    def __init__(self, words, kind, names, unit):
        self.words, self.kind, self.names, self.unit = words, kind, names, unit
        self.values = {}
        while words.next() not in ("at", None):
            self.option(words.take("a field"))

    def option(self, name):
        known = [*self.names, "for", "cause", "id"]
        name = name.upper() if name.upper() in self.names else name  # phases also in small letters
        if name not in known:
            raise Fault(f"{shown(name)} is left over: {', '.join(known)} or 'at TIME' is expected")
        if name in self.values:
            raise Fault(f"'{name}' stands twice")
        self.values[name] = self.value(name)

    def value(self, name):
        if name == "for":
            return self.words.value("'for' wants a number of seconds", "the number of seconds", WORD)
        if name == "cause":
            return self.words.value("'cause' wants a number", "the cause", BYTE)
        if name == "id":
            return message_id(self.words)
        if self.words.next() == "null":
            self.words.take("null")
            return None
        wanted = f"a {self.kind} wants a value in {self.unit}, or null, behind '{name}'"
        return self.words.value(wanted, f"the {self.kind}", POSITIVE)

    def named(self):
        """The values by direction or phase. A command that names none is a mistake."""
        found = {key: self.values[name] for key, name in enumerate(self.names) if name in self.values}
        if not found:
            raise Fault(f"a {self.kind} wants a value in {self.unit} behind {' or '.join(self.names)}")
        return found

    def others(self):
        """Duration and cause. A limit and a current leave a duration of 0 out; a setpoint writes it, as it then stands."""
        duration = self.values.get("for")
        written = duration is not None if self.kind == "setpoint" else bool(duration)
        return {**({DURATION: duration} if written else {}), CAUSE: self.values.get("cause", 0)}


def message_id(words):
    return words.value("'id' wants a number", "the message id", WORD)


def set_power(words, kind):
    options = Options(words, kind, DIRECTIONS, POWER)
    named = {key + 1: value for key, value in options.named().items()}
    return {**named, **options.others()}, options.values.get("id")


def set_current(words, kind):
    direction = words.direction()
    options = Options(words, kind, PHASES, CURRENT)
    return {1: options.named(), 2: direction, **options.others()}, options.values.get("id")


def clear_values(words, kind):
    parameters, message = {}, None
    if words.next() not in ("at", "id", None):
        parameters = {1: words.direction()}
    if words.next() == "id":
        words.take("id")
        message = message_id(words)
    return parameters, message


REQUESTS = {
    "limit": (SET_LIMIT, set_power),
    "clear-limit": (CLEAR_LIMIT, clear_values),
    "setpoint": (SET_SETPOINT, set_power),
    "clear-setpoint": (CLEAR_SETPOINT, clear_values),
    "current": (SET_CURRENT, set_current),
    "clear-current": (CLEAR_CURRENT, clear_values),
}
VERBS = {command: verb for verb, (command, _) in REQUESTS.items()}


# ---- a script: lines to records and back
class Script:
    """A request without an id has the one behind the last request's, from 1 on."""

    def __init__(self, last=0):
        self.last = last

    def record(self, text):
        """The record that a line says; None for an empty line. A bad line is a fault and leaves the ids as they were."""
        words = Words(text)
        if words.next() is None:
            return None
        verb = words.take("a line")
        if verb in REQUESTS:
            return self.request(verb, words)
        if verb in PLAIN:
            return PLAIN[verb](words)
        near = difflib.get_close_matches(verb, [*REQUESTS, *PLAIN], 1)
        raise Fault(f"{shown(verb)} begins no line" + (f": is it '{near[0]}'?" if near else " (bin/script --help has the lines)"))

    def request(self, verb, words):
        command, fields = REQUESTS[verb]
        zone = words.zone()
        parameters, message = fields(words, verb)
        if message is None:
            message = number(str(self.last + 1), "the message id", WORD)
        record = Record(FRAME, zone, words.time(), request_frame(message, command, parameters))
        self.last = message
        return record

    def text(self, record):
        """The most readable line that says a record to the byte."""
        for line in lines_for(record, self.last):
            trial = Script(self.last)
            try:
                said = trial.record(line)
            except Fault:
                continue
            if said == record:
                self.last = trial.last
                return line
        raise Fault(f"no line says {record}")


def script_records(data):
    """The records of a text script. A fault tells of the first bad line, and how many more there are."""
    script, found, faults = Script(), [], []
    for at, line in enumerate(without_mark(data).split(b"\n"), 1):
        try:
            record = script.record(line_text(line))
        except Fault as fault:
            faults.append(f"line {at}: {fault}")
            continue
        if record is not None:
            found.append(record)
    if faults:
        more = f" ({len(faults) - 1} more lines are bad)" if len(faults) > 1 else ""
        raise Fault(faults[0] + more)
    return found


# ---- lines for records
def lines_for(record, last):
    """Lines that may say a record, the most readable first; the last one always does."""
    kind, zone, time, body = record
    if kind == FRAME:
        try:
            yield request_line(record, last)
        except (Fault, KeyError, IndexError, TypeError, AttributeError):
            pass
        yield f"frame {zone} {body.hex()} at {time}"
    elif kind == JOIN:
        yield f"join {zone} rank {body[0]} at {time}"
    elif kind in (LEAVE, LOST, BACK):
        yield f"{KIND_NAMES[kind]} {zone} at {time}"
    elif kind == OVERRIDE:
        yield f"override {body[0]} {direction_name(body[1])} at {time}"
    elif kind in (PLAN, ASK):
        yield KIND_NAMES[kind]
    else:
        yield f"{KIND_NAMES[kind]} at {time}"
    yield f"record {kind} {zone} {time} {body.hex() or '-'}"


def direction_name(direction):
    return DIRECTIONS[direction] if direction < len(DIRECTIONS) else str(direction)


def value_words(names, values):
    return [f"{names[key]} {'null' if value is None else grouped(value)}" for key, value in sorted(values.items())]


def request_line(record, last):
    """A line for a frame, if it is a request as this module writes them; its own reading then says the same bytes."""
    message, command, parameters = request_of(record.body)
    words = [VERBS[command], str(record.zone)]
    if command in (SET_LIMIT, SET_SETPOINT):
        words += value_words(DIRECTIONS, {key - 1: parameters[key] for key in (1, 2) if key in parameters})
    elif command == SET_CURRENT:
        words += [direction_name(parameters[2]), *value_words(PHASES, parameters[1])]
    elif parameters:
        words.append(direction_name(parameters[1]))
    words += [f"for {parameters[DURATION]}"] if DURATION in parameters else []
    words += [f"cause {parameters[CAUSE]}"] if parameters.get(CAUSE) else []
    words += [f"id {message}"] if message != last + 1 else []
    return " ".join([*words, f"at {record.time}"])


def script_text(data):
    """The lines of a bench script, which give its bytes again."""
    script = Script()
    return "".join(script.text(record) + "\n" for record in records_of(data))


# ---- settings
class Settings(NamedTuple):
    """A device's settings in the order of the console's line `start`; a maximum that is none is None. Powers in mW."""

    directions: int
    limits: int
    setpoints: int
    minimum: int
    maximum_consumption: "int | None"
    maximum_production: "int | None"
    failsafe_consumption: int
    failsafe_production: int
    duration: int
    manager: int
    phases: int
    current: int


SETTING_RANGES = {
    **dict.fromkeys(Settings._fields, (0, POSITIVE)),
    **dict.fromkeys(("limits", "setpoints", "manager", "current"), (0, 1)),
    "directions": (0, 2),
    "duration": (7200, 86400),
    "phases": (1, 3),
}
BENCH_SETTINGS = Settings(2, 1, 1, 1380000, 43000000, None, 4200000, 0, 7200, 0, 3, 1)


def setting(name, word):
    least, most = SETTING_RANGES[name]
    if word == "-" and name.startswith("maximum"):
        return None
    found = digits(word, most) if re.fullmatch("[0-9]+", word) else None
    if found is None or found < least:
        raise Fault(f"{name.replace('_', ' ')} is {shown(word)}, and {grouped(least)} to {grouped(most)} is expected")
    return found


def settings_of(text):
    """The settings of a line `start ..`; a device refuses what is a fault here with 16, or the console answers `bad line`."""
    words = Words(text)
    words.keyword("start")
    if len(words.words) != len(Settings._fields):
        raise Fault(f"{len(words.words)} words stand behind 'start', and {len(Settings._fields)} are expected (docs/CONSOLE.md)")
    found = Settings(*(setting(name, words.take(name)) for name in Settings._fields))
    if found.maximum_consumption is not None and found.maximum_consumption < found.minimum:
        raise Fault("the maximum consumption is below the minimum")
    return found


def settings_line(settings):
    return " ".join(["start", *("-" if value is None else str(value) for value in settings)])


def settings_in(data):
    """The settings of a settings file: one line, the console's `start` line."""
    lines = data.rstrip(b"\r\n").split(b"\n")
    if len(lines) != 1:
        raise Fault(f"it has {len(lines)} lines, and a settings file is one: the console's line 'start ..'")
    return settings_of(line_text(lines[0]))
