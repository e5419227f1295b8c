"""The lines of docs/CONSOLE.md, answered over cekarum.py.

    console.py LINES ANSWERS     answers the lines of a file and compares them with the answers that stand in another

A line of another program (`rescue`) has no call in the header: it and its answer are passed over, and so is a line whose first
word is none that stands here. The last line that is printed says how many were compared.
"""
import re
import sys

import cekarum

LONGEST = 16384
TOO_LARGE = 2**64 - 1  # a number that 64 bits cannot hold, and a negative one, become this, which is out of every range


class BadLine(Exception):
    pass


def demand(holds):
    if not holds:
        raise BadLine


# ---- words
def number(word):
    demand(re.fullmatch("-?[0-9]+", word))
    value = int(word)
    return value if 0 <= value < TOO_LARGE else TOO_LARGE


def flag(word):
    demand(number(word) <= 1)
    return number(word) == 1


def maximum(word):
    return None if word == "-" else min(number(word), TOO_LARGE - 1)


def room(word, longest):
    demand(not re.fullmatch("-0*[1-9][0-9]*", word))
    return min(number(word), longest)


def data(word):
    demand(word == "-" or re.fullmatch("([0-9a-f][0-9a-f])+", word))
    return b"" if word == "-" else bytes.fromhex(word)


def attributes(word):
    numbers = [] if word == "-" else [number(one) for one in word.split(",")]
    demand(all(one <= 0xFFFF for one in numbers))
    return numbers


def shown(values):
    return " ".join("-1" if value is None else str(int(value)) for value in values)


def hexed(some):
    return some.hex() or "-"


# ---- lines
class Console:
    def __init__(self):
        self.device, self.receiver, self.front = cekarum.Device(), cekarum.Receiver(), cekarum.Front()

    def start(self, directions, limits, setpoints, minimum, maximum_c, maximum_p, failsafe_c, failsafe_p, duration, manager, phases, current):
        settings = cekarum.Settings(
            number(directions),
            flag(limits),
            flag(setpoints),
            number(minimum),
            (maximum(maximum_c), maximum(maximum_p)),
            (number(failsafe_c), number(failsafe_p)),
            number(duration),
            flag(manager),
            number(phases),
            flag(current),
        )
        return int(self.device.start(settings))

    def join(self, zone, rank, time):
        return int(self.device.join(number(zone), number(rank), number(time)))

    def leave(self, zone, time):
        return int(self.device.leave(number(zone), number(time)))

    def lost(self, zone, time):
        return int(self.device.lost(number(zone), number(time)))

    def back(self, zone, time):
        return int(self.device.back(number(zone), number(time)))

    def override(self, reason, direction, time):
        return int(self.device.override(number(reason), number(direction), number(time)))

    def clear(self, time):
        return int(self.device.clear(number(time)))

    def move(self, time):
        return int(self.device.move(number(time)))

    def ask(self):
        return f"0 {shown(self.device.ask())}"

    def plan(self, numbers):
        refusal, rows = self.device.plan(room(numbers, cekarum.PLAN_MAX))
        return shown([refusal, *sum(rows, [])])

    def rows(self, records):
        refusal, rows = self.device.plain_plan(room(records, cekarum.ROWS_MAX))
        return shown([refusal, *sum(rows, [])])

    def frame(self, zone, time, length, frame):
        words = number(zone), number(time), data(frame), room(length, cekarum.FRAME_MAX)
        refusal, response = self.device.frame(*words)
        return f"{refusal:d} {hexed(response)}"

    def scrap(self, which, length, scrap):
        demand(which in ("new", "same"))
        length, scrap = room(length, cekarum.FRAME_MAX), data(scrap)
        if which == "new":
            self.receiver = cekarum.Receiver()
        refusal, taken, frame = self.receiver.receive(scrap, length)
        return f"{refusal:d} {taken} {hexed(frame)}"

    def tick(self, which, tick):
        demand(which in ("new", "same") and number(tick) < 2**32)
        if which == "new":
            self.front = cekarum.Front()
        return shown(self.front.tick(number(tick)))

    def request(self, frame):
        refusal, request = cekarum.read_request(data(frame))
        return f"{refusal:d} {again(refusal, lambda: cekarum.write_request(request))}"

    def response(self, command, frame):
        command = number(command)
        refusal, response = cekarum.read_response(command, data(frame))
        return f"{refusal:d} {again(refusal, lambda: cekarum.write_response(command, response))}"

    def meas(self, payload):
        refusal, measurement = cekarum.read_measurement(data(payload))
        flows = {"1": cekarum.power_flow(measurement), "40": cekarum.dc_flow(measurement)}
        flows.update({f"10.{phase}": cekarum.phase_flow(measurement, phase) for phase in range(3)})
        there = " ".join(f"{name}:{flow.name.lower()}" for name, flow in flows.items() if flow)
        return f"{refusal:d} {again(refusal, lambda: cekarum.write_measurement(measurement))} {there or '-'}"

    def conf(self, kind, features, phases, directions, limits, current, setpoints, process, numbers, listed):
        flags = flag(limits), flag(current), flag(setpoints), flag(process)
        inputs = cekarum.Inputs(number(kind), number(features), number(phases), number(directions), *flags)
        refusal, pairs = cekarum.report(inputs, attributes(listed), room(numbers, cekarum.REPORT_MAX))
        return f"{refusal:d} {' '.join(f'{group}:{one}' for group, one in pairs) or '-'}"


def again(refusal, write):
    """What was read, written again: it can be written, whatever it was."""
    if refusal:
        return "-"
    refusal, written = write()
    assert refusal == cekarum.Refusal.OK, f"what was read is refused with {refusal:d} when it is written"
    return hexed(written)


COMMANDS = {
    **dict.fromkeys(["ask"], 0),
    **dict.fromkeys(["clear", "move", "plan", "rows", "request", "meas"], 1),
    **dict.fromkeys(["leave", "lost", "back", "tick", "response"], 2),
    **dict.fromkeys(["join", "override", "scrap"], 3),
    **{"frame": 4, "conf": 10, "start": 12},
}


def answer(console, line):
    """The answer to a line; None for one that has no call here."""
    word, *words = line.split(" ")
    if word not in COMMANDS:
        return None
    try:
        demand(len(line) <= LONGEST and len(words) == COMMANDS[word])
        return str(getattr(console, word)(*words))
    except BadLine:
        return "bad line"


def main(lines, answers):
    console, compared, passed, differ = Console(), 0, 0, 0
    if hasattr(sys, "set_int_max_str_digits"):
        sys.set_int_max_str_digits(LONGEST)
    with open(lines, encoding="latin-1", newline="\n") as questions, open(answers, encoding="latin-1", newline="\n") as expected:
        asked = [line.rstrip("\n") for line in questions]
        wanted = [line.rstrip("\n") for line in expected]
    asked = [(at, line) for at, line in enumerate(asked, 1) if line]
    assert len(asked) == len(wanted), f"{len(asked)} lines and {len(wanted)} answers"
    for (at, line), want in zip(asked, wanted):
        got = answer(console, line)
        if got is None:
            passed += 1
            continue
        compared += 1
        if got != want:
            differ += 1
            print(f"line {at}, '{line[:200]}': '{got[:200]}', and '{want[:200]}' is expected")
    print(f"{compared} lines compared, {differ} differ, {passed} passed over")
    return 1 if differ or not compared else 0


if __name__ == "__main__":
    sys.exit(main(*sys.argv[1:]))
