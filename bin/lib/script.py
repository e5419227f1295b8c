"""script.py write|read FILE: bin/script's work."""
import sys

import cekarum_text as text
from files import be_a_filter, fail, read_all, title, write_all

TOOL = "script"


def written(data):
    return b"".join(text.record_bytes(record) for record in text.script_records(data))


def read(data):
    return text.script_text(data).encode()


def main(way, name):
    be_a_filter()
    data = read_all(TOOL, name)
    try:
        result = {"write": written, "read": read}[way](data)
    except text.Fault as fault:
        fail(TOOL, f"{title(name)}: {fault}{hint(way, data)}")
    write_all(TOOL, result)


def hint(way, data):
    if way == "write" and data.startswith(text.MARK):
        return "; these look like records: bin/bench runs them, bin/script --read shows them"
    if way == "read" and not data.startswith(text.MARK) and data[:64].isascii():
        return "; this looks like text: bin/script without --read writes its records"
    return "; bin/rescue keeps the sound records" if way == "read" else ""


main(*sys.argv[1:])
