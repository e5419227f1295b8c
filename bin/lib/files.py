"""Files and messages of the tools of bin/ that are written in Python. bin/lib/common.sh has looked at words and files before."""
import os
import signal
import sys

STANDARD = "-"


def be_a_filter():
    """A closed pipe and Ctrl-C end a tool without a word."""
    signal.signal(signal.SIGPIPE, signal.SIG_DFL)
    signal.signal(signal.SIGINT, signal.SIG_DFL)


def fail(tool, message, status=1):
    print(f"{tool}: {message}", file=sys.stderr)
    sys.exit(status)


def title(name):
    return "the standard input" if name == STANDARD else name


def read_all(tool, name):
    try:
        with open(0 if name == STANDARD else name, "rb") as source:
            return source.read()
    except OSError as fault:
        fail(tool, f"cannot read {title(name)}: {fault.strerror}", 2)


def write_all(tool, data):
    at = 0
    try:
        while at < len(data):
            at += os.write(1, data[at : at + 65536])
    except OSError as fault:
        fail(tool, f"cannot write to the standard output: {fault.strerror}")
