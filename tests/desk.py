"""What the tests of bin/ share: running a tool, judging what it said, copies of the sources, stand-ins for the toolchain."""
import atexit
import os
import re
import shutil
import signal
import stat
import subprocess
import sys
import tempfile
import time
from concurrent.futures import ThreadPoolExecutor
from pathlib import Path

TOP = Path(__file__).resolve().parent.parent
DESK = Path(tempfile.mkdtemp(prefix="cekarum-tests."))
NOBODY = 65534
PATIENCE = 600  # seconds that no tool takes here, however slow the machine
MARKED = re.compile(rb"^[a-z]+: (NOT PROVED|warning: the toolchain is)")

DESK.chmod(0o755)
atexit.register(shutil.rmtree, DESK, True)
if signal.getsignal(signal.SIGINT) == signal.SIG_IGN:  # as in a job of a shell's background, where tools would ignore it too
    signal.signal(signal.SIGINT, signal.default_int_handler)
if signal.getsignal(signal.SIGHUP) == signal.SIG_IGN:  # as under nohup
    signal.signal(signal.SIGHUP, signal.SIG_DFL)


# ---- cases
CASES = []


def case(title):
    def keep(function):
        CASES.append((title, function))
        return function

    return keep


def check(holds, message):
    if not holds:
        raise AssertionError(message)


def run_cases(name, wanted):
    """Runs the cases side by side, prints what failed and a last line, and gives the status."""
    began = time.monotonic()
    chosen = [(title, function) for title, function in CASES if not wanted or any(word in title for word in wanted)]
    with ThreadPoolExecutor(4) as pool:
        faults = [fault for fault in pool.map(fault_of, chosen) if fault]
    for fault in faults:
        print(f"{name}: {fault}")
    seconds = time.monotonic() - began
    print(f"{name}: {len(chosen)} cases, {len(faults)} of them with a fault, {seconds:.0f} s")
    return 1 if faults or not chosen else 0


def fault_of(one):
    title, function = one
    try:
        function()
    except (AssertionError, OSError, subprocess.SubprocessError) as fault:
        return f"FAULT in '{title}': {fault}"
    return None


# ---- running a tool
class Ran:
    """What a tool printed, and its status. `said` is its error output without the marks of an unproved run."""

    def __init__(self, words, status, out, err):
        self.words, self.status, self.out, self.err = words, status, out, err
        lines = err.splitlines()
        self.said = [line.decode(errors="replace") for line in lines if not MARKED.match(line)]
        self.marks = sum(b"NOT PROVED" in line for line in lines)

    def __str__(self):
        return f"{' '.join(map(str, self.words))}: status {self.status}, out {self.out[:200]!r}, err {self.err[:600]!r}"

    def did(self, out=None):
        """The work was done, and nothing was said beside it."""
        check(self.status == 0, f"status 0 is expected: {self}")
        check(not self.said, f"nothing is to be said: {self}")
        check(out is None or self.out == out, f"{out!r} is expected: {self}")

    def failed(self, status, *words, out=b""):
        """It failed with one line that has all the words."""
        check(self.status == status, f"status {status} is expected: {self}")
        check(len(self.said) == 1, f"one line on the error output is expected: {self}")
        for word in words:
            check(word in self.said[0], f"'{word}' is expected on the error output: {self}")
        check(out is None or self.out == out, f"{out!r} is expected on the standard output: {self}")


# The python3 that runs the tests comes first, as one that is found by a chain of scripts takes long to start.
PATH = [os.path.dirname(sys.executable), *os.environ["PATH"].split(os.pathsep)]


def environment(**more):
    found = {key: value for key, value in os.environ.items() if key != "SMALL"}
    return {**found, "PATH": os.pathsep.join(PATH), **{key: str(value) for key, value in more.items()}}


def start(*words, **more):
    """A tool in a session of its own."""
    usual = {"stdin": subprocess.PIPE, "stdout": subprocess.PIPE, "stderr": subprocess.PIPE, "env": environment()}
    return subprocess.Popen(list(map(str, words)), start_new_session=True, **{**usual, **more})


def run(*words, given=b"", **more):
    process = start(*words, **more)
    try:
        out, err = process.communicate(None if "stdin" in more else given, PATIENCE)
    except subprocess.TimeoutExpired:
        os.killpg(process.pid, signal.SIGKILL)
        raise
    return Ran(words, process.returncode, out or b"", err or b"")


def tool(name, top=TOP):
    return top / "bin" / name


def tools(top=TOP):
    return sorted(entry.name for entry in (top / "bin").iterdir() if entry.is_file())


def unproved(name, *words, top=TOP, **more):
    """A program without its proof, which it must say."""
    ran = run(tool(name, top), "--unproved", *words, **more)
    check(ran.marks == 2 or ran.status == 2, f"an unproved run says so twice: {ran}")
    return ran


def full():
    return open("/dev/full", "wb")


# ---- files
def folder(name):
    made = DESK / name
    made.mkdir()
    return made


def written(path, data):
    path.parent.mkdir(parents=True, exist_ok=True)
    path.write_bytes(data)
    return path


def executable(path, text):
    written(path, text.encode())
    path.chmod(path.stat().st_mode | stat.S_IXUSR | stat.S_IXGRP | stat.S_IXOTH)
    return path


def copy_of_sources(name, *also):
    """The sources as an archive has them: no .git, nothing built; of the crates the code and what is named besides."""
    made = DESK / name
    unwanted = {"specs", "proofs", "must-fail", "out"} - set(also)

    def skipped(where, names):
        inside = Path(where)
        return [one for one in names if inside == TOP and one in (".git", "target") or inside.parent.name == "crates" and one in unwanted]

    shutil.copytree(TOP, made, ignore=skipped, symlinks=True)
    return made


def replace(path, old, new):
    text = path.read_text()
    check(text.count(old) == 1, f"'{old}' stands once in {path}")
    path.write_text(text.replace(old, new))


# ---- stand-ins
def kit():
    return Path(shutil.which("rt")).resolve().parent.parent


def stand_in(name, script, identity=None):
    """A toolchain whose `rt` is a script; all else is the real one's. Gives the PATH on which it is found first."""
    made, real = folder(name), kit()
    for part in (*real.iterdir(), *real.glob("bin/*"), *real.glob("toolchain/*"), *real.glob("toolchain/bin/*")):
        place = made / part.relative_to(real)
        if place in (made / "bin", made / "toolchain", made / "toolchain" / "bin"):
            place.mkdir(exist_ok=True)
        elif place not in (made / "bin" / "rt", made / "KIT-ID"):
            place.symlink_to(part)
    written(made / "KIT-ID", identity or (real / "KIT-ID").read_bytes())
    executable(made / "bin" / "rt", "#!/bin/sh\n" + script)
    return os.pathsep.join([str(made / "bin"), *PATH])


def forbid_proofs():
    """From here on `rt` proves nothing, so that no tool that is broken can begin a proof of minutes."""
    PATH[:] = stand_in("forbidding kit", 'echo "rt: $*: no proof in these tests"\nexit 1\n').split(os.pathsep)


def path_without(name, *missing):
    """A PATH that has every command but some."""
    made = folder(name)
    for place in PATH:
        for entry in sorted(Path(place).iterdir()) if Path(place).is_dir() else []:
            if not any(re.fullmatch(one, entry.name) for one in missing) and not (made / entry.name).exists():
                (made / entry.name).symlink_to(entry)
    return str(made)


def as_nobody(**more):
    """Words for `run` that make a checkout of root's read-only: another user. Where the tests are not root's, nothing."""
    return {"user": NOBODY, "group": NOBODY, "extra_groups": [], **more} if os.geteuid() == 0 else more
