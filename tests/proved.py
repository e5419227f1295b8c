"""Tests of bin/ that take minutes: proved programs, and first builds of fresh sources with the toolchain itself."""
import os
import signal
import sys
import time
from pathlib import Path

import desk
from desk import DESK, TOP, case, check, copy_of_sources, environment, folder, run, run_cases, start, tool

desk.PATIENCE = 3600


def vector(name, part):
    return (TOP / "crates" / name / part).read_bytes()


def answered(ran):
    """Without what a build says of its progress."""
    ran.said = [line for line in ran.said if "proving" not in line and "proved" not in line and "waiting" not in line]
    return ran


@case("proved programs print what their vectors have")
def vectors():
    ran = answered(run(tool("bench"), TOP / "crates" / "bench" / "stdin"))
    ran.did(vector("bench", "stdout"))
    ran = run(tool("rescue"), TOP / "crates" / "rescue" / "stdin")
    check(ran.status == 0 and ran.out == vector("rescue", "stdout"), f"rescue: {ran}")
    ran = answered(run(tool("console"), TOP / "crates" / "console" / "stdin"))
    ran.failed(1, "lines are bad", out=vector("console", "stdout"))
    check(ran.marks == 0, "a proved run is not marked")


def processes_below(place):
    found = []
    for entry in Path("/proc").iterdir():
        try:
            if entry.name.isdigit() and str(place) in (entry / "cmdline").read_text(errors="replace"):
                found.append(entry.name)
        except OSError:
            continue
    return found


@case("a first build of fresh sources: interrupted, then two at once")
def first_build():
    top = copy_of_sources("fresh", "specs", "proofs")
    temporary = folder("fresh temporary")
    temporary.chmod(0o755)
    env = environment(TMPDIR=temporary)
    process = start(tool("rescue", top), env=env)
    while not any(b"rt: chose" in log.read_bytes() for log in temporary.glob("*/log")):
        time.sleep(0.1)
    time.sleep(2)
    began = time.monotonic()
    os.killpg(process.pid, signal.SIGINT)
    process.communicate(timeout=desk.PATIENCE)
    check(process.returncode == 130 and time.monotonic() - began < 5, f"status {process.returncode}, {time.monotonic() - began:.1f} s")
    check(not os.listdir(temporary), f"left in the temporary folder: {os.listdir(temporary)}")
    check(not processes_below(top), f"still running: {processes_below(top)}")
    both = [start(tool("rescue", top), TOP / "crates" / "rescue" / "stdin", env=env) for _ in range(2)]
    for process in both:
        out, err = process.communicate(timeout=desk.PATIENCE)
        check(process.returncode == 0 and out == vector("rescue", "stdout"), f"status {process.returncode}: {err!r}")
    check(not os.listdir(temporary), f"left in the temporary folder: {os.listdir(temporary)}")


@case("a proved archive says so, and a driver runs over it")
def proved_archive():
    place = DESK / "x86_64-linux"
    ran = answered(run(tool("archive"), "x86_64-linux", place))
    ran.did()
    check(b", proved\n" in ran.out and b"NOTHING" not in ran.out, f"the label: {ran}")
    driver = run(TOP / "perf" / "run", "driver", env=environment(ARCHIVE=place / "libcekarum.a", INCLUDE=place))
    check(driver.status == 0 and driver.out, f"the driver: {driver}")


if __name__ == "__main__":
    sys.exit(run_cases("tests/proved", sys.argv[1:]))
