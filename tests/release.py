"""Cases over a release that is made here: see tests/release."""
import functools
import hashlib
import json
import os
import platform
import re
import shlex
import shutil
import subprocess
import sys
import tarfile
import threading

import desk
from desk import DESK, TOP, case, check, copy_of_sources, environment, folder, kit, replace, run, run_cases, stand_in, start, tool, written

VERSION = (TOP / "VERSION").read_text().strip()
NAME = f"cekarum-{VERSION}-unproved"
TOOLCHAIN = kit() / "toolchain"
CLANG = TOOLCHAIN / "bin" / "clang"
HOST = f"{platform.machine()}-linux"
HEADER = TOP / "include" / "cekarum.h"
skipped = []
desk.PATIENCE = 900  # seconds for one release on a busy machine


def having(*commands):
    """A case that is skipped where a command is missing."""

    def around(function):
        @functools.wraps(function)
        def maybe():
            missing = [command for command in commands if not shutil.which(command)]
            if missing:
                skipped.append(f"tests/release: SKIPPED, {', '.join(missing)} is missing: {function.__name__}")
            else:
                function()

        return maybe

    return around


def done(*words, **more):
    """What a command printed, which must succeed."""
    ran = run(*words, **more)
    check(ran.status == 0, f"status 0 is expected: {ran} .. {ran.err[-1500:]!r} {ran.out[-1500:]!r}")
    return ran.out.decode()


# ---- three releases
def repository(name):
    """The sources as they stand, as the one commit of a repository."""
    made = copy_of_sources(name)
    shutil.rmtree(made / "dist", True)
    who = ["-c", "user.name=one", "-c", "user.email=one@example.com"]
    when = environment(GIT_AUTHOR_DATE="1700000000 +0000", GIT_COMMITTER_DATE="1700000000 +0000")
    done("git", "-C", made, "init", "-q")
    done("git", "-C", made, "add", "-A")
    done("git", "-C", made, *who, "commit", "-q", "-m", "one", env=when)
    return made


def release(top, **more):
    ran = run(tool("release", top), "--unproved", **more)
    check(ran.status == 0 and b"NOT PROVED" in ran.err, f"a release, and loudly no proof: {ran} {ran.err[-1500:]!r}")
    return ran.out.decode(), top / "dist" / f"{NAME}.tar.gz"


def unpacked(tarball, name):
    place = folder(name)
    with tarfile.open(tarball) as packed:
        packed.extractall(place)
    check([entry.name for entry in place.iterdir()] == [NAME], "all stands in one folder")
    return place / NAME


def make_releases():
    global SAID, FIRST, SECOND, BARE, R, SPACED
    top = repository("sources")
    SAID, FIRST = release(top)
    other = DESK / "another place" / "with other habits"
    done("git", "clone", "-q", top, other)
    habits = environment(TZ="Asia/Tokyo", LC_ALL="C.UTF-8", GIT_DIR_="x", TMPDIR=str(folder("tmp")))
    _, SECOND = release(other, env=habits, preexec_fn=lambda: os.umask(0o077))
    source = folder("source archive")
    subprocess.run(f"git -C {shlex.quote(str(top))} archive HEAD | tar -x -C {shlex.quote(str(source))}", shell=True, check=True)
    _, BARE = release(source)
    R = unpacked(FIRST, "unpacked")
    SPACED = unpacked(FIRST, "unpacked in a folder")


def targets():
    return sorted(path.parent.name for path in R.glob("lib/*/libcekarum.a"))


def listed_flags():
    return dict(line.split(None, 1) for line in done(tool("archive"), "--list").splitlines())


# ---- the tarball
@case("the same commit gives the same bytes, in another folder, time zone and umask")
def same_bytes():
    check(FIRST.read_bytes() == SECOND.read_bytes(), f"{FIRST} and {SECOND} are the same")
    check(FIRST.read_bytes() != BARE.read_bytes(), "without a repository the labels say so")
    with tarfile.open(FIRST) as packed:
        entries = packed.getmembers()
    check(entries and all(entry.mtime == 1700000000 and entry.uid == entry.gid == 0 for entry in entries), "time and owner are fixed")
    check([entry.name for entry in entries] == sorted(entry.name for entry in entries), "names are sorted")
    check({entry.mode for entry in entries} <= {0o644, 0o755}, "modes are fixed")


@case("sources without a repository: the version stands where the commit stood")
def without_repository():
    bare = unpacked(BARE, "bare")
    for archive in bare.glob("lib/*/libcekarum.a"):
        check(f"cekarum {VERSION} (no git) for {archive.parent.name}, ".encode() in archive.read_bytes(), f"the label in {archive}")
    check((bare / "PROOF.txt").read_text().startswith(f"Cekarum {VERSION} (no git), "), "PROOF.txt")


@case("the release has what its page names, and every target of bin/archive")
def contents():
    check(targets() == sorted(listed_flags()), f"archives for {targets()}")
    check(sorted(path.parent.name for path in R.glob("lib/*/libcekarum.so")) == ["aarch64-linux", "x86_64-linux"], "shared libraries")
    rows = re.findall(r"^\| (`[^|]*) \|", (R / "README.md").read_text(), re.MULTILINE)
    named = [path for row in rows for path in re.findall(r"`([^`]+)`", row)]
    check(len(named) > 10, f"the page's table: {named}")
    for path in named:
        check((R / path.replace("TARGET", HOST)).exists(), f"README.md names {path}")
    check((R / "include/cekarum.h").read_bytes() == HEADER.read_bytes(), "the header is the sources'")


@case("the sums are those of all files, and a changed file is found")
def sums():
    copy = shutil.copytree(R, DESK / "changed")
    names = {line.split("  ", 1)[1] for line in (copy / "SHA256SUMS").read_text().splitlines()}
    there = {f"./{path.relative_to(copy)}" for path in copy.rglob("*") if path.is_file()}
    check(names == there - {"./SHA256SUMS"}, f"{names ^ there}")
    done("sha256sum", "--quiet", "-c", "SHA256SUMS", cwd=copy)
    with open(copy / "lib/cortex-m4/libcekarum.a", "r+b") as archive:
        archive.seek(1000)
        archive.write(b"?")
    check(run("sha256sum", "--quiet", "-c", "SHA256SUMS", cwd=copy).status != 0, "a changed archive is found")


@case("the bill of materials: every file with its sums, the package's code, no licence asserted")
def materials():
    bill = json.loads((R / "cekarum.spdx.json").read_text())
    check(bill["spdxVersion"] == "SPDX-2.3" and bill["SPDXID"] == "SPDXRef-DOCUMENT", "SPDX 2.3")
    check(bill["creationInfo"]["created"] == "2023-11-14T22:13:20Z", f"the commit's time: {bill['creationInfo']}")
    files = {entry["fileName"]: {one["algorithm"]: one["checksumValue"] for one in entry["checksums"]} for entry in bill["files"]}
    there = {f"./{path.relative_to(R)}": path.read_bytes() for path in R.rglob("*") if path.is_file()}
    left_out = {"./SHA256SUMS", "./cekarum.spdx.json"}
    check(set(files) == set(there) - left_out, f"{set(files) ^ set(there)}")
    for name, sum_of in files.items():
        check(sum_of == {"SHA1": hashlib.sha1(there[name]).hexdigest(), "SHA256": hashlib.sha256(there[name]).hexdigest()}, name)
    code = hashlib.sha1("".join(sorted(one["SHA1"] for one in files.values())).encode()).hexdigest()
    package = bill["packages"][0]
    check(package["packageVerificationCode"]["packageVerificationCodeValue"] == code, "the verification code")
    check(package["versionInfo"] == VERSION and {one["licenseDeclared"] for one in bill["packages"]} == {"NOASSERTION"}, "packages")
    ids = {"SPDXRef-DOCUMENT"} | {one["SPDXID"] for one in bill["packages"] + bill["files"]}
    ends = {one[end] for one in bill["relationships"] for end in ("spdxElementId", "relatedSpdxElement")}
    check(ends == ids, f"relations join all there is: {ends ^ ids}")


# ---- the proof
def listed_crates():
    return re.findall(r"^([a-z0-9_]+)[^:#\n]*:", (TOP / "crates.txt").read_text(), re.MULTILINE)


def gate_log(name, last="421 passed, 0 failed", without=None, logic=None, axioms=""):
    """What a gate prints, as far as PROOF.txt goes by it: three functions for each crate, and one more in the tests of some."""
    logic = logic or (kit() / "KIT-ID").read_text().split()[-1]
    lines = ["tests/bin: 48 cases, 0 of them with a fault, 34 s"]
    for crate in listed_crates():
        if crate != without:
            own = " axioms=2" if crate in ("bench", axioms) else ""
            lines += [f"fn {crate}::one: proved", "axioms libc: libc::read, libc::write (2 of the 50 declared)"] if own else []
            lines += [f"logic=proved functions=3{own} sum={logic} native=nat logic-built=trusted", f"rt: {crate} proved"]
            lines += [f"logic=proved functions=4 tests=1 sum={logic} native=nat", f"rt: {crate}: its tests are proved"] if crate == "plan" else []
        else:
            lines += [f"rt: {crate} is kept: an earlier run on this machine proved the same files over the same libraries"]
    return written(DESK / name, "\n".join([*lines, "rt: ok; handles allowed: none; must-fail edits: 364 refused", last, ""]).encode())


@case("PROOF.txt: figures from a whole gate's log, and no other log is taken")
def proof():
    crates = len(listed_crates())
    said = done(tool("release"), "--proof", gate_log("whole.log"))
    for row in (f"crates     {crates}", f"functions  {3 * crates}", "gate       421 passed, 0 failed", "axioms     libc::read, libc::write, of bench"):
        check(f"\n{row}\n" in said, f"'{row}' in {said}")
    check(re.search(r"^\* capi +3 +0$", said, re.MULTILINE) and re.search(r"^  bench +3 +2$", said, re.MULTILINE), said)
    check("NOT PROVED" not in said, "it is proved")
    for log, *words in (
        (gate_log("failed.log", last="420 passed, 1 failed"), "1 failed"),
        (gate_log("cut.log", last=""), "no whole gate"),
        (gate_log("less.log", without="plan"), "proved from nothing: plan"),
        (gate_log("other.log", logic="0123456789abcdef"), "another logic"),
        (gate_log("axiom.log", axioms="plan"), "axioms", "plan"),
    ):
        run(tool("release"), "--proof", log).failed(1, *words)
    run(tool("release"), "--proof", DESK / "no.log").failed(2, "no.log")
    run(tool("release")).failed(2, "log")


@case("an unproved release says so in PROOF.txt and in every archive")
def unproved():
    check("\nNOT PROVED\n" in (R / "PROOF.txt").read_text(), "PROOF.txt")
    for library in [*R.glob("lib/*/libcekarum.*")]:
        check(b", NOTHING IS PROVED\0" in library.read_bytes(), f"{library}")


# A toolchain that proves nothing and says that the library is proved: a module of one function goes to its compiler.
STAND_IN = """
[ "$1 ${PWD##*/}" = 'lib capi_c' ] || exit 2
cat >"$TMPDIR/one.ll" <<'END'
define noundef i64 @cekarum_interface_@NUMBER@_start(ptr noundef %a0, i64 noundef %a1) #0 {
start:
  %r0 = alloca [24 x i8], align 8
  call void @llvm.memmove.p0.p0.i64(ptr %r0, ptr %a0, i64 24, i1 false)
  ret i64 %a1
}
declare void @llvm.memmove.p0.p0.i64(ptr, ptr, i64, i1)
attributes #0 = { nounwind }
!llvm.ident = !{!0}
!0 = !{!"@MARK@"}
END
@CLANG@ -Wno-override-module -c -emit-llvm -x ir "$TMPDIR/one.ll" -o "$TMPDIR/one.bc" &&
    "$(dirname "$(dirname "$0")")/toolchain/bin/clang" -c "$TMPDIR/one.bc" -o "$TMPDIR/one.o"
"""


def standing_in(name, mark):
    number = re.search(r"#define CEKARUM_INTERFACE ([0-9]+)", HEADER.read_text()).group(1)
    script = STAND_IN.replace("@CLANG@", str(CLANG)).replace("@MARK@", mark).replace("@NUMBER@", number)
    return environment(PATH=stand_in(name, script))


@case("a release with its proof: of what is committed, with archives that are proved, and the gate's figures")
def proved_release():
    copy = DESK / "committed"
    done("git", "clone", "-q", DESK / "sources", copy)
    log = gate_log("proved.log")
    said = done(tool("release", copy), log, env=standing_in("proving", "rattle logic=0123"))
    check(", NOTHING IS PROVED" not in said and said.count(", proved\n") == len(targets()), said)
    with tarfile.open(copy / "dist" / f"cekarum-{VERSION}.tar.gz") as packed:
        proof = packed.extractfile(f"cekarum-{VERSION}/PROOF.txt").read().decode()
    check("\ngate       421 passed, 0 failed\n" in proof and "NOT PROVED" not in proof, proof)
    ran = run(tool("release", copy), log, DESK / "elsewhere", env=standing_in("pretending", "rattle unproved"))
    check(ran.status == 1 and "an archive is not proved" in ran.said[-1], f"{ran} {ran.said}")
    check(list((DESK / "elsewhere").iterdir()) == [], "nothing is written")
    written(copy / "crates" / "stray", b"")
    run(tool("release", copy), log).failed(2, "not committed")


# ---- versions and the interface
@case("a version that is not VERSION's is refused: the header's by bin/archive, the bindings' by bin/release")
def versions():
    top = copy_of_sources("versions")
    number = "#define CEKARUM_VERSION_PATCH "
    patch = VERSION.split(".")[2]
    for file, old, new, words in (
        ("include/cekarum.h", f'CEKARUM_VERSION "{VERSION}"', 'CEKARUM_VERSION "9.9.9"', ("archive", "--unproved", "wasm32")),
        ("include/cekarum.h", f"{number}{patch}\n", f"{number}99\n", ("archive", "--unproved", "wasm32")),
        ("bindings/rust/Cargo.toml", f'version = "{VERSION}"', 'version = "9.9.9"', ("release", "--unproved")),
        ("bindings/python/cekarum.py", f'VERSION = "{VERSION}"', 'VERSION = "9.9.9"', ("release", "--unproved")),
    ):
        replace(top / file, old, new)
        run(tool(words[0], top), *words[1:]).failed(1, f"VERSION is {VERSION}", "99" if "PATCH" in old else "9.9.9")
        replace(top / file, new, old)


def exports(text):
    return set(re.findall(r"\bcekarum_interface_[0-9]+_[a-z_]+(?=\()", text))


@case("the bindings know every function that the header declares, and no other")
def bindings_know():
    declared = exports(HEADER.read_text())
    check(len(declared) >= 24, f"{declared}")
    check(exports((TOP / "bindings/rust/src/raw.rs").read_text()) == declared, "raw.rs")
    python = (TOP / "bindings/python/cekarum.py").read_text()
    number = re.search(r"^INTERFACE = ([0-9]+)", python, re.MULTILINE).group(1)
    table = python.split("_TAKES = {")[1].split("\n}\n")[0]
    check({f"cekarum_interface_{number}_{name}" for name in re.findall(r'^    "([a-z_]+)":', table, re.MULTILINE)} == declared, "cekarum.py")
    check(f"pub const INTERFACE: u32 = {number};" in (TOP / "bindings/rust/src/raw.rs").read_text(), "the Rust crate's number")


@case("the bindings have the header's refusals and sizes")
def bindings_agree():
    header = HEADER.read_text()
    refusals = {number: name for name, number in re.findall(r"CEKARUM_([A-Z_]+) = ([0-9]+)", header.split("enum {")[1].split("};")[0])[::-1]}
    check(len(refusals) == 19, f"the first of two names counts: {refusals}")
    rust = (TOP / "bindings/rust/src/refusal.rs").read_text()
    own = {"0": "OK", **{number: name for name, number in re.findall(r"^    ([A-Z_]+) = ([0-9]+), ", rust, re.MULTILINE)}}
    check(own == refusals, f"Rust: {own}")
    python = (TOP / "bindings/python/cekarum.py").read_text()
    listed = python.split("class Refusal(enum.IntEnum):")[1].split("\n\n\n")[0]
    own = {number: name for name, number in re.findall(r"^    ([A-Z_]+) = ([0-9]+)$", listed, re.MULTILINE)}
    check(own == refusals, f"Python: {own}")
    sizes = dict(re.findall(r"^#define CEKARUM_([A-Z_]*(?:WORDS|MAX)) ([0-9]+)\b", header, re.MULTILINE))
    check({"WORDS", "FRAME_MAX", "RESPONSE_MAX", "REQUEST_MAX", "ROWS_MAX", "MEASUREMENT_MAX"} <= set(sizes), f"{sizes}")
    for file, form in (("rust/src/lib.rs", r"^pub const ([A-Z_]+): usize = ([0-9]+);"), ("python/cekarum.py", r"^([A-Z_]+) = ([0-9]+)$")):
        own = dict(re.findall(form, (TOP / "bindings" / file).read_text(), re.MULTILINE))
        shared = set(own) & set(sizes)
        check(len(shared) >= 6 and all(own[name] == sizes[name] for name in shared), f"{file}: {own}; the header: {sizes}")


PROGRAM = """
#include "cekarum.h"
#if CEKARUM_VERSION_NUMBER != @NUMBER@
#error "the version"
#endif
static uint64_t device[CEKARUM_WORDS];
int run(void);
int run(void) { return (int)cekarum_join(device, 1, 1, 0) + cekarum_made_by[0]; }
"""


def missing_symbols(target, objects, name):
    """What a linker does not find for a program of these objects and the target's archive."""
    linker = [TOOLCHAIN / "bin" / "ld.lld", "-e", "run"]
    if target == "wasm32":
        link = DESK / "wasm-ld"
        if not link.exists():
            link.symlink_to(CLANG)
        linker = [link, "--no-entry", "--export=run"]
    ran = run(*linker, "--error-limit=0", *objects, R / "lib" / target / "libcekarum.a", "-o", DESK / f"{name}.out")
    said = ran.err.decode()
    check("warning" not in said, f"{target}: {said}")
    missing = set(re.findall(r"undefined symbol: (\S+)", said))
    check(bool(missing) == (ran.status != 0), f"{target}: {said}")
    return missing


def needs():
    """What bin/archive said that each archive needs."""
    found = dict(re.findall(r"^(\S+)/libcekarum\.a needs: (.*)$", SAID, re.MULTILINE))
    return {target: set() if words == "nothing" else set(words.split()) for target, words in found.items()}


@case("a header of another interface does not link, on any target, and the linker names the interface")
def interfaces():
    own = re.search(r"#define CEKARUM_INTERFACE ([0-9]+)", HEADER.read_text()).group(1)
    place = folder("interfaces")
    text = HEADER.read_text()
    written(place / "other" / "cekarum.h", text.replace(f"cekarum_interface_{own}_", "cekarum_interface_99_").encode())
    written(place / "same" / "cekarum.h", text.encode())
    major, minor, patch = map(int, VERSION.split("."))
    written(place / "program.c", PROGRAM.replace("@NUMBER@", str(1000000 * major + 1000 * minor + patch)).encode())
    for target, flags in listed_flags().items():
        for kind in ("same", "other"):
            code = place / f"{target}.{kind}.o"
            words = [*flags.split(), "-nostdinc", "-isystem", TOP / "perf" / "headers", "-I", place / kind]
            done(CLANG, *words, "-ffunction-sections", "-c", place / "program.c", "-o", code)
        same = missing_symbols(target, [place / f"{target}.same.o"], f"{target} same")
        other = missing_symbols(target, [place / f"{target}.other.o"], f"{target} other")
        check(same <= needs()[target], f"{target}: {same} is more than {needs()[target]}")
        check(other == {"cekarum_interface_99_join"}, f"{target}: {other}")


# ---- what archives need
def boards():
    """The last column of docs/BOARDS.md's table, by target."""
    table = (TOP / "docs" / "BOARDS.md").read_text().split("## What each needs")[1].split("\n## ")[0]
    rows = re.findall(r"^\|(.*)\|(.*)\|$", table, re.MULTILINE)
    return {target: set(re.findall(r"`(\S+)`", needed)) for first, needed in rows for target in re.findall(r"`([a-z0-9_-]+)`", first)}


@case("docs/BOARDS.md says what each archive needs besides, and so does nm")
def needed():
    check(set(needs()) == set(targets()), f"bin/archive says it of each: {needs()}")
    check(boards() == needs(), f"docs/BOARDS.md: {boards()}; bin/archive: {needs()}")
    if not shutil.which("nm"):
        return
    for target in targets():
        if target != "wasm32":
            names, own = (
                {line for line in done("nm", which, "--format=just-symbols", R / "lib" / target / "libcekarum.a").splitlines() if line and not line.endswith(":")}
                for which in ("--undefined-only", "--defined-only")
            )
            names -= own  # what one of its objects needs, another may have
            check(names == needs()[target], f"{target}: nm lists {names}")


CORTEX = {
    "cortex-m0plus": [""],
    "cortex-m3": [""],
    "cortex-m4": ["-mfloat-abi=soft", "-mfloat-abi=softfp -mfpu=fpv4-sp-d16"],
    "cortex-m4f": ["-mfloat-abi=hard -mfpu=fpv4-sp-d16"],
    "cortex-m7": ["-mfloat-abi=soft", "-mfloat-abi=softfp -mfpu=fpv5-d16"],
    "cortex-m7f": ["-mfloat-abi=hard -mfpu=fpv5-sp-d16", "-mfloat-abi=hard -mfpu=fpv5-d16"],
    "cortex-m33": ["-mfloat-abi=soft"],
    "cortex-m33f": ["-mfloat-abi=hard -mfpu=fpv5-sp-d16"],
}
BARE_PROGRAM = """
#include "cekarum.h"
#include <stddef.h>
enum small { ONE, TWO };
enum small which;
wchar_t wide;
static uint64_t device[CEKARUM_WORDS];
void *memset(void *to, int byte, size_t count) { for (char *at = to; count-- > 0;) *at++ = (char)byte; return to; }
void *memmove(void *to, const void *from, size_t count) { char *t = to; const char *f = from;
    if (t < f) while (count-- > 0) *t++ = *f++; else while (count-- > 0) t[count] = f[count]; return to; }
void *memcpy(void *to, const void *from, size_t count) { return memmove(to, from, count); }
void __aeabi_memmove(void *to, const void *from, size_t count) { memmove(to, from, count); }
void __aeabi_memcpy(void *to, const void *from, size_t count) { memmove(to, from, count); }
void __aeabi_memset(void *to, size_t count, int byte) { memset(to, byte, count); }
void __aeabi_memset8(void *to, size_t count, int byte) { memset(to, byte, count); }
void __aeabi_memclr(void *to, size_t count) { memset(to, 0, count); }
void __aeabi_memclr4(void *to, size_t count) { memset(to, 0, count); }
void __aeabi_memclr8(void *to, size_t count) { memset(to, 0, count); }
void _start(void) { which = TWO; wide = (wchar_t)cekarum_join(device, 1, 1, 0) + cekarum_made_by[0]; }
"""


@case("GNU's linker says nothing about any Cortex-M archive, with enums and wide characters of every width")
@having("arm-none-eabi-gcc")
def no_warning():
    place = folder("cortex")
    written(place / "bare.c", BARE_PROGRAM.encode())
    check(set(CORTEX) == {target for target in targets() if target.startswith("cortex-")}, f"{targets()}")
    for target, ways in CORTEX.items():
        for way in ways:
            link_bare(place, target, way).did(b"")
            for widths in ("-fno-short-enums", "-fshort-wchar"):
                ran = link_bare(place, target, way, widths)
                check(ran.status == 0 and b"libcekarum" not in ran.err, f"nothing is said of the archive: {ran}")
    talks = written(place / "talks.c", b"enum one { ONE }; enum one talks(void); enum one talks(void) { return ONE; }\n")
    done(CLANG, *listed_flags()["cortex-m4"].split(), "-c", talks, "-o", place / "talks.o")
    loud = link_bare(place, "cortex-m4", "-mfloat-abi=soft", place / "talks.o")
    check(b"talks.o uses 32-bit enums" in loud.err, f"an object that says how wide its enums are is told apart: {loud}")
    hard = link_bare(place, "cortex-m4", "-mfloat-abi=hard -mfpu=fpv4-sp-d16")
    check(b"VFP register arguments" in hard.err and hard.status != 0, f"floats in registers want an archive of their own: {hard}")


def link_bare(place, target, way, *more):
    words = [f"-mcpu={target.rstrip('f')}", "-mthumb", *way.split(), "-Os", "-ffreestanding", "-fno-builtin", "-nostdlib"]
    whole = ["-Wl,--whole-archive", R / "lib" / target / "libcekarum.a", "-Wl,--no-whole-archive"]
    # the compiler's own library says nothing of the stack, of which the linker would warn
    last = ["-lgcc", "-Wl,-z,noexecstack", "-o", place / "bare"]
    return run("arm-none-eabi-gcc", *words, "-I", R / "include", place / "bare.c", *more, *whole, *last)


LINKERS = {"aarch64-linux": "aarch64-linux-gnu-ld", "riscv64-linux": "riscv64-linux-gnu-ld", "riscv32imac": "riscv64-unknown-elf-ld"}
NEEDED = """
typedef __SIZE_TYPE__ size;
void *memset(void *to, int byte, size count) { for (char *at = to; count-- > 0;) *at++ = (char)byte; return to; }
void *memmove(void *to, const void *from, size count) { char *t = to; const char *f = from; while (count-- > 0) *t++ = *f++; return to; }
void *memcpy(void *to, const void *from, size count) { return memmove(to, from, count); }
unsigned long long __udivdi3(unsigned long long a, unsigned long long b) { return b == 1 ? a : 0; }
void _start(void) {}
"""


@case("GNU's linkers say nothing about the archives for AArch64 and RISC-V")
def no_other_warning():
    place = folder("linkers")
    written(place / "needed.c", NEEDED.encode())
    for target, linker in LINKERS.items():
        if not shutil.which(linker):
            skipped.append(f"tests/release: SKIPPED, {linker} is missing: the archive for {target}")
            continue
        code = place / f"{target}.o"
        done(CLANG, *listed_flags()[target].split(), "-fno-builtin", "-nostdinc", "-c", place / "needed.c", "-o", code)
        emulation = ["-m", "elf32lriscv"] if target == "riscv32imac" else []
        run(linker, *emulation, code, "--whole-archive", R / "lib" / target / "libcekarum.a", "-o", place / "out").did(b"")


# ---- projects
FACTS = [  # worked by hand from document 01's rules and the driver's calls
    "join zone 9: accepted 0",
    "frame: refused with 14",
    "phase B: 10000 mA",
    "clock one second back: refused with 5",
    "display: state 2, consumption limit 6900000 mW",
    "140 2 11040000 -1 7400000 2000000 16000 -1 10000 -1 13000 -1",
    "3710 1 -1 -1 -1 2000000 16000 -1 10000 -1 13000 -1",
    "second 3710: as planned",
]


def is_driver(said, who):
    lines = said.splitlines()
    missing = [fact for fact in FACTS if fact not in lines]
    check(not missing and "not as planned" not in said, f"{who}: {missing} is missing in {said[-800:]}")
    return said


@functools.lru_cache(None)
def driver_says():
    """What the driver prints, built with one command line."""
    program = DESK / "driver"
    words = ["-I", R / "include", R / "examples" / "driver.c", R / "lib" / HOST / "libcekarum.a", "-Wl,--fatal-warnings"]
    run("cc", *words, "-o", program).did(b"")
    return is_driver(done(program), "cc")


@case("the two commands of the release's page, with CMake, in a folder with spaces")
@having("cmake", "cc")
def two_commands():
    commands = re.findall(r"^    (cmake .*)$", (SPACED / "README.md").read_text(), re.MULTILINE)
    check(len(commands) == 2, f"{commands}")
    done(*shlex.split(commands[0]), cwd=SPACED)
    said = done(*shlex.split(commands[1]), cwd=SPACED)
    check(driver_says() in said, f"the driver's lines are in {said[-800:]}")


PROJECT = """cmake_minimum_required(VERSION 3.19)
project(one C CXX)
find_package(cekarum {version} CONFIG REQUIRED)
add_executable(from_c driver.c)
target_link_libraries(from_c PRIVATE cekarum::cekarum)
add_executable(from_shared driver.c)
target_link_libraries(from_shared PRIVATE cekarum::shared)
add_executable(from_cxx made_by.cpp)
target_link_libraries(from_cxx PRIVATE cekarum::cekarum)
"""
CXX = """#include <cekarum.h>
#include <cstdio>
int main() { std::puts(cekarum_made_by); return CEKARUM_VERSION_MAJOR > 9; }
"""


def project(name, version):
    place = folder(name)
    written(place / "CMakeLists.txt", PROJECT.format(version=version).encode())
    written(place / "made_by.cpp", CXX.encode())
    shutil.copy(R / "examples" / "driver.c", place)
    return place


def configured(place, *words):
    return run("cmake", "-S", place, "-B", place / "build", f"-DCMAKE_PREFIX_PATH={SPACED}", *words)


@case("a project elsewhere with find_package, in C and C++, with the archive and the shared library")
@having("cmake", "cc", "c++")
def cmake_project():
    place = project("project", ".".join(VERSION.split(".")[:2]))
    check(configured(place).status == 0, "it is configured")
    done("cmake", "--build", place / "build")
    for name in ("from_c", "from_shared"):
        check(done(place / "build" / name) == driver_says(), f"{name} prints what the driver prints")
    check("libcekarum.so" in done("ldd", place / "build" / "from_shared"), "from_shared is linked with the shared library")
    check(done(place / "build" / "from_cxx").startswith(f"cekarum {VERSION} ("), "from_cxx")


@case("find_package: versions and targets that are none are refused, with a line that helps")
@having("cmake", "cc", "c++")
def cmake_refuses():
    major, minor, _ = map(int, VERSION.split("."))
    for number, version in enumerate((f"{major + 1}", f"{major}.{minor + 1}", f"{major}.{minor}.999", f"{major}.{minor - 1}")):
        ran = configured(project(f"version {number}", version))
        check(ran.status != 0 and VERSION.encode() in ran.err, f"version {version} is not this one's: {ran}")
    ran = configured(project("no target", VERSION), "-DCEKARUM_TARGET=cortex-m5")
    check(ran.status != 0 and b"cortex-m5" in ran.err and b"cortex-m33f" in ran.err, f"the targets are listed: {ran}")
    place = project("unknown", VERSION)
    ran = configured(place, "-DCMAKE_C_FLAGS=-m32", "-DCMAKE_TRY_COMPILE_TARGET_TYPE=STATIC_LIBRARY", "-DCMAKE_C_COMPILER_WORKS=1")
    check(ran.status != 0 and b"CEKARUM_TARGET" in ran.err, f"a processor that has no archive: {ran}")


PICK = """cmake_minimum_required(VERSION 3.19)
project(picks NONE)
set(CMAKE_C_COMPILER "@CLANG@")
function(pick name)
  set(CMAKE_C_FLAGS "${ARGN}")
  string(REPLACE ";" " " CMAKE_C_FLAGS "${CMAKE_C_FLAGS}")
  include("@CONFIG@")
  message(STATUS "PICK ${name} ${_cekarum_target}")
endfunction()
"""


@case("find_package picks the archive by the compiler's flags, for every target, and none for others")
@having("cmake")
def picks():
    flags = {name: re.sub(r"-mllvm \S+|-O\S+|-fPIC", "", words) for name, words in listed_flags().items()}
    others = {
        "big-endian": "--target=armeb-none-eabi -mcpu=cortex-r5",
        "x86": "--target=i386-unknown-linux-gnu",
        "cortex-a": "--target=arm-linux-gnueabihf -mcpu=cortex-a53",
        "riscv32-float": "--target=riscv32-unknown-elf -march=rv32imafc -mabi=ilp32f",
        "aarch64-bare": "--target=aarch64-none-elf",
        "aarch64-big": "--target=aarch64_be-unknown-linux-gnu",
    }
    alike = {
        "cortex-m0": ("--target=thumbv6m-none-eabi -mcpu=cortex-m0", "cortex-m0plus"),
        "cortex-m23": ("--target=thumbv8m.base-none-eabi -mcpu=cortex-m23", "cortex-m0plus"),
        "cortex-m55": ("--target=thumbv8.1m.main-none-eabihf -mcpu=cortex-m55 -mfloat-abi=hard", "cortex-m33f"),
        "softfp": ("--target=thumbv7em-none-eabi -mcpu=cortex-m4 -mfpu=fpv4-sp-d16 -mfloat-abi=softfp", "cortex-m4"),
    }
    wanted = {**{name: name for name in flags}, **{name: "" for name in others}, **{name: pick for name, (_, pick) in alike.items()}}
    every = {**flags, **others, **{name: words for name, (words, _) in alike.items()}}
    place = folder("picks")
    text = PICK.replace("@CLANG@", str(CLANG)).replace("@CONFIG@", str(R / "lib/cmake/cekarum/cekarumConfig.cmake"))
    for number, (name, words) in enumerate(every.items()):
        # imported targets belong to a folder: one each
        written(place / str(number) / "CMakeLists.txt", f"pick({name} {words})\n".encode())
        text += f"add_subdirectory({number})\n"
    written(place / "CMakeLists.txt", text.encode())
    said = done("cmake", "-S", place, "-B", place / "build")
    got = {name: pick for name, pick in re.findall(r"PICK (\S+) ?(\S*)", said)}
    check(got == wanted, f"{ {name: (got.get(name), want) for name, want in wanted.items() if got.get(name) != want} }")


@case("a firmware for a Cortex-M4 with floats in registers, by a toolchain file")
@having("cmake", "arm-none-eabi-gcc")
def cmake_cortex():
    place = folder("firmware")
    written(place / "bare.c", BARE_PROGRAM.encode())
    flags = "-mcpu=cortex-m4 -mthumb -mfloat-abi=hard -mfpu=fpv4-sp-d16"
    written(place / "arm.cmake", f"""set(CMAKE_SYSTEM_NAME Generic)
set(CMAKE_SYSTEM_PROCESSOR arm)
set(CMAKE_C_COMPILER arm-none-eabi-gcc)
set(CMAKE_C_FLAGS_INIT "{flags}")
set(CMAKE_TRY_COMPILE_TARGET_TYPE STATIC_LIBRARY)
set(CMAKE_FIND_ROOT_PATH_MODE_PACKAGE BOTH)
""".encode())
    written(place / "CMakeLists.txt", b"""cmake_minimum_required(VERSION 3.19)
project(firmware C)
find_package(cekarum CONFIG REQUIRED)
add_executable(firmware bare.c)
target_compile_options(firmware PRIVATE -Os -ffreestanding -fno-builtin)
target_link_libraries(firmware PRIVATE cekarum::cekarum gcc)
target_link_options(firmware PRIVATE -nostdlib -Wl,--fatal-warnings -Wl,-z,noexecstack)
""")
    check(configured(place, f"-DCMAKE_TOOLCHAIN_FILE={place / 'arm.cmake'}").status == 0, "it is configured")
    done("cmake", "--build", place / "build")
    program = (place / "build" / "firmware").read_bytes()
    check(program[:4] == b"\x7fELF" and b"for cortex-m4f, " in program, "the archive for floats in registers is linked")


@case("a project with pkg-config")
@having("pkg-config", "cc")
def pkg_config():
    paths = environment(PKG_CONFIG_PATH=R / "lib" / HOST / "pkgconfig")
    check(done("pkg-config", "--modversion", "cekarum", env=paths).strip() == VERSION, "the version")
    words = shlex.split(done("pkg-config", "--cflags", "--libs", "cekarum", env=paths))
    done("cc", R / "examples" / "driver.c", *words, "-o", DESK / "by_pkg_config")
    check(done(DESK / "by_pkg_config") == driver_says(), "it prints what the driver prints")
    for target in targets():
        own = environment(PKG_CONFIG_PATH=R / "lib" / target / "pkgconfig")
        check(f"/lib/{target}/libcekarum.a" in done("pkg-config", "--libs", "cekarum", env=own), f"{target}")


@case("a project with make")
@having("make", "cc")
def plain_make():
    copy = shutil.copytree(SPACED, DESK / "for make")
    said = done("make", "-s", "-C", copy / "examples", "run")
    check(driver_says() in said, f"the driver's lines are in {said[-800:]}")
    done("make", "-s", "-C", copy / "examples", "meter")
    meter = done(copy / "examples" / "meter")
    check("refused" in meter or "active power" in meter, meter)
    check(run("make", "-s", "-C", copy / "examples", "-B", "driver", "TARGET=no-board").status != 0, "a target that is none")


@case("a bare Cortex-M4 from the release, as its page says, under qemu")
@having("arm-none-eabi-gcc", "qemu-system-arm")
def bare_board():
    board = DESK / "board"
    words = ["-mcpu=cortex-m4", "-mthumb", "-Os", "-specs=picolibc.specs", "-nostartfiles", "-T", R / "examples/board_m4.ld", "-I", R / "include"]
    ran = run("arm-none-eabi-gcc", *words, R / "examples/board_m4.c", R / "lib/cortex-m4/libcekarum.a", "-Wl,--gc-sections", "-o", board)
    check(ran.status == 0 and b"libcekarum" not in ran.err, f"it links, and nothing is said of the archive: {ran}")
    machine = ["-M", "mps2-an386", "-display", "none", "-monitor", "none", "-serial", "stdio", "-kernel", board]
    expected = (R / "examples/board_m4.txt").read_bytes()
    check(printed(len(expected), "qemu-system-arm", *machine) == expected, "it prints examples/board_m4.txt")


def printed(count, *words):
    """The first so many bytes that a program prints which never ends by itself."""
    with start(*words, stdin=subprocess.DEVNULL, stderr=subprocess.DEVNULL) as process:
        timer = threading.Timer(120, process.kill)
        timer.start()
        out = process.stdout.read(count)
        timer.cancel()
        process.kill()
    return out


# ---- bindings
@case("Rust: the crate's tests, and its driver prints what the driver in C prints")
@having("cargo", "cc")
def rust():
    crate = shutil.copytree(SPACED, DESK / "for cargo") / "bindings" / "rust"
    own = environment(CARGO_TARGET_DIR=DESK / "cargo")
    said = done("cargo", "test", "--offline", cwd=crate, env=own)
    check(re.search(r"test result: ok\. [1-9][0-9] passed; 0 failed", said), said[-1500:])
    check(done("cargo", "run", "-q", "--offline", "--example", "driver", cwd=crate, env=own) == driver_says(), "the driver in Rust")
    raw = crate / "src" / "raw.rs"
    raw.write_text(re.sub(r"cekarum_interface_[0-9]+_", "cekarum_interface_99_", raw.read_text()))
    for part in (crate / "src").glob("*.rs"):
        part.write_text(re.sub(r"raw::cekarum_interface_[0-9]+_", "raw::cekarum_interface_99_", part.read_text()))
    ran = run("cargo", "build", "-q", "--offline", "--example", "driver", cwd=crate, env=own)
    check(ran.status != 0 and b"cekarum_interface_99_" in ran.err, "another interface does not link")
    ran = run("cargo", "build", "-q", "--offline", cwd=crate, env=environment(CARGO_TARGET_DIR=DESK / "cargo", CEKARUM_ARCHIVE="/no/libcekarum.a"))
    check(ran.status != 0 and b"/no/libcekarum.a is not there" in ran.err, f"an archive that is not there: {ran}")


def installed(name, **more):
    """The package as pip puts it into a folder of its own."""
    place = DESK / name
    pip = [sys.executable, "-m", "pip", "install", "-q", "--no-build-isolation", "--no-index", "--disable-pip-version-check"]
    done(*pip, "--root-user-action=ignore", "--no-cache-dir", "--target", place, SPACED / "bindings" / "python", env=environment(**more))
    return place


@case("Python: pip installs it with its library, and the vectors run through it")
def python():
    if run(sys.executable, "-m", "pip", "--version").status != 0:
        skipped.append("tests/release: SKIPPED, pip is missing: python")
        return
    own = environment(PYTHONPATH=installed("installed"))
    where = done(sys.executable, "-c", "import cekarum; print(cekarum.__file__); print(cekarum.made_by())", env=own)
    check(where.startswith(str(DESK / "installed")) and f"cekarum {VERSION} (" in where, where)
    console = R / "bindings/python/tests/console.py"
    said = done(sys.executable, console, R / "vectors/console.lines", R / "vectors/console.answers", env=own)
    compared, differ, passed = map(int, re.match(r"([0-9]+) lines compared, ([0-9]+) differ, ([0-9]+) passed over\n", said).groups())
    check(compared > 8000 and differ == 0 and passed < 200, said)
    answers = (R / "vectors/console.answers").read_text().splitlines(True)
    answers[20] = "0 00\n"
    wrong = written(DESK / "wrong.answers", "".join(answers).encode())
    ran = run(sys.executable, console, R / "vectors/console.lines", wrong, env=own)
    check(ran.status == 1 and b"line 21, " in ran.out and b" 1 differ" in ran.out, f"a wrong answer is found: {ran}")


@case("Python: numbers that 64 bits cannot hold, and libraries that are none")
def python_refuses():
    own = {"PYTHONPATH": R / "bindings" / "python"}
    for call in ("Device().join(2**64, 1, 0)", "Device().move(-1)", "Front().tick(2**32)", "report(Inputs(), [65536])", "write_measurement({'dc_power': 2**64})"):
        ran = run(sys.executable, "-c", f"from cekarum import *; {call}", env=environment(**own))
        check(ran.status != 0 and b"ValueError" in ran.err, f"{call}: {ran}")
    ran = run(sys.executable, "-c", "import cekarum", env=environment(**own, CEKARUM_LIBRARY="/no/libcekarum.so"))
    check(ran.status != 0 and b"ImportError: no libcekarum.so at /no/libcekarum.so" in ran.err, f"{ran}")
    python = (R / "bindings/python/cekarum.py").read_text()
    other = folder("another interface")
    written(other / "cekarum.py", re.sub(r"^INTERFACE = [0-9]+", "INTERFACE = 99", python, flags=re.MULTILINE).encode())
    library = R / "lib" / HOST / "libcekarum.so"
    ran = run(sys.executable, "-c", "import cekarum", env=environment(PYTHONPATH=other, CEKARUM_LIBRARY=library))
    check(ran.status != 0 and b"another interface than 99" in ran.err, f"{ran}")


def main():
    make_releases()
    status = run_cases("tests/release", sys.argv[1:])
    for line in skipped:
        print(line)
    sys.exit(status)


if __name__ == "__main__":
    main()
