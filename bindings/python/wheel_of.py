"""Makes the wheel for `pip install --no-build-isolation .`, so that no other package is needed for it.

The wheel carries libcekarum.so of this machine where one is found: the file that CEKARUM_LIBRARY names, or that of the release
that this folder is part of. Without one it carries the Python file alone, and CEKARUM_LIBRARY names the library when it is used.
"""
import base64
import hashlib
import os
import platform
import re
import zipfile
from pathlib import Path

HERE = Path(__file__).resolve().parent


def said(name, file="pyproject.toml"):
    return re.search(rf'^{name} = "(.*)"$', (HERE / file).read_text(), re.MULTILINE).group(1)


def version():
    return said("VERSION", "cekarum.py")


def library():
    named = os.environ.get("CEKARUM_LIBRARY")
    place = Path(named) if named else HERE.parent.parent / "lib" / f"{platform.machine()}-linux" / "libcekarum.so"
    if named and not place.is_file():
        raise FileNotFoundError(f"CEKARUM_LIBRARY is {named}, which is no file")
    return place if place.is_file() else None


def contents(found, tag):
    title = f"cekarum-{version()}.dist-info"
    files = {"cekarum/__init__.py": (HERE / "cekarum.py").read_bytes()}
    if found:
        files["cekarum/libcekarum.so"] = found.read_bytes()
    about = ["Metadata-Version: 2.1", "Name: cekarum", f"Version: {version()}", f"Summary: {said('description')}"]
    files[f"{title}/METADATA"] = "\n".join([*about, f"Requires-Python: {said('requires-python')}", ""]).encode()
    pure = "false" if found else "true"
    files[f"{title}/WHEEL"] = f"Wheel-Version: 1.0\nGenerator: cekarum\nRoot-Is-Purelib: {pure}\nTag: {tag}\n".encode()
    files[f"{title}/RECORD"] = record(files, f"{title}/RECORD")
    return files


def record(files, own):
    rows = []
    for name, data in files.items():
        digest = base64.urlsafe_b64encode(hashlib.sha256(data).digest()).rstrip(b"=").decode()
        rows.append(f"{name},sha256={digest},{len(data)}\n")
    return "".join([*rows, f"{own},,\n"]).encode()


# ---- what pip calls
def get_requires_for_build_wheel(config_settings=None):
    return []


def build_wheel(wheel_directory, config_settings=None, metadata_directory=None):
    found = library()
    tag = f"py3-none-linux_{platform.machine()}" if found else "py3-none-any"
    name = f"cekarum-{version()}-{tag}.whl"
    with zipfile.ZipFile(Path(wheel_directory) / name, "w", zipfile.ZIP_DEFLATED) as wheel:
        for path, data in contents(found, tag).items():
            wheel.writestr(zipfile.ZipInfo(path), data)
    return name
