"""Packs the package for pip: its modules, and what `make` builds from the sources of the repository: the C library, and the core, which is
what is quick of the package. The core is left out where Python's headers aren't installed, and where the variable WANZOCHE_CORE is `none`.

It needs Python, make and a C compiler, and nothing from the network. pip calls `build_wheel` and `build_sdist`. By hand:

    python3 packing.py LIBRARY FOLDER [CORE]     writes the wheel with this library, and this core, into that folder

The same files make the same bytes: a wheel's dates are that of SOURCE_DATE_EPOCH, or 1980.
"""

from __future__ import annotations

import base64
import gzip
import hashlib
import io
import os
import re
import struct
import subprocess
import sys
import sysconfig
import tarfile
import tempfile
import time
import zipfile
from typing import Any, Dict, List, Optional, Tuple

HERE = os.path.dirname(os.path.abspath(__file__))
PACKAGE = "wanzoche"
LIBRARY = "libwanzoche.so"
CORE = "_core.abi3.so"
# What `make library core` reads, in the repository and in a package of sources.
SOURCES = ["Makefile", "VERSION", "c/wanzoche.c", "dist/system.c", "dist/NOTICE"]
SOURCES += ["include/" + name for name in ("wanzoche.h", "wanzoche_monitor.h", "wanzoche_store.h")]
_STORE = "append ask closing enter files forks journal opening order page presence record rotate settle sleeping sync trouble turn waiting who whole words"
SOURCES += ["c/store/{}.c".format(name) for name in _STORE.split()] + ["c/store/{}.h".format(name) for name in ("page", "store", "system")]
SOURCES += ["python/wanzoche/" + name for name in ("_core.c", "_order.c", "_order.h")]
SOURCES += ["dist/{}/path_c.s".format(processor) for processor in ("x86_64", "aarch64")]
# The command's man page and completions, by where pip puts them below the prefix.
SHARED = {
    "share/man/man1/wanzoche.1": "man/wanzoche.1",
    "share/bash-completion/completions/wanzoche": "completions/wanzoche.bash",
    "share/zsh/site-functions/_wanzoche": "completions/_wanzoche",
    "share/fish/vendor_completions.d/wanzoche.fish": "completions/wanzoche.fish",
}
SOURCES += sorted(SHARED.values())
# By the number of a processor in an ELF file.
PROCESSORS = {62: "x86_64", 183: "aarch64"}
# The oldest glibc that wheels are tagged for. It is the one of manylinux2014.
OLDEST_GLIBC = (2, 17)


def _read(*path: str) -> bytes:
    with open(os.path.join(HERE, *path), "rb") as file:
        return file.read()


def _project() -> Dict[str, str]:
    """The texts of the table `project` in pyproject.toml, by their keys."""
    table = _read("pyproject.toml").decode().split("[project]", 1)[1].split("\n[", 1)[0]
    return dict(re.findall(r'^([\w-]+) = "(.*)"$', table, re.M))


def _extras() -> Dict[str, str]:
    """What each extra of pyproject.toml needs, by its name."""
    table = _read("pyproject.toml").decode().split("[project.optional-dependencies]", 1)[1].split("\n[", 1)[0]
    return dict(re.findall(r'^([\w-]+) = \["(.*)"\]$', table, re.M))


def _metadata(project: Dict[str, str]) -> bytes:
    head = ["Metadata-Version: 2.1", "Name: " + PACKAGE, "Version: " + project["version"], "Summary: " + project["description"]]
    head += ["Requires-Python: " + project["requires-python"], "Description-Content-Type: text/markdown"]
    for extra, needs in _extras().items():
        head += ["Provides-Extra: " + extra, "Requires-Dist: {}; extra == '{}'".format(needs, extra)]
    return "\n".join(head).encode() + b"\n\n" + _read(project["readme"])


def _sources() -> str:
    """Where the library's sources are: in the repository around this folder, or beside this file in a package of sources."""
    for folder in (os.path.dirname(HERE), os.path.join(HERE, "library")):
        if all(os.path.exists(os.path.join(folder, name)) for name in SOURCES):
            return folder
    raise FileNotFoundError(
        "the sources of libwanzoche aren't around {}. pip before 21.3 copies the folder away from them: use a later pip, or run "
        "`make wheel` at the top of the repository and install what it makes".format(HERE)
    )


def _may_have_core() -> bool:
    """Whether the core can be built for this Python, and is wanted: CPython with its lock, whose headers are installed."""
    if os.environ.get("WANZOCHE_CORE") == "none" or sys.implementation.name != "cpython" or "t" in sys.abiflags:
        return False
    return os.path.exists(os.path.join(sysconfig.get_path("include"), "Python.h"))


def _refuse_elsewhere() -> None:
    """Ends pip's call with one line where nothing can be built, before `make` is looked for: it may not be there."""
    if sys.platform != "linux":
        told = "wanzoche runs on Linux, and not on {}. On macOS and Windows it runs in a Linux container or in WSL: docs/install.md"
        raise SystemExit(told.format(sys.platform))


def _built() -> Tuple[bytes, Optional[bytes]]:
    """The library and the core, as `make` builds them now. None in place of a core that can't be built or isn't wanted."""
    _refuse_elsewhere()
    with_core = _may_have_core()
    with tempfile.TemporaryDirectory() as out:
        command = ["make", "-C", _sources(), "OUT=" + out, "PYTHON=" + sys.executable, "library"] + ["core"] * with_core
        made = subprocess.run(command, stdout=subprocess.PIPE, stderr=subprocess.STDOUT)
        if made.returncode:
            raise RuntimeError("`make` doesn't build {}:\n{}".format(" ".join(command[5:]), made.stdout.decode(errors="replace")))
        with open(os.path.join(out, "lib", LIBRARY), "rb") as file:
            library = file.read()
        if not with_core:
            return library, None
        with open(os.path.join(out, "python", CORE), "rb") as file:
            return library, file.read()


def tag_of(library: bytes, core: Optional[bytes]) -> str:
    """The tag of a wheel with these: which Python the core is for, the processor, and the oldest glibc that has what they need.

    What is for another C library, or for a glibc that none of the names tells, is tagged for Linux of its processor, as built here.
    """
    python = "py3-none-" if core is None else "cp38-abi3-"
    processor = PROCESSORS[struct.unpack_from("<H", library, 18)[0]]
    if b"libc.so.6\0" not in library:
        return python + "linux_" + processor
    needed = [(int(major), int(minor)) for major, minor in re.findall(rb"\0GLIBC_(\d+)\.(\d+)", library + (core or b""))]
    if max(needed, default=OLDEST_GLIBC) > OLDEST_GLIBC:
        return python + "manylinux_{}_{}_{}".format(*max(needed), processor)
    return python + "manylinux_2_17_{0}.manylinux2014_{0}".format(processor)


def _record(files: Dict[str, bytes], name: str) -> bytes:
    """The list of a wheel's files, which is one of them."""
    rows = []
    for path, content in files.items():
        digest = base64.urlsafe_b64encode(hashlib.sha256(content).digest()).rstrip(b"=").decode()
        rows.append("{},sha256={},{}\n".format(path, digest, len(content)))
    return ("".join(rows) + name + ",,\n").encode()


def _modules() -> List[str]:
    """The package's files, also those in its folders, by their paths in it."""
    top, found = os.path.join(HERE, PACKAGE), []
    for folder, _, names in os.walk(top):
        found += [os.path.relpath(os.path.join(folder, name), top) for name in names]
    return sorted(name for name in found if name.endswith((".py", ".pyi", ".typed", ".sql", ".html")))


def _date() -> int:
    """The date of all files, in seconds of Unix: the first that a wheel can tell, unless the environment names another."""
    return max(int(os.environ.get("SOURCE_DATE_EPOCH", 0)), 315532800)


def write_wheel(library: bytes, core: Optional[bytes], folder: str) -> str:
    """Writes the wheel with this library, and with the core if there is one, into a folder, and returns its name."""
    project, tag = _project(), tag_of(library, core)
    own = "{}-{}".format(PACKAGE, project["version"])
    info = own + ".dist-info/"
    files = {"{}/{}".format(PACKAGE, name): _read(PACKAGE, name) for name in _modules()}
    files["{}/{}".format(PACKAGE, LIBRARY)] = library
    if core is not None:
        files["{}/{}".format(PACKAGE, CORE)] = core
    for place, name in SHARED.items():
        files["{}.data/data/{}".format(own, place)] = _read(_sources(), name)
    files[info + "METADATA"] = _metadata(project)
    python, abi, platforms = tag.split("-")
    tags = "".join("Tag: {}-{}-{}\n".format(python, abi, platform) for platform in platforms.split("."))
    files[info + "WHEEL"] = ("Wheel-Version: 1.0\nGenerator: {} {}\nRoot-Is-Purelib: false\n".format(PACKAGE, project["version"]) + tags).encode()
    files[info + "entry_points.txt"] = "[console_scripts]\n{0} = {0}._command:main\n".format(PACKAGE).encode()
    files[info + "RECORD"] = _record(files, info + "RECORD")
    made = "{}-{}.whl".format(own, tag)
    with zipfile.ZipFile(os.path.join(folder, made), "w", zipfile.ZIP_DEFLATED) as wheel:
        for name, content in files.items():
            entry = zipfile.ZipInfo(name, time.gmtime(_date())[:6])
            entry.compress_type = zipfile.ZIP_DEFLATED
            entry.external_attr = (0o100755 if name.endswith(".so") else 0o100644) << 16
            wheel.writestr(entry, content)
    return made


def build_wheel(wheel_directory: str, config_settings: Any = None, metadata_directory: Optional[str] = None) -> str:
    """Builds the library and the core, writes the wheel into this folder, and returns its name. Called by pip."""
    return write_wheel(*_built(), wheel_directory)


def build_sdist(sdist_directory: str, config_settings: Any = None) -> str:
    """Writes a package of sources, from which pip builds the library and the core, into this folder. Returns its name. Called by `build`."""
    project, sources = _project(), _sources()
    own = "{}-{}".format(PACKAGE, project["version"])
    files = {"PKG-INFO": _metadata(project), **{name: _read(name) for name in ("pyproject.toml", "packing.py", project["readme"])}}
    files.update({"{}/{}".format(PACKAGE, name): _read(PACKAGE, name) for name in _modules()})
    for name in SOURCES:
        with open(os.path.join(sources, name), "rb") as file:
            files["library/" + name] = file.read()
    made = own + ".tar.gz"
    packed = io.BytesIO()
    with tarfile.open(fileobj=packed, mode="w") as tar:
        for name, content in files.items():
            entry = tarfile.TarInfo("{}/{}".format(own, name))
            entry.size, entry.mtime = len(content), _date()
            tar.addfile(entry, io.BytesIO(content))
    with open(os.path.join(sdist_directory, made), "wb") as file:
        file.write(gzip.compress(packed.getvalue()))
    return made


def main(library: str, folder: str, *cores: str) -> None:
    files = []
    for path in (library, *cores):
        with open(path, "rb") as file:
            files.append(file.read())
    print(os.path.join(folder, write_wheel(files[0], files[1] if cores else None, folder)))


if __name__ == "__main__":
    main(*sys.argv[1:])
