"""The toolchain that proves the crates, and the object files that it makes of them."""

from __future__ import annotations

import os
import re
import shutil
import subprocess
import sys
import tempfile
from typing import Any, Dict, List, NamedTuple, Set

HERE = os.path.dirname(os.path.realpath(__file__))
TOP = os.path.dirname(os.path.dirname(HERE))


class Failed(Exception):
    """Something that can't be made, or isn't what it has to be. Its text says what."""


class Processor(NamedTuple):
    """A processor that there is assembly for."""

    name: str
    target: str
    assembled: List[str]  # how the toolchain's clang has to assemble; it decides how gaps between functions are filled


PROCESSORS = {
    "x86_64": Processor("x86_64", "x86_64-unknown-linux-gnu", ["-march=x86-64-v2"]),
    "aarch64": Processor("aarch64", "aarch64-unknown-linux-gnu", []),
}


class Made(NamedTuple):
    """What the toolchain makes of a crate."""

    object_file: bytes
    assembly: str
    module: bytes  # LLVM's, as the toolchain's clang reads it


class Toolchain:
    """The toolchain whose command `rt` is on the path. Raises Failed if there is none."""

    def __init__(self) -> None:
        rt = shutil.which("rt")
        if rt is None:
            raise Failed("the toolchain's command rt isn't on the path; only with it can the assembly be made or checked")
        self._folder = os.path.dirname(os.path.dirname(os.path.realpath(rt)))
        self.clang = os.path.join(self._folder, "toolchain", "bin", "clang")
        sys.dont_write_bytecode = True
        sys.path.insert(0, os.path.join(self._folder, "bin"))
        import rtlib  # type: ignore[import]  # the toolchain's own

        self._crates: Dict[str, Any] = {crate.name: crate for crate in rtlib.crates_below(TOP)}
        with open(os.path.join(self._folder, "KIT-ID"), encoding="utf-8") as file:
            self.name = file.read().strip()

    def build(self, name: str, processor: Processor) -> Made:
        """Proves a crate and compiles it, over the libraries below it, which are proved already."""
        crate = self._crates[name]
        with tempfile.TemporaryDirectory() as work:
            folder = os.path.join(work, "toolchain")
            self._link(folder)
            words = [os.path.join(self._folder, "bin", "rattle"), "build", *crate.words([], False)]
            words += ["--incremental", "out/incremental", "--target", processor.target, "--backend", "llvm"]
            words += ["--toolchain", folder, "-o", os.path.join(work, "made")]
            ran = subprocess.run(words, cwd=crate.folder, stdout=subprocess.PIPE, stderr=subprocess.STDOUT, text=True)
            if ran.returncode:
                raise Failed(f"{name} isn't built for {processor.name}:\n{ran.stdout}")
            with open(os.path.join(folder, "module.s"), encoding="utf-8") as file:
                assembly = file.read()
            with open(os.path.join(folder, "module.bc"), "rb") as file:
                module = file.read()
            return Made(self._object_in(os.path.join(work, "made"), crate.is_program), assembly, module)

    def proved_object(self, name: str, processor: Processor) -> bytes:
        """The object file of a crate for a processor: what the gate has left, or else what is built now."""
        crate = self._crates[name]
        left = os.path.join(crate.folder, "out", name + ".o")
        if processor.name == "x86_64" and crate.is_program and os.path.exists(left):
            return self._object_in(left, True)
        return self.build(name, processor).object_file

    def assemble(self, path: str, processor: Processor) -> bytes:
        """The object file that the toolchain's clang makes of assembly. Raises Failed if it can't read it."""
        with tempfile.TemporaryDirectory() as work:
            made = os.path.join(work, "module.o")
            words = [f"--target={processor.target}", *processor.assembled, "--no-default-config", "-c", path, "-o", made]
            ran = subprocess.run([self.clang, *words], stderr=subprocess.PIPE, text=True)
            if ran.returncode:
                raise Failed(f"{path} can't be assembled:\n{ran.stderr}")
            with open(made, "rb") as file:
                return file.read()

    def ports(self, names: List[str]) -> Set[str]:
        """The toolchain's crates that these are compiled from, of those that came from elsewhere and have a licence of their own."""
        owing = {it for name in names for crate in [self._crates[name], *self._crates[name].below()] for it in crate.of_kit}
        found: Set[str] = set()
        while owing:
            name = owing.pop()
            found.add(name)
            with open(os.path.join(self._folder, "rlibs", name + ".rlib", "format"), encoding="utf-8") as file:
                owing |= set(re.findall(r"^dep (\w+)$", file.read(), re.MULTILINE)) - found
        return {name for name in found if self._has_licence(name)}

    def _has_licence(self, name: str) -> bool:
        folder = os.path.join(self._folder, "rattle", name)
        return os.path.isdir(folder) and any(it.startswith("LICENSE") for it in os.listdir(folder))

    def _link(self, to: str) -> None:
        """A toolchain's folder made of links, in which clang also leaves the assembly."""
        inside = os.path.join(self._folder, "toolchain")
        os.makedirs(os.path.join(to, "bin"))
        os.symlink(os.path.join(inside, "lib"), os.path.join(to, "lib"))
        for name in os.listdir(os.path.join(inside, "bin")):
            if name != "clang":
                os.symlink(os.path.join(inside, "bin", name), os.path.join(to, "bin", name))
        shutil.copy(os.path.join(HERE, "clang_twice"), os.path.join(to, "bin", "clang"))
        with open(os.path.join(to, "clang"), "w", encoding="utf-8") as file:
            file.write(self.clang)

    def _object_in(self, made: str, is_program: bool) -> bytes:
        """A program's build leaves its object file, and a library's an archive of one."""
        if is_program:
            with open(made, "rb") as file:
                return file.read()
        words = ["llvm-ar", "p", made]
        return subprocess.run(words, executable=self.clang, stdout=subprocess.PIPE, check=True).stdout
