"""The kit that proves and builds crates."""

import os
import re
import shutil
import subprocess

TARGET = "x86_64-unknown-linux-gnu"


class Unbuilt(Exception):
    """Why a program can't be built, in a line or in the text of the tool that refused it."""


class Kit:
    """The kit that `rt` belongs to: its commands, its libraries and its logic."""

    def __init__(self):
        if shutil.which("rt") is None:
            raise Unbuilt("rt is not on the path: the kit that it belongs to builds and proves the programs")
        self.at = os.path.dirname(self.told("doc"))
        self.version = self.told("version")

    @staticmethod
    def told(what):
        ran = subprocess.run(["rt", what], stdin=subprocess.DEVNULL, capture_output=True, check=False, text=True)
        if ran.returncode:
            raise Unbuilt(f"`rt {what}` ends with status {ran.returncode}: {ran.stderr.strip()}")
        return ran.stdout.strip()

    def rattle(self, what):
        return [f"{self.at}/bin/rattle", what]

    def library(self, name):
        return f"{name}={self.at}/rlibs/{name}.rlib"

    def uses(self, name):
        """The libraries that a library of the kit uses."""
        with open(f"{self.at}/rlibs/{name}.rlib/format", encoding="utf-8") as file:
            return re.findall(r"^dep (\w+)$", file.read(), re.M)

    def source(self, name):
        """The root file of a library of the kit."""
        return f"{self.at}/rattle/{name}/src/lib.rt"

    def logic(self):
        return ["--antt-project", f"{self.at}/rattle/logic/antt-project.json", "--logic-built", f"{self.at}/logic_built"]

    def toolchain(self):
        return ["--toolchain", f"{self.at}/toolchain"]

    def c_library(self):
        return [f"{self.at}/c/libos_c.a", f"{self.at}/c/liblibc_c.a"]

    def clang(self):
        return f"{self.at}/toolchain/bin/clang"

    def link(self, program, object_files):
        """The words of a call that links the object files of a program."""
        return [f"{self.at}/bin/rattle-link", "--target", TARGET, *self.toolchain(), "-o", program, *object_files, *self.c_library()]
