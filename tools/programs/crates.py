"""The crates of the repository: what each names, those that one stands on, and the files that it is made from."""

import contextlib
import hashlib
import os

TOP = os.path.dirname(os.path.dirname(os.path.dirname(os.path.abspath(__file__))))
SOURCES = ("src",)
SOURCES_AND_PROOFS = "src", "specs", "proofs"


class Listed:
    """What crates.txt says: the libraries that each crate names, and the crates that are static libraries."""

    def __init__(self):
        self.named, self.static = {}, set()
        with open(f"{TOP}/crates.txt", encoding="utf-8") as file:
            for line in file:
                head, colon, words = line.partition("#")[0].partition(":")
                if colon:
                    name, *kind = head.split()
                    self.named[name] = words.split()
                    self.static.update([name] if kind[:1] == ["staticlib"] else [])

    def in_order(self, crate, order=None):
        """The crates of the repository that a crate stands on and then the crate itself, each after those below it."""
        order = [] if order is None else order
        for below in self.named[crate]:
            if below in self.named and below not in order:
                self.in_order(below, order)
        order.append(crate)
        return order


def folder_of(crate):
    return f"{TOP}/crates/{crate}"


def files_of(crate, parts):
    """The files of these parts of a crate, in a fixed order."""
    for part in parts:
        for at, folders, files in os.walk(f"{folder_of(crate)}/{part}"):
            folders.sort()
            for name in sorted(files):
                yield f"{at}/{name}"


def bytes_in(path):
    with open(path, "rb") as file:
        return file.read()


def add_files(checksum, crate, parts):
    """Has a checksum cover the files of these parts of a crate."""
    for path in files_of(crate, parts):
        checksum.update(repr((os.path.relpath(path, TOP), bytes_in(path))).encode())


def checksum_of(listed, crates, parts):
    """A checksum of these parts of some crates, and of the libraries that they name."""
    made = hashlib.sha256()
    for crate in crates:
        made.update(repr((crate, listed.named[crate])).encode())
        add_files(made, crate, parts)
    return made.hexdigest()


class Stamp:
    """The file beside a program that tells what the program was made from: a checksum, and then the files and folders that ready.sh looks at.
    What is newer than the stamp may have changed since."""

    # Files may be dated by a clock that is this much behind, in nanoseconds.
    CLOCK_STEP = 20_000_000

    def __init__(self, path):
        self.path = path

    def checksum(self):
        """The checksum that stands in the stamp, if there is one."""
        with contextlib.suppress(FileNotFoundError):
            return bytes_in(self.path).decode().partition("\n")[0]
        return None

    def write(self, checksum, crates, parts, begun):
        """Writes the stamp, whole or not at all. `begun` is when the sources were first read, in nanoseconds."""
        folders = [f"crates/{crate}/{part}" for crate in crates for part in parts]
        looked_at = ["crates.txt", *[it for it in folders if os.path.isdir(f"{TOP}/{it}")]]
        with open(f"{self.path}.new", "w", encoding="utf-8") as file:
            file.write("\n".join([checksum, *looked_at, ""]))
        os.utime(f"{self.path}.new", ns=(begun - self.CLOCK_STEP,) * 2)
        os.replace(f"{self.path}.new", self.path)

    def renew(self, begun):
        """Notes that the sources read then were the same. Who may not write reads them again at each call."""
        with contextlib.suppress(OSError):
            os.utime(self.path, ns=(begun - self.CLOCK_STEP,) * 2)

    def remove(self):
        with contextlib.suppress(FileNotFoundError):
            os.remove(self.path)
