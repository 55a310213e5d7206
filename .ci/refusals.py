"""What earlier runs of `wrong_bodies` on this machine saw refused, by a sum of all bytes that the check of an edit reads.

A sum is over the toolchain, these two scripts, the edit, the files of its crate, those of each crate below that is read
from its source, and the libraries of the others. Where all of these are the same, so is what the prover says, and the
edit needn't be tried again. Only refusals are kept. They stand in one folder beside the toolchain, outside each
checkout, so a machine that has kept nothing tries every edit.
"""

import contextlib
import hashlib
import os
import tempfile

from crate_list import PARTS, TOP, crates_below

HERE = os.path.dirname(os.path.abspath(__file__))


def files_below(folder):
    """The files of a folder and of those in it, in order."""
    for inside, folders, names in os.walk(folder):
        folders.sort()
        yield from (os.path.join(inside, name) for name in sorted(names))


def add(total, name, text):
    """Adds a named text to a sum, so that no two lists of texts look alike."""
    total.update(f"{name} {len(text)}\n".encode())
    total.update(text)


def add_file(total, name, path):
    """Adds the bytes of a file."""
    with open(path, "rb") as file:
        add(total, name, file.read())


def add_crate(total, name):
    """Adds the files of a crate that a proof reads."""
    home = os.path.join(TOP, "crates", name)
    for part in PARTS:
        for path in files_below(os.path.join(home, part)):
            add_file(total, os.path.relpath(path, TOP), path)


def add_kit(total, kit):
    """Adds what tells this toolchain from another: its name, and the size and time of each of its files."""
    add_file(total, "KIT-ID", os.path.join(kit, "KIT-ID"))
    for part in ("bin", "toolchain", "logic_built", "rattle/logic", "rlibs"):
        for path in files_below(os.path.join(kit, part)):
            found = os.lstat(path)
            add(total, path, f"{found.st_size} {found.st_mtime_ns}".encode())


class Refusals:
    """Refusals that are kept, and the sums by which they are."""

    def __init__(self, kit, over, listed, is_anew):
        self.folder = os.path.join(os.path.dirname(kit), "wrong-bodies-refused")
        self.over, self.listed, self.is_anew = over, listed, is_anew
        self.begin = hashlib.sha256()
        add_kit(self.begin, kit)
        for name in ("wrong_bodies", "refusals.py"):
            add_file(self.begin, name, os.path.join(HERE, name))

    def path_of(self, name, edit):
        """The file that says that an edit of a crate was refused, over the bytes that are there now."""
        total = self.begin.copy()
        below = sorted(crates_below(name, self.listed))
        add(total, "crates", repr([(crate, self.listed[crate]) for crate in [name, *below]]).encode())
        for crate in [name, *edit.sources(name, self.listed)]:
            add_crate(total, crate)
        for crate in below:
            # This file of a library holds a sum of its others.
            library = os.path.join(self.over, "crates", crate, "out", "rlib", crate + ".rlib", "format")
            add_file(total, "library of " + crate, library)
        add_file(total, edit.words, edit.path)
        return os.path.join(self.folder, total.hexdigest())

    def find(self, name, edit):
        """Where it is kept that this edit was refused, and whether it is."""
        path = self.path_of(name, edit)
        return path, not self.is_anew and os.path.isfile(path) and os.lstat(path).st_uid == os.geteuid()

    def keep(self, name, edit, path):
        """Keeps that an edit was refused, if what its check read is still what it was when it was looked for."""
        with contextlib.suppress(OSError):
            os.makedirs(self.folder, 0o700, exist_ok=True)
            if self.path_of(name, edit) == path:
                with tempfile.NamedTemporaryFile("w", dir=self.folder, delete=False, encoding="utf-8") as file:
                    file.write(f"{name}/{edit.words} refused\n")
                os.replace(file.name, path)
