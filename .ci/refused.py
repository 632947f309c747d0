"""Which wrong bodies `.ci/wrong` saw refused on this machine, so that a run over the same files need not try them again.

A verdict's name is a sum of all that it stands on: the texts of the wrong body, the files of its crate, the libraries below as they were built,
the toolchain, and the scripts that judge what the prover says. It holds the word *refused* and why, and nothing else is kept. They stand in
`${XDG_CACHE_HOME:-~/.cache}/tipongahe/refused`, a file each. What isn't whole, what others may write, and what says anything else counts for nothing.
"""
import contextlib
import hashlib
import os
import re
import stat
import tempfile
import time

from copies import TOP, graph, read

FOLDER = os.path.join(os.environ.get("XDG_CACHE_HOME") or os.path.expanduser("~/.cache"), "tipongahe", "refused")

# The scripts that choose what is checked, and judge what the prover says of it.
JUDGES = ("wrong", "edits.py", "paths.py", "copies.py", "refused.py")

# What of a crate's folder the prover reads.
PARTS = ("src", "specs", "proofs")

# Seconds for which a verdict is kept that no run asks for.
LONGEST = 60 * 86_400


def sum_of(*parts):
    """A sum of texts, bytes and what they are made of."""
    return hashlib.sha256(repr(parts).encode()).hexdigest()


def files_below(folder):
    return sorted(f"{at}/{name}" for at, _, names in os.walk(folder) for name in names)


def texts_sum(folder):
    """A sum of all files of a folder, with their names."""
    found = hashlib.sha256()
    for path in files_below(folder):
        with open(path, "rb") as file:
            found.update(sum_of(path[len(folder) :], hashlib.sha256(file.read()).hexdigest()).encode())
    return found.hexdigest()


def kit_sum(kit):
    """A sum of the toolchain: its names, and of each file that a check reads the size and the time."""
    found = [read(f"{kit}/{it}") for it in ("KIT-ID", "WHAT") if os.path.isfile(f"{kit}/{it}")]
    for part in ("bin", "logic_built", "rattle", *(f"rlibs/{it}/format" for it in sorted(os.listdir(f"{kit}/rlibs")))):
        for path in files_below(f"{kit}/{part}") or [f"{kit}/{part}"]:
            status = os.lstat(path)
            found.append((path[len(kit) :], status.st_mode, status.st_size, status.st_mtime_ns))
    return sum_of(found)


class Refused:
    """What was refused, and where that is kept: nowhere where the folder isn't this user's alone."""

    def __init__(self, kit, folder=FOLDER):
        self.sums, self.at = {}, None
        self.judges = sum_of(kit_sum(kit), [read(f"{TOP}/.ci/{it}") for it in JUDGES])
        with contextlib.suppress(OSError):
            os.makedirs(folder, 0o700, exist_ok=True)
            found = os.lstat(folder)
            if stat.S_ISDIR(found.st_mode) and found.st_uid == os.geteuid() and not found.st_mode & 0o022:
                self.at = folder

    def once(self, path):
        """The sum of a folder, which is made once."""
        if path not in self.sums:
            self.sums[path] = texts_sum(path)
        return self.sums[path]

    def name(self, edit, functions, libraries):
        """The name of what a check of a wrong body says in the functions that it changes alone, or in the whole crate where these are None."""
        own = [self.once(f"{TOP}/crates/{edit.crate}/{part}") for part in PARTS]
        below = [(it, self.once(path)) for it, path in sorted(libraries.items())]
        return sum_of(self.judges, edit.crate, graph()[edit.crate], edit.changes, functions and sorted(functions), own, below)

    def touched(self, crate, libraries):
        """What tells whether a file that a verdict on a crate stands on was changed meanwhile, also where it was changed back."""
        found = []
        for path in [it for part in PARTS for it in files_below(f"{TOP}/crates/{crate}/{part}")] + [f"{it}/format" for it in libraries.values()]:
            with contextlib.suppress(OSError):
                status = os.lstat(path)
                found.append((path, status.st_ino, status.st_size, status.st_mtime_ns))
        return sorted(found)

    def why(self, name):
        """Why it was refused, or None where no run says so."""
        with contextlib.suppress(OSError, ValueError):
            with open(f"{self.at}/{name}", encoding="utf-8") as file:
                found = os.fstat(file.fileno())
                if not stat.S_ISREG(found.st_mode) or found.st_uid != os.geteuid() or found.st_mode & 0o022:
                    return None
                said = re.fullmatch(rf"refused {name}\n(.+)\n", file.read(4096))
            if said:
                os.utime(f"{self.at}/{name}")
                return said[1]
        return None

    def keep(self, name, why):
        """Keeps that it was refused, and why. The file is written apart, so that nobody reads half of it."""
        line = " ".join(why.split())[:300]
        if not self.at or not line:
            return
        with contextlib.suppress(OSError):
            with tempfile.NamedTemporaryFile("w", dir=self.at, prefix="new-", delete=False, encoding="utf-8") as file:
                file.write(f"refused {name}\n{line}\n")
            os.replace(file.name, f"{self.at}/{name}")

    def shrink(self):
        """Lets go what no run asked for in a long time."""
        for it in os.listdir(self.at) if self.at else ():
            with contextlib.suppress(OSError):
                if os.lstat(f"{self.at}/{it}").st_mtime < time.time() - LONGEST:
                    os.remove(f"{self.at}/{it}")
