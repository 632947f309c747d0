#!/usr/bin/env python3
"""What `.ci/wrong` and `.ci/run-refuses` said last, in tests/wrong-last.txt: a line for each of them and each crate, which both write as they
end. It has the commit that was tried, the day, and how many of the crate's wrong bodies were refused, and names those that were not:

    .ci/wrong scripts: 31 refused, 1 not refused (673923f9, 2026-11-28): a_close_needs_memory

A line stands until that command tries all of that crate's anew; a run of some of them alone leaves it. What was tried with changes of its
own beside the commit is told so. docs/testing.md has what the lines come to, and which commits they name: each run writes it there, and so
does `.ci/last.py --mend`.
"""
import datetime
import glob
import os
import re
import subprocess
import sys
import threading

sys.dont_write_bytecode = True
from copies import TOP, read, write

FILE = f"{TOP}/tests/wrong-last.txt"

HEAD = "# What .ci/wrong and .ci/run-refuses said last of each crate's wrong bodies: .ci/last.py writes it.\n"

LINE = re.compile(r"(\.ci/[\w-]+) (\w+): (\d+) (refused|seen), (\d+) not \4 \((\w+)( with changes)?, (\d{4}-\d\d-\d\d)\)(?:: (\w+(?:, \w+)*))?")

PAGE = f"{TOP}/docs/testing.md"

# How that page sums them up.
SUMMED = "**Last, in {} of {} crates: {} ({}).**"
SUM = re.compile(re.escape(SUMMED).replace(r"\{\}", r"[^*\n]*?"))

_alone = threading.Lock()


def git(*words):
    return subprocess.run(["git", *words], cwd=TOP, stdout=subprocess.PIPE, text=True).stdout.strip()


def commit():
    """The commit that is checked out, and whether code, definitions or proofs stand there otherwise."""
    return git("rev-parse", "--short=8", "HEAD") + (" with changes" if git("status", "--porcelain", "--", "crates", "crates.txt") else "")


def lines():
    """The lines that were written, in order."""
    return [it for it in read(FILE).split("\n") if it and it[0] != "#"] if os.path.isfile(FILE) else []


def record(command, crate, word, results, every):
    """Writes the line of a command and a crate, of whose wrong bodies `every` it tried all. `results` has each one's name, and whether it was
    refused, which `word` says."""
    if set(results) != set(every):
        return
    missed = sorted(name for name, is_refused in results.items() if not is_refused)
    told = f"{command} {crate}: {len(results) - len(missed)} {word}, {len(missed)} not {word} ({commit()}, {datetime.date.today()})"
    with _alone:
        others = [it for it in lines() if not it.startswith(f"{command} {crate}:")]
        write(FILE, HEAD + "".join(f"{it}\n" for it in sorted([*others, told + (": " + ", ".join(missed) if missed else "")])))
        write(PAGE, summed(read(PAGE)))


def summed(page):
    """The page with what the lines come to in its place."""
    found = [it for it in map(LINE.fullmatch, lines()) if it]
    parts = []
    for command, text in ((".ci/wrong", "{} refused, {} not"), (".ci/run-refuses", "in runs {} seen, {} not")):
        own = [it for it in found if it[1] == command]
        parts += [text.format(*(sum(int(it[at]) for it in own) for at in (3, 5)))] * bool(own)
    tried, every = len({it[2] for it in found if it[1] == ".ci/wrong"}), len(glob.glob(f"{TOP}/crates/*/wrong.edits"))
    commits = sorted({it[6] + (it[7] or "") for it in found})
    return SUM.sub(lambda _: SUMMED.format(tried, every, "; ".join(parts) or "none tried", ", ".join(commits) or "no commit"), page)


if __name__ == "__main__":
    if sys.argv[1:] != ["--mend"]:
        sys.exit(__doc__)
    write(PAGE, summed(read(PAGE)))
