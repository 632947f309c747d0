#!/usr/bin/env python3
"""Prints which files of definitions clauses cite, of calls that can be made from outside their crate: tests/cited.py [CRATE..].

Each file stands on a line with what its head comment says, and the first such call. Without words it prints those of the crates that
docs/definitions.md doesn't list (`documents.BESIDE`). Which files these are is read off the code, by `documents.cited`.
"""
import sys

sys.dont_write_bytecode = True
from documents import BESIDE, cited, read


def head(path):
    """The head comment of a file of definitions, as one line."""
    said = []
    for line in read(f"crates/{path}.antt").splitlines():
        if not line.startswith("-- "):
            break
        said.append(line[3:])
    return " ".join(said)


def main(words):
    for path, call in sorted(cited().items()):
        if path.split("/")[0] in (words or BESIDE):
            print(f"{path} ({call}): {head(path)}")


if __name__ == "__main__":
    main(sys.argv[1:])
