#!/usr/bin/env python3
"""Counts the way of one SUBSCRIBE through `notifyd serve`: tests/walk.py.

The list tests/walk.txt names each function that is called once on the normal way, in the order of calls. Those with a star are of the
short count, which leaves out getters, the readers of single words and the writers of single lines; all are of the strict one. For both it
prints how many functions, files and crates there are, how long their bodies are, and how often one turns to another file; then
each stage.

What else a function of the list calls is on another way: tests/walk-off.txt says of each such name why. So both together are complete,
by names: a function that shares its name with one of the list is not missed. What is wrong is told, and makes the status 1: a line of the
list that names no function, or several; a name that is called and stands in neither; a line of the second list that names no
function, or one that nothing of the first calls. `tests/documents.py` looks at this too, and compares what a page says of the way with
what this counts.
"""
import collections
import os
import re
import statistics
import sys

TOP = os.path.dirname(os.path.dirname(os.path.abspath(__file__)))

HEAD = re.compile(r"^[ \t]*(?:pub(?:\([a-z]+\))? )?(?:const )?(?:unsafe )?fn (\w+)", re.M)

# A function of the list: its stage, whether it is of the short count, its file, name and class, how many lines it has, and its body.
Step = collections.namedtuple("Step", "stage is_short file name kind size body")

Count = collections.namedtuple("Count", "functions files crates lines median longest turns")


def body_of(lines, first, indent):
    """The lines of the body of the function whose name stands in this line, or None where it has none."""
    for at in range(first, min(first + 60, len(lines))):
        line = lines[at]
        if at == first and line.endswith(" {}"):
            return []
        if at > first and line.startswith(indent + "{ ") and line.endswith("}"):
            return [line]
        if line == indent + "{" or (line.rstrip().endswith(" {") and not re.search(r"ensures|requires|ghost|where|struct|impl", line)):
            end = next((it for it in range(at + 1, len(lines)) if lines[it] == indent + "}"), len(lines))
            return lines[at + 1 : end]
    return None


def owner_of(lines, first):
    """The line that begins the `impl` or the trait which a function in this line stands in."""
    for line in reversed(lines[:first]):
        found = re.match(r"^(impl(?:<[^>]*>)? .*?)(?: \{|$)", line) or re.match(r"^((?:pub )?trait \w+)", line)
        if found:
            return found[1]
    return ""


def functions(path):
    """Each function with a body: its name, what it stands in, and the lines of its body that are code."""
    with open(path, encoding="utf-8") as file:
        text = file.read()
    lines = text.split("\n")
    for it in HEAD.finditer(text):
        first = text.count("\n", 0, it.start(1))
        indent = " " * (len(it[0]) - len(it[0].lstrip()))
        body = body_of(lines, first, indent)
        if body is not None:
            owner = owner_of(lines, first) if indent else ""
            yield it[1], owner, [line for line in body if line.strip() and not line.strip().startswith("//")]


def index():
    """All functions of the crates that the program is made of, by file and name."""
    found = collections.defaultdict(list)
    for crate in sorted(os.listdir(f"{TOP}/crates")):
        for folder, _, files in os.walk(f"{TOP}/crates/{crate}/src"):
            for file in files if not crate.startswith("examples_") else ():
                place = os.path.relpath(f"{folder}/{file}", f"{TOP}/crates").replace("/src/", "/")[:-3]
                for name, owner, body in functions(f"{folder}/{file}"):
                    found[place, name].append((owner, body))
    return found


def lines_of(name):
    """The lines of a list beside this file that are no comment."""
    with open(f"{TOP}/tests/{name}", encoding="utf-8") as file:
        return [line.rstrip("\n") for line in file if line.strip() and not line.startswith("#")]


def walk():
    """The functions of the list, and what is wrong with it and the one of those beside the way, as lines."""
    found, steps, wrong, stage = index(), [], [], ""
    for line in lines_of("walk.txt"):
        if line.startswith("@"):
            stage = line[2:]
        else:
            file, name, owner, kind = line.lstrip("* ").split()
            those = [it for it in found.get((file, name), []) if owner == "." or (owner[1:] not in it[0] if owner[0] == "!" else owner in it[0])]
            if len(those) == 1:
                steps.append(Step(stage, line.startswith("*"), file, name, kind, len(those[0][1]), "\n".join(those[0][1])))
            else:
                wrong.append(f"walk.txt: {file} {name} {owner}: {len(those)} functions")
    return steps, wrong + wrong_beside(found, steps)


def wrong_beside(found, steps):
    """What is wrong with the list of what is called and is not on the way, as lines."""
    wrong, left = [], missing(found, steps)
    for line in lines_of("walk-off.txt"):
        name, file, why = (line.split(" ", 2) + ["", ""])[:3]
        if not why or file != "std" and (file, name) not in found:
            wrong.append(f"walk-off.txt: no function: {line}")
        elif name not in left:
            wrong.append(f"walk-off.txt: nothing of walk.txt calls it, or it stands twice, or there: {line}")
        left.pop(name, None)
    return wrong + [f"called, and neither in walk.txt nor in walk-off.txt: {name} ({', '.join(files[:3])})" for name, files in sorted(left.items())]


def count(steps):
    sizes = [it.size for it in steps] or [0]
    files = {it.file for it in steps}
    turns = sum(one.file != next_one.file for one, next_one in zip(steps, steps[1:]))
    return Count(len(steps), len(files), len({it.split("/")[0] for it in files}), sum(sizes), round(statistics.median(sizes)), max(sizes), turns)


def counts(steps):
    """The short count and the strict one, to the send of the NOTIFY."""
    sent = [it for it in steps if not it.stage.startswith("10")]
    return count([it for it in sent if it.is_short]), count(sent)


def missing(found, steps):
    """The names that a function of the list calls and none of the list has, each with the files in which there are such functions."""
    places = collections.defaultdict(set)
    for file, name in found:
        places[name].add(file)
    called = {name for it in steps for name in re.findall(r"(?:\.|::|\b)(\w+)(?:::<[^>]*>)?\(", it.body)}
    return {name: sorted(places[name]) for name in called & set(places) - {it.name for it in steps}}


def tell(what, it):
    print(f"{what}: {it.functions} functions, {it.files} files, {it.crates} crates, {it.lines} lines, median {it.median}, longest {it.longest}, "
          f"{it.turns} changes of file")


def main():
    steps, wrong = walk()
    for line in wrong:
        print(line)
    for what, short in (("short", True), ("strict", False)):
        for how, those in ((", to the send", [it for it in steps if not it.stage.startswith("10")]), (", with what is kept", steps)):
            tell(what + how, count([it for it in those if it.is_short or not short]))
    for stage in dict.fromkeys(it.stage for it in steps):
        those = [it for it in steps if it.stage == stage]
        print(f"  {stage}: {sum(it.is_short for it in those)} short, {len(those)} strict")
    return 1 if wrong else 0


if __name__ == "__main__":
    sys.exit(main())
