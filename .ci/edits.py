#!/usr/bin/env python3
"""The wrong bodies of crates, for `.ci/wrong`, `.ci/run-refuses` and `.ci/named`.

    .ci/edits.py --check              says what is wrong with them; the status is 1 where something is
    .ci/edits.py --mend               writes each crates/NAME/wrong.edits anew, in order
    .ci/edits.py --print CRATE/NAME   prints one as a file of must-fail/, to be tried or to be moved there
    .ci/edits.py --move CRATE [NAME]  moves those of must-fail/ into the list, for each landing, but for this one

crates/NAME/wrong.edits has each wrong body of a crate that the prover must refuse, with an empty line between two:

    name: a_closed_port_takes_an_event          what would go wrong
    of: Port::send                              the function or definition that it changes
    file: src/port.rt                           a file of the crate
    old: return Err(SendError::Closed(event));  stands once in that file
    new: drop(event); return Ok(());            stands in its place

Further pairs of `old:` and `new:`, also of other files, apply to what the earlier ones made. Each landing tries some:

- `rt ci` those in files of their own, must-fail/NAME.edit, since it looks for them there. They are listed with `must-fail: yes` in place of
  their texts. For these it proves the crate a second time, be it one or ten.
- `.ci/wrong --landing` those that have the line `at-landing: yes` behind `of:`. Each changes functions alone, and only these are checked, with
  what they call. One that changes more, as a type that a counter needs, has the line `refused-by:` with those of its functions whose clauses
  must refuse it: only these are checked.

--check tells of a text to be changed that doesn't stand there once, of a wrong `of:`, of a name that stands twice, of a file of
must-fail/ that isn't listed, of one for each landing that changes more than functions, and of other numbers in docs/testing.md than there
are. --mend writes these numbers, `of:` as it is, lists what stands in must-fail/, takes in what stands in files crates/NAME/wrong/NAME.edit,
as one writes a new one or another text of an old one, and removes these. It leaves a list as it is that has a line which is none of an edit,
or a name twice.
"""
import glob
import os
import re
import sys

sys.dont_write_bytecode = True
import paths
from copies import TOP, graph, read, write

LIST = "wrong.edits"

HEAD = "# Wrong bodies of {}: the prover must refuse each. `.ci/edits.py` says how they are written.\n"

# What begins something that has a name: in code a function, a type, a trait or a constant, in definitions a line that isn't indented, or
# one that begins a definition of a module without a name.
ITEM = re.compile(r"^( *)(?:pub(?:\([a-z]+\))? )?(?:const |unsafe |ghost )*(?:fn|struct|enum|trait|const|static|type) (\w+)", re.M)
DEFINITION = re.compile(r"^()(?:  (?=unfoldable|abbrev|opaque))?(?:(?:unfoldable|abbrev|opaque|pub|record|data) )*([^\W_][\w'-]*) ", re.M)

# What functions stand in: the type that an `impl` is of, or a trait.
OWNER = re.compile(r"^(?:unsafe )?(?:impl\b(?:<.*?>)? (?:[^{\n]* for )?|(?:pub )?trait )(\w+)", re.M)


PAGE = f"{TOP}/docs/testing.md"

# How that page counts them.
COUNTED = "**{} stand in `must-fail/`, {} in `wrong.edits` alone ({} for each landing), {} in `run-refuses/`.**"
COUNTS = re.compile(re.escape(COUNTED).replace(r"\{\}", r"\d+"))


class Edit:
    """A wrong body: texts to be put in the place of others in files of a crate."""

    def __init__(self, crate, title, lines):
        self.crate, self.title, self.name, self.changes = crate, title, f"{crate}/{title}", []
        self.at_landing, self.changes_contract, self.calls, self.by = "at-landing: yes" in lines, False, set(), ""
        file = old = ""
        for line in lines:
            if line.startswith("refused-by: "):
                self.by = line[12:].strip()
            elif line.startswith("file: "):
                file = line[6:].strip()
            elif line.startswith("old: "):
                old = line[5:]
            elif line.startswith("new:"):
                self.changes.append((file, old, line[4:].removeprefix(" ")))

    def steps(self, folder, texts):
        """Makes its changes one after the other, and gives of each, before it is made, the text of its file and what it replaces there.

        `texts` has the texts of the crate in the folder that were changed, by their paths, and gets these.
        """
        for file, old, new in self.changes:
            path = f"{folder}/crates/{self.crate}/{file}"
            text = texts.get(file) or (read(path) if os.path.isfile(path) else "")
            yield file, text, old
            texts[file] = text.replace(old, new)

    def apply(self, texts, folder):
        """Changes the texts of the crate in the folder, by their paths, and says whether each text to be changed stands there once."""
        return bool(self.changes) and all(text.count(old) == 1 for _, text, old in self.steps(folder, texts))

    def functions(self, folder):
        """The functions that it changes and whose clauses are to refuse it, by their paths in the crate, or None where that can't be told, since it
        changes something else too. Notes the names of what they call, and whether it changes what stands before a body: others rest on that, and
        what is said of them may not be theirs."""
        top = f"{folder}/crates/{self.crate}/"
        every = {it[len(top) :]: read(it) for it in glob.glob(f"{top}src/**/*.rt", recursive=True)}
        found, is_more, texts = set(), False, {}
        for file, text, old in self.steps(folder, texts):
            at = text.find(old)
            before = [it for it in paths.FUNCTION.finditer(text) if it.start() <= at + len(old)] if file in every else []
            end = before and re.compile(f"^{before[-1][1]}}}", re.M).search(text, before[-1].end())
            if at < 0 or not end or end.start() < at:
                is_more = True
                continue
            found.add(paths.path({**every, file: text}, file, before[-1]))
            begin = paths.body(text, before[-1])
            self.changes_contract = self.changes_contract or at < begin
            self.calls |= set(re.findall(r"(\w+)\(", text[begin : end.start()]))
        if not self.by:
            return None if is_more else found
        self.changes_contract = True
        wanted = [{it for it in found if it == name or it.endswith(f"::{name}")} for name in self.by.split(", ")]
        return set().union(*wanted) if all(len(it) == 1 for it in wanted) else None

    def of(self, folder):
        """What it changes, by name: functions, those of a type as `Type::name`, other items of code, definitions."""
        found = [place(text, text.find(old) + len(old), file) for file, text, old in self.steps(folder, {})]
        return ", ".join(dict.fromkeys(it for it in found if it))

    def lines(self):
        """Its texts, as a file of its own has them."""
        last = None
        for file, old, new in self.changes:
            yield from [f"file: {file}"] if file != last else []
            yield from (f"old: {old}", f"new: {new}" if new else "new:")
            last = file


def place(text, end, file):
    """The name of the item of code, or of the definition, that stands in the text before this place, if any does."""
    before = [it for it in (ITEM if file.endswith(".rt") else DEFINITION).finditer(text) if it.start() < end and it[2] not in ("use", "mod", "module")]
    if not before:
        return ""
    owner = [it[1] for it in OWNER.finditer(text) if it.start() < before[-1].start()] if before[-1][1] else []
    return f"{owner[-1]}::{before[-1][2]}" if owner else before[-1][2]


def alone(crate, path):
    """The wrong body of a crate that stands in a file of its own."""
    return Edit(crate, os.path.basename(path)[:-5], read(path).split("\n"))


def files(folder, crate, kind):
    """The wrong bodies of a crate that stand in files of a folder of this name."""
    return [alone(crate, it) for it in sorted(glob.glob(f"{folder}/crates/{crate}/{kind}/*.edit"))]


def entries(folder, crate):
    """The entries of a crate's list: of each its title, the words behind `of:`, and its wrong body, or None where it stands in must-fail/."""
    path = f"{folder}/crates/{crate}/{LIST}"
    for part in re.split(r"\n(?=name: )", read(path) if os.path.isfile(path) else "")[1:]:
        lines = part.split("\n")
        fields = {it.partition(":")[0]: it.partition(": ")[2] for it in lines}
        edit = None if "must-fail" in fields else Edit(crate, fields["name"], lines)
        yield fields["name"], fields.get("of", ""), edit


def listed(folder, crate):
    """The wrong bodies whose texts stand in a crate's list."""
    return [edit for _, _, edit in entries(folder, crate) if edit]


def edits_of(folder, crate):
    """The wrong bodies of a crate that the prover must refuse."""
    return files(folder, crate, "must-fail") + listed(folder, crate)


def unread(folder, crate):
    """What of a crate's list can't be read, or stands twice, as lines."""
    path, landing, seen = f"{folder}/crates/{crate}/{LIST}", {it.title: it for it in files(folder, crate, "must-fail")}, set()
    for number, line in enumerate(read(path).split("\n") if os.path.isfile(path) else [], 1):
        if line and not re.match(r"name: \w+$|of: .|must-fail: yes$|at-landing: yes$|refused-by: .|file: .|old: .|new:(?: |$)", line) and (number > 1 or line[0] != "#"):
            yield f"{crate}/{LIST}:{number}: no line of an edit: {line[:60]}"
    for title, _, edit in entries(folder, crate):
        if title in seen or edit and title in landing and edit.changes != landing[title].changes:
            yield f"{crate}/{title}: it stands twice"
        seen.add(title)


def faults(folder, crate):
    """What is wrong with a crate's wrong bodies, as lines."""
    yield from unread(folder, crate)
    landing, seen = {it.title: it for it in files(folder, crate, "must-fail")}, set()
    for title, of, edit in entries(folder, crate):
        seen.add(title)
        if edit and title in landing:
            yield f"{crate}/{title}: its texts stand in must-fail/ too"
        edit = edit or landing.get(title)
        if not edit:
            yield f"{crate}/{title}: it isn't in must-fail/"
        elif not edit.apply({}, folder):
            yield f"{crate}/{title}: what it changes doesn't stand there once"
        elif edit.of(folder) != of:
            yield f"{crate}/{title}: it is of {edit.of(folder)}, and not of {of}"
        elif edit.at_landing and not edit.functions(folder):
            yield f"{crate}/{title}: it changes more than functions, so no landing can try these alone, and no line refused-by says of which it can"
    yield from (f"{crate}/{it}: it isn't in {LIST}" for it in landing if it not in seen)
    for edit in files(folder, crate, "wrong"):
        yield f"{edit.name}: it stands in a file of wrong/, and not in {LIST}"
    for edit in files(folder, crate, "run-refuses"):
        if not edit.apply({}, folder):
            yield f"{edit.name}: what it changes doesn't stand there once"


def mend(folder, crate):
    """Writes a crate's list anew, by file, function and name, unless a part of it would be lost so."""
    if any(unread(folder, crate)):
        return
    new = {it.title: it for it in files(folder, crate, "wrong")}
    landing = {it.title: it for it in files(folder, crate, "must-fail")}
    rows, old = [], {it.title: it for it in listed(folder, crate)}
    for title, edit in (old | new | landing).items():
        of, is_marked = edit.of(folder), any(it[title].at_landing for it in (old, new) if title in it)
        marks = ["at-landing: yes"] * is_marked + [f"refused-by: {edit.by}"] * bool(edit.by)
        texts = ["must-fail: yes"] if title in landing else marks + [*edit.lines()]
        place = edit.changes[0][0] if edit.changes else ""
        rows.append(((place, of, title), "".join(f"{it}\n" for it in ["", f"name: {title}", f"of: {of}", *texts])))
    if rows:
        write(f"{folder}/crates/{crate}/{LIST}", HEAD.format(crate) + "".join(text for _, text in sorted(rows)))
    for title in new:
        os.remove(f"{folder}/crates/{crate}/wrong/{title}.edit")
    if new and not os.listdir(f"{folder}/crates/{crate}/wrong"):
        os.rmdir(f"{folder}/crates/{crate}/wrong")


def move(crate, left):
    """Makes those of a crate's must-fail/ files of wrong/, but for one of this name, so that --mend takes them in for each landing. What changes more
    than functions stays."""
    for edit in files(TOP, crate, "must-fail"):
        path = f"{TOP}/crates/{crate}/must-fail/{edit.title}.edit"
        if edit.title != left and edit.functions(TOP):
            os.makedirs(f"{TOP}/crates/{crate}/wrong", exist_ok=True)
            write(f"{TOP}/crates/{crate}/wrong/{edit.title}.edit", "at-landing: yes\n" + read(path))
            os.remove(path)


def counts():
    """How many wrong bodies stand in must-fail/, in the lists alone, how many of these each landing tries, and how many in run-refuses/."""
    landing, run = (sum(len(files(TOP, crate, kind)) for crate in graph()) for kind in ("must-fail", "run-refuses"))
    alone = [it for crate in graph() for it in listed(TOP, crate)]
    return landing, len(alone), sum(it.at_landing for it in alone), run


def counted(page):
    """The page with these numbers in their place."""
    return COUNTS.sub(lambda _: COUNTED.format(*counts()), page)


def main(words):
    if len(words) == 2 and words[0] == "--print":
        # One without texts is the file that a shell has just made for this.
        found = [it for it in edits_of(TOP, words[1].partition("/")[0]) if it.name == words[1] and it.changes]
        print("\n".join(found[0].lines()) if found else f"no wrong body {words[1]}")
        return 0 if found else 1
    if len(words) in (2, 3) and words[0] == "--move" and words[1] in graph():
        move(words[1], words[2] if len(words) == 3 else None)
        words = ["--mend"]
    if words == ["--mend"]:
        for crate in graph():
            mend(TOP, crate)
        write(PAGE, counted(read(PAGE)))
    elif words != ["--check"]:
        sys.exit(__doc__)
    wrong = [line for crate in graph() for line in faults(TOP, crate)]
    wrong += [] if COUNTS.search(read(PAGE)) and counted(read(PAGE)) == read(PAGE) else ["docs/testing.md: it counts them otherwise: .ci/edits.py --mend"]
    for line in wrong:
        print(line)
    print("{} wrong bodies in must-fail/, {} in wrong.edits alone, {} of these for each landing, {} in run-refuses/".format(*counts()) + f"; {len(wrong)} faults")
    return 1 if wrong else 0


if __name__ == "__main__":
    sys.exit(main(sys.argv[1:]))
