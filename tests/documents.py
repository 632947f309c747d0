"""What README.md, CONTRIBUTING.md and docs/ say is there, and is short enough to be read.

It touches no program, so its checks are made once. Each file, heading, crate, function, definition and option that a page cites
has to exist, by its name:

- a link leads to a file, and to a heading of it where it has a `#`;
- words in backquotes that look like a path (`crates/life/specs/Life`, `life/specs/Life`, `tests/run`) are a file or a folder, where an
  ending may be left out and `{A, B}` stands for both; `a::b` of a crate stands in that crate; every other name stands somewhere in
  the repository outside these pages;
- in a row of a table whose first cell is a file of definitions or code, the names of the second cell stand in that file, and so do
  those behind `file:` in an item that begins so;
- a block of commands (```sh) is read by the shell, its targets of make and its programs exist, and so do their options.

What the crates' wrong bodies change stands there (`.ci/edits.py`), and those which docs/proofs.md has by plain name are tried (`.ci/named`).
`refusals.py` has what `.ci/wrong` says of those that aren't refused.

docs/definitions.md names each file of definitions that a clause cites of a call which can be made from outside its crate, but for the
crates BESIDE: which these are is read off the code. How far docs/decisions.md says that a SUBSCRIBE goes is what `walk.py` counts, and each
line of its list names a function. What docs/operating.md says of options and counters is compared with the program's texts, and the pictures
with the tables that they are drawn from. So is README's table with what `bench/peers` wrote, and each commit that a figure names with the
history. Beside these it says what the pages may not become: without a list of their headings, longer than
WORDS in README and docs/, README longer than LINES, a sentence outside tables and code longer than SENTENCE words. Names that stand nowhere
in the repository, since they are of a tool, a language or a protocol, stand in FOREIGN.
"""

import functools
import glob
import importlib.machinery
import importlib.util
import itertools
import os
import re
import shlex
import subprocess
import sys

import refusals
import walk

TOP = os.path.dirname(os.path.dirname(os.path.abspath(__file__)))

PAGES = ["architecture", "decisions", "definitions", "measurements", "operating", "proofs", "protocol", "testing"]

WORDS = 24_000

LINES = 130

SENTENCE = 30

# Names in backquotes that stand nowhere in the repository, since they are of a tool, a language or a protocol.
FOREIGN = {"unsafe", "Z9HG4BK", "skmem", "--nproc", "TheSendSync"}

# Files of definitions that docs/definitions.md may name by what they are, for all crates.
ANYWHERE = {"Errors", "Codes", "Numbers", "Views", "LineViews"}

# Crates of the edge and of the programs, whose definitions stand beside their code: `tests/cited.py` prints them.
BESIDE = {
    "admission", "arguments", "asking", "commands", "control_lines", "digest", "feeds", "keeper", "log_lines", "outage_clock", "plans", "restarts",
    "resumption", "scripts", "server", "service", "shown_text", "summary_bodies", "telling", "transactions", "transport", "udp_command", "voicemail",
    "watchers",
}

# Programs of the system that a block of commands may name.
PROGRAMS = {
    "apt", "cat", "cd", "echo", "htdigest", "install", "journalctl", "make", "notifyd", "nstat", "podman", "printf", "read", "rt", "ss",
    "sysctl", "systemctl", "wc", "inotifywait", "maildir-notify", "export", "touch", "chmod",
}

# Where a path may begin that is one of this repository.
ROOTS = ("crates", "docs", "tests", "contrib", "bench", "field", ".ci")

ENDINGS = ("", ".antt", ".rt", ".edit", ".py", ".page", ".script", ".md")

NAME = re.compile(r"[A-Za-z_][A-Za-z0-9_]*(?:::[A-Za-z_][A-Za-z0-9_]*)*(?:\(\))?$")

FUNCTION = re.compile(r"\bfn (\w+)")

# A commit by its first digits, in a text.
COMMIT = re.compile(r"(?<![\w.-])(?=\w*[a-f])(?=\w*\d)[0-9a-f]{7,8}(?![\w-])")

SPAN = re.compile(r"(?<!`)(`+)(?!`)(.+?)(?<!`)\1(?!`)")


@functools.cache
def read(path):
    with open(os.path.join(TOP, path), encoding="utf-8", errors="replace") as file:
        return file.read()


def pages():
    """The pages, as paths from the top of the repository."""
    return ["README.md", "CONTRIBUTING.md", *(f"docs/{name}.md" for name in PAGES)]


@functools.cache
def crates():
    return {os.path.basename(path) for path in glob.glob(f"{TOP}/crates/*")}


@functools.cache
def words_of(*roots):
    """Every word that stands in a file below these folders, or in its name, but not in a comment of code."""
    found = set()
    for root in roots:
        place = os.path.join(TOP, root)
        if os.path.isfile(place):
            found |= set(re.findall(r"\w+", read(root)))
        for folder, folders, files in os.walk(place):
            folders[:] = [it for it in folders if it not in ("out", "__pycache__", "data")]
            found |= set(itertools.chain.from_iterable(re.findall(r"\w+", it) for it in [*folders, *files]))
            for name in files:
                # Not this one, whose texts are those of the checks.
                found |= set(re.findall(r"\w+", code(os.path.join(folder, name)))) if name != "documents.py" else set()
    return found


def code(path):
    """The text of a file, that of code and definitions without what comments say."""
    comment = {".rt": r"//.*", ".antt": r"--.*"}.get(os.path.splitext(path)[1])
    return re.sub(comment, "", read(path)) if comment else read(path)


def prose(text):
    """The text without its blocks of code."""
    return re.sub(r"^```.*?^```$", "", text, flags=re.M | re.S)


def blocks(text, language):
    """The blocks of code in this language."""
    return re.findall(rf"^```{language}\n(.*?)^```$", text, flags=re.M | re.S)


def spans(text):
    """What stands in backquotes outside blocks of code."""
    return [it[1].strip() for it in SPAN.findall(prose(text))]


def told(wrong):
    """Fails with all that is wrong."""
    assert not wrong, "; ".join(wrong[:12])


def there_are_eight(_program, _folder):
    there = sorted(os.path.basename(it)[:-3] for it in glob.glob(f"{TOP}/docs/*.md"))
    assert there == PAGES, f"docs/ has {there}"


def words_are_few(_program, _folder):
    count = sum(len(read(page).split()) for page in pages() if page != "CONTRIBUTING.md")
    assert count <= WORDS, f"{count} words in all, where {WORDS} may stand"


def the_first_page_is_short(_program, _folder):
    count = read("README.md").count("\n")
    assert count <= LINES, f"README.md has {count} lines, where {LINES} may stand"


def sentences(text):
    """The sentences of a page outside tables and code, headings and items apart."""
    for part in re.split(r"\n\s*\n|\n(?=\s*(?:[-*]|\d+\.) )|\n(?=#)", prose(text)):
        lines = [it for it in part.split("\n") if not it.lstrip().startswith("|") and not it.startswith(("#", "    "))]
        yield from re.split(r"(?<=[.?!:;])(?:\*\*)?\s+(?=[^a-z])|(?<=[.?!])\s", " ".join(lines).strip())


def sentences_are_short(page):
    def check(_program, _folder):
        long = [it for it in sentences(read(page)) if len(it.split()) > SENTENCE]
        told([f"{len(it.split())} words: {it[:70]} .." for it in long])

    return check


def anchor(heading):
    """The name by which a heading is linked to."""
    return re.sub(r"[^\w\- ]", "", heading.replace("`", "").strip().lower()).replace(" ", "-")


def contents_are_listed(page):
    """A page begins with a list of its headings, each by its link, in their order."""

    def check(_program, _folder):
        before = read(page).partition("\n## ")[0]
        listed = re.findall(r"^- \[[^\]]*\]\(#([^)]*)\)", before, flags=re.M)
        there = [anchor(it) for it in re.findall(r"^## (.*)$", prose(read(page)), flags=re.M)]
        assert listed == there, f"listed, but no heading: {[it for it in listed if it not in there]}; not listed: {[it for it in there if it not in listed]}; or another order"

    return check


def the_clause_is_the_codes(_program, _folder):
    section = read("docs/proofs.md").partition("\n## How to read a clause\n")[2].partition("\n## ")[0]
    files = (text_files(path) for span in spans(section) for path in files_of(span))
    there = {line.strip() for it in itertools.chain.from_iterable(files) for line in read(it).split("\n")}
    lines = [line.strip() for block in blocks(section, "text") for line in block.split("\n") if line.strip()]
    assert lines, "docs/proofs.md has no clause under How to read a clause"
    told([f"no line {it}" for it in lines if it not in there])


def lines_below(*patterns):
    """How many lines the files of these patterns have."""
    return sum(read(os.path.relpath(it, TOP)).count("\n") for pattern in patterns for it in glob.glob(f"{TOP}/crates/{pattern}", recursive=True))


def sizes_are_right(_program, _folder):
    """How much there is to be read for the headline is told within a tenth."""
    page = read("docs/proofs.md")
    found = re.search(r"some ([\d,]+) lines of definitions in all `specs/` the headline below cites (\d+) files, with some ([\d,]+) lines.*?the ([\d,]+) lines in `proofs/`", page)
    assert found, "docs/proofs.md doesn't say how much there is to be read"
    every, files, cited_lines, proofs = (int(it.replace(",", "")) for it in found.groups())
    line = next(it for it in page.split("\n") if it.startswith("**To believe the headline, read**"))
    named = [it for span in spans(line) for path in files_of(span) for it in text_files(path)]
    assert len(named) == files, f"docs/proofs.md names {len(named)} files for the headline, and says {files}"
    sizes = {every: lines_below("*/specs/**/*.antt"), cited_lines: sum(read(it).count("\n") for it in named), proofs: lines_below("*/proofs/**/*.antt")}
    told([f"docs/proofs.md has {it} lines, where there are {there}" for it, there in sizes.items() if abs(it - there) > there / 10])


def pictures_are_drawn(_program, _folder):
    ended = subprocess.run(["bench/draw", "--check"], cwd=TOP, capture_output=True, text=True)
    assert ended.returncode == 0, ended.stdout.strip() + ended.stderr.strip()


# The rows of README's table beside peers, each by its beginning, with the rows of docs/figures/peers.tsv that its numbers are from.
PEER_ROWS = {
    "microseconds of a processor a subscription": [f"microseconds of a processor a subscription, {it} at a time" for it in (1, 16, 64)],
    "microseconds of a processor a whole life": ["microseconds of a processor a whole life"],
    "subscriptions a second": [f"subscriptions a second, {it} at a time" for it in (1, 16, 64)],
    "memory after": ["memory after 44,000 subscriptions, MB"],
    "300 NOTIFYs": ["300 NOTIFYs of one change, first to last, ms"],
    "20 changes": ["20 changes at once: wrong of 300, NOTIFYs"],
    "subscriptions lost of 300": [f"{it} % of datagrams lost: dead of 300" for it in (20, 30)],
}


def numbers_of(text):
    return [float(it.replace(",", "")) for it in re.findall(r"\d[\d,]*(?:\.\d+)?", text)]


def peers_are_the_measured(_program, _folder):
    """README's table is of the day and the commit that bench/peers wrote, and has its numbers, rounded."""
    written = {cells[0]: cells[1:] for cells in (it.split("\t") for it in read("docs/figures/peers.tsv").splitlines())}
    said = re.search(r"Measured by `bench/peers` \(([\d-]+), (\w+)\)", read("README.md"))
    assert said and [*said.groups()] == [written["date"][0], written["commit"][0]], f"README.md says {said and said.groups()} of bench/peers"
    wrong, there = [], list(rows("README.md"))
    for begin, names in PEER_ROWS.items():
        cells = next((it[1:] for it in there if it[0].startswith(begin)), [])
        for place, cell in enumerate(cells):
            wanted = [numbers_of(written[it][place])[0] for it in names]
            came = numbers_of(cell)
            if len(came) != len(wanted) or any(abs(it - want) > 0.01 * want for it, want in zip(came, wanted)):
                wrong.append(f"{begin}: {cell}, where bench/peers has {wanted}")
        wrong += [] if cells else [f"no row {begin}"]
    told(wrong)


def figures_say_how(_program, _folder):
    """Each section of figures says by which script they were measured, and of which commit the program was."""
    wrong = []
    for section in re.split(r"^## ", read("docs/measurements.md"), flags=re.M)[2:]:
        scripts = [it for it in spans(section) if it.split("/")[0] in ("bench", "field")]
        wrong += [] if scripts and COMMIT.search(prose(section)) else [f"no script or no commit under {section.splitlines()[0]}"]
    told(wrong)


def commits_are_here(_program, _folder):
    """Each commit that a page names is one of this history. A copy whose history was cut off says nothing."""
    history = subprocess.run(["git", "rev-list", "HEAD"], cwd=TOP, capture_output=True, text=True).stdout.split()
    is_cut = subprocess.run(["git", "rev-parse", "--is-shallow-repository"], cwd=TOP, capture_output=True, text=True).stdout.strip() != "false"
    named = [(page, it) for page in pages() for it in COMMIT.findall(prose(read(page)))]
    told([] if is_cut or len(history) < 100 else [f"{page}: no commit {it} in this history" for page, it in named if not any(full.startswith(it) for full in history)])


def links_lead_somewhere(page):
    def check(_program, _folder):
        wrong = re.findall(r"^(?:<{7}|={7}|>{7}).*$", read(page), flags=re.M)
        for target in re.findall(r"\]\(([^)\s]+)\)", prose(read(page))):
            if target.startswith(("http:", "https:")):
                continue
            path, _, part = target.partition("#")
            place = os.path.normpath(os.path.join(os.path.dirname(page), path)) if path else page
            if not os.path.exists(os.path.join(TOP, place)):
                wrong.append(f"no file {place}")
            elif part and part not in {anchor(it) for it in re.findall(r"^#+ (.*)$", prose(read(place)), flags=re.M)}:
                wrong.append(f"no heading #{part} in {place}")
        told(wrong)

    return check


def is_there(path):
    """Whether a path is that of a file or folder; of a crate `crates/` may be left out, and of a file its ending. A list of wrong bodies is
    the folder of those that it has."""
    crate, is_listed, name = path.partition("/wrong.edits/")
    if is_listed:
        return f"name: {name}" in read(f"crates/{crate}/wrong.edits").split("\n")
    prefix = "" if path.split("/")[0] in ROOTS else "crates/"
    return any(glob.glob(f"{TOP}/{prefix}{path.rstrip('/')}{ending}") for ending in ENDINGS)


def files_of(span):
    """The paths that stand in a span, with braces taken apart; none where it is no path of this repository."""
    first = span.split("/")[0]
    if "/" not in span or not (first in ROOTS or first in crates()) or re.search(r"[<>$ ](?![^{]*\})", span):
        return []
    braces = re.search(r"\{(.*?)\}", span)
    if not braces:
        return [span]
    return [span.replace(braces[0], it.strip()) for it in braces[1].split(",")]


def unknown(span):
    """What of a span in backquotes is nowhere to be found, or None."""
    paths = files_of(span)
    if paths:
        # What is built stands in a folder that isn't kept.
        return next((it for it in paths if "/out/" not in it and not is_there(it)), None)
    if not NAME.match(span):
        return None
    first, *others = span.rstrip("()").split("::")
    if others and first in crates():
        return next((f"{it} of {first}" for it in others if it not in words_of_crate(first)), None)
    return next((it for it in [first, *others] if it not in all_words()), None)


@functools.cache
def words_of_crate(crate):
    """The words of a crate, and of those whose names it may hand on."""
    line = next(it for it in read("crates.txt").split("\n") if it.startswith(f"{crate}:"))
    return words_of(f"crates/{crate}", *(f"crates/{it}/src" for it in line.split(":")[1].split() if it in crates()))


@functools.cache
def all_words():
    """The words of the repository outside these pages."""
    return words_of(*(it for it in ROOTS if it != "docs"), "Makefile", "crates.txt", "HANDLES") | FOREIGN


def names_exist(page):
    def check(_program, _folder):
        told([f"no {it}" for it in map(unknown, spans(read(page))) if it])

    return check


def rows(page):
    """The rows of tables, each a list of its cells, and items that begin with names: what stands before a colon, and behind it."""
    for line in prose(read(page)).split("\n"):
        if line.startswith("- `"):
            first, _, names = line[2:].partition(": ")
            yield [first, names.partition(". ")[0]]
        if line.startswith("|") and not set(line) <= set("|-: "):
            yield [it.strip() for it in re.split(r"(?<!\\)\|", line.strip().strip("|"))]


def rows_name_their_file(page):
    def check(_program, _folder):
        wrong = []
        for cells in rows(page):
            paths = [it for span in spans(cells[0]) for it in files_of(span)]
            texts = [read(it) for path in paths if path.split("/")[0] in {"crates"} | crates() for it in text_files(path)]
            if not texts or len(cells) < 2:
                continue
            known = set(re.findall(r"\w+", " ".join(texts)))
            wrong += [f"no {it} in {cells[0]}" for it in spans(cells[1]) if NAME.match(it) and it.split("::")[-1] not in known]
        told(wrong)

    return check


def text_files(path):
    """The files of definitions and code that a path names."""
    prefix = "" if path.split("/")[0] in ROOTS else "crates/"
    return [f"{prefix}{path}{it}" for it in ("", ".antt", ".rt") if os.path.isfile(f"{TOP}/{prefix}{path}{it}")]


def commands(block):
    """The commands of a block, as lists of words."""
    for line in block.replace("\\\n", " ").split("\n"):
        line = line.split(" # ")[0]
        if line.strip() and not line.startswith("#"):
            for part in re.split(r"\s(?:\||&&|;|do)\s", line):
                words = shlex.split(part, comments=True)
                if words:
                    yield words


def options_of(name):
    """The text in which the options of a program stand."""
    if name == "notifyd":
        return read("crates/commands/src/help.rt") + read("crates/arguments/src/arguments.rt") + read("crates/arguments/src/udp_arguments.rt")
    return read(name) if os.path.isfile(f"{TOP}/{name}") else None


def wrong_command(words):
    """What is wrong with a command, or None."""
    name = words[0]
    if name == "make":
        goals = [it for it in words[1:] if re.match(r"[a-z]+$", it)]
        ended = subprocess.run(["make", "-n", *goals], cwd=TOP, capture_output=True, text=True)
        return None if ended.returncode == 0 else f"make {goals}: {ended.stderr.strip()}"
    lost = next((it for it in words if it.split("/")[0] in ROOTS and "/" in it and "/out/" not in it and not is_there(it)), None)
    if lost:
        return f"no file {lost}"
    if "/" not in name and name not in PROGRAMS:
        return f"no program {name} that is known"
    known = options_of("notifyd" if os.path.basename(name) == "notifyd" else name)
    missing = [it for it in words[1:] if known and re.match(r"--[a-z]", it) and it.split("=")[0] not in known]
    return f"{name} has no {missing}" if missing else None


def commands_can_be_typed(page):
    def check(_program, _folder):
        wrong = []
        for block in blocks(read(page), "sh"):
            ended = subprocess.run(["bash", "-n"], input=block, capture_output=True, text=True)
            wrong += [ended.stderr.strip()] if ended.returncode else []
            wrong += [it for it in map(wrong_command, commands(block)) if it]
        told(wrong)

    return check


def options_stand_in_the_manual(_program, _folder):
    manual = read("contrib/notifyd.8").replace("\\-", "-")
    told([f"{it} isn't in contrib/notifyd.8" for it in re.findall(r"^  (--[a-z-]+)", read("crates/commands/src/help.rt"), flags=re.M) if it not in manual])


def options_exist(_program, _folder):
    known = " ".join(read(it) for it in ["crates/commands/src/help.rt", "contrib/notifyd.8", *scripts()]).replace("\\-", "-")
    named = [(page, it) for page in pages() for span in spans(read(page)) for it in re.findall(r"(?<!\w)--[a-z][a-z-]+", span)]
    told([f"{page}: {it}" for page, it in named if it not in known and it not in FOREIGN])


def defaults_are_the_programs(_program, _folder):
    helped = dict(re.findall(r"^  (--[a-z-]+) .*\((\d+)\)$", read("crates/commands/src/help.rt"), flags=re.M))
    told_of = {}
    for block in blocks(read("docs/operating.md"), "text"):
        told_of |= {it[0]: it[2] for it in (re.split(r"\s{2,}", line) for line in block.split("\n")) if it[0].startswith("--")}
    told([f"{it} is {helped[it]} by --help and {told_of.get(it)} in docs/operating.md" for it in helped if told_of.get(it) != helped[it]])


def scripts():
    """The scripts of the repository."""
    return [os.path.relpath(it, TOP) for root in ("tests", "contrib", "bench", "field", ".ci") for it in glob.glob(f"{TOP}/{root}/*") if os.path.isfile(it)] + [
        "crates/arguments/src/arguments.rt", "crates/arguments/src/udp_arguments.rt"
    ]


def counters_are_explained(_program, _folder):
    names = re.findall(r'\("([a-z_0-9]+)", &self\.', read("crates/service/src/shared/counters.rt"))
    known = {it for cells in rows("docs/operating.md") for it in spans(cells[0])}
    told([f"{it} isn't in docs/operating.md" for it in names if it not in known])


def uncommented(path):
    """The text of a file of code without its comments."""
    return re.sub(r"//.*", "", read(path))


@functools.cache
def shown(crate):
    """What of its files a crate shows to others: by file the names that it hands on, or None where all that is public there can be named."""
    found, top = {}, f"crates/{crate}/src"

    def look(file, folder):
        found[file] = None
        for path, names in re.findall(r"^pub use ((?:\w+::)+)(\w+|\{[^}]*\})(?: as \w+)?;", uncommented(file), flags=re.M):
            inner = f"{folder}/{path[:-2].replace('::', '/')}.rt"
            if os.path.isfile(f"{TOP}/{inner}") and found.get(inner, ()) is not None:
                found.setdefault(inner, set()).update(re.findall(r"\w+", names))
        for name in re.findall(r"^pub mod (\w+);", uncommented(file), flags=re.M):
            look(f"{folder}/{name}.rt", f"{folder}/{name}")

    look(f"{top}/lib.rt", top)
    return found


@functools.cache
def kinds(crate):
    """The names of the types that a crate shows."""
    every = set()
    for file, names in shown(crate).items():
        there = set(re.findall(r"^pub (?:struct|enum|trait) (\w+)", uncommented(file), flags=re.M))
        every |= there if names is None else there & names
    return every


def items(text, names, types):
    """The items of a file of code that others can call something of: public functions and traits of one of these names, or of any where
    there are none, and what is written of one of these types. Each with whether it is a function, and whether its functions are as
    public as it is itself."""
    for found in re.finditer(r"^(pub )?(?:(?:const )?(?:unsafe )?fn (\w+)|trait (\w+)|impl\b(.*))", text, flags=re.M):
        public, function, trait, implemented = found.groups()
        end = re.compile(r"^\}", re.M).search(text, found.end())
        whole = text[found.start() : end.end() if end else len(text)]
        if implemented is not None:
            target = re.sub(r"<.*", "", re.sub(r"^<(?:[^<>]|<[^<>]*>)*>", "", implemented).split(" for ")[-1])
            if types & set(re.findall(r"\w+", target)):
                yield whole, False, " for " in implemented
        elif public and (names is None or (function or trait) in names):
            yield whole, bool(function), bool(trait)


def heads(text, names, types):
    """What stands before the bodies of the functions that can be called from outside."""
    for whole, is_function, is_open in items(text, names, types):
        indent, visibility = ("", "pub ") if is_function else ("    ", "(?:pub )?" if is_open else "pub ")
        for found in re.finditer(rf"^{indent}{visibility}(?:const )?(?:unsafe )?fn \w+", whole, flags=re.M):
            end = re.compile(rf"^{indent}[{{}}]|;$", re.M).search(whole, found.end())
            yield whole[found.start() : end.start() if end else len(whole)]


def clauses(head):
    """The clauses among them, each in its braces."""
    for found in re.finditer(r"\b(?:requires|ensures)\b(?: \w+)? \{", head):
        depth = 0
        for brace in re.compile(r"[{}]").finditer(head, found.end() - 1):
            depth += 1 if brace[0] == "{" else -1
            if depth == 0:
                yield head[found.end() : brace.start()]
                break


def imported(text):
    """The names that a file of code may cite in clauses, each with the file of definitions of this repository that it is of."""
    names = {}
    for crate, file, listed, alias in re.findall(r"ghost use Rattle\.(\w+)\.specs\.(\w+(?:\.[a-z_]\w*)*)(?:\.\{([^}]*)\}| as (\w+));", text):
        path = f"{crate}/specs/{file.replace('.', '/')}"
        if os.path.isfile(f"{TOP}/crates/{path}.antt"):
            for it in [alias] if alias else listed.split(","):
                names |= {it.split()[-1]: path} if it.split() else {}
    return names


@functools.cache
def cited():
    """The files of definitions that clauses of calls cite which can be made from outside their crate, each with such a call."""
    found = {}
    for crate in sorted(it for it in crates() if os.path.isfile(f"{TOP}/crates/{it}/src/lib.rt")):
        for path in sorted(glob.glob(f"{TOP}/crates/{crate}/src/**/*.rt", recursive=True)):
            file = os.path.relpath(path, TOP)
            text, known = uncommented(file), imported(uncommented(file))
            for head in heads(text, shown(crate).get(file, set()), kinds(crate)):
                for word in re.findall(r"[\w'-]+", " ".join(clauses(head))):
                    if word in known:
                        found.setdefault(known[word], f"{crate}::{re.search(FUNCTION, head)[1]}")
    return found


def cited_definitions_are_named(_program, _folder):
    page = read("docs/definitions.md")
    named = {it.removeprefix("crates/") for span in spans(page) for it in files_of(span)}
    anywhere = ANYWHERE & set(spans(page))
    listed = [it for it in sorted(cited()) if it.split("/")[0] not in BESIDE]
    missing = [it for it in listed if it not in named and os.path.basename(it) not in anywhere]
    told([f"{it}, which {cited()[it]} cites, isn't in docs/definitions.md" for it in missing])


def cited_definitions_say_what_they_are(_program, _folder):
    told([f"{it}, which {call} cites, doesn't begin with a comment" for it, call in cited().items() if not read(f"crates/{it}.antt").startswith("-- ")])


def crates_beside_are_named(_program, _folder):
    section = read("docs/definitions.md").partition("## The edge and the programs\n")[2]
    wrong = [f"docs/definitions.md doesn't name {it}" for it in sorted(BESIDE) if f"`{it}`" not in section]
    count = f"{len(BESIDE)} crates"
    for page, words in {"docs/definitions.md": f"[those of {count}](", "CONTRIBUTING.md": f"For the {count} of ["}.items():
        wrong += [] if words in read(page) else [f"{page} doesn't say: {words}"]
    told(wrong)


def others_cite_what_is_there(_program, _folder):
    wrong = []
    files = subprocess.run(["git", "ls-files"], cwd=TOP, capture_output=True, text=True).stdout.split("\n")
    for path in files:
        if path and not path.startswith("docs/") and os.path.isfile(f"{TOP}/{path}"):
            cited = re.findall(r"\bdocs/([A-Za-z]+)(?:\.md)?\b", read(path))
            there = {*PAGES, "figures"}
            wrong += [f"{path} cites docs/{it}" for it in cited if it not in there and path != "tests/documents.py"]
    told(wrong)


def wrong_bodies_can_be_planted(_program, _folder):
    ended = subprocess.run([f"{TOP}/.ci/edits.py", "--check"], capture_output=True, text=True)
    assert ended.returncode == 0, "; ".join(ended.stdout.split("\n")[:12]) + ended.stderr


@functools.cache
def script_of(name):
    """A script of .ci/ as a module."""
    sys.path.append(os.path.join(TOP, ".ci"))
    loader = importlib.machinery.SourceFileLoader(name, os.path.join(TOP, ".ci", name))
    module = importlib.util.module_from_spec(importlib.util.spec_from_loader(name, loader))
    loader.exec_module(module)
    return module


def named_ones_are_tried(_program, _folder):
    named = script_of("named")
    told(named.faults(named.named(read("docs/proofs.md")), None))


def last_words_are_written(_program, _folder):
    crates_there, last = crates(), script_of("last.py")
    wrong = [it for it in last.lines() for said in [last.LINE.fullmatch(it)] if not said or said[2] not in crates_there or len((said[8] or "").split(", ")) != max(1, int(said[5]))]
    told([f"tests/wrong-last.txt has a line that .ci/last.py doesn't write: {it}" for it in wrong])
    page = read("docs/testing.md")
    assert last.SUM.search(page) and last.summed(page) == page, "docs/testing.md sums them up otherwise: .ci/last.py --mend"


# Lists of named wrong bodies with a fault each, and what `.ci/named` says of it.
FAULTS = {
    "- A: `life/must-fail/one_counter_is_isolated` (the law).": "no edit that is tried changes code",
    "- A: `life/must-fail/no_such_edit` (`f`).": "it isn't there",
    "- A: nothing at all.": "it has no edit",
    "- A: `notifier/wrong.edits/an_edit` (`f`).": "it isn't there",
    "- A: `service/wrong.edits/a_tick_is_told_twice` (`tell_time`).": "it is tried by no landing",
    "- A: `notifier/must-fail/an_id_has_no_case` (`same_text`).": "it isn't there",
    "- A: `message_summary/must-fail/only_the_changed_class_is_told`; in `notifier/wrong.edits`, `another`.": "`notifier/wrong.edits` is no path of an edit",
    "- A: `message_summary/must-fail/only_the_changed_class_is_told`; of the same, `the_ring_never_drops`.": "`the_ring_never_drops` is no path of an edit",
}


def named_tells_faults(_program, _folder):
    named, tried = script_of("named"), "message_summary/must-fail/only_the_changed_class_is_told"
    good = f"- A: `{tried}`, `notifier/wrong.edits/{{an_id_has_no_case, the_ring_never_drops}}` (`set_counts`)."

    def faults(items, said=None):
        return named.faults(named.named(f"## {named.LIST}\n\n{items}\n"), said)

    wanted = sum(len(glob.glob(f"{TOP}/crates/{it}/must-fail/*.edit")) for it in named.graph())
    ended = "rt: ok; handles allowed: none; must-fail edits: {} refused{}; every proof and must-fail edit was done in this run"
    ended += "".join(f"\n{it.name}: refused" for it in named.marked())
    limit = "rt: must-fail message_summary/only_the_changed_class_is_told.edit: refused, as it must be (only by a limit of the prover, which gave no verdict): x\n"
    wrong = faults(good) + faults(good, ended.format(wanted, ""))
    for items, fault in FAULTS.items():
        wrong += [] if any(fault in it for it in faults(items)) else [f"{items} isn't told as: {fault}"]
    untold = ended.format(wanted, "").replace(f"{named.marked()[0].name}: refused", f"{named.marked()[0].name}: NOT REFUSED: the crate is proved with it")
    for said in (limit + ended.format(wanted, ", 1 of them only by a limit"), ended.format(wanted - 1, ""), ended.format(wanted, ", 1 bad"), "rt: not ok", untold):
        wrong += [] if faults(good, said) else [f"nothing is told of: {said}"]
    told(wrong)


def the_way_is_counted(_program, _folder):
    steps, wrong = walk.walk()
    assert not wrong, "; ".join(wrong)
    told = re.search(r"A SUBSCRIBE passes (\d+) functions in (\d+) files .*?(\d+) changes of file.*? it is (\d+) in (\d+), with (\d+) changes", read("docs/decisions.md"))
    assert told, "docs/decisions.md doesn't say how far a SUBSCRIBE goes"
    counted = [number for it in walk.counts(steps) for number in (it.functions, it.files, it.turns)]
    assert [int(it) for it in told.groups()] == counted, f"docs/decisions.md has {told.groups()}, tests/walk.py counts {counted}"


def checks_apart():
    yield "docs/ has its eight pages", there_are_eight
    yield "the way of a SUBSCRIBE is what is counted", the_way_is_counted
    yield f"at most {WORDS} words in all", words_are_few
    yield f"README.md has at most {LINES} lines", the_first_page_is_short
    for page in pages():
        yield f"{page}: no sentence is longer than {SENTENCE} words", sentences_are_short(page)
        yield f"{page}: its links lead somewhere", links_lead_somewhere(page)
        if page != "README.md":
            yield f"{page}: it lists its contents", contents_are_listed(page)
        yield f"{page}: what it names exists", names_exist(page)
        yield f"{page}: its tables name what stands in the file", rows_name_their_file(page)
        yield f"{page}: its commands can be typed", commands_can_be_typed(page)
    yield "docs/definitions.md names what clauses cite", cited_definitions_are_named
    yield "each file of definitions that clauses cite says what it is", cited_definitions_say_what_they_are
    yield "docs/definitions.md names the crates whose definitions it doesn't list", crates_beside_are_named
    yield "docs/proofs.md: its clause and definitions are the code's", the_clause_is_the_codes
    yield "docs/proofs.md: what there is to be read is counted", sizes_are_right
    yield "the pictures are what the measured tables give", pictures_are_drawn
    yield "README.md: its table beside peers is what bench/peers wrote", peers_are_the_measured
    yield "docs/measurements.md: each section says by which script, and of which commit", figures_say_how
    yield "each commit that a page names is of this history", commits_are_here
    yield "each option stands in the manual", options_stand_in_the_manual
    yield "each option that a page names exists", options_exist
    yield "what options are without a number is what --help says", defaults_are_the_programs
    yield "each counter is explained", counters_are_explained
    yield "what other files cite of docs/ exists", others_cite_what_is_there
    yield "each wrong body can be planted, and is listed", wrong_bodies_can_be_planted
    yield "each wrong body that docs/proofs.md has by plain name is tried, in code", named_ones_are_tried
    yield ".ci/named tells each fault of such a list", named_tells_faults
    yield from refusals.checks()
    yield "what was last said of the wrong bodies is as .ci/last.py writes it", last_words_are_written
