"""Scripts, and the pages that they are to have.

Each run NAME, but for those of `COUNTED`, has its script in `data/NAME.script` and its page in `data/NAME.page`, with the line
ends of SIP in their datagrams alone. The pages were put together from the layouts of `docs/protocol.md`, and not by the program.
The runs of `data/runs` are the program's without arguments.
"""

import os

from suite import ended_with, run, same

DATA = os.path.join(os.path.dirname(os.path.abspath(__file__)), "data")

SEED = "00112233445566778899aabbccddeeffFFEEDDCCBBAA99887766554433221100"

# The runs of the program with arguments.
CALLED = [
    ("another_seed_gives_other_tags", ["script", "--seed", SEED, "1", "alice", "bob"]),
    ("two_workers_have_a_mailbox_each", ["script", "2", "alice", "bob"]),
    ("a_tag_or_a_mailbox_names_the_worker", ["script", "2", "alice", "bob"]),
    ("three_workers_keep_what_is_theirs", ["script", "3", "alice", "bob", "dave"]),
    ("a_planned_stop_ends_a_subscription", ["script", "--stop", "1", "alice"]),
    ("a_planned_stop_ends_all_by_rising_serial", ["script", "--stop", "2", "alice", "bob"]),
]

# One script, and its pages by so many workers. But for their tags, alice and bob are told the same in each: numbers, states and
# bodies.
COUNTED_SCRIPT = "the_number_of_workers_does_not_show"
COUNTED = [
    ("one_worker_tells_both", ["script", "1", "alice", "bob"]),
    ("two_workers_tell_the_same", ["script", "2", "alice", "bob"]),
    ("three_workers_tell_the_same", ["script", "3", "alice", "bob"]),
]


def data(name):
    """The bytes of a file of `data`."""
    with open(os.path.join(DATA, name), "rb") as file:
        return file.read()


def runs():
    """All runs: the name of the page, that of the script, and the words of the call."""
    for name in data("runs").decode().splitlines():
        yield name, name, []
    for name, words in CALLED:
        yield name, name, words
    for name, words in COUNTED:
        yield name, COUNTED_SCRIPT, words


def gives_its_page(page, script, words):
    """A check that the call with these words gives the page of the script."""

    def check(program, _):
        ended = run(program, words, data(f"{script}.script"))
        same("the page", data(f"{page}.page"), ended.out)
        ended_with(ended, 0, ended.out, b"")

    return check


def each_file_is_of_a_run(_program, _folder):
    """No script and no page is left out."""
    named = {f"{page}.page" for page, _, _ in runs()} | {f"{script}.script" for _, script, _ in runs()}
    kept = {name for name in os.listdir(DATA) if name.endswith((".script", ".page"))}
    same("scripts and pages of no run", set(), kept - named)


def checks():
    for page, script, words in runs():
        yield page, gives_its_page(page, script, words)
    yield "each script and each page is of a run", each_file_is_of_a_run
