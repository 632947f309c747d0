"""`notifyd tell RELOAD`: the files of mailboxes and of passwords are read again while phones watch and mails come. No other phone notices.

The service goes on as behind a kill that lost nothing: what `crashes.py` asks of a kill is asked of a RELOAD too. Where a file is bad the
RELOAD is refused with the line, and nothing changes.
"""

import contextlib
import os
import re
import selectors
import subprocess
import sys
import time
from concurrent.futures import ThreadPoolExecutor

sys.dont_write_bytecode = True

from crashes import MAILBOXES, PATIENCE, SETTLED, Phone, Town
from suite import Running, free_port, run, same, tell_close

NEW, GONE = "brand-new", MAILBOXES[1]

CONTRIB = os.path.join(os.path.dirname(os.path.dirname(os.path.abspath(__file__))), "contrib")

# How many phones watch.
PHONES = 36


def write(path, lines):
    """A file with these lines, in place of another at once."""
    with open(f"{path}.new", "w") as file:
        file.writelines(f"{line}\n" for line in lines)
    os.replace(f"{path}.new", path)


class Place(Town):
    """A town whose mailboxes stand in a file."""

    def __init__(self, program, folder, phones=PHONES, words=(), seed=1):
        super().__init__(program, folder, phones, seed)
        self.file = os.path.join(folder, "mailboxes")
        write(self.file, MAILBOXES)
        self.mailboxes = ()
        self.words += ["--mailboxes", self.file, *words]

    def meanwhile(self, what, call, *words, tells=False):
        """What this call gives, while all go on."""
        with ThreadPoolExecutor(1) as pool:
            came = pool.submit(call, *words)
            self.wait(what, came.done, tells=tells)
        return came.result()

    def told(self, line):
        """What a control line is answered, while all go on: so no phone is late to answer, however late that comes."""
        return self.meanwhile(f"an answer to {line}", self.ask, line)

    def reload(self, tells=True):
        """What `tell RELOAD` answers, while all go on."""
        words = ["tell", "--control", "%s:%d" % self.control, "RELOAD"]
        return self.meanwhile("a RELOAD is answered", run, self.program, words, tells=tells)

    def reload_well(self, tells=True):
        """A RELOAD with good files. Where the machine is so busy that `tell` gives up before the service is there again it is told anew."""
        end = time.monotonic() + PATIENCE
        ended = self.reload(tells)
        while ended.status == 3 and time.monotonic() < end:
            ended = self.reload(tells)
        same("RELOAD, its status and what it prints", (0, b"", b""), (ended.status, ended.out, ended.err))

    def new_phone(self, mailbox):
        phone = Phone(len(self.phones), mailbox, self.sip, True)
        self.phones.append(phone)
        self.selector.register(phone.socket, selectors.EVENT_READ, phone)
        return phone

    def next_numbers(self):
        """Each phone that watches is told the next change by the next number."""
        live = [phone for phone in self.phones if phone.is_live]
        before = {phone.call: max(phone.told) for phone in live}
        for mailbox, is_on in self.operator.truth.items():
            same(f"a change of {mailbox}", "ok", self.told(f"MAIL {mailbox} voice {int(is_on)} 42 0 0"))
        self.wait("each is told", lambda: all(max(phone.told) > before[phone.call] for phone in live))
        same("numbers", [], [(phone.call, before[phone.call], max(phone.told)) for phone in live if max(phone.told) != before[phone.call] + 1])

    def all_goes_on(self, seconds=SETTLED):
        """The lamps become right so many seconds behind a start, the next change is told by the next number, and no dialog is over."""
        self.come_right(seconds)
        self.next_numbers()
        self.all_stay()

    def knows(self, mailbox):
        """Changes of this mailbox are taken."""
        same(f"a line for {mailbox}", "ok", self.ask(f"MAIL {mailbox} voice 1 0 0 0"))

    def runs(self):
        """How often a run said that it listens."""
        self.log.seek(0)
        return self.log.read().count(b"listening at ")

    def is_up(self):
        """For how many seconds it is up, and how many runs began."""
        return int(re.search(r"^up (\d+)", self.ask("STATUS"), re.M).group(1)), self.runs()


@contextlib.contextmanager
def watched(program, folder, phones=PHONES, words=()):
    """Such a town, in which so many phones watch."""
    with Place(program, folder, phones, words) as town:
        town.start()
        town.subscribe()
        yield town


def one_more_and_one_gone(program, folder):
    """Who watches the mailbox that is gone is told so, the new one can be watched at once, and the other phones notice nothing."""
    with watched(program, folder) as town:
        town.turn(time.monotonic() + 1.0, True)
        town.operator.mailboxes.remove(GONE)
        town.hear()
        write(town.file, [*(name for name in MAILBOXES if name != GONE), NEW])
        town.reload_well()
        newcomer = town.new_phone(NEW)
        town.wait("the new mailbox is watched", lambda: newcomer.status == 200 and newcomer.told)
        ones = [phone for phone in town.phones if phone.mailbox == GONE]
        town.wait("who watched the one that is gone is told", lambda: all(phone.is_over for phone in ones))
        states = {re.search(rb"Subscription-State: (.*)\r", phone.told[max(phone.told)]).group(1) for phone in ones}
        same("what they are told", {b"terminated;reason=noresource"}, states)
        same("a line for the one that is gone", "unknown mailbox", town.ask(f"MAIL {GONE} voice 1 0 0 0"))
        for phone in ones:
            phone.ends = 0
        del town.operator.truth[GONE]
        town.operator.truth[NEW] = False
        town.all_goes_on()
        # The next start knows what was read.
        town.kill()
        town.start()
        town.come_right(0)
        town.all_stay()


def many_reloads(program, folder):
    """Twenty RELOADs while phones come and go and mails come: now and then with another file, often with the same."""
    with watched(program, folder) as town:
        for lap in range(20):
            town.wander()
            town.turn(time.monotonic() + town.chance.uniform(0.0, 0.3), True)
            write(town.file, [*MAILBOXES, *(f"more-{number}" for number in range(lap // 3))])
            town.reload_well()
        town.all_goes_on()


def two_in_a_row(program, folder):
    with watched(program, folder, 12) as town:
        town.reload_well()
        write(town.file, [*MAILBOXES, NEW])
        town.reload_well()
        town.knows(NEW)
        town.all_goes_on(0)


def the_same_line_again(program, folder):
    """A RELOAD that comes again behind its token is answered again, and no third run begins."""
    with watched(program, folder, 3) as town:
        same("a RELOAD", "ok", town.ask("@00000000000000a1 RELOAD"))
        town.hear()
        runs = town.runs()
        for _ in range(3):
            same("the same one again", "ok", town.ask("@00000000000000a1 RELOAD"))
        town.hear()
        same("runs", runs, town.runs())
        town.come_right(0)
        town.all_stay()


def a_kill_behind_it(program, folder):
    """A service that is killed right behind a RELOAD, or in it, goes on as behind any kill."""
    with watched(program, folder) as town:
        for lap in range(8):
            town.hear()
            write(town.file, [*MAILBOXES, *(f"more-{number}" for number in range(lap % 3))])
            town.reload_well()
            town.turn(time.monotonic() + lap * 0.03, True)
            town.kill()
            town.start()
        town.all_goes_on()


def a_bad_file(program, folder):
    """It is refused with its line, and all goes on in the same run."""
    with watched(program, folder, 12) as town:
        before = town.is_up()
        write(town.file, [MAILBOXES[0], "no@name", NEW])
        ended = town.reload()
        same("its status and output", (1, b""), (ended.status, ended.out))
        wanted = f"notifyd: refused (3): {town.file}, line 2: "
        assert ended.err.decode().startswith(wanted), ended.err
        os.remove(town.file)
        ended = town.reload()
        same("what refuses a file that is gone", f"notifyd: refused (3): no such file, or it can't be read as UTF-8 text: {town.file}\n", ended.err.decode())
        same("a line for a new mailbox", "unknown mailbox", town.ask(f"MAIL {NEW} voice 1 0 0 0"))
        after = town.is_up()
        assert after[0] >= before[0] and after[1] == before[1], (before, after)
        town.all_goes_on(0)
        write(town.file, [*MAILBOXES, NEW])
        town.reload_well()
        town.knows(NEW)
        town.come_right(0)
        town.all_stay()


def a_bad_file_of_passwords(program, folder):
    """It is refused too, and none of it is shown."""
    passwords = os.path.join(folder, "passwords")
    write(passwords, ["alice:here:" + 32 * "0"])
    with Place(program, folder, 0, ["--passwords", passwords]) as town:
        town.start()
        town.ask("STATUS")
        write(passwords, ["alice:here:" + 32 * "0", "a secret"])
        ended = town.reload(False)
        same("its status", 1, ended.status)
        assert ended.err.decode().startswith(f"notifyd: refused (3): {passwords}, line 2"), ended.err
        assert b"secret" not in ended.err.replace(folder.encode(), b""), ended.err
        write(passwords, ["alice:here:" + 32 * "0", "bob:here:" + 32 * "1"])
        town.reload_well(False)


def counts_go_on(program, folder):
    """A file of counts with which the service began isn't read again: it may be gone, and the journal knows what came since."""
    state = os.path.join(folder, "state")
    write(state, [f"MAIL {MAILBOXES[0]} voice 3 1 0 0"])
    with Place(program, folder, 0, ["--state", state]) as town:
        town.start()
        same("a line", "ok", town.ask(f"MAIL {MAILBOXES[2]} voice 5 0 0 0"))
        os.remove(state)
        town.reload_well(False)
        for place, counts in ((0, "3 1"), (2, "5 0")):
            line = f"MAIL {MAILBOXES[place]} voice {counts} 0 0"
            assert line in town.ask(f"SHOW {MAILBOXES[place]}").splitlines(), town.ask(f"SHOW {MAILBOXES[place]}")


def without_a_journal(program, folder):
    """Nothing could go on: it is refused, and the service stays."""
    control = f"127.0.0.1:{free_port()}"
    with Running(program, ["serve", "--listen", f"127.0.0.1:{free_port()}", "--control", control, "alice"]) as service:
        service.lines_until(b"listening at ")
        ended = run(program, ["tell", "--control", control, "RELOAD"])
        wanted = (1, b"", b"notifyd: refused (1): no journal: RELOAD needs --journal <folder>\n")
        same("RELOAD", wanted, (ended.status, ended.out, ended.err))
        tell_close(program, service.process, "--control", control)
        same("its end", 0, service.end().status)


def an_end_behind_it(program, folder):
    """Who closes the service behind a RELOAD has each phone told, and the status is 0."""
    with watched(program, folder, 12, ["--linger", "30"]) as town:
        town.reload_well()
        town.hear()
        same("CLOSE", "ok", town.ask("CLOSE"))
        service, town.service = town.service, None
        town.wait("all are told of the end", lambda: all(phone.is_over for phone in town.phones))
        try:
            same("its status", 0, service.wait(PATIENCE))
        except subprocess.TimeoutExpired:
            service.kill()
            raise AssertionError("it did not end") from None


def by_the_unit(program, folder):
    """`systemctl reload` does what the unit says: `notifyd-run --reload` finds the service by its options."""
    with open(os.path.join(CONTRIB, "notifyd.service")) as unit:
        lines = [line for line in unit.read().splitlines() if line.startswith("ExecReload=")]
    same("the line of the unit", ["ExecReload=/usr/local/bin/notifyd-run --reload $NOTIFYD_OPTIONS"], lines)
    with Place(program, folder, 0) as town:
        town.start()
        town.ask("STATUS")
        write(town.file, [*MAILBOXES, NEW])
        control = "%s:%d" % town.control
        for words in (["--workers", "3", "--control", control], [f"--control={control}"]):
            ended = run(os.path.join(CONTRIB, "notifyd-run"), ["--reload", *words], env={**os.environ, "NOTIFYD": program})
            same("its status and output", (0, b"", b""), (ended.status, ended.out, ended.err))
        town.knows(NEW)
        write(town.file, ["no@name"])
        ended = run(os.path.join(CONTRIB, "notifyd-run"), ["--reload", "--control", control], env={**os.environ, "NOTIFYD": program})
        same("its status with a bad file", 1, ended.status)
        assert f"{town.file}, line 1: ".encode() in ended.err, ended.err


def checks():
    yield "one mailbox more and one gone, while phones watch and mails come", one_more_and_one_gone
    yield "twenty RELOADs while phones come and go", many_reloads
    yield "two RELOADs in a row", two_in_a_row
    yield "a RELOAD that comes again", the_same_line_again
    yield "a kill right behind a RELOAD", a_kill_behind_it
    yield "a bad file of mailboxes", a_bad_file
    yield "a bad file of passwords", a_bad_file_of_passwords
    yield "counts of the start", counts_go_on
    yield "no journal", without_a_journal
    yield "a CLOSE behind a RELOAD", an_end_behind_it
    yield "what the unit does", by_the_unit
