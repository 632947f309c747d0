"""`--any-mailbox`: the first MAIL line of a mailbox makes it, while phones watch others. What was told of it outlives a kill.

Its line is answered at once; phones may watch it from the next run on, which begins within two seconds. No other phone notices.
"""

import os
import subprocess
import sys
import time

sys.dont_write_bytecode = True

from crashes import MAILBOXES, PATIENCE, fill, is_mounted
from reloads import NEW, Place, write
from suite import free_port, run, same, tell

# How many new mailboxes come at once.
MANY = 1000

# How many new mailboxes come before each kill, and behind how many seconds that comes: at once, while others are gathered, and when the next
# run begins.
KILLS = ((1, 0.0), (2, 0.0), (40, 0.0), (1, 0.05), (7, 0.1), (3, 0.5), (20, 1.0), (1, 1.2))

# How many bytes a name has at most that a line makes.
LONGEST = 1024

# How many new mailboxes have several pages of a DUMP.
PAGES = 700

# A file of mailboxes that can't be read: no next run begins with it.
BAD = ["no@name"]

# A transfer that nobody asked for makes progress.
PROGRESS = "PROGRESS w0-7-0000000000000000 180 Ringing"


class Anywhere(Place):
    """A town where lines make mailboxes."""

    def __init__(self, program, folder, phones=12, words=()):
        super().__init__(program, folder, phones, ["--any-mailbox", *words])

    def tell(self, lines):
        """What `tell -` answers to these lines. Where the machine is so busy that it gives up before a run is there, it is told them anew."""
        given = "".join(f"{line}\n" for line in lines).encode()
        words = ["tell", "--control", "%s:%d" % self.control, "-"]
        end = time.monotonic() + PATIENCE
        while True:
            ended = self.meanwhile("lines are done", run, self.program, words, given, PATIENCE)
            if ended.status != 3 or time.monotonic() > end:
                return ended

    def first_status(self, mailbox):
        """What a phone is answered that subscribes to this mailbox. It doesn't stay."""
        phone = self.new_phone(mailbox)
        self.wait(f"an answer to a request for {mailbox}", lambda: phone.status is not None)
        if phone.status != 200:
            self.selector.unregister(phone.socket)
            phone.socket.close()
            self.phones.remove(phone)
        return phone.status

    def watched(self, mailbox, lamp, seconds=PATIENCE):
        """Waits until a phone may watch this mailbox, and its lamp is so."""
        self.operator.truth[mailbox] = lamp
        end = time.monotonic() + seconds
        while (status := self.first_status(mailbox)) == 404 and time.monotonic() < end:
            self.turn(time.monotonic() + 0.1)
        same(f"the answer to who asks for {mailbox}", 200, status)
        self.wait(f"the lamp of {mailbox} is right", lambda: not self.wrong())

    def shown(self, mailbox):
        return self.ask(f"SHOW {mailbox}").splitlines()

    def dump(self):
        """What was told of all mailboxes, in MAIL lines."""
        ended = tell(self.program, "--control", "%s:%d" % self.control, "DUMP")
        same("DUMP, its status and what it complains of", (0, b""), (ended.status, ended.err))
        return ended.out.decode().splitlines()

    def holds(self, *lines):
        """These MAIL lines alone were told of the mailboxes: they are all there are beside those of the file, of which nothing was told."""
        same("what the service was told", sorted(lines), sorted(self.dump()))
        for line in lines:
            name = line.split()[1]
            assert line in self.shown(name), (line, self.shown(name))

    def kill_and_start(self, *words):
        self.kill()
        self.start(*words)


def the_first_line(program, folder):
    """It makes the mailbox, a SUBSCRIBE does not; what is told of it before phones may watch it is not lost."""
    with Anywhere(program, folder) as town:
        town.start()
        town.subscribe()
        same("who asks first for the new one", 404, town.first_status(NEW))
        same("a question for it", "unknown mailbox", town.told(f"SHOW {NEW}"))
        same("its first line", "ok", town.told(f"MAIL {NEW} voice 3 1 0 0"))
        same("one more, of another class", "ok", town.told(f"MAIL {NEW} fax 2 0 0 0"))
        assert {f"MAIL {NEW} voice 3 1 0 0", f"MAIL {NEW} fax 2 0 0 0"} <= set(town.shown(NEW)), town.shown(NEW)
        town.watched(NEW, True)
        body = town.phones[-1].told[max(town.phones[-1].told)].decode()
        assert "Voice-Message: 3/1" in body and "Fax-Message: 2/0" in body, body
        same("who asks for another unknown one", 404, town.first_status("nobody"))
        town.operator.mailboxes.append(NEW)
        town.come_right(0)
        town.next_numbers()
        town.all_stay()


def a_stranger(program, folder):
    """Who asks for a mailbox that isn't there makes none, however often, by a SUBSCRIBE or by a question: not now, nor in the next run, nor
    behind a RELOAD or a kill."""
    with Anywhere(program, folder, 0) as town:
        town.start()
        line = f"MAIL {NEW} voice 1 0 0 0"

        def makes_none(*lines):
            for _ in range(3):
                same("who asks for one that nobody told of", 404, town.first_status("nobody"))
            for question in ("SHOW", "WATCHERS", "DUMP"):
                same(f"{question} of it", "unknown mailbox", town.ask(f"{question} nobody"))
            town.holds(*lines)

        makes_none()
        same("the first line of another one", "ok", town.ask(line))
        town.watched(NEW, True)
        makes_none(line)
        town.reload_well(False)
        makes_none(line)
        town.kill_and_start()
        makes_none(line)
        same("its own first line", "ok", town.ask("MAIL nobody voice 0 1 0 0"))
        town.watched("nobody", False)


def names(program, folder):
    """What a file of mailboxes may not hold is unknown, and neither a bad line nor a PROGRESS line makes anything."""
    with Anywhere(program, folder, 0) as town:
        town.start()
        for name in ("-x", "-", "--any-mailbox", "a@b", "a@", "@b", "a:b", ":", "sip:a@b"):
            same(f"a line for {name}", "unknown mailbox", town.ask(f"MAIL {name} voice 1 0 0 0"))
        for line in ("MAIL  voice 1 0 0 0", "MAIL a b voice 1 0 0 0", "MAIL a\tb voice 1 0 0 0", "MAIL a voice 1 0 2 0", "MAIL a text", "MAIL a"):
            same(f"the line {line!r}", "bad line", town.ask(line))
        same("the line of a transfer", "ok", town.ask(PROGRESS))
        town.holds()
        runs = town.runs()
        town.turn(time.monotonic() + 2.0)
        same("runs", runs, town.runs())
        same("mailboxes of lines", ["unknown mailbox"] * 3, [town.ask(f"SHOW {name}") for name in ("a", "-x", "a@b")])
        town.holds()


def odd_names(program, folder):
    """Each name that is answered `ok` is there in the next run and behind a kill, also one that would mean something else in a file: a comment, a
    range, another case."""
    names = ("#x", "100-199", "1-0", "a-", "A", "a", "a.b", "a%40b", "a;b=c", "\u00e4", "*", "MAIL")
    lines = [f"MAIL {name} voice {number} 0 0 0" for number, name in enumerate(names, 1)]
    with Anywhere(program, folder, 0) as town:
        town.start()
        for line in lines:
            same(f"the line {line}", "ok", town.ask(line))
        town.holds(*lines)
        for name in ("100-199", "1-0", "a-", "A", "a", "a.b"):
            town.watched(name, True)
        town.holds(*lines)
        same("who asks for one of the range", 404, town.first_status("150"))
        for _ in range(2):
            town.kill_and_start()
            town.holds(*lines)
        same("who asks for one of the range", 404, town.first_status("150"))


def long_names(program, folder):
    """A name may be so long that all that is told of it fits a datagram. A longer one is unknown, as others that are none."""
    names = ("x" * LONGEST, "\u00e4" * (LONGEST // 2))
    lines = [f"MAIL {name} {kind} 4294967295 4294967295 4294967295 4294967295" for name in names for kind in ("fax", "multimedia", "pager", "text", "voice")]
    with Anywhere(program, folder, 0) as town:
        town.start()
        for name in ("x" * (LONGEST + 1), "\u00e4" * (LONGEST // 2) + "x", "x" * 14000, "x" * 40000):
            same(f"a line for a name of {len(name.encode())} bytes", "unknown mailbox", town.ask(f"MAIL {name} voice 1 0 0 0"))
            same("a question for it", "unknown mailbox", town.ask(f"SHOW {name}"))
        for line in lines:
            same(f"a line for {line[5]}", "ok", town.ask(line))
        town.holds(*lines)
        town.kill_and_start()
        town.holds(*lines)


def a_full_disk(program, folder):
    """What a full disk takes from the journal the service still knows: once there is room each name that was answered `ok` is there behind a kill, and
    in the next run, as it was told last."""
    with Anywhere(program, folder, 0) as town:
        if not is_mounted(town.journal, "512k"):
            return
        try:
            town.start()
            town.ask("STATUS")
            lines = []
            for lap in range(2):
                # So no next run begins till the disk has room again.
                write(town.file, BAD)
                lines += fill_up(town, lap)
                town.holds(*lines)
                os.remove(f"{town.journal}/ballast")
                lines.append(f"MAIL behind{lap} voice 1 0 0 0")
                town.wait("a file is whole again", lambda: town.ask(lines[-1]) == "ok")
                runs = town.runs()
                write(town.file, MAILBOXES)
                if lap == 0:
                    town.kill_and_start()
                town.wait("the next run", lambda: town.runs() > runs)
                town.holds(*lines)
                town.kill_and_start()
                town.holds(*lines)
            for name in ("first0", "behind0", "first1", "behind1"):
                town.watched(name, True)
        finally:
            town.kill()
            subprocess.run(["umount", town.journal], check=True)


def fill_up(town, lap):
    """Has the disk be full, and tells of new mailboxes until one can't be made. Those lines that were answered `ok`."""
    done = [f"MAIL first{lap} voice {lap} 1 0 0"]
    same("the first line", "ok", town.ask(done[0]))
    fill(f"{town.journal}/ballast")
    for number in range(20):
        line = f"MAIL {'n' * 1000}{lap}-{number} voice {number} 0 0 0"
        answer = town.ask(line)
        if answer != "ok":
            same("the answer where the journal misses a record", "out of memory", answer)
            break
        done.append(line)
    done.append(f"MAIL first{lap} fax 9 {lap} 1 0")
    same("a count whose record is lost", "ok", town.ask(done[-1]))
    assert town.lost() > 0, "no record was lost"
    return done


def a_dump_over_runs(program, folder):
    """Pages of a DUMP leave out nobody, and have nobody twice, where each is asked for in another run."""
    lines = [f"MAIL new{number * 7919 % PAGES}-{'x' * 20} voice 1 0 0 0" for number in range(PAGES)]
    with Anywhere(program, folder, 0) as town:
        town.start()
        town.ask("STATUS")
        got, behind = [], ""
        for lap in range(20):
            write(town.file, BAD)
            told = lines if lap == 0 else [f"MAIL later{lap} voice 1 0 0 0", f"MAIL a{lap} voice 1 0 0 0"]
            ended = town.tell(told)
            same("its status and what it says", (0, b"", b""), (ended.status, ended.out, ended.err))
            page = town.ask(f"DUMP{behind}").splitlines()
            got += [line for line in page if line.startswith("MAIL new")]
            write(town.file, MAILBOXES)
            runs = town.runs()
            town.reload_well(False)
            assert town.runs() > runs, "no run began"
            if not page[-1].startswith("more "):
                break
            behind = page[-1].removeprefix("more")
        assert lap > 2, f"{lap + 1} pages alone"
        same("what came that was told before the first page", sorted(lines), sorted(got))


def many_at_once(program, folder):
    """A thousand new ones come by `tell -`: each line is done, and all can be watched after one run or two more, or one a second."""
    with Anywhere(program, folder) as town:
        town.start()
        town.subscribe()
        town.hear()
        runs, began = town.runs(), time.monotonic()
        ended = town.tell(f"MAIL new{number} voice {number % 2} 0 0 0" for number in range(MANY))
        same("its status and what it says", (0, b"", b""), (ended.status, ended.out, ended.err))
        for number in (0, 1, MANY // 2, MANY - 1):
            town.watched(f"new{number}", number % 2 == 1)
        town.turn(time.monotonic() + 2.5)
        most = max(3, time.monotonic() - began)
        assert 1 <= town.runs() - runs <= most, (town.runs() - runs, most)
        town.come_right(0)
        town.next_numbers()
        town.all_stay()


def a_kill(program, folder):
    """Names and counts are there behind a kill: one right behind the line, and one that comes later."""
    with Anywhere(program, folder) as town:
        town.start()
        town.subscribe()
        same("the first line", "ok", town.told("MAIL first voice 5 0 0 0"))
        town.kill()
        town.start()
        assert "MAIL first voice 5 0 0 0" in town.shown("first"), town.shown("first")
        town.watched("first", True, 0)
        same("another one", "ok", town.told("MAIL second voice 7 0 0 0"))
        town.watched("second", True)
        for _ in range(2):
            town.kill()
            town.start()
            assert "MAIL second voice 7 0 0 0" in town.shown("second"), town.shown("second")
        town.come_right(0)
        town.next_numbers()
        town.all_stay()


def without_a_file(program, folder):
    """No mailbox need be named at all."""
    with Anywhere(program, folder, 0) as town:
        os.remove(town.file)
        town.words = ["--workers", "3", "--any-mailbox"]
        town.start()
        same("who asks", 404, town.first_status(NEW))
        same("the first line", "ok", town.ask(f"MAIL {NEW} voice 1 0 0 0"))
        town.watched(NEW, True)
        town.kill_and_start()
        town.holds(f"MAIL {NEW} voice 1 0 0 0")


def kills(program, folder):
    """The service is killed behind a line, or a while later, again and again. Whatever line was answered is there each time, as it was told last."""
    with Anywhere(program, folder, 0) as town:
        town.start()
        told = {}
        for lap, (count, seconds) in enumerate(KILLS):
            # One of an earlier lap too, and each of the latest twice.
            names = [*list(told)[:1], *(f"new{lap}-{number}" for number in range(count))] * 2
            for number, name in enumerate(names):
                told[name] = f"MAIL {name} voice {number + 1} {lap} 0 0"
                same(f"the line of {name}", "ok", town.ask(told[name]))
            town.turn(time.monotonic() + seconds)
            town.kill_and_start()
            town.holds(*told.values())
        for name in (list(told)[0], list(told)[-1]):
            town.watched(name, True)
        town.holds(*told.values())


def so_many(program, folder):
    """There are not more than may be. One more is unknown, and those that there are keep what they were told: now, in the next run, and behind a
    kill."""
    with Anywhere(program, folder, 0, ["--max-mailboxes", str(len(MAILBOXES) + 2)]) as town:
        town.start()
        for line, answer in (("one voice 1", "ok"), ("two voice 2", "ok"), ("three voice 3", "unknown mailbox"), ("one voice 4", "ok")):
            same(f"the line of {line}", answer, town.ask(f"MAIL {line} 0 0 0"))
        lines = ["MAIL one voice 4 0 0 0", "MAIL two voice 2 0 0 0"]
        town.holds(*lines)
        town.watched("two", True)
        for _ in range(2):
            same("who asks for one more", 404, town.first_status("three"))
            same("a line for one more", "unknown mailbox", town.ask("MAIL three voice 1 0 0 0"))
            same("what it shows", "unknown mailbox", town.ask("SHOW three"))
            town.holds(*lines)
            town.kill_and_start()
        same("a line for one of them", "ok", town.ask("MAIL two fax 1 1 1 1"))
        town.holds(lines[0], "MAIL two fax 1 1 1 1", lines[1])
        same("a line for one of the file", "ok", town.ask(f"MAIL {MAILBOXES[0]} voice 1 0 0 0"))


def no_more_than_the_file(program, folder):
    """A file may hold more than that: then lines make none, and all of the file are there."""
    with Anywhere(program, folder, 0, ["--max-mailboxes", "1"]) as town:
        town.start()
        same("a line for one more", "unknown mailbox", town.ask(f"MAIL {NEW} voice 1 0 0 0"))
        for name in (MAILBOXES[0], MAILBOXES[-1]):
            same(f"a line for {name}", "ok", town.ask(f"MAIL {name} voice 1 0 0 0"))
            same(f"who asks for {name}", 200, town.first_status(name))


def counts_of_the_start(program, folder):
    """A file of counts makes no mailbox: of one that nobody names its lines are skipped, as without the option."""
    state = os.path.join(folder, "state")
    write(state, [f"MAIL {MAILBOXES[0]} voice 3 1 0 0", f"MAIL {NEW} voice 5 0 0 0", f"MAIL {NEW} fax 1 0 0 0"])
    with Anywhere(program, folder, 0, ["--state", state]) as town:
        town.start()
        known = f"MAIL {MAILBOXES[0]} voice 3 1 0 0"
        town.holds(known)
        same("a question for one that nobody named", "unknown mailbox", town.ask(f"SHOW {NEW}"))
        same("who asks for it", 404, town.first_status(NEW))
        same("its first line", "ok", town.ask(f"MAIL {NEW} voice 2 0 0 0"))
        town.watched(NEW, True)
        town.holds(known, f"MAIL {NEW} voice 2 0 0 0")
        town.kill_and_start()
        town.holds(known, f"MAIL {NEW} voice 2 0 0 0")


def by_hand_too(program, folder):
    """A RELOAD goes on working beside it: one of the file that no line told of goes, and one of which lines told stays, with what it was told."""
    lines = [f"MAIL {NEW} fax 7 1 2 0", f"MAIL {NEW} voice 1 0 0 0", f"MAIL {MAILBOXES[0]} voice 4 0 0 0"]
    with Anywhere(program, folder, 0) as town:
        town.start()
        for line in lines:
            same(f"the line {line}", "ok", town.ask(line))
        write(town.file, [*MAILBOXES[2:], "named"])
        for _ in range(3):
            town.reload_well(False)
            for name, status in ((MAILBOXES[0], 200), (MAILBOXES[1], 404), (MAILBOXES[2], 200), (NEW, 200), ("named", 200)):
                same(f"who asks for {name}", status, town.first_status(name))
            town.holds(*lines)
        town.kill_and_start()
        town.holds(*lines)


def a_bad_file(program, folder):
    """What lines make waits until the file is good again, and it is told why."""
    with Anywhere(program, folder, 0) as town:
        town.start()
        town.ask("STATUS")
        write(town.file, ["no@name"])
        same("the first line", "ok", town.ask(f"MAIL {NEW} voice 1 0 0 0"))
        town.wait("it is told why it waits", lambda: f"{town.file}, line 1: " in town.said())
        same("who asks", 404, town.first_status(NEW))
        write(town.file, MAILBOXES)
        town.watched(NEW, True)


def without_a_journal(program, folder):
    """Nothing would keep them: it is refused."""
    words = ["serve", "--listen", f"127.0.0.1:{free_port()}", "--control", f"127.0.0.1:{free_port()}", "--any-mailbox", "alice"]
    ended = run(program, words)
    wanted = (1, b"", b"notifyd: no journal: --any-mailbox needs --journal <folder>\n")
    same("its end", wanted, (ended.status, ended.out, ended.err))


def without_it(program, folder):
    """Without the option a line makes nothing, and what lines made before is gone."""
    with Anywhere(program, folder, 0) as town:
        town.start()
        same("a new one", "ok", town.ask(f"MAIL {NEW} voice 1 0 0 0"))
        town.kill()
        town.start("--workers", "3", "--mailboxes", town.file)
        same("a line", "unknown mailbox", town.ask(f"MAIL {NEW} voice 1 0 0 0"))
        same("who asks", 404, town.first_status(NEW))


def an_end(program, folder):
    """A CLOSE right behind the first line closes the service."""
    with Anywhere(program, folder, 6) as town:
        town.start()
        town.subscribe()
        same("a new one", "ok", town.ask(f"MAIL {NEW} voice 1 0 0 0"))
        same("CLOSE", "ok", town.ask("CLOSE"))
        service, town.service = town.service, None
        town.wait("all are told of the end", lambda: all(phone.is_over for phone in town.phones))
        same("its status", 0, service.wait(PATIENCE))


def checks():
    yield "the first line of a mailbox", the_first_line
    yield "who asks makes none", a_stranger
    yield "names that are none", names
    yield "names that are odd", odd_names
    yield "names that are long", long_names
    yield "a thousand new ones at once", many_at_once
    yield "a kill", a_kill
    yield "many kills", kills
    yield "a full disk", a_full_disk
    yield "a DUMP over some runs", a_dump_over_runs
    yield "no file", without_a_file
    yield "not more than may be", so_many
    yield "a file of more than may be", no_more_than_the_file
    yield "counts of the start", counts_of_the_start
    yield "a RELOAD by hand", by_hand_too
    yield "a bad file", a_bad_file
    yield "no journal", without_a_journal
    yield "without the option", without_it
    yield "a CLOSE behind the first line", an_end
