"""`notifyd serve --journal` is killed while phones watch and mails come, and started again: no phone notices.

What a lamp is to show is the last change that was answered `ok`. Half of the phones never subscribe anew, so the service alone keeps them
right; the others leave and come back while it is killed. No number of a NOTIFY may stand in front of two texts (RFC 3261 section 12.2.2),
and none may be left out. Then files are cut, bytes are flipped, and services are started with other options over what an earlier one left.

It can be run alone, over more phones and for longer, and then prints a line:

    tests/crashes.py PROGRAM [--phones 300] [--kills 100]
"""

import argparse
import os
import random
import re
import selectors
import signal
import socket
import stat
import subprocess
import sys
import tempfile
import time
from concurrent.futures import ThreadPoolExecutor

sys.dont_write_bytecode = True

import journal_file
from phone import Operator as Teller, Phone as Caller
from suite import SLOWER, free_port, run, same, started

# Seconds within which lamps are right behind the last start, once it answers, and within which a phone's request is answered.
SETTLED, PATIENCE = 5.0, 120.0 * SLOWER

# Seconds within which lamps are right and no number is wanting where the machine is busy: a lamp that isn't told stays wrong, and a NOTIFY
# is sent again for 32 seconds (RFC 3261 section 17.1.2.2).
SLOW = 60.0 * SLOWER

# Seconds behind which a request or a line is sent again that nothing answered (RFC 3261 section 17.1.1.1).
AGAIN = 0.5

# Seconds from one change to the next at least. Behind a dialog's first NOTIFY 64 may wait for its answer, and further ones are dropped: so
# many of one mailbox take some seconds, and no thread waits so long for a processor.
PACE = 0.004

MAILBOXES = tuple(f"box{number}" for number in range(12))

ZEROS = "0" * 64

# So many services are started at a time over files that are cut.
AT_A_TIME = 4


class Phone:
    """A phone that watches a mailbox: it answers each NOTIFY, and keeps the text of each number."""

    def __init__(self, number, mailbox, sip, stays):
        self.number, self.mailbox, self.sip, self.stays = number, mailbox, sip, stays
        self.socket = socket.socket(socket.AF_INET, socket.SOCK_DGRAM)
        self.socket.bind(("127.0.0.1", 0))
        self.socket.setblocking(False)
        self.me = "127.0.0.1:%d" % self.socket.getsockname()[1]
        self.calls = 0
        self.faults = []
        self.ends = 0
        self.begin()

    def begin(self):
        """Subscribes in a dialog of its own."""
        self.calls += 1
        self.call = f"c{self.number}-{self.calls}"
        self.tag, self.asked, self.told, self.lamp, self.is_over, self.first = "", 0, {}, None, False, 1
        self.ask(3600)

    def ask(self, seconds):
        """Asks for so many seconds, in its dialog if there is one."""
        self.asked += 1
        self.seconds, self.status = seconds, None
        tag = f";tag={self.tag}" if self.tag else ""
        self.request = "\r\n".join(
            [
                f"SUBSCRIBE sip:{self.mailbox}@127.0.0.1 SIP/2.0",
                f"Via: SIP/2.0/UDP {self.me};branch=z9hG4bK{self.call}.{self.asked}",
                "Max-Forwards: 70",
                f"From: <sip:p{self.number}@127.0.0.1>;tag=f{self.call}",
                f"To: <sip:{self.mailbox}@127.0.0.1>{tag}",
                f"Call-ID: {self.call}",
                f"CSeq: {self.asked} SUBSCRIBE",
                f"Contact: <sip:p{self.number}@{self.me}>",
                "Event: message-summary",
                f"Expires: {seconds}",
                "Content-Length: 0",
                "",
                "",
            ]
        ).encode()
        self.send_request()

    def send_request(self):
        self.sent = time.monotonic()
        self.send(self.request)

    def send(self, octets):
        try:
            self.socket.sendto(octets, self.sip)
        except OSError:
            pass  # nobody has the port while the service is away

    def tend(self, now):
        """Sends its request again while nothing answers."""
        if self.status is None and now - self.sent > AGAIN:
            self.send_request()

    def take(self):
        """Takes in what came."""
        while True:
            try:
                octets = self.socket.recv(65535)
            except OSError:
                return
            head, _, body = octets.decode().partition("\r\n\r\n")
            first, *lines = head.split("\r\n")
            values = dict(line.split(": ", 1) for line in reversed(lines) if ": " in line)
            if first.startswith("SIP/2.0 "):
                self.hear_answer(int(first.split()[1]), values)
            else:
                self.send(self.answer(octets, lines, values, body))

    def hear_answer(self, status, values):
        if values["Call-ID"] != self.call or values["CSeq"] != f"{self.asked} SUBSCRIBE":
            return
        self.status = status
        if status == 200:
            self.tag = values["To"].partition(";tag=")[2]

    def answer(self, octets, lines, values, body):
        """The answer to a NOTIFY."""
        status = "200 OK" if values["Call-ID"] == self.call else "481 Gone"
        if status == "200 OK":
            status = self.hear(int(values["CSeq"].split()[0]), octets, values["Subscription-State"], body)
        kept = [line for line in lines if line.startswith(("Via: ", "From: ", "To: ", "Call-ID: ", "CSeq: "))]
        return "\r\n".join([f"SIP/2.0 {status}", *kept, "Content-Length: 0", "", ""]).encode()

    def hear(self, number, octets, state, body):
        """Takes in a NOTIFY of its dialog. One that comes behind a later one is answered 500, and its text is kept."""
        if number in self.told:
            if self.told[number] != octets:
                self.faults.append(f"number {number} stands in front of two texts in {self.call}")
            return "200 OK"
        is_late = number < max(self.told, default=0)
        self.told[number] = octets
        if is_late:
            return "500 Late"
        if state.startswith("terminated"):
            self.is_over = True
            self.ends += self.seconds != 0
        elif body:
            self.lamp = "Messages-Waiting: yes" in body
        return "200 OK"

    @property
    def is_live(self):
        """Whether it watches, and didn't ask for the end: a last NOTIFY that a kill took isn't sent again."""
        return not self.is_over and self.seconds != 0

    def gaps(self):
        """The numbers that are wanting among those that were told, from the first one on or, where numbers leapt, from there on."""
        if not self.is_live:
            return []
        return [number for number in range(self.first, max(self.told, default=0)) if number not in self.told]


class Operator:
    """Tells changes as they are answered, and tells one again that nothing answered. Each has a socket of its own: so no late answer to
    the one before is taken for its own."""

    def __init__(self, control, mailboxes, chance, selector):
        self.control, self.mailboxes, self.chance, self.selector = control, list(mailboxes), chance, selector
        self.truth = {mailbox: False for mailbox in self.mailboxes}
        self.socket = None
        self.asked = None
        self.lines = 0
        self.next = 0
        self.pause = PACE  # seconds from one change to the next at least

    def close(self):
        if self.socket is not None:
            self.selector.unregister(self.socket)
            self.socket.close()
            self.socket = None

    def tend(self, now, tells):
        if self.asked is None and tells and now >= self.next:
            self.close()
            self.socket = socket.socket(socket.AF_INET, socket.SOCK_DGRAM)
            self.socket.setblocking(False)
            self.selector.register(self.socket, selectors.EVENT_READ, self)
            self.asked = (self.chance.choice(self.mailboxes), self.chance.random() < 0.5)
            self.send(now)
            self.next = now + self.pause
        elif self.asked is not None and now - self.sent > 0.2:
            self.send(now)

    def send(self, now):
        self.sent = now
        mailbox, is_on = self.asked
        try:
            self.socket.sendto(f"MAIL {mailbox} voice {int(is_on)} {self.lines % 7} 0 0".encode(), self.control)
        except OSError:
            pass

    def take(self):
        try:
            answer = self.socket.recv(65535)
        except OSError:
            return
        if self.asked is not None and answer.startswith(b"ok"):
            mailbox, is_on = self.asked
            self.truth[mailbox], self.asked = is_on, None
            self.lines += 1


class Town:
    """Phones, an operator and a service that is killed and started again, to be used in a `with`."""

    def __init__(self, program, folder, phones, seed=1):
        self.program, self.folder = program, folder
        self.journal = os.path.join(folder, "journal")
        self.sip, self.control = ("127.0.0.1", free_port()), ("127.0.0.1", free_port())
        self.chance = random.Random(seed)
        self.mailboxes = MAILBOXES
        self.words = ["--workers", "3"]
        self.umask = -1  # that of whoever runs this
        self.count = phones
        self.phones = []
        self.selector = selectors.DefaultSelector()
        self.operator = Operator(self.control, MAILBOXES, self.chance, self.selector)
        self.log = open(os.path.join(folder, "log"), "ab+")
        self.service = None

    def __enter__(self):
        return self

    def __exit__(self, *_):
        self.kill()
        self.operator.close()
        for phone in self.phones:
            phone.socket.close()
        self.selector.close()
        self.log.close()

    def start(self, *words):
        """Starts the service. It hears at once what waits at its ports, so nobody waits for it here."""
        places = ["--listen", "%s:%d" % self.sip, "--control", "%s:%d" % self.control]
        how = {"stdin": subprocess.DEVNULL, "stdout": self.log, "stderr": self.log, "umask": self.umask}
        self.service = started([self.program, "serve", *places, "--journal", self.journal, *(words or self.words), *self.mailboxes], **how)

    def kill(self):
        if self.service:
            self.service.send_signal(signal.SIGKILL)
            self.service.wait()
            self.service = None

    def subscribe(self):
        """All phones subscribe, and have what they watch."""
        for number in range(self.count):
            lap, place = divmod(number, len(MAILBOXES))
            phone = Phone(number, MAILBOXES[place], self.sip, (lap + place) % 2 == 0)
            self.phones.append(phone)
            self.selector.register(phone.socket, selectors.EVENT_READ, phone)
        self.wait("all phones are told what they watch", lambda: all(phone.lamp is not None for phone in self.phones))

    def turn(self, until, tells=False):
        """Lets all go on until this moment."""
        while (now := time.monotonic()) < until:
            self.step(now, tells)

    def step(self, now, tells=False):
        self.operator.tend(now, tells)
        for phone in self.phones:
            phone.tend(now)
        for key, _ in self.selector.select(0.005):
            key.data.take()

    def wait(self, what, holds, seconds=PATIENCE, tells=False):
        """Lets all go on until this holds."""
        end = time.monotonic() + seconds
        while not holds():
            now = time.monotonic()
            if now > end:
                raise AssertionError(f"not within {seconds} seconds: {what}; the service said: {self.said()}")
            if self.service and self.service.poll() is not None:
                raise AssertionError(f"the service ended with {self.service.returncode}: {self.said()}")
            self.step(now, tells)

    def said(self):
        self.log.seek(0)
        return self.log.read().decode(errors="replace")[-600:]

    def ask(self, line):
        """What a control line is answered, once the service is there."""
        with socket.socket(socket.AF_INET, socket.SOCK_DGRAM) as desk:
            desk.connect(self.control)
            desk.settimeout(AGAIN)
            for _ in range(int(PATIENCE / AGAIN)):
                try:
                    desk.send(line.encode())
                    return desk.recv(65535).decode()
                except OSError:
                    time.sleep(0.05)
        raise AssertionError(f"{line} is not answered: {self.said()}")

    def lost(self):
        """How many records were not written."""
        return int(re.search(r"^journal_lost (\d+)", self.ask("STATUS"), re.M).group(1))

    def lose(self):
        """What came to the phones and is not taken in yet is lost."""
        for phone in self.phones:
            try:
                while phone.socket.recv(65535):
                    pass
            except OSError:
                pass

    def tell_all(self):
        """Tells each mailbox anew what it holds, as one does where the end of a journal may be lost."""
        for mailbox, is_on in self.operator.truth.items():
            same(f"the line of {mailbox}", "ok", self.ask(f"MAIL {mailbox} voice {int(is_on)} 0 0 0"))

    def wander(self):
        """Some of the phones that don't stay leave, or come back, or ask for more time."""
        for phone in self.chance.sample(self.phones, max(1, len(self.phones) // 10)):
            if phone.stays or phone.status is None:
                continue
            if not phone.is_live or phone.status != 200:
                phone.begin()
            else:
                phone.ask(self.chance.choice([0, 3600]))

    def wrong(self):
        """The phones whose lamps are wrong."""
        return [phone for phone in self.phones if phone.is_live and phone.lamp != self.operator.truth[phone.mailbox]]

    def hear(self):
        """Lets all go on until the service answers a line."""
        before = self.operator.lines
        self.wait("a line is answered", lambda: self.operator.lines > before, tells=True)

    def come_right(self, seconds=SETTLED):
        """The lamps are right so many seconds behind a start, and what was told is in order."""
        self.hear()
        self.wait("the last line is answered", lambda: self.operator.asked is None)
        end = time.monotonic() + seconds
        self.wait("all lamps are right", lambda: not self.wrong(), SLOW)
        self.turn(max(end, time.monotonic() + 0.5))
        self.wait("all requests are answered", lambda: all(phone.status is not None for phone in self.phones))
        self.are_right()

    def are_right(self):
        same("phones whose lamps are wrong", [], [phone.call for phone in self.wrong()])
        self.are_in_order()

    def are_in_order(self):
        """No number stands in front of two texts, and none is wanting: a NOTIFY that the kill took comes again, perhaps behind a later one."""
        end = time.monotonic() + SLOW
        while any(phone.gaps() for phone in self.phones) and time.monotonic() < end:
            self.step(time.monotonic())
        same("what is wrong with numbers", [], [fault for phone in self.phones for fault in phone.faults])
        same("numbers that are wanting", [], [(phone.call, gap) for phone in self.phones for gap in phone.gaps()])

    def all_stay(self):
        """Each dialog that isn't over goes on: its next request is answered 200, and no service ended it."""
        same("dialogs that the service ended", [], [phone.call for phone in self.phones if phone.ends])
        live = [phone for phone in self.phones if phone.is_live]
        before = {phone.call: max(phone.told) for phone in live}
        for phone in live:
            phone.ask(3600)
        self.wait("requests in dialogs are answered", lambda: all(phone.status is not None for phone in live))
        same("answers in dialogs", [], [(phone.call, phone.status) for phone in live if phone.status != 200])
        self.wait("each is told again", lambda: all(max(phone.told) > before[phone.call] for phone in live))
        self.are_right()


def killed_often(program, folder, phones=60, kills=20, seed=1, words=()):
    """The lines that were answered, and the NOTIFYs that came."""
    with Town(program, folder, phones, seed) as town:
        town.words += words
        town.start()
        town.subscribe()
        for _ in range(kills):
            town.wander()
            if town.chance.random() < 0.75:
                town.hear()
            town.turn(time.monotonic() + town.chance.uniform(0.02, 0.5), True)
            town.kill()
            town.start()
        town.come_right()
        town.all_stay()
        return town.operator.lines, sum(len(phone.told) for phone in town.phones)


def twenty_kills(program, folder):
    killed_often(program, folder)


def each_on_the_disk(program, folder):
    """Whatever is sent awaits the disk: all goes as it does else, if slower, and nothing is lost."""
    killed_often(program, folder, 24, 3, words=["--sync", "always"])


def mode(path):
    """Who may do what with it."""
    return stat.S_IMODE(os.stat(path).st_mode)


def another_file(program, folder):
    """A journal whose first file is full goes on in the second, and a restart finds both. Whatever the umask, nobody else may read them."""
    with Town(program, folder, 24) as town:
        town.words += ["--journal-bytes", "65536"]
        town.umask = 0
        town.operator.pause = 0.1
        town.start()
        town.subscribe()
        end = time.monotonic() + 60
        while not os.path.exists(f"{town.journal}/journal.2"):
            if time.monotonic() > end:
                raise AssertionError(f"no second file after a minute: {os.listdir(town.journal)}; {town.said()}")
            town.turn(time.monotonic() + 0.3, True)
        same("the folder's mode", 0o700, mode(town.journal))
        same("the modes in it", {0o600}, {mode(os.path.join(town.journal, name)) for name in os.listdir(town.journal)})
        town.operator.pause = PACE
        for _ in range(6):
            town.hear()
            town.turn(time.monotonic() + town.chance.uniform(0.02, 0.4), True)
            town.kill()
            town.start()
        town.come_right()
        town.all_stay()


def left_behind(program, folder, phones=6, words=()):
    """A town that was killed where all was quiet: its phones, what they should show, and the folder of its journal."""
    town = Town(program, folder, phones)
    town.words += words
    try:
        town.start()
        town.subscribe()
        town.turn(time.monotonic() + 1.0, True)
        town.come_right(0)
        town.kill()
    except BaseException:
        town.__exit__()
        raise
    return town


def newest(journal):
    """The path of the newest file."""
    return f"{journal}/journal.{max(journal_file.files(journal))}"


def records_in(path):
    """The records of a file that are whole."""
    with open(path, "rb") as file:
        return journal_file.payloads(file.read())[0]


# So many lines tell of transfers for which nobody asked.
NOBODYS = 3000


def tell_of_nobody(town):
    """Lines tell of transfers for which nobody asked. Each is handled: so it stands in the first file."""
    with Teller(town.control[1]) as teller:
        for number in range(NOBODYS):
            same("the line of a transfer of nobody", "ok", teller.ask(f"PROGRESS nobody{number} 180 Ringing"))
    town.wait("each is handled", lambda: len(of_nobody(f"{town.journal}/journal.1")) == NOBODYS)


def of_nobody(path):
    """The records of a file that tell of such a transfer."""
    return [record for record in records_in(path) if b"nobody" in record]


def has_books(path, workers):
    """Whether a file is there, with the books of so many workers."""
    return os.path.exists(path) and journal_file.kinds(records_in(path)).get("b") == workers


def a_transfer_that_nobody_watches(program, folder):
    """No further file tells how far a transfer came that nobody watches. It tells that of one that a phone watches, which is right behind a kill."""
    with Town(program, folder, 0) as town, Caller(town.sip[1], MAILBOXES[0]) as caller:
        town.words += ["--journal-bytes", "65536"]
        town.start()
        town.ask("STATUS")
        tag = caller.refer("sip:carol@127.0.0.1")
        ringing = "SIP/2.0 180 Ringing\r\n"
        same("the line of the transfer", "ok", town.ask(f"PROGRESS {tag} 180 Ringing"))
        caller.expect_notify("active", ringing)
        tell_of_nobody(town)
        second = f"{town.journal}/journal.2"
        town.wait("a second file with all books", lambda: has_books(second, 3))
        same("what the second file tells of nobody", [], of_nobody(second))
        books = [record for record in records_in(second) if record[:1] == b"b"]
        same("books that tell of the transfer", 1, sum(tag.encode() in book and b"Ringing" in book for book in books))
        town.kill()
        town.start()
        town.ask("STATUS")
        (dialog,) = caller.dialogs.values()
        caller.refresh(dialog, 120, ringing)


def nobody_behind_starts(program, folder):
    """Each start with another mailbox writes a file of its own. What nobody watched at the books of one isn't in the next."""
    with Town(program, folder, 0) as town:
        town.start()
        town.ask("STATUS")
        tell_of_nobody(town)
        town.kill()
        for name in ("new", "newer"):
            town.mailboxes = (*town.mailboxes, name)
            town.start()
            town.ask("STATUS")
            town.kill()
        same("the files", [2, 3], journal_file.files(town.journal)[-2:])
        same("what the third file tells of nobody", [], of_nobody(newest(town.journal)))


# What phones know a service by that listens now here, now there.
ANYWHERE = ["--contact", "127.0.0.1:5999"]

# The line that is told last before a journal is cut: nobody watches this mailbox.
LAST_BOX, LAST_LINE = MAILBOXES[-1], f"MAIL {MAILBOXES[-1]} fax 7 0 0 0"


def left_in_the_middle(program, folder):
    """What a service wrote that was killed as soon as it had handled a line, and where the line's record ends."""
    with left_behind(program, folder, 2, ANYWHERE) as town:
        town.start()
        town.ask("STATUS")
        path = newest(town.journal)
        before = len(records_in(path))
        same("the last line", "ok", town.ask(LAST_LINE))
        town.wait("it is handled", lambda: len(records_in(path)) > before + 1)
        town.kill()
        with open(path, "rb") as file:
            octets = file.read()
        ends = journal_file.ends(octets)
        same("where the last record ends", len(octets), ends[-1])
        # The line's own record, or that of its event: whichever stands first says what it told.
        line = next(place for place, record in enumerate(records_in(path)) if place >= before and LAST_BOX.encode() in record)
        return os.path.basename(path), octets, ends, ends[line]


def read_up_to(program, folder, name, octets, ends, line_end):
    """A start over a file that is cut there: it goes on from the records that are whole, and says so where one is torn."""
    with Town(program, folder, 0) as town:
        town.words += ANYWHERE
        os.mkdir(town.journal)
        with open(os.path.join(town.journal, name), "wb") as file:
            file.write(octets)
        town.start()
        shown, said = town.ask(f"SHOW {LAST_BOX}").splitlines(), town.said()
        what = f"cut at {len(octets)}, the last records end at {ends[-4:]}"
        same(f"what is known of the last line ({what})", line_end <= len(octets), LAST_LINE in shown)
        same(f"whether it says that a record is torn ({what})", len(octets) not in ends, "but for what was written last" in said)
        assert "goes on from it" in said, f"{what}: {said}"


def cut_anywhere(program, folder):
    """Cut at each byte of its last three records a journal is read up to there."""
    name, octets, ends, line_end = left_in_the_middle(program, folder)
    places = range(ends[-4], len(octets) + 1)
    with ThreadPoolExecutor(AT_A_TIME) as pool:
        cut = []
        for place in places:
            own = os.path.join(folder, f"cut{place}")
            os.mkdir(own)
            cut.append(pool.submit(read_up_to, program, own, name, octets[:place], ends, line_end))
        for each in cut:
            each.result()


def goes_on_ahead(town):
    """A start over a journal whose end may be lost: dialogs go on, and no number stands in front of two texts: numbers leap. Once counts are
    told again all lamps are right, and the next kill is as any other."""
    town.start()
    for phone in town.phones:
        phone.ask(3600)
    town.wait("requests in dialogs are answered", lambda: all(phone.status is not None for phone in town.phones))
    same("answers", {200}, {phone.status for phone in town.phones})
    town.wait("numbers leap", lambda: all(max(phone.told) > 65_536 for phone in town.phones))
    assert "but for what was written last" in town.said(), town.said()
    for phone in town.phones:
        phone.first = max(phone.told)
    town.tell_all()
    town.come_right(0)
    town.kill()
    town.start()
    town.come_right(0)
    town.all_stay()


def a_flipped_byte(program, folder):
    """What stands behind a byte that is wrong isn't read."""
    with left_behind(program, folder) as town:
        path = newest(town.journal)
        with open(path, "r+b") as file:
            octets = file.read()
            place = journal_file.ends(octets)[-20] + 9
            file.seek(place)
            file.write(bytes([octets[place] ^ 1]))
        goes_on_ahead(town)


def rewrite_header(journal, old, new):
    """Has the newest file begin with another header."""
    path = newest(journal)
    records = records_in(path)
    header = re.sub(old, new, records[0])
    assert header != records[0], f"no {old} in {records[0]}"
    with open(path, "wb") as file:
        file.write(b"".join(map(journal_file.frame, [header, *records[1:]])))


def another_start_of_the_machine(program, folder):
    """What was written last may be lost with the power: numbers leap."""
    with left_behind(program, folder) as town:
        rewrite_header(town.journal, rb"[0-9a-f]{8}-[0-9a-f]{4}-", b"00000000-0000-")
        goes_on_ahead(town)


def another_version(program, folder):
    """A file of a program of another version is renamed, and said, and all begins anew."""
    with left_behind(program, folder) as town:
        path = newest(town.journal)
        rewrite_header(town.journal, rb"notifyd [0-9]", b"notifyd x")
        town.start()
        for phone in town.phones:
            phone.begin()
        town.tell_all()
        town.come_right(0)
        assert "is put aside" in town.said(), town.said()
        assert os.path.exists(f"{path}.old"), os.listdir(town.journal)
        town.kill()
        town.start()
        town.come_right(0)
        town.all_stay()


def two_services(program, folder):
    with Town(program, folder, 0) as town:
        town.start()
        town.ask("STATUS")
        ended = run(program, ["serve", "--listen", f"127.0.0.1:{free_port()}", "--control", f"127.0.0.1:{free_port()}", "--journal", town.journal, "alice"])
        same("the exit status", 3, ended.status)
        assert ended.err == f"notifyd: another service has this journal: {town.journal}\n".encode(), ended.err


def other_words(program, folder, *words):
    """Each phone is told that its subscription ends, and that it may come back at once (RFC 6665 section 4.1.3). Counts stay."""
    with left_behind(program, folder) as town:
        town.start(*words)
        town.wait("all are told of the end", lambda: all(phone.is_over for phone in town.phones))
        town.are_in_order()
        for phone in town.phones:
            phone.begin()
        town.wait("all are told again", lambda: all(phone.lamp is not None for phone in town.phones))
        town.are_right()
        town.kill()
        # The new file stands alone.
        town.start(*words)
        town.come_right(0)
        for phone in town.phones:
            phone.ends = 0
        town.all_stay()


def another_number_of_workers(program, folder):
    other_words(program, folder, "--workers", "2")


def another_seed(program, folder):
    other_words(program, folder, "--workers", "3", "--seed", ZEROS)


def another_contact(program, folder):
    other_words(program, folder, "--workers", "3", "--contact", "127.0.0.1:5999")


def another_address(program, folder):
    """From there nobody knows the service: each phone is told the end, and comes back to where that came from."""
    with left_behind(program, folder) as town:
        town.sip = ("127.0.0.1", free_port())
        for phone in town.phones:
            phone.sip = town.sip
        town.start()
        town.wait("all are told of the end", lambda: all(phone.is_over for phone in town.phones))
        town.are_in_order()


def other_limits(program, folder):
    """Limits that a service is started with hold from then on, and nobody notices."""
    with left_behind(program, folder) as town:
        town.words += ["--max-time", "1800", "--default-time", "1800", "--kept", "8"]
        town.start()
        town.come_right(0)
        town.all_stay()
        town.kill()
        town.start()
        town.come_right(0)
        town.all_stay()


def fewer_mailboxes(program, folder):
    """Who watches a mailbox that is gone is told so; the others notice nothing."""
    with left_behind(program, folder) as town:
        gone = MAILBOXES[1]
        town.mailboxes = town.operator.mailboxes = tuple(name for name in MAILBOXES if name != gone)
        town.start()
        ones = [phone for phone in town.phones if phone.mailbox == gone]
        town.wait("its phones are told", lambda: all(phone.is_over for phone in ones))
        states = {re.search(rb"Subscription-State: (.*)\r", phone.told[max(phone.told)]).group(1) for phone in ones}
        same("what they are told", {b"terminated;reason=noresource"}, states)
        for phone in ones:
            phone.ends = 0
        town.come_right(0)
        town.all_stay()


def one_more_mailbox(program, folder):
    with left_behind(program, folder) as town:
        town.mailboxes = (*MAILBOXES, "new")
        town.start()
        town.come_right(0)
        town.all_stay()
        same("a line for the new one", "ok", town.ask("MAIL new voice 1 0 0 0"))
        town.kill()
        town.start()
        town.come_right(0)
        town.all_stay()
        assert "MAIL new voice 1 0 0 0" in town.ask("SHOW new").splitlines(), town.ask("SHOW new")


def a_kill_behind_another(program, folder):
    """What nobody answered before a start with other mailboxes is sent again behind a kill of that, too."""
    with left_behind(program, folder) as town:
        town.start()
        town.operator.truth = {mailbox: not is_on for mailbox, is_on in town.operator.truth.items()}
        town.tell_all()
        town.kill()
        town.lose()
        for name in ("new", "newer"):
            town.mailboxes = (*town.mailboxes, name)
            town.start()
            town.ask("STATUS")
            town.kill()
            town.lose()
        town.start()
        town.come_right(0)
        town.all_stay()


def no_folder(program, folder):
    """Where no journal can be written the service says so, and runs without."""
    with Town(program, folder, 3) as town:
        with open(town.journal, "wb"):
            pass  # a file, where a folder should be
        town.start()
        town.subscribe()
        assert town.lost() > 0, town.ask("STATUS")
        assert "can't be written, so nothing is kept" in town.said(), town.said()


def no_regular_file(program, folder):
    """A FIFO isn't opened, since that may wait for ever. In place of a journal's only file it is put aside, as one that can't be read; behind
    another file it is one whose end is lost."""
    with Town(program, folder, 3) as town:
        os.mkdir(town.journal)
        os.mkfifo(f"{town.journal}/journal.1")
        town.start()
        town.subscribe()
        same("files", ["journal.1.old", "journal.2", "lock"], sorted(os.listdir(town.journal)))
        assert "can't be read, and is put aside" in town.said(), town.said()
    own = os.path.join(folder, "another")
    os.mkdir(own)
    with left_behind(program, own) as town:
        os.mkfifo(f"{town.journal}/journal.{max(journal_file.files(town.journal)) + 1}")
        goes_on_ahead(town)


def no_regular_lock(program, folder):
    """In a folder whose lock is a FIFO nothing can be kept."""
    with Town(program, folder, 3) as town:
        os.mkdir(town.journal)
        os.mkfifo(f"{town.journal}/lock")
        town.start()
        town.subscribe()
        assert "can't be written, so nothing is kept" in town.said(), town.said()


def is_made_read_only(folder):
    """Whether nothing can be written there any more. The user root may write whatever has no other owner, but not on a disk that is read
    alone."""
    if os.geteuid() == 0:
        return subprocess.run(["mount", "-o", "remount,ro", folder], stdout=subprocess.DEVNULL, stderr=subprocess.DEVNULL).returncode == 0
    for name in os.listdir(folder):
        os.chmod(os.path.join(folder, name), 0o444)
    os.chmod(folder, 0o555)
    return True


def is_made_writable(folder):
    if os.geteuid() == 0:
        subprocess.run(["mount", "-o", "remount,rw", folder], check=True)
        return
    os.chmod(folder, 0o755)
    for name in os.listdir(folder):
        os.chmod(os.path.join(folder, name), 0o644)


def a_read_only_folder(program, folder):
    """Where a folder is read alone the service says so and runs without, and its phones are told all the same. Once it can be written what
    was left there before is gone on from, and nothing of it stands in front of two texts."""
    with Town(program, folder, 6) as town:
        if os.geteuid() == 0 and not is_mounted(town.journal, "4m"):
            return
        try:
            town.start()
            town.subscribe()
            town.turn(time.monotonic() + 0.5, True)
            town.come_right(0)
            town.kill()
            assert is_made_read_only(town.journal), "it can't be made read-only"
            town.start()
            for phone in town.phones:
                phone.begin()
            town.tell_all()
            town.come_right(0)
            assert "can't be written, so nothing is kept" in town.said(), town.said()
            town.kill()
            is_made_writable(town.journal)
            town.start()
            for phone in town.phones:
                phone.begin()
            town.tell_all()
            town.come_right(0)
            town.all_stay()
        finally:
            town.kill()
            if os.geteuid() == 0:
                subprocess.run(["umount", town.journal], check=True)


def a_planned_stop(program, folder):
    """CLOSE says farewell as ever, and behind it nobody watches."""
    with left_behind(program, folder) as town:
        town.start()
        same("CLOSE", "ok", town.ask("CLOSE"))
        town.wait("all are told of the end", lambda: all(phone.is_over for phone in town.phones) or town.service is None)
        same("the exit status", 0, town.service.wait(PATIENCE))
        town.start()
        for phone in town.phones:
            phone.begin()
        town.wait("all are told again", lambda: all(phone.lamp is not None for phone in town.phones))
        town.are_right()


def is_mounted(folder, size):
    """Whether a disk of this size could be mounted there."""
    os.mkdir(folder)
    words = ["mount", "-t", "tmpfs", "-o", f"size={size}", "none", folder]
    return os.geteuid() == 0 and subprocess.run(words, stdout=subprocess.DEVNULL, stderr=subprocess.DEVNULL).returncode == 0


def fill(path):
    """Fills a disk by a file there."""
    ballast = os.open(path, os.O_CREAT | os.O_WRONLY)
    try:
        while True:
            os.write(ballast, bytes(4096))
    except OSError:
        os.close(ballast)


def a_full_disk(program, folder):
    """A disk that is full costs the journal, and no lamp: the service says so once, and begins another file when there is room."""
    with Town(program, folder, 6) as town:
        if not is_mounted(town.journal, "192k"):
            return
        try:
            town.operator.pause = 0.1
            town.start()
            town.subscribe()
            fill(f"{town.journal}/ballast")
            town.turn(time.monotonic() + 3, True)
            town.come_right(0)
            assert town.lost() > 0, "no record was lost"
            os.remove(f"{town.journal}/ballast")
            town.wait("a file is whole again", lambda: os.path.exists(f"{town.journal}/journal.2"), tells=True)
            town.turn(time.monotonic() + 2, True)
            counted = town.lost()
            town.turn(time.monotonic() + 2, True)
            same("records that are lost once a file is whole again", counted, town.lost())
            town.kill()
            town.start()
            town.come_right()
            town.all_stay()
        finally:
            town.kill()
            subprocess.run(["umount", town.journal], check=True)


def a_full_disk_at_a_start(program, folder):
    """Where a start with another mailbox finds no room for a new file, nobody goes on from the old one any more: its subscriptions went on, so
    their numbers would come twice. The next start begins anew."""
    with Town(program, folder, 6) as town:
        if not is_mounted(town.journal, "192k"):
            return
        try:
            town.operator.pause = 0.1
            town.start()
            town.subscribe()
            town.turn(time.monotonic() + 0.5, True)
            town.come_right(0)
            town.kill()
            fill(f"{town.journal}/ballast")
            town.mailboxes = (*MAILBOXES, "new")
            town.start()
            for _ in range(3):
                town.operator.truth = {mailbox: not is_on for mailbox, is_on in town.operator.truth.items()}
                town.tell_all()
                town.come_right(0)
            assert "can't be written, so nothing is kept" in town.said(), town.said()
            town.kill()
            os.remove(f"{town.journal}/ballast")
            town.start()
            for phone in town.phones:
                phone.ask(3600)
            town.tell_all()
            town.wait("requests in dialogs are answered", lambda: all(phone.status is not None for phone in town.phones))
            town.turn(time.monotonic() + 0.5)
            same("what is wrong with numbers", [], [fault for phone in town.phones for fault in phone.faults])
            same("answers in dialogs that nobody knows", {481}, {phone.status for phone in town.phones})
            same("files that are put aside", True, any(name.endswith(".old") for name in os.listdir(town.journal)))
            for phone in town.phones:
                phone.begin()
            town.come_right(0)
            town.kill()
            town.start()
            town.come_right(0)
            town.all_stay()
        finally:
            town.kill()
            subprocess.run(["umount", town.journal], check=True)


def checks():
    yield "twenty kills while phones watch and mails come, and no lamp is wrong", twenty_kills
    yield "three kills where each record is brought to the disk at once", each_on_the_disk
    yield "a second file", another_file
    yield "no second file tells of a transfer that nobody watches", a_transfer_that_nobody_watches
    yield "nor does one that a start writes", nobody_behind_starts
    yield "a journal that is cut anywhere", cut_anywhere
    yield "a flipped byte", a_flipped_byte
    yield "two services have no journal together", two_services
    yield "another number of workers", another_number_of_workers
    yield "another seed", another_seed
    yield "another contact", another_contact
    yield "another address", another_address
    yield "another version", another_version
    yield "another start of the machine", another_start_of_the_machine
    yield "other limits", other_limits
    yield "a mailbox that is gone", fewer_mailboxes
    yield "a new mailbox", one_more_mailbox
    yield "a kill behind a start with other mailboxes", a_kill_behind_another
    yield "no folder", no_folder
    yield "a FIFO in place of a file", no_regular_file
    yield "a FIFO in place of the lock", no_regular_lock
    yield "a read-only folder", a_read_only_folder
    yield "a planned stop", a_planned_stop
    yield "a full disk", a_full_disk
    yield "a full disk at a start with another mailbox", a_full_disk_at_a_start


def main():
    words = argparse.ArgumentParser(description="Kills a service with a journal often, and counts what phones notice.")
    words.add_argument("program")
    words.add_argument("--phones", type=int, default=300)
    words.add_argument("--kills", type=int, default=100)
    words.add_argument("--seed", type=int, default=1)
    asked = words.parse_args()
    with tempfile.TemporaryDirectory(prefix="crashes-") as folder:
        lines, notifies = killed_often(os.path.abspath(asked.program), folder, asked.phones, asked.kills, asked.seed)
    print(f"{asked.kills} kills, {asked.phones} phones: no lamp wrong, each dialog goes on; {lines} lines, {notifies} NOTIFYs")


if __name__ == "__main__":
    main()
