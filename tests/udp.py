"""`notifyd udp` with phones at it: a notifier that ends after so many datagrams and a CLOSE."""

import os
import socket
import threading
import time
from concurrent.futures import ThreadPoolExecutor

from phone import NO_MESSAGES, OVER, Operator, Phone, open_socket
from suite import LIMIT, Running, ended_with, free_port, run, same
from tags import local_tag

SEED = "00112233445566778899aabbccddeeffFFEEDDCCBBAA99887766554433221100"

DEVICE_FAULT = b"notifyd: device fault\n"
BAD_ARGUMENTS = b"notifyd: bad arguments\n"

# How often each mailbox changes at the party, and how many datagrams of SIP come to it: of each phone an OPTIONS, a SUBSCRIBE and
# an answer to each of six NOTIFYs, and of one of them a REFER and two answers.
CHANGES = 5
PARTY = 3 * 8 + 3

# How long a line of a SUBSCRIBE must be for a NOTIFY with it to be too long for a datagram, where the SUBSCRIBE isn't.
LONG = 65_050

# The greatest number of a port.
LAST_PORT = 65535

# Words that ask for no run.
BAD = (
    "udp",
    "udp 5060 5061 1 1",
    "udp 0 5061 1 1 alice",
    "udp 5060 65536 1 1 alice",
    "udp 5060 5061 0 1 alice",
    "udp 5060 5061 257 1 alice",
    "udp 5060 5061 1 4294967296 alice",
    "udp 05060 5061 1 1 alice",
    f"udp --stop --seed {SEED} 5060 5061 1 1 alice",
    "script 5060 5061 1 1 alice",
)


def find(phone, is_running):
    """Waits until somebody hears this phone, which an OPTIONS tells: it is answered by a refusal, and counts as a datagram."""
    question = phone.request("OPTIONS", f"OPTIONS{phone.user}", 1, "", ())
    until = time.monotonic() + LIMIT
    while not phone.is_heard(question):
        if time.monotonic() > until or not is_running():
            raise AssertionError("nobody listens at the port for SIP")
        time.sleep(0.005)


class Run:
    """A run of the program on a thread of its own, to be used in a `with`. It is killed where it doesn't end in time, and at the
    end of the block it has ended: `ended` is how."""

    def __init__(self, program, workers, count, users, options=(), **how):
        self.sip, self.control = free_port(), free_port()
        words = ["udp", *options, str(self.sip), str(self.control), str(workers), str(count), *users]
        self.ended = None
        self.failure = None
        self.thread = threading.Thread(target=self._run, args=(program, words), kwargs=how)

    def _run(self, program, words, **how):
        try:
            self.ended = run(program, words, **how)
        except AssertionError as failure:
            self.failure = failure

    def __enter__(self):
        self.thread.start()
        return self

    def __exit__(self, kind, *_):
        if kind is not None:
            # Something was missed: datagrams of no use and a CLOSE end it.
            self.end_anyhow()
        self.thread.join()
        if kind is None and self.failure is not None:
            raise self.failure

    def end_anyhow(self):
        """Sends what the run waits for, until it has ended or is killed."""
        with socket.socket(socket.AF_INET, socket.SOCK_DGRAM) as voice:
            while self.thread.is_alive():
                voice.sendto(b"no message", ("127.0.0.1", self.sip))
                voice.sendto(b"CLOSE", ("127.0.0.1", self.control))
                time.sleep(0.01)

    def find(self, phone):
        """Waits until the run hears this phone."""
        find(phone, self.thread.is_alive)

    def phone(self, user):
        """A phone that this run hears."""
        phone = Phone(self.sip, user)
        self.find(phone)
        return phone

    def ports_are_free(self):
        for port in (self.sip, self.control):
            with socket.socket(socket.AF_INET, socket.SOCK_DGRAM) as other:
                other.bind(("127.0.0.1", port))


def watch(party, phone):
    """Subscribes, and has the mailbox change some times: each change is told by the next NOTIFY."""
    with Operator(party.control) as operator:
        phone.subscribe()
        for new in range(CHANGES):
            operator.say(f"MAIL {phone.user} voice {new} 1 0 0")
            waiting = "yes" if new else "no"
            phone.expect_notify("active;expires=3600", f"Messages-Waiting: {waiting}\r\nVoice-Message: {new}/1 (0/0)\r\n")


def three_phones(program, folder):
    users = ("alice", "bob", "dave")
    with Run(program, 2, PARTY, users) as party, Operator(party.control) as operator:
        phones = [party.phone(user) for user in users]
        with ThreadPoolExecutor(len(phones)) as threads:
            list(threads.map(lambda phone: watch(party, phone), phones))
        tag = phones[0].refer("sip:carol@127.0.0.1")
        operator.say(f"PROGRESS {tag} 200 OK")
        phones[0].expect_notify(OVER + "noresource", "SIP/2.0 200 OK\r\n")
        operator.say("no control line")
        operator.say("CLOSE\n")
        for phone in phones:
            phone.socket.close()
    same("the tag of the transfer", "w0-3-bdd219b8a08ded1a", tag)
    # Of the datagrams each worker got those to its mailboxes and dialogs, and of the OPTIONS those that the hash of their Call-ID
    # sends there.
    page = b"START w0-3-bdd219b8a08ded1a sip:carol@127.0.0.1\nWORKER 0 30 20 closed\nWORKER 1 13 8 closed\n"
    ended_with(party.ended, 0, page, b"")
    party.ports_are_free()


def a_start_line_is_flushed(program, folder):
    path = os.path.join(folder, "page")
    with open(path, "wb") as page, Run(program, 1, 3, ["alice"], stdout=page) as transfer:
        with transfer.phone("bob") as phone, Operator(transfer.control) as operator:
            line = f"START {phone.refer('sip:carol@127.0.0.1')} sip:carol@127.0.0.1\n"
            until = time.monotonic() + LIMIT
            while os.path.getsize(path) < len(line) and time.monotonic() < until:
                time.sleep(0.01)
            with open(path) as written:
                same("what is written while it runs", line, written.read())
            operator.say("CLOSE")
    ended_with(transfer.ended, 0, None, b"")


def a_notify_too_long(program, folder):
    with Run(program, 2, 2, ("alice", "bob", "dave")) as errand, Operator(errand.control) as operator:
        with errand.phone("bob") as phone:
            phone.ask("SIP/2.0 200 OK", f"Record-Route: <sip:{'p' * LONG};lr>")
            operator.say("CLOSE")
    ended_with(errand.ended, 3, b"WORKER 0 0 0 closed\nWORKER 1 2 3 closed\n", DEVICE_FAULT)
    errand.ports_are_free()


def a_writer_takes_nothing(program, folder):
    shut = os.path.join(folder, "shut")
    with open(shut, "w") as script:
        script.write(f"#!/bin/sh\nexec '{program}' \"$@\" >&-\n")
    os.chmod(shut, 0o700)
    reader, writer = os.pipe()
    os.close(reader)
    with open("/dev/full", "wb") as full, os.fdopen(writer, "wb") as unread:
        for program, stdout in ((program, full), (program, unread), (shut, None)):
            with Run(program, 2, 1, ("alice", "bob", "dave"), stdout=stdout) as errand, Operator(errand.control) as operator:
                with errand.phone("bob"):
                    operator.say("CLOSE")
            ended_with(errand.ended, 3, None, DEVICE_FAULT)
            errand.ports_are_free()


def a_port_is_taken(program, folder):
    with open_socket(("127.0.0.1", 9)) as other:
        taken = other.getsockname()[1]
        for ports in ((taken, free_port()), (free_port(), taken)):
            ended_with(run(program, ["udp", *map(str, ports), "2", "1", "alice"]), 3, b"", DEVICE_FAULT)


def words_ask_for_none(program, folder):
    for words in BAD:
        same(f"what {words} gives", (1, b"", BAD_ARGUMENTS), tuple(run(program, words.split())))


def so_many_are_read(program, folder):
    with Run(program, 1, 4, ["alice"]) as errand, Operator(errand.control) as operator:
        with errand.phone("alice") as phone:
            phone.leave(phone.subscribe(), NO_MESSAGES)  # the answer to its last NOTIFY is the fifth
            operator.say("CLOSE")
    ended_with(errand.ended, 0, b"WORKER 0 4 5 closed\n", b"")


def none_is_read(program, folder):
    """Runs that wait for a CLOSE alone. A mailbox may have a space in its name here, since the words come one by one."""
    for workers, users in ((2, ["a b"]), (256, ["bob"])):
        with Run(program, workers, 0, users, options=("--seed", SEED, "--stop")) as errand, Operator(errand.control) as operator:
            while errand.thread.is_alive():
                operator.say("CLOSE")
                time.sleep(0.01)
        # Each worker handled the planned stop.
        lines = "".join(f"WORKER {worker} 1 0 closed\n" for worker in range(workers))
        ended_with(errand.ended, 0, lines.encode(), b"")


def until_free(port):
    """Waits until nobody has this port of 127.0.0.1."""
    until = time.monotonic() + LIMIT
    while True:
        with socket.socket(socket.AF_INET, socket.SOCK_DGRAM) as other:
            try:
                return other.bind(("127.0.0.1", port))
            except OSError:
                if time.monotonic() > until:
                    raise
        time.sleep(0.05)


def the_greatest_numbers_are_heard(program, folder):
    """256 workers for 4,294,967,295 datagrams, and the last port: once that for SIP, once that for control lines. So many datagrams
    never come, so each run is killed."""
    for sip, control in ((LAST_PORT, free_port()), (free_port(), LAST_PORT)):
        until_free(LAST_PORT)
        words = ["udp", "--stop", str(sip), str(control), "256", "4294967295", "bob"]
        with Running(program, words) as errand, Phone(sip, "bob") as phone:
            find(phone, lambda: errand.process.poll() is None)
            phone.subscribe()
            with Operator(control) as operator:
                operator.say("MAIL bob voice 1 0 0 0")
            phone.expect_notify("active;expires=3600", "Messages-Waiting: yes\r\nVoice-Message: 1/0 (0/0)\r\n")


def seed_and_stop(program, folder):
    with Run(program, 1, 3, ["alice"], options=("--seed", SEED, "--stop")) as errand, Operator(errand.control) as operator:
        with errand.phone("alice") as phone:
            same("the tag", local_tag(SEED, 0, 1), phone.subscribe().tag)
            operator.say("CLOSE")
            phone.expect_notify(OVER + "deactivated", NO_MESSAGES)
    ended_with(errand.ended, 0, b"WORKER 0 4 4 closed\n", b"")


def time_comes_by_lines(program, folder):
    with Run(program, 1, 6, ["alice"]) as errand, Operator(errand.control) as operator:
        with errand.phone("alice") as phone:
            phone.subscribe()
            errand.find(phone)  # so that its answer to the NOTIFY was heard before it is late
            operator.say("TICK 3599")
            operator.say("MAIL alice fax 1 0 0 0")
            phone.expect_notify("active;expires=1", "Messages-Waiting: yes\r\nFax-Message: 1/0 (0/0)\r\n")
            operator.say("TICK 3600")
            phone.expect_notify(OVER + "timeout")
            operator.say("CLOSE")
    # Three requests and three answers, a change and two ticks; three answers and three NOTIFYs.
    ended_with(errand.ended, 0, b"WORKER 0 9 6 closed\n", b"")


def checks():
    yield "udp: three phones, two workers, and a transfer from its REFER to its end", three_phones
    yield "udp: the line of a transfer is out while it runs", a_start_line_is_flushed
    yield "udp: a NOTIFY longer than a datagram", a_notify_too_long
    yield "udp: a writer that takes nothing", a_writer_takes_nothing
    yield "udp: a port that is taken", a_port_is_taken
    yield "udp: words that ask for no run", words_ask_for_none
    yield "udp: so many datagrams are read", so_many_are_read
    yield "udp: no datagram is read, by 2 workers and by 256", none_is_read
    yield "udp: the greatest numbers of workers, datagrams and ports are heard", the_greatest_numbers_are_heard
    yield "udp: tags by --seed, and a farewell by --stop", seed_and_stop
    yield "udp: time comes by control lines", time_comes_by_lines
