"""Kamailio as a notifier of waiting messages (its modules presence and presence_mwi), for field/loss to compare with: what a mailbox
holds is brought by PUBLISH (RFC 3903)."""

import os
import re
import shutil
import signal
import subprocess
import tempfile

from phone import Message
from suite import first_answer, started
from watchers import T1, open_socket, received

HERE = os.path.dirname(os.path.abspath(__file__))

# What Debian's package gives: tables of no rows.
TABLES = "/usr/share/kamailio/dbtext/kamailio"

# Seconds in which it must answer at its start, and end.
START, END = 10, 20

# How often a PUBLISH is sent at most.
TRIES = 8


class Presence:
    """Kamailio at this port, to be used in a `with`."""

    def __init__(self, port, children=4):
        self.sip, self.children = port, children
        self.folder = tempfile.TemporaryDirectory(prefix="presence-")
        self.process = None

    def __enter__(self):
        try:
            self.start()
            self.find()
        except BaseException:
            self.__exit__()
            raise
        return self

    def __exit__(self, *_):
        if self.process:
            self.process.send_signal(signal.SIGTERM)
            try:
                self.process.wait(END)
            except subprocess.TimeoutExpired:
                self.process.kill()
                self.process.wait()
        self.folder.cleanup()

    def start(self):
        with open(f"{self.folder.name}/log", "wb") as log:
            self.process = started(command(self.folder.name, self.sip, self.children), stdin=subprocess.DEVNULL, stdout=log, stderr=log)

    def find(self):
        """Waits until it answers."""
        if first_answer(self.sip, lambda asker: request("OPTIONS", "alice", self.sip, asker, 1, (), ""), START) is None:
            with open(f"{self.folder.name}/log") as log:
                raise AssertionError(f"Kamailio doesn't answer: {log.read()}")

    def feeder(self, agenda):
        return Publisher(self.sip, agenda)

    def end(self, _crowd):
        """It has no farewell: the `with` ends it."""


def command(place, port, children=4, megabytes=64):
    """The command that starts it at this port, with what it needs in this folder: so many processes take requests, and share so much memory."""
    address = f"127.0.0.1:{port}"
    shutil.copytree(TABLES, f"{place}/tables")
    with open(f"{HERE}/presence.cfg") as file:
        text = file.read().replace("FOLDER", f"{place}/tables").replace("ADDRESS", address).replace("children=4", f"children={children}")
    with open(f"{place}/presence.cfg", "w") as file:
        file.write(text)
    return f"kamailio -f {place}/presence.cfg -l udp:{address} -Y {place} -P {place}/pid -m {megabytes} -M 8 -DD -E".split()


def request(method, user, port, speaker, number, lines, body):
    """A request outside a dialog about the mailbox of this user, from a socket."""
    me = "{}:{}".format(*speaker.getsockname())
    return "\r\n".join([
        f"{method} sip:{user}@127.0.0.1:{port} SIP/2.0",
        f"Via: SIP/2.0/UDP {me};branch=z9hG4bK{method}{number}",
        "Max-Forwards: 70",
        f"From: <sip:{user}@127.0.0.1:{port}>;tag=feeder",
        f"To: <sip:{user}@127.0.0.1:{port}>",
        f"Call-ID: {method}",
        f"CSeq: {number} {method}",
        *lines,
        f"Content-Length: {len(body)}", "", body,
    ]).encode()


class Publisher:
    """Whoever brings what a mailbox holds, by a PUBLISH after the other (RFC 3903), each sent again until it is answered."""

    def __init__(self, port, agenda):
        self.port, self.agenda = port, agenda
        self.socket = open_socket(port, 0)
        self.number = 0  # of the last PUBLISH
        self.answered = 0  # the last of them that is
        self.lines = ()  # that say which state a PUBLISH changes

    def change(self, user, new):
        self.number += 1
        body = f"Messages-Waiting: {'yes' if new else 'no'}\r\nVoice-Message: {new}/0 (0/0)\r\n"
        lines = ("Event: message-summary", "Expires: 3600", *self.lines, "Content-Type: application/simple-message-summary")
        self.say(self.number, request("PUBLISH", user, self.port, self.socket, self.number, lines, body), TRIES)

    def say(self, number, octets, tries):
        if self.answered >= number:
            return
        if not tries:
            raise AssertionError("Kamailio answers no PUBLISH")
        self.socket.send(octets)
        self.agenda.add(T1, lambda: self.say(number, octets, tries - 1))

    def hear(self):
        octets = received(self.socket)
        if not octets:
            return
        answer = Message(octets)
        if not answer.first.startswith("SIP/2.0 200 "):
            raise AssertionError(f"Kamailio answers a PUBLISH by {answer.first}")
        self.answered = int(re.match(r"\d+", answer.value("CSeq")).group())
        self.lines = (f"SIP-If-Match: {answer.value('SIP-ETag')}",)

    def is_done(self):
        return self.answered == self.number
