#!/usr/bin/env python3
"""A small notifier of waiting messages on Sofia-SIP's `nua`, for field/loss and bench/peers to compare with.

    field/nua.py PORT CONTROL MAILBOX..

It serves these mailboxes at 127.0.0.1:PORT by nua's own event server (`nua_notifier`), which answers each SUBSCRIBE, keeps each subscription
in memory and sends each NOTIFY. Lines come to 127.0.0.1:CONTROL as to `notifyd serve`: `MAIL alice voice 2 8 0 2` is answered by `ok`, as any
other line is. It ends at TERM.

The library is called from here by ctypes, over Debian's package libsofia-sip-ua0 (1.12.11), all in one thread: with a thread of its own, which is
the library's default, a subscription costs it twice as much. Python runs at the start, and once for each control line. While subscriptions come it
waits in the library's own loop (`su_root_run`), and what nua tells its application of them goes to a function of the C library that looks at
nothing. So what a subscription costs is Sofia's alone: of the samples that perf takes meanwhile none are of Python. Of the memory 10 MB are."""

import ctypes
import os
import signal
import socket
import subprocess
import sys

HERE = os.path.dirname(os.path.abspath(__file__))
sys.path.append(os.path.join(HERE, "..", "tests"))

from suite import first_answer, started
from watchers import Feeder

LIBRARY = "libsofia-sip-ua.so.0"

# Subscriptions that a mailbox has at most.
SUBSCRIPTIONS = 65536

# Bytes of datagrams that wait for it, as far as the system grants them: as many as `notifyd serve` asks for.
ROOM = 1 << 22

# How often its loop goes round before the first control line is heard: so each mailbox is there when one is answered.
STEPS = 100

# POLLIN of poll(2): something can be read.
READABLE = 1

# Seconds in which it must answer at its start.
START = 10


class Wait(ctypes.Structure):
    """A socket that the library's loop waits for (`su_wait_t`, a struct pollfd)."""

    _fields_ = [("socket", ctypes.c_int), ("events", ctypes.c_short), ("came", ctypes.c_short)]


Wakeup = ctypes.CFUNCTYPE(ctypes.c_int, ctypes.c_void_p, ctypes.POINTER(Wait), ctypes.c_void_p)


def is_installed():
    try:
        ctypes.CDLL(LIBRARY)
    except OSError:
        return False
    return True


class Server:
    """The notifier itself, in a process of its own."""

    def __init__(self, port, control, mailboxes):
        self.sofia = ctypes.CDLL(LIBRARY)
        for name in ("su_root_create", "nua_create", "nua_handle"):
            getattr(self.sofia, name).restype = ctypes.c_void_p
        self.sofia.su_init()
        self.root = ctypes.c_void_p(self.sofia.su_root_create(None))
        self.sofia.su_root_threading(self.root, 0)
        self.nua = self.created(port)
        self.mailboxes = {name: self.offered(name, port) for name in mailboxes}
        for _ in range(STEPS):
            self.sofia.su_root_step(self.root, ctypes.c_long(1))
        self.control = socket.socket(socket.AF_INET, socket.SOCK_DGRAM)
        self.control.bind(("127.0.0.1", control))
        self.control.setblocking(False)
        self.wait, self.wakeup = Wait(), Wakeup(self.hear)
        self.sofia.su_wait_create(ctypes.byref(self.wait), self.control.fileno(), READABLE)
        self.sofia.su_root_register(self.root, ctypes.byref(self.wait), self.wakeup, None, 0)

    def tags(self, *pairs):
        """A list of tags, as the library's functions take it: each tag's own address and its value, and a null behind the last."""
        words = []
        for name, value in pairs:
            words.append(ctypes.c_void_p(ctypes.addressof(ctypes.c_char.in_dll(self.sofia, name))))
            words.append(ctypes.c_char_p(value.encode()) if isinstance(value, str) else ctypes.c_ssize_t(value))
        return (*words, ctypes.c_void_p(None), ctypes.c_void_p(None))

    def created(self, port):
        """The agent at this port, whose application looks at no event."""
        looks_at_nothing = ctypes.cast(ctypes.CDLL(None).abs, ctypes.c_void_p)
        agent = self.sofia.nua_create(
            self.root, looks_at_nothing, None,
            *self.tags(
                ("nutag_url", f"sip:127.0.0.1:{port};transport=udp"), ("nutag_max_subscriptions", SUBSCRIPTIONS), ("tptag_udp_rmem", ROOM)
            ),
        )
        if not agent:
            raise SystemExit(f"Sofia-SIP doesn't listen at 127.0.0.1:{port}")
        return ctypes.c_void_p(agent)

    def offered(self, name, port):
        """The handle of a mailbox that may be subscribed to, without messages. It tells each change, however soon it comes behind the one before."""
        handle = ctypes.c_void_p(self.sofia.nua_handle(self.nua, None, *self.tags()))
        self.tell(
            handle, "Messages-Waiting: no\r\n", ("nutag_url", f"sip:{name}@127.0.0.1:{port}"), ("neatag_min_expires", 1),
            ("neatag_throttle", 0), ("neatag_minthrottle", 0),
        )
        return handle

    def tell(self, handle, body, *more):
        """Has all watchers of a mailbox be told what it holds."""
        lines = (("siptag_event_str", "message-summary"), ("siptag_content_type_str", "application/simple-message-summary"))
        self.sofia.nua_notifier(handle, *self.tags(*more, *lines, ("siptag_payload_str", body)))

    def hear(self, *_):
        """Takes the control lines that came."""
        while True:
            try:
                line, source = self.control.recvfrom(65535)
            except BlockingIOError:
                return 0
            if line.startswith(b"MAIL "):
                _mail, name, _kind, new, old, urgent, old_urgent = line.decode().split()
                self.tell(self.mailboxes[name], f"Messages-Waiting: {'yes' if int(new) else 'no'}\r\nVoice-Message: {new}/{old} ({urgent}/{old_urgent})\r\n")
            self.control.sendto(b"ok", source)

    def run(self):
        self.sofia.su_root_run(self.root)


def command(sip, control, mailboxes):
    """The command that starts one at these ports."""
    return [sys.executable, os.path.abspath(__file__), str(sip), str(control), *mailboxes]


class Nua:
    """One at these ports, to be used in a `with`."""

    def __init__(self, ports, mailboxes):
        self.sip, self.control = ports
        self.mailboxes = mailboxes
        self.process = None

    def __enter__(self):
        self.process = started(command(self.sip, self.control, self.mailboxes), stdin=subprocess.DEVNULL)
        try:
            self.find()
        except BaseException:
            self.__exit__()
            raise
        return self

    def __exit__(self, *_):
        self.process.kill()
        self.process.wait()

    def find(self):
        """Waits until it answers."""
        if first_answer(self.control, lambda _: b"STATUS", START) is None:
            raise AssertionError("the notifier on Sofia-SIP doesn't answer")

    def feeder(self, agenda):
        return Feeder(self.control, agenda)

    def end(self, _crowd):
        """It has no farewell: the `with` ends it."""


if __name__ == "__main__":
    signal.signal(signal.SIGTERM, signal.SIG_DFL)
    Server(int(sys.argv[1]), int(sys.argv[2]), sys.argv[3:]).run()
