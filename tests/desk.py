"""A control address that answers as a service does whose mailboxes and watchers a check makes up: STATUS, WATCHERS and DUMP in pages, MAIL
lines by `ok`. It keeps each line that came. Used in a `with`."""

import socket
import threading
import time

# Bytes of rows with which a page is full, and rows of one at most, as of `notifyd`.
FULL, LINES = 6800, 500

COUNTERS = {
    "up": 4000, "datagrams": 50, "events": 49, "answers": 20, "notifies": 19, "repeats": 5, "given_up": 3, "once": 4, "per_source": 2, "forbidden": 1,
    "live": 3, "workers": 4, "answers_200": 13, "answers_404": 5, "answers_503": 2, "kernel_drops": 17,
}


class Watched:
    """A row of WATCHERS."""

    def __init__(self, number, mailbox, sent=1, answered=1, more=""):
        self.mailbox, self.sent, self.answered, self.more = mailbox, sent, answered, more
        self.user = f"sip:{mailbox}@pbx.example"
        self.address = f"10.{number >> 16 & 255}.{number >> 8 & 255}.{number & 255}:5060"
        self.tag = f"w{number % 4}-{number + 1}-{number * 2654435761 % (1 << 64):016x}"
        self.age, self.left = number % 3600, 3600 - number % 3600

    def line(self):
        return f"{self.mailbox} {self.user} {self.address} {self.tag} {self.sent} {self.answered} {self.age} {self.left}{self.more}\n"


class Desk:
    """Answers at a port of 127.0.0.1. `rows` may be changed while it runs, `counters` too, and `mails`: MAIL lines. `status` has an answer to
    STATUS in place of the counters, and while it `is_silent` it answers nothing. So often as `busy` says it has no time
    for WATCHERS, and as `busy_later` says none for a page behind the first."""

    def __init__(self, rows=(), mails=(), port=0, **counters):
        self.rows, self.mails, self.counters = list(rows), list(mails), {**COUNTERS, "live": len(rows), **counters}
        self.unread = [1, 2, 3, 4, 5, 6, 7]
        self.heard, self.status, self.is_silent, self.began = [], None, False, time.monotonic()
        self.busy = self.busy_later = 0
        self.socket = socket.socket(socket.AF_INET, socket.SOCK_DGRAM)
        self.socket.bind(("127.0.0.1", port))
        self.port = self.socket.getsockname()[1]
        self.thread = threading.Thread(target=self.run, daemon=True)

    def __enter__(self):
        self.thread.start()
        return self

    def __exit__(self, *_):
        # Its own thread wakes by this, and goes.
        self.socket.sendto(b"end", ("127.0.0.1", self.port))
        self.thread.join()
        self.socket.close()

    def run(self):
        while True:
            octets, source = self.socket.recvfrom(65535)
            if octets == b"end":
                return
            line = octets.decode()
            self.heard.append(line)
            if not self.is_silent:
                self.socket.sendto(self.answer(line).encode(errors="surrogateescape"), source)

    def answer(self, line):
        words = [it for it in line.split(" ") if not it.startswith("@")]
        if words[0] == "STATUS":
            told = {**self.counters, "up": self.counters["up"] + int(time.monotonic() - self.began)}
            return self.status or "".join(["ok\n", *(f"{name} {number}\n" for name, number in told.items()), f"unread {' '.join(map(str, self.unread))}\n"])
        if words[0] == "WATCHERS" and self.busy:
            self.busy -= 1
            return "busy"
        if words[0] == "WATCHERS" and len(words) > 2 and self.busy_later:
            self.busy_later -= 1
            return "busy"
        if words[0] == "WATCHERS":
            return self.watchers(int(words[2]) if len(words) > 2 else 0)
        if words[0] == "DUMP":
            return self.dump(words[1] if len(words) > 1 else None)
        return "ok" if words[0] == "MAIL" else "bad line"

    def watchers(self, place):
        left = min(place, len(self.rows)) if place else len(self.rows)
        text, lines = "", 0
        while left and lines < LINES and len(text) < FULL:
            left, lines = left - 1, lines + 1
            text += self.rows[left].line()
        return f"ok\n{text}" + (f"more {left}\n" if left else "")

    def dump(self, behind):
        names = [it.split(" ")[1] for it in self.mails]
        at = len(names) - names[::-1].index(behind) if behind in names else 0
        text = ""
        while at < len(names) and (len(text) < FULL or names[at] == names[at - 1]):
            text += self.mails[at]
            at += 1
        return f"ok\n{text}" + (f"more {names[at - 1]}\n" if at < len(names) else "")
