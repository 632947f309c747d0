"""Phones behind a proxy, as many as a plant has, all on one thread. Each keeps to RFC 3261 and RFC 6665, as phones should. It sends a SUBSCRIBE
again until it is answered (timers E and F), follows the Record-Route of its dialog, and asks for more time at half of what was granted. It
subscribes anew at once where its dialog is over: 408, 481, or a NOTIFY that says `deactivated`. It answers a NOTIFY of another
dialog by 481, and one that is older than the last by 500."""

import os
import re
import socket
import time

from watchers import T1, T2, TIMER_F, Agenda, EventLoop

# Seconds until a phone tries again that was refused.
AGAIN = 5.0


class Message:
    """A message, read as far as a phone needs it."""

    def __init__(self, octets):
        head, _, self.body = octets.decode("utf-8", "surrogateescape").partition("\r\n\r\n")
        self.first, *self.lines = head.split("\r\n")

    def values(self, name):
        """The values of all lines of this name, those of one line apart."""
        lines = [line.partition(":")[2].strip() for line in self.lines if line.partition(":")[0].strip().lower() == name]
        return [value.strip() for line in lines for value in re.split(r",(?=\s*<)", line)]

    def value(self, name):
        return next(iter(self.values(name)), "")

    def tag(self, name):
        found = re.search(";tag=([^;>]*)$", self.value(name))
        return found[1] if found else ""

    def answer(self, status):
        kept = [line for line in self.lines if line.partition(":")[0].strip().lower() in ("via", "record-route", "from", "to", "call-id", "cseq")]
        return "\r\n".join([f"SIP/2.0 {status}", *kept, "Content-Length: 0", "", ""])


class Phone:
    """A phone that watches a mailbox through the proxy at this address, and asks for so many seconds."""

    def __init__(self, plant, mailbox, proxy, seconds):
        self.plant, self.mailbox, self.seconds = plant, mailbox, seconds
        self.proxy = "{}:{}".format(*proxy)
        self.socket = socket.socket(socket.AF_INET, socket.SOCK_DGRAM)
        self.socket.connect(proxy)
        self.socket.setblocking(False)
        self.me = "{}:{}".format(*self.socket.getsockname())
        self.shown = None  # new messages, as the lamp shows them
        self.dialogs = 0  # that it began
        self.notifies = self.backward = self.doubled = 0
        self.is_leaving = False
        self.is_over = False  # its mailbox is gone: it doesn't come back (RFC 6665 section 4.1.3)
        self.call = ""

    def begin(self):
        """Subscribes, in a dialog of its own."""
        self.dialogs += 1
        self.call, self.tag, self.target, self.routes = os.urandom(8).hex(), "", f"sip:{self.mailbox}@{self.proxy}", []
        self.asked = self.heard = 0
        self.branches = {}
        self.subscribe(self.seconds)

    def subscribe(self, seconds):
        self.asked += 1
        self.status, self.pause = 0, T1
        self.until = time.monotonic() + TIMER_F
        request = "\r\n".join([
            f"SUBSCRIBE {self.target} SIP/2.0",
            f"Via: SIP/2.0/UDP {self.me};rport;branch=z9hG4bK{self.call}.{self.asked}",
            "Max-Forwards: 70", *[f"Route: {route}" for route in self.routes],
            f"From: <sip:{self.mailbox}@{self.proxy}>;tag={self.call}",
            f"To: <sip:{self.mailbox}@{self.proxy}>" + (f";tag={self.tag}" if self.tag else ""),
            f"Call-ID: {self.call}", f"CSeq: {self.asked} SUBSCRIBE",
            f"Contact: <sip:{self.mailbox}@{self.me}>",
            "Event: message-summary", f"Expires: {seconds}", "Content-Length: 0", "", "",
        ])
        self.ask((self.call, self.asked), request)

    def ask(self, which, request):
        """Sends a request, and again at each interval, until it is answered or nobody answers it."""
        if which != (self.call, self.asked) or self.status:
            return
        if time.monotonic() >= self.until:
            self.plant.unanswered += 1
            self.begin()
            return
        self.send(request)
        self.plant.agenda.add(self.pause, lambda: self.ask(which, request))
        self.pause = min(2 * self.pause, T2)

    def send(self, text):
        try:
            self.socket.send(text.encode("utf-8", "surrogateescape"))
        except OSError:
            pass  # as if it were lost

    def hear(self):
        try:
            message = Message(self.socket.recv(65535))
        except OSError:
            return
        if message.first.startswith("NOTIFY "):
            self.hear_notify(message)
        elif (message.value("call-id"), message.value("cseq")) == (self.call, f"{self.asked} SUBSCRIBE") and not self.status:
            self.hear_answer(int(message.first.split(" ")[1]), message)

    def hear_answer(self, status, answer):
        if status < 200:
            self.pause = T2
            return
        self.status = status
        self.plant.answers[status] = self.plant.answers.get(status, 0) + 1
        if status >= 300:
            if self.is_leaving:
                return
            # In a dialog: it is over (RFC 3261 section 12.2.1.2, RFC 6665 section 4.1.2.2).
            self.plant.agenda.add(0 if self.tag and status in (408, 481) else AGAIN, self.begin)
            return
        if not self.tag:
            self.tag, self.routes = answer.tag("to"), answer.values("record-route")[::-1]
        self.target = re.search("<(.*?)>", answer.value("contact"))[1]
        which = self.call, self.asked
        if not self.is_leaving:
            self.plant.agenda.add(int(answer.value("expires")) / 2, lambda: self.renew(which))

    def renew(self, which):
        if which == (self.call, self.asked) and not self.is_over:
            self.subscribe(self.seconds)

    def leave(self):
        """Unsubscribes."""
        self.is_leaving = True
        self.subscribe(0)

    def hear_notify(self, notify):
        number, via = int(notify.value("cseq").split(" ")[0]), notify.value("via")
        tag = notify.tag("from")
        if (notify.value("call-id"), notify.tag("to")) != (self.call, self.call) or self.tag not in ("", tag):
            self.send(notify.answer("481 Subscription Does Not Exist"))
        elif via in self.branches:
            self.send(self.branches[via])
        elif number < self.heard:
            self.send(notify.answer("500 Out Of Order"))
        else:
            self.doubled += number == self.heard
            self.heard = number
            self.branches[via] = notify.answer("200 OK")
            self.send(self.branches[via])
            self.take(notify)

    def take(self, notify):
        self.notifies += 1
        told = re.search(r"(?m)^Voice-Message: (\d+)/", notify.body)
        new = int(told[1]) if told else 0
        self.backward += self.shown is not None and new < self.shown
        if new != self.shown:
            self.shown = new
            self.plant.see(self, new)
        state = notify.value("subscription-state")
        self.is_over = "noresource" in state
        if state.startswith("terminated") and not self.is_leaving and not self.is_over:
            self.begin() if "deactivated" in state or "timeout" in state else self.plant.agenda.add(AGAIN, self.begin)


class Plant(EventLoop):
    """Phones, to be used in a `with`; `see` is called with a phone and what it shows where that is another number."""

    def __init__(self, see):
        super().__init__(Agenda())
        self.see = see
        self.phones = []
        self.answers = {}  # how many of each status came to SUBSCRIBEs
        self.unanswered = 0  # SUBSCRIBEs that nobody answered

    def add(self, phone):
        self.phones.append(phone)
        self.listen_to(phone)
