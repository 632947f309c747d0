"""A phone at a notifier over UDP: it subscribes, asks for more time, leaves, asks for transfers, answers each NOTIFY by a 200, and
keeps what it was told. Each NOTIFY that comes is checked, whoever waits for it: it belongs to a dialog of this phone that isn't
over, its number is one more than the last, its lines are those of the dialog, and its body is as long as it says. One that comes
again, byte for byte, since it wasn't answered soon enough, gets the same answer again and counts as a repeat."""

import re
import socket
import time

from suite import SLOWER, same, shown

# The lines of a request that its answer repeats (RFC 3261 section 8.2.6.2).
REPEATED = ("Via: ", "From: ", "To: ", "Call-ID: ", "CSeq: ")

# Seconds that a phone waits for a datagram.
PATIENCE = 120 * SLOWER

# Seconds within which an out that went out is counted.
MOMENT = 0.1

# Bytes that a phone's socket keeps, as far as the system grants them.
ROOM = 1 << 22

NO_MESSAGES = "Messages-Waiting: no\r\n"

# The state of a NOTIFY at the end of a subscription, by its cause.
OVER = "terminated;reason="


def open_socket(server, address="127.0.0.1"):
    """A socket of this address that hears this server alone."""
    opened = socket.socket(socket.AF_INET, socket.SOCK_DGRAM)
    opened.setsockopt(socket.SOL_SOCKET, socket.SO_RCVBUF, ROOM)
    opened.bind((address, 0))
    opened.connect(server)
    opened.settimeout(PATIENCE)
    return opened


def persist(call, *words):
    """What a call of a socket gives. Where an earlier datagram came back, since nobody has the port any more, the socket says so
    once in place of the call, which is made again then."""
    try:
        return call(*words)
    except ConnectionRefusedError:
        return call(*words)


class Message:
    """A SIP message that came: its first line, its header lines in order, and its body."""

    def __init__(self, octets):
        head, _, self.body = octets.decode().partition("\r\n\r\n")
        self.first, *self.lines = head.split("\r\n")
        # The first line of a name counts.
        self.values = dict(line.split(": ", 1) for line in reversed(self.lines) if ": " in line)

    def value(self, name):
        """The value of the first line of this name."""
        if name not in self.values:
            raise AssertionError(f"no line {name} below {self.first}: {self.lines}")
        return self.values[name]

    def tag(self, name):
        """The tag of a From or To line."""
        return self.value(name).partition(";tag=")[2]

    def branch(self):
        """The branch of the first Via line."""
        return re.search(r";branch=([^;,\s]+)", self.value("Via")).group(1)

    def address(self, name):
        """The URI of a line in angle brackets."""
        return re.search(r"<([^>]+)>", self.value(name)).group(1)

    def is_notify(self):
        return self.first.startswith("NOTIFY ")

    def answer(self, status):
        """The answer to this request with such a status, as `200 OK`."""
        kept = [line for line in self.lines if line.startswith(REPEATED)]
        return "\r\n".join([f"SIP/2.0 {status}", *kept, "Content-Length: 0", "", ""]).encode()


class Dialog:
    """A dialog of a phone: what it asked, and how far it was told."""

    def __init__(self, user, call_id, event):
        self.user = user
        self.call_id = call_id
        self.event = event
        self.asked = 0  # the CSeq of the last request
        self.tag = ""  # the notifier's, once it is known
        self.number = 0  # of the last NOTIFY
        self.state = ""
        self.body = ""

    @property
    def is_over(self):
        return self.state.startswith("terminated")

    def hear(self, notify):
        """Takes a NOTIFY in, which must be the next of this dialog."""
        self.tag = self.tag or notify.tag("From")
        where = f"a NOTIFY to {self.user} in {self.call_id}"
        same(f"whether it was over before {where}", False, self.is_over)
        same(f"CSeq of {where}", f"{self.number + 1} NOTIFY", notify.value("CSeq"))
        same(f"tags of {where}", (self.tag, "f1"), (notify.tag("From"), notify.tag("To")))
        same(f"Event of {where}", self.event, notify.value("Event"))
        same(f"Content-Length of {where}", notify.value("Content-Length"), str(len(notify.body)))
        self.number += 1
        self.state = notify.value("Subscription-State")
        self.body = notify.body


class Phone:
    """A phone of this user with a socket of its own at this address, at the notifier at this port."""

    # Whether a NOTIFY that comes again is answered again.
    answers_again = True

    def __init__(self, sip, user, address="127.0.0.1"):
        self.user = user
        self.socket = open_socket(("127.0.0.1", sip), address)
        self.me = "{}:{}".format(*self.socket.getsockname())
        self.dialogs = {}
        self.answers = {}  # to each NOTIFY that came
        self.sent = 0  # datagrams to the notifier
        self.repeats = 0  # NOTIFYs that came again

    def __enter__(self):
        return self

    def __exit__(self, *_):
        self.socket.close()

    def send(self, octets):
        persist(self.socket.send, octets)
        self.sent += 1

    def request(self, method, call_id, number, tag, lines):
        """The text of a request to this phone's mailbox, with these further lines."""
        tag = f";tag={tag}" if tag else ""
        head = [
            f"{method} sip:{self.user}@127.0.0.1 SIP/2.0",
            f"Via: SIP/2.0/UDP {self.me};branch=z9hG4bK{call_id}.{number}",
            "Max-Forwards: 70",
            f"From: <sip:{self.user}@127.0.0.1>;tag=f1",
            f"To: <sip:{self.user}@127.0.0.1>{tag}",
            f"Call-ID: {call_id}",
            f"CSeq: {number} {method}",
            f"Contact: <sip:{self.user}@{self.me}>",
        ]
        return "\r\n".join([*head, *lines, "Content-Length: 0", "", ""]).encode()

    def begin(self, method, event, lines):
        """Sends a request outside a dialog. The dialog that it makes, if it is accepted."""
        again = sum(call_id.startswith(method) for call_id in self.dialogs)
        call_id = f"{method}{self.user}" + (f"-{again}" if again else "")
        dialog = self.dialogs[call_id] = Dialog(self.user, call_id, event)
        dialog.asked = 1
        self.send(self.request(method, call_id, 1, "", lines))
        return dialog

    def go_on(self, dialog, seconds):
        """Asks for so many seconds more in a dialog: none ends it."""
        dialog.asked += 1
        lines = (f"Event: {dialog.event}", f"Expires: {seconds}")
        self.send(self.request("SUBSCRIBE", dialog.call_id, dialog.asked, dialog.tag, lines))

    def receive_any(self):
        """The next message of the notifier. A NOTIFY is checked, and answered; of one that came before this is nothing."""
        try:
            octets = persist(self.socket.recv, 65535)
        except socket.timeout:
            raise AssertionError(f"nothing comes to the phone of {self.user} for {PATIENCE} seconds") from None
        message = Message(octets)
        if not message.is_notify():
            return message
        is_new = octets not in self.answers
        if is_new:
            self.own_dialog(message).hear(message)
            self.answers[octets] = message.answer("200 OK")
        self.repeats += not is_new
        if is_new or self.answers_again:
            self.send(self.answers[octets])
        return message if is_new else None

    def own_dialog(self, notify):
        """The dialog of this phone to which a NOTIFY belongs."""
        dialog = self.dialogs.get(notify.value("Call-ID"))
        if dialog is None:
            raise AssertionError(f"a NOTIFY to {self.user} in nobody's dialog: {notify.lines}")
        return dialog

    def receive(self):
        """The next message of the notifier that didn't come before. A NOTIFY is checked, and answered."""
        message = None
        while message is None:
            message = self.receive_any()
        return message

    def hear_again(self):
        """Takes in what came again meanwhile, and answers that again."""
        self.socket.settimeout(0)
        try:
            while True:
                message = self.receive_any()
                same(f"what comes to {self.user}, that came before", None, message)
        except BlockingIOError:
            pass
        finally:
            self.socket.settimeout(PATIENCE)

    def expect(self, first):
        """The next message, which must be an answer with this first line."""
        answer = self.receive()
        same(f"what comes next to {self.user}", first, answer.first)
        return answer

    def expect_notify(self, state, body=None):
        """The next message, which must be a NOTIFY that says this: `active` stands for that with any time left."""
        notify = self.receive()
        same(f"what comes next to {self.user}", "NOTIFY", notify.first.split(" ")[0])
        came = notify.value("Subscription-State")
        if state == "active":
            came = re.sub(r"^active;expires=[1-9]\d*$", "active", came)
        same(f"the state that {self.user} is told", state, came)
        if body is not None:
            same(f"what {self.user} is told", body, notify.body)
        return notify

    def ask(self, first, *lines):
        """Sends a SUBSCRIBE with these further lines, whose answer has this first line."""
        dialog = self.begin("SUBSCRIBE", "message-summary", ("Event: message-summary", *lines))
        dialog.tag = self.expect(first).tag("To")
        return dialog

    def subscribe(self, body=NO_MESSAGES, seconds=3600):
        """Subscribes to its mailbox: a 200 comes, and a NOTIFY with this body."""
        dialog = self.ask("SIP/2.0 200 OK", f"Expires: {seconds}")
        self.expect_notify(f"active;expires={seconds}", body)
        return dialog

    def refresh(self, dialog, seconds, body):
        """Asks for so many seconds more: a 200 comes, and a NOTIFY with this body."""
        self.go_on(dialog, seconds)
        same("the time granted", str(seconds), self.expect("SIP/2.0 200 OK").value("Expires"))
        self.expect_notify(f"active;expires={seconds}" if seconds else OVER + "timeout", body)

    def leave(self, dialog, body):
        """Asks for no more time: a 200 comes, and the last NOTIFY, with this body."""
        self.refresh(dialog, 0, body)

    def hear_farewell(self, body=None):
        """The last NOTIFY comes, of a service that ends."""
        self.expect_notify(OVER + "deactivated", body)

    def refer(self, target):
        """Asks for a transfer: a 202 comes, and a NOTIFY that it is tried. Its tag, by which it is told how it goes."""
        dialog = self.begin("REFER", "refer;id=1", (f"Refer-To: <{target}>",))
        dialog.tag = self.expect("SIP/2.0 202 Accepted").tag("To")
        self.expect_notify("active;expires=180", "SIP/2.0 100 Trying\r\n")
        return dialog.tag

    def is_heard(self, question):
        """Whether somebody answers an OPTIONS, which no notifier understands: where nobody has the port it comes back as refused."""
        try:
            self.socket.send(question)
            same("the answer to an OPTIONS", "SIP/2.0 405 Method Not Allowed", Message(self.socket.recv(65535)).first)
            return True
        except ConnectionRefusedError:
            return False


class Operator:
    """Whoever tells a service what happened, over a socket of its own."""

    def __init__(self, control):
        self.socket = open_socket(("127.0.0.1", control))

    def __enter__(self):
        return self

    def __exit__(self, *_):
        self.socket.close()

    def say(self, line):
        """Sends a line, for which no answer is waited."""
        persist(self.socket.send, line.encode())

    def ask(self, line):
        """The answer to a line. A service whose thread that sends waits for a processor answers `busy`, and is asked again."""
        until = time.monotonic() + PATIENCE
        while True:
            self.say(line)
            try:
                answer = self.hear()
            except socket.timeout:
                raise AssertionError(f"the line {shown(line)} is not answered for {PATIENCE} seconds") from None
            if answer != "busy" or time.monotonic() > until:
                return answer

    def hear(self):
        """The next answer."""
        return self.socket.recv(65535).decode()

    def tell(self, line, answer="ok"):
        """Tells a line, which must be answered so."""
        same(f"the answer to {line}", answer, self.ask(line))

    def counters(self):
        """What STATUS says, each counter by its name. An out counts just after it went out, so a moment passes first."""
        time.sleep(MOMENT)
        first, *lines = self.ask("STATUS").splitlines()
        same("the first line of STATUS", "ok", first)
        return dict(line.split(" ", 1) for line in lines)
