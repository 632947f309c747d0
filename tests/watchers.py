"""Many phones that watch one mailbox, over a network that may lose, delay and reorder what they send and hear; all on one thread.

A phone sends its SUBSCRIBE again until it is answered, by the timers E and F of RFC 3261 section 17.1.2. It answers a NOTIFY
that comes again as it did before (section 17.2.2), one whose number is below the highest by a 500 whose body it doesn't look
at (section 12.2.2), and one of another dialog by a 481 (RFC 6665 section 4.1.3). So it shows what its mailbox held by the
latest NOTIFY that reached it."""

import heapq
import itertools
import random
import re
import selectors
import socket
import time

from phone import ROOM, Message, persist

# The timers of RFC 3261, in seconds: the first interval, the longest, and how long an answer is waited for.
T1, T2, TIMER_F = 0.5, 4.0, 32.0

# The longest time in seconds by which a datagram is held back so that others overtake it.
HELD_BACK = 2.0

# Seconds that a subscription is asked for.
GRANTED = 3600

# Seconds behind which a line is told again, as by `notifyd tell`, and how often at most: a busy machine may be slow.
LINE_PATIENCE, LINE_TRIES = 0.2, 100


class Agenda:
    """What is to be done later."""

    def __init__(self):
        self.entries = []
        self.numbers = itertools.count()

    def add(self, seconds, action):
        """Has something done behind so many seconds."""
        heapq.heappush(self.entries, (time.monotonic() + seconds, next(self.numbers), action))

    def left(self, end):
        """Seconds from now until something is to be done, or the end comes."""
        return max(0.0, min(end, self.entries[0][0] if self.entries else end) - time.monotonic())

    def do_what_is_due(self):
        while self.entries and self.entries[0][0] <= time.monotonic():
            heapq.heappop(self.entries)[2]()


class EventLoop:
    """Sockets that are heard and an agenda that is kept, on one thread; to be used in a `with`, which closes the sockets."""

    def __init__(self, agenda):
        self.agenda = agenda
        self.selector = selectors.DefaultSelector()

    def __enter__(self):
        return self

    def __exit__(self, *_):
        sockets = [key.fileobj for key in self.selector.get_map().values()]
        self.selector.close()
        for it in sockets:
            it.close()

    def listen_to(self, speaker):
        """Has its `hear` called whenever something comes to its `socket`."""
        self.selector.register(speaker.socket, selectors.EVENT_READ, speaker.hear)

    def wait(self, seconds, is_done=lambda: False):
        """Hears what comes and does what is due for so many seconds, or until it is done. Whether it is."""
        end = time.monotonic() + seconds
        while not is_done():
            if time.monotonic() >= end:
                return False
            for key, _ in self.selector.select(self.agenda.left(end)):
                key.data()
            self.agenda.do_what_is_due()
        return True


class Network:
    """What befalls datagrams: which shares of them are lost and are held back, and the seconds that each is on its way."""

    def __init__(self, loss=0.0, reorder=0.0, delay=0.0, seed=1):
        self.loss, self.reorder, self.delay, self.seed = loss, reorder, delay, seed
        self.agenda = Agenda()
        self.lost = 0

    def way(self, name, deliver):
        """A way from one end to another, which hands on what it carries. Its name gives it draws of its own, so that what it
        loses depends on nothing but the seed and how many datagrams it has carried."""
        draws = random.Random(f"{self.seed} {name}")

        def carry(octets):
            is_lost, is_held, held = draws.random() < self.loss, draws.random() < self.reorder, draws.random()
            if is_lost:
                self.lost += 1
                return
            seconds = self.delay + (held * HELD_BACK if is_held else 0.0)
            if seconds:
                self.agenda.add(seconds, lambda: deliver(octets))
            else:
                deliver(octets)

        return carry


def received(endpoint):
    """The next datagram of a socket that doesn't wait; nothing where there is none, or where an earlier one that was sent came
    back, since nobody has the port any more."""
    try:
        return endpoint.recv(65535)
    except (BlockingIOError, ConnectionRefusedError):
        return b""


def open_socket(port, room):
    """A socket that hears the port of this machine alone, doesn't wait, and keeps so many bytes: 0 as many as is usual."""
    opened = socket.socket(socket.AF_INET, socket.SOCK_DGRAM)
    if room:
        opened.setsockopt(socket.SOL_SOCKET, socket.SO_RCVBUF, room)
    opened.bind(("127.0.0.1", 0))
    opened.connect(("127.0.0.1", port))
    opened.setblocking(False)
    return opened


def overrun(port):
    """Datagrams to a port of 127.0.0.1 that the system dropped since its socket was full."""
    with open("/proc/net/udp") as table:
        rows = [line.split() for line in table]
    return sum(int(row[-1]) for row in rows if row[1] == f"0100007F:{port:04X}")


class Watcher:
    """A phone that watches the mailbox of this user at the service at this port. It keeps the answers to NOTIFYs that it gave,
    or not, as phones without transactions do, which go by the number alone."""

    def __init__(self, name, user, port, network, remembers=True, room=ROOM):
        self.name, self.user, self.remembers = name, user, remembers
        self.agenda = network.agenda
        self.socket = open_socket(port, room)
        self.me = "{}:{}".format(*self.socket.getsockname())
        self.send = network.way(f"{name} up", lambda octets: persist(self.socket.send, octets))
        self.deliver = network.way(f"{name} down", self.take)
        self.target = f"sip:{user}@127.0.0.1:{port}"
        self.tag = ""  # the service's, once it is known
        self.asked = 0  # the CSeq of the last SUBSCRIBE
        self.status = 0  # of its final answer, once it is there
        self.interval = T1
        self.answers = {}  # to NOTIFYs, by their branch
        self.highest = 0  # number of a NOTIFY
        self.new = None  # messages, as it was told last
        self.since = 0.0  # when it was told so first
        self.notifies = self.repeats = self.stale = 0

    def subscribe(self, seconds=GRANTED):
        """Subscribes, or asks for so much more time; for none it leaves."""
        self.asked += 1
        self.status, self.interval = 0, T1
        to = f";tag={self.tag}" if self.tag else ""
        request = "\r\n".join([
            f"SUBSCRIBE {self.target} SIP/2.0",
            f"Via: SIP/2.0/UDP {self.me};branch=z9hG4bK{self.name}.{self.asked}",
            "Max-Forwards: 70",
            f"From: <sip:{self.user}@127.0.0.1>;tag=f{self.name}",
            f"To: <sip:{self.user}@127.0.0.1>{to}",
            f"Call-ID: {self.name}",
            f"CSeq: {self.asked} SUBSCRIBE",
            f"Contact: <sip:{self.user}@{self.me}>",
            "Event: message-summary",
            f"Expires: {seconds}",
            "Content-Length: 0", "", "",
        ]).encode()
        self.ask(self.asked, request, time.monotonic() + TIMER_F)

    def ask(self, number, request, until):
        """Sends a request, and again at each interval, until it is answered or it is too late."""
        if self.status or self.asked != number or time.monotonic() >= until:
            return
        self.send(request)
        self.agenda.add(self.interval, lambda: self.ask(number, request, until))
        self.interval = min(2 * self.interval, T2)

    def hear(self):
        """Has what came carried to the phone."""
        octets = received(self.socket)
        if octets:
            self.deliver(octets)

    def take(self, octets):
        """Takes in what reaches the phone."""
        message = Message(octets)
        if message.is_notify():
            self.notifies += 1
            self.send(self.answer(message))
        elif message.value("CSeq") == f"{self.asked} SUBSCRIBE" and not self.status:
            self.be_answered(int(message.first.split(" ")[1]), message)

    def be_answered(self, status, answer):
        if status < 200:
            self.interval = T2
            return
        self.status = status
        if status < 300:
            self.tag = self.tag or answer.tag("To")
            self.target = answer.address("Contact")

    def answer(self, notify):
        """The answer to a NOTIFY, which is taken in where it is a new one."""
        branch = notify.branch()
        if self.remembers and branch in self.answers:
            self.repeats += 1
            return self.answers[branch]
        self.tag = self.tag or notify.tag("From")
        number = int(notify.value("CSeq").split(" ")[0])
        if (notify.value("Call-ID"), notify.tag("From"), notify.tag("To")) != (self.name, self.tag, f"f{self.name}"):
            answer = notify.answer("481 Subscription does not exist")
        elif number < self.highest:
            self.stale += 1
            answer = notify.answer("500 Server Internal Error")
        else:
            self.repeats += number == self.highest
            self.highest = number
            self.be_told(notify)
            answer = notify.answer("200 OK")
        self.answers[branch] = answer
        return answer

    def be_told(self, notify):
        told = re.search(r"(?m)^Voice-Message: (\d+)/", notify.body)
        new = int(told.group(1)) if told else 0
        if new != self.new:
            self.new, self.since = new, time.monotonic()

    def is_refused(self):
        """Whether its last SUBSCRIBE was refused."""
        return self.status >= 300


class Feeder:
    """Whoever tells the service at this control port what happens, a line after the other."""

    def __init__(self, control, agenda):
        self.agenda = agenda
        self.socket = open_socket(control, 0)
        self.line = None  # that isn't answered

    def tell(self, line):
        self.line = line
        self.say(line, LINE_TRIES)

    def change(self, user, new):
        """Has the mailbox of this user hold so many new messages."""
        self.tell(f"MAIL {user} voice {new} 0 0 0")

    def say(self, line, tries):
        if self.line != line:
            return
        if not tries:
            raise AssertionError(f"nobody answers the line {line}")
        persist(self.socket.send, line.encode())
        self.agenda.add(LINE_PATIENCE, lambda: self.say(line, tries - 1))

    def hear(self):
        answer = received(self.socket)
        if answer not in (b"", b"ok"):
            raise AssertionError(f"the line {self.line} is answered by {answer}")
        self.line = None if answer else self.line

    def is_done(self):
        return self.line is None


class Crowd(EventLoop):
    """Watchers of one mailbox and whoever feeds it, to be used in a `with`."""

    def __init__(self, network, watchers, feeder):
        super().__init__(network.agenda)
        self.watchers, self.feeder = watchers, feeder
        for speaker in (feeder, *watchers):
            self.listen_to(speaker)

    def subscribe(self, seconds):
        """Has each watcher subscribe, or ask for more time, spread over so many seconds."""
        for number, watcher in enumerate(self.watchers):
            self.agenda.add(seconds * number / len(self.watchers), watcher.subscribe)

    def all_are_answered(self):
        return all(watcher.status for watcher in self.watchers)

    def all_know(self, new):
        """Whether each lamp shows so many new messages."""
        return all(watcher.new == new for watcher in self.watchers)

    def total(self, counter):
        return sum(getattr(watcher, counter) for watcher in self.watchers)
