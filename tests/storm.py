"""A storm: four senders bring mail to 300 watched mailboxes of four workers, while visitors subscribe, ask for more time and leave.

Each sender brings messages of a class of its own, one more for each mailbox in each round, so what a mailbox holds at the end is the
same whatever the schedule. Each watcher checks that its NOTIFYs are numbered without a gap and tell one message more each, and after
each half that the last told all. UDP drops what a full socket can't keep, so no more is sent than is known to find room: of the lines
those whose NOTIFY came, and of the datagrams of SIP those that STATUS has counted, are on their way no more."""

import re
import selectors

from phone import OVER, Operator, Phone
from service import Service, counters_become
from suite import SLOWER, same
from tags import home_of

WORKERS = 4
MAILBOXES = 300
ROUNDS = 20
VISITORS = 20

# The class of each sender's messages, and the name of its line in a NOTIFY.
CLASSES = (("voice", "Voice"), ("fax", "Fax"), ("pager", "Pager"), ("multimedia", "Multimedia"))

# NOTIFYs that watchers wait for at a time, and datagrams of SIP of which it isn't known whether they were heard. A socket with the
# system's usual room keeps some 160 of them.
MOST_DUE = 32
MOST_UNKNOWN = 64

# It is asked how many were heard when so many more were sent.
STRIDE = 24

# Seconds in which nothing comes before it is missed, and behind which the service is killed and the storm has failed. It takes a few.
PATIENCE = 120 * SLOWER
LIMIT = 600 * SLOWER


def body_of(counts):
    """The body that tells so many new messages of each class, by rising class: none of a class that nobody has brought yet."""
    lines = [f"{name}-Message: {count}/0 (0/0)\r\n" for (_, name), count in zip(CLASSES, counts) if count]
    return "".join(["Messages-Waiting: yes\r\n" if lines else "Messages-Waiting: no\r\n", *lines])


def counts_in(body):
    """The new messages of each class that a body tells."""
    told = dict(re.findall(r"(\w+)-Message: (\d+)/", body))
    counts = tuple(int(told.get(name, 0)) for _, name in CLASSES)
    same("the form of a body", body_of(counts), body)
    return counts


class Flow:
    """What is on its way between the phones and the service."""

    def __init__(self):
        self.sent = 0  # datagrams of SIP that the phones sent
        self.heard = 0  # of them those that the service is known to have heard
        self.asked = 0  # how many were sent when it was asked last
        self.due = 0  # NOTIFYs for which watchers wait

    def has_room(self):
        return self.due < MOST_DUE and self.sent - self.heard < MOST_UNKNOWN


class Guest(Phone):
    """A phone in the storm, which hears whatever comes when it is told to."""

    # Nothing is lost: where a NOTIFY comes again its answer is on its way.
    answers_again = False

    def __init__(self, sip, mailbox, flow):
        super().__init__(sip, mailbox)
        self.flow = flow
        self.dialog = None
        self.counts = (0,) * len(CLASSES)
        self.requests = 0
        self.notifies = 0

    def send(self, octets):
        super().send(octets)
        self.flow.sent += 1

    def come(self):
        """Subscribes."""
        self.dialog = self.begin("SUBSCRIBE", "message-summary", ("Event: message-summary",))
        self.requests += 1

    def ask_for(self, seconds):
        self.go_on(self.dialog, seconds)
        self.requests += 1

    def hear(self):
        """Takes the next message in, unless it came before."""
        message = self.receive_any()
        if message is None:
            return
        if message.is_notify():
            self.notifies += 1
            self.be_told(counts_in(message.body))
        else:
            same(f"the answer to {self.user}", "SIP/2.0 200 OK", message.first)

    def be_told(self, counts):
        if any(new < old for old, new in zip(self.counts, counts)):
            raise AssertionError(f"messages go away at {self.user}: {self.counts}, and then {counts}")
        self.counts = counts


class Watcher(Guest):
    """It stays to the end, and is told of each message by a NOTIFY of its own."""

    def come(self):
        super().come()
        self.flow.due += 1

    def be_told(self, counts):
        more = 0 if self.dialog.number == 1 else 1
        same(f"how many messages {self.user} has behind {self.counts}", sum(self.counts) + more, sum(counts))
        super().be_told(counts)
        self.flow.due -= 1


class Visitor(Guest):
    """It asks for more time when it is told, leaves when it is told again, and comes anew."""

    def be_told(self, counts):
        super().be_told(counts)
        if self.dialog.is_over:
            same(f"how a visit of {self.user} ends", OVER + "timeout", self.dialog.state)
        elif self.dialog.number == 1:
            self.ask_for(1800)
        elif self.dialog.number == 2:
            self.ask_for(0)

    def is_away(self):
        return self.dialog is None or self.dialog.is_over


class Sender(Operator):
    """Whoever brings the messages of a class."""

    def __init__(self, control, number, flow):
        super().__init__(control)
        self.flow = flow
        self.name = CLASSES[number][0]
        self.first = number * MAILBOXES // len(CLASSES)
        self.sent = self.answered = 0

    def bring(self, turn, count):
        """Has the mailbox whose turn it is hold so many messages of the class. Each sender begins at another one."""
        self.say(f"MAIL m{(self.first + turn) % MAILBOXES} {self.name} {count} 0 0 0")
        self.sent += 1
        self.flow.due += 1

    def hear(self):
        same("the answer to a MAIL line", b"ok", self.socket.recv(65535))
        self.answered += 1


class Storm:
    """All phones and senders at a service, on one thread, which hears what comes as it comes. To be used in a `with`."""

    def __init__(self, service):
        self.service = service
        self.flow = Flow()
        self.watchers = [Watcher(service.sip, f"m{number}", self.flow) for number in range(MAILBOXES)]
        places = range(0, MAILBOXES, MAILBOXES // VISITORS)
        self.visitors = {number: Visitor(service.sip, f"m{number}", self.flow) for number in places}
        self.guests = [*self.watchers, *self.visitors.values()]
        self.senders = [Sender(service.control, number, self.flow) for number in range(len(CLASSES))]
        self.operator = Operator(service.control)
        self.is_asked = False  # how many datagrams were heard
        self.rounds = 0  # that are brought
        self.selector = selectors.DefaultSelector()
        for speaker in (*self.guests, *self.senders):
            self.selector.register(speaker.socket, selectors.EVENT_READ, speaker.hear)
        self.selector.register(self.operator.socket, selectors.EVENT_READ, self.hear_counters)

    def __enter__(self):
        return self

    def __exit__(self, *_):
        self.selector.close()
        for speaker in (*self.guests, *self.senders, self.operator):
            speaker.socket.close()

    def arrivals(self):
        """The watchers subscribe, one with each step."""
        for watcher in self.watchers:
            watcher.come()
            yield

    def mails(self):
        """Half of the rounds: one message more for each mailbox by each sender, one line with each step. A visitor comes anew when
        the first sender brings a message for its mailbox."""
        for _ in range(ROUNDS // 2):
            self.rounds += 1
            for turn in range(MAILBOXES):
                visitor = self.visitors.get(turn)
                if visitor is not None and visitor.is_away():
                    visitor.come()
                for sender in self.senders:
                    sender.bring(turn, self.rounds)
                    yield

    def hear_counters(self):
        answer = self.operator.socket.recv(65535).decode()
        self.flow.heard = int(re.search(r"(?m)^datagrams (\d+)$", answer).group(1))
        self.is_asked = False

    def look(self):
        """Asks how many datagrams were heard, where some more were sent or there is nothing else to wait for."""
        flow = self.flow
        is_stuck = flow.due == 0 and not flow.has_room()
        if not self.is_asked and (flow.sent - flow.asked >= STRIDE or is_stuck):
            self.operator.say("STATUS")
            self.is_asked = True
            flow.asked = flow.sent

    def hear_some(self):
        """Hears what came, or waits for something."""
        came = self.selector.select(PATIENCE)
        if not came:
            running = "runs" if self.service.running.process.poll() is None else "has ended"
            due = f"where {self.flow.due} NOTIFYs are waited for and the service {running}"
            raise AssertionError(f"nothing comes for {PATIENCE} seconds, {due}")
        for key, _ in came:
            key.data()

    def is_quiet(self):
        """Whether all came that was to come, and no visitor is there."""
        is_answered = all(sender.answered == sender.sent for sender in self.senders)
        is_empty = all(visitor.is_away() for visitor in self.visitors.values())
        return self.flow.due == 0 and is_answered and is_empty and not self.is_asked

    def play(self, steps):
        """Takes each step as soon as there is room, and hears what comes, until all is quiet."""
        is_begun = True
        while True:
            while is_begun and self.flow.has_room():
                is_begun = next(steps, steps) is None
            if not is_begun and self.is_quiet():
                return
            self.look()
            self.hear_some()

    def all_know(self):
        """Each watcher was told last what its mailbox holds, and each visitor came, stayed and left."""
        for watcher in self.watchers:
            same(f"what {watcher.user} knows", (self.rounds,) * len(CLASSES), watcher.counts)
        same("visitors who came", VISITORS, sum(visitor.notifies > 2 for visitor in self.visitors.values()))

    def counted(self):
        """What STATUS has to say once all is quiet. What was sent again meanwhile is heard first."""
        for key, _ in self.selector.select(0):
            key.data()
        requests, notifies = (sum(getattr(guest, what) for guest in self.guests) for what in ("requests", "notifies"))
        visits = sum(len(visitor.dialogs) for visitor in self.visitors.values())
        counted = {"datagrams": self.flow.sent, "events": self.flow.sent, "answers": requests, "notifies": notifies}
        counted = {**counted, "starts": 0, "failed": 0, "begun": MAILBOXES + visits, "over": visits}
        # A guest that was slow to hear its NOTIFY got it again.
        counted = {**counted, "repeats": sum(guest.repeats for guest in self.guests)}
        counted = {**counted, "given_up": 0, "once": 0, "lost": 0, "failed_receives": 0, "too_long": 0}
        return {**{name: str(count) for name, count in counted.items()}, "unread": "0 0 0 0 0 0 0"}

    def made(self):
        """How many answers and NOTIFYs each worker made."""
        made = [0] * WORKERS
        for guest in self.guests:
            made[home_of(guest.user, WORKERS)] += guest.requests + guest.notifies
        return made

    def hear_farewells(self):
        """Each watcher is told that the service is over."""
        for watcher in self.watchers:
            watcher.hear_farewell(body_of(watcher.counts))
            watcher.notifies += 1


def a_storm(program, folder):
    path = f"{folder}/mailboxes"
    with open(path, "w") as file:
        file.writelines(f"m{number}\n" for number in range(MAILBOXES))
    words = ("--workers", str(WORKERS), "--mailboxes", path)
    with Service(program, *words, limit=LIMIT) as service, Storm(service) as storm:
        storm.play(storm.arrivals())
        for _ in range(2):
            storm.play(storm.mails())
            storm.all_know()
        same("the rounds", ROUNDS, storm.rounds)
        counters_become(storm.operator, storm.counted)
        ended = service.close(storm.hear_farewells)
    lines = "".join(f"WORKER {worker} N {made} closed\n" for worker, made in enumerate(storm.made()))
    same("what is printed", lines.encode(), re.sub(rb"(?m)^(WORKER \d) \d+", rb"\1 N", ended.out))


def checks():
    yield "a storm: 300 watchers are told of each message, while visitors come and go", a_storm
