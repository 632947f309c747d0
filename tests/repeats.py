"""`notifyd serve` sends a NOTIFY again until it is answered or given up, by the timers E and F of RFC 3261 section 17.1.2, to phones
that are silent, or answer late, or by something else than a 200.

The phones here answer a NOTIFY only where a check says so. When a datagram came is told by the system, so that a phone may be
late to read it."""

import socket
import struct
import time
from collections import namedtuple
from contextlib import ExitStack

from burst import held
from phone import MOMENT, NO_MESSAGES, OVER, PATIENCE, Message, Phone
from service import HEARD, Service, counters_become, last_counters, rows_told
from suite import SLOWER, comes_true, same

# Seconds from the first time that a NOTIFY is sent to each, while nobody answers: the intervals double from T1, half a second, up to
# T2, four seconds, as long as T1 times 64 are not over.
MOMENTS = (0.0, 0.5, 1.5, 3.5, 7.5, 11.5, 15.5, 19.5, 23.5, 27.5, 31.5)

# The same where a provisional answer comes to the first: each interval is T2, but for that which has begun (section 17.1.2.2).
MOMENTS_WHEN_PROCEEDING = (0.0, 0.5, 4.5, 8.5)

# Seconds by which a datagram may come before its moment, and behind the one before later than it should.
EARLY, LATE = 0.02 * SLOWER, 0.4 * SLOWER

# Seconds after which nothing is sent again (timer F).
GIVEN_UP = 32.0

# Seconds that are longer than the longest interval: what doesn't come for so long isn't sent again.
QUIET = 4.5

# Seconds in which a service ends that waits for nothing more: far less, unless the machine is busy.
SOON = 10

# Seconds in which what was on its way has come, or was heard.
ON_ITS_WAY = 0.3

SO_TIMESTAMPNS = 35

# While no socket asks for it the system notes no time of a datagram's coming, and begins a moment after one does. A datagram before that has the
# time at which it is read. So this one asks from the start on.
TIMED = socket.socket(socket.AF_INET, socket.SOCK_DGRAM)
TIMED.setsockopt(socket.SOL_SOCKET, SO_TIMESTAMPNS, 1)

# To so many phones of one mailbox NOTIFYs are sent at once, so often.
MANY, ROUNDS = 6, 3

# An address of this machine that isn't that of the other phones.
ELSEWHERE = "127.0.0.2"

# How often a mailbox changes whose NOTIFYs go to a phone that answers none of them, and how many of these somebody else answers.
CHANGES, ANSWERED = 30, 20

GONE = "481 Call/Transaction Does Not Exist"

# A datagram, and the time of its coming in seconds.
Arrival = namedtuple("Arrival", "time octets")


class Observer(Phone):
    """A phone that answers NOTIFYs when it is told to."""

    def __init__(self, service, user, address="127.0.0.1"):
        super().__init__(service.sip, user, address)
        self.service = service
        self.socket.setsockopt(socket.SOL_SOCKET, SO_TIMESTAMPNS, 1)
        self.answered = 0  # when it answered a NOTIFY last, by the system's clock
        self.passed = []  # what came before the NOTIFY that it waited for last

    def arrival(self, seconds):
        """What comes next within so many seconds, if anything does."""
        usual = self.socket.gettimeout()
        self.socket.settimeout(max(seconds, 0.001))
        try:
            octets, notes, _, _ = self.socket.recvmsg(65535, 64)
        except socket.timeout:
            return None
        finally:
            self.socket.settimeout(usual)
        whole, nanos = next(struct.unpack("qq", stamp) for _, kind, stamp in notes if kind == SO_TIMESTAMPNS)
        return Arrival(whole + nanos / 1e9, octets)

    def observe(self, count):
        """The next datagrams, so many."""
        came = []
        while len(came) < count:
            arrival = self.arrival(PATIENCE)
            if arrival is None:
                raise AssertionError(f"{count} datagrams were to come to {self.user}, and {len(came)} came")
            came.append(arrival)
        return came

    def observe_until(self, end):
        """All that comes until this moment of the monotonic clock."""
        came = []
        while True:
            arrival = self.arrival(end - time.monotonic())
            if arrival is None:
                return came
            came.append(arrival)

    def notified(self, number, body=None):
        """The first NOTIFY that comes with this number; those below it may come again before, and are kept in `passed`."""
        self.passed = []
        came = self.observe(1)[0]
        while Message(came.octets).value("CSeq") != f"{number} NOTIFY":
            self.passed.append(came)
            came = self.observe(1)[0]
        if body is not None:
            same(f"what {self.user} is told", body, Message(came.octets).body)
        return came

    def hears_nothing(self, seconds=QUIET):
        """Nothing comes for so long, but for what was on its way when it answered last."""
        came = self.observe_until(time.monotonic() + seconds)
        same(f"what comes to {self.user}", [], [it for it in came if it.time > self.answered + MOMENT + self.service.running.delay()])

    def leave_unanswered(self):
        """All that comes of a NOTIFY which it doesn't answer: behind the first send until nothing more may come."""
        first = self.observe(1)[0]
        return [first, *self.observe_until(time.monotonic() + first.time - time.time() + GIVEN_UP + QUIET)]

    def reply(self, arrival, status="200 OK"):
        """Answers a NOTIFY so."""
        self.send(Message(arrival.octets).answer(status))
        self.answered = time.time()

    def reply_astray(self, arrival, status="200 OK"):
        """Answers a NOTIFY so, but with another Call-ID, as in no dialog of its own."""
        self.send(Message(arrival.octets).answer(status).replace(b"\r\nCall-ID: ", b"\r\nCall-ID: other-"))

    def is_answered(self):
        """The first line of the next answer; NOTIFYs that come before it are left alone."""
        came = Message(self.observe(1)[0].octets)
        while came.is_notify():
            came = Message(self.observe(1)[0].octets)
        return came.first

    def accept(self, number, body=None):
        """A NOTIFY comes with this number, and is answered by a 200."""
        self.reply(self.notified(number, body))


def are_sends(what, arrivals, moments, asked, service, over=GIVEN_UP):
    """Raises AssertionError unless the same bytes came so often, none before its moment, and none much later behind the one before than
    their moments are apart: the wait for each begins when the one before was sent. The first is sent no sooner than it was asked for, at this
    time of the system; where a busy machine was late with it, the next one may seem early behind it. A service whose threads had to wait for a
    processor may be as late. Where it was late with some of them, those are missing whose time would have come when it was `over`, so many
    seconds later."""
    same(f"{what}: different datagrams", 1, len({arrival.octets for arrival in arrivals}))
    came = [round(arrival.time - asked, 3) for arrival in arrivals]
    waits = [later - earlier for earlier, later in zip(moments, moments[1:])]
    late = service.running.delay()
    is_short = len(came) < len(moments) and came[-1] + waits[len(came) - 1] + late >= over - EARLY
    is_early = any(time < moment - EARLY for time, moment in zip(came, moments))
    is_late = any(time > before + wait + LATE + late for before, time, wait in zip(came, came[1:], waits))
    if is_early or is_late or not (is_short or len(came) == len(moments)):
        raise AssertionError(f"{what}: sent after {moments} seconds was wanted, it came after {came} of a service that waited {late:.3f} s")


def is_number(arrival, number):
    """Whether this is the NOTIFY with this number."""
    message = Message(arrival.octets)
    return message.is_notify() and message.value("CSeq") == f"{number} NOTIFY"


def answers_noted(operator, count):
    """Waits until the answers of so many phones were noted: WATCHERS tells the last NOTIFY of each that was answered."""
    if not comes_true(lambda: sum(row[3] == row[4] for row in rows_told(operator, "WATCHERS")) == int(count)):
        raise AssertionError(f"the answers of {count} phones were to be noted")


def have_waited(operator, count):
    """So many NOTIFYs waited for an answer, and none of them was dropped."""
    counted = operator.counters()
    same("NOTIFYs that waited, and that were dropped", [str(count), "0"], [counted[name] for name in ("held", "held_dropped")])


def are_numbered(what, arrivals, numbers):
    """Raises AssertionError unless these are NOTIFYs with these numbers, in this order."""
    same(what, [f"{number} NOTIFY" for number in numbers], [Message(arrival.octets).value("CSeq") for arrival in arrivals])


def a_stranger_draws_one(program, folder):
    """A phone that answers nothing draws the sends of one NOTIFY, however often its mailbox changes: who writes somebody else's address
    into a SUBSCRIBE draws no more upon that. Once it answers, all that waited comes at once, in order, and from then on nothing
    waits."""
    with Service(program, "alice") as service, Observer(service, "alice") as phone, service.operator() as operator:
        asked = time.time()
        phone.ask("SIP/2.0 200 OK")
        for new in range(1, 11):
            operator.tell(f"MAIL alice voice {new} 0 0 0")
        came = phone.observe(4)
        are_sends("the one NOTIFY to a phone that doesn't answer", came, MOMENTS[:4], asked, service)
        length = len(phone.request("SUBSCRIBE", "SUBSCRIBEalice", 1, "", ("Event: message-summary", "Expires: 3600")))
        drawn = sum(len(arrival.octets) for arrival in came)
        if drawn > len(MOMENTS) * 5 * length:
            raise AssertionError(f"{length} bytes drew {drawn} bytes in {MOMENTS[3]} seconds")
        same("NOTIFYs that waited", "10", operator.counters()["held"])
        phone.reply(came[-1])
        waited = phone.observe(10)
        are_numbered("what waited", waited, range(2, 12))
        same("what the last of them tells", "Voice-Message: 10/0 (0/0)", Message(waited[-1].octets).body.splitlines()[-1])
        for arrival in waited:
            phone.reply(arrival)
        phone.hears_nothing()
        for new in (1, 2):
            operator.tell(f"MAIL alice voice {new} 0 0 0")
        both = phone.observe(2)
        are_numbered("what comes to a phone that answered before", both, (12, 13))
        for arrival in both:
            phone.reply(arrival)
        same("NOTIFYs that were dropped", "0", operator.counters()["held_dropped"])
        service.close(lambda: phone.accept(14))


def an_address_elsewhere_draws_one(program, folder):
    """The same where a phone that answered goes on from another address: one NOTIFY goes there until that answers."""
    with Service(program, "alice") as service, service.operator() as operator, Observer(service, "alice") as phone:
        with Observer(service, "alice") as elsewhere:
            dialog = phone.ask("SIP/2.0 200 OK")
            phone.accept(1)
            answers_noted(operator, "1")
            elsewhere.dialogs[dialog.call_id] = dialog
            lines = ("Event: message-summary", "Expires: 3600")
            asked = time.time()
            elsewhere.send(elsewhere.request("SUBSCRIBE", dialog.call_id, dialog.asked + 1, dialog.tag, lines))
            same("the answer to the refresh", "SIP/2.0 200 OK", Message(elsewhere.observe(1)[0].octets).first)
            for new in range(1, 6):
                operator.tell(f"MAIL alice voice {new} 0 0 0")
            came = elsewhere.observe(3)
            are_sends("the one NOTIFY to the address elsewhere", came, MOMENTS[:3], asked, service)
            phone.hears_nothing(ON_ITS_WAY)
            elsewhere.reply(came[-1])
            waited = elsewhere.observe(5)
            are_numbered("what waited", waited, range(3, 8))
            for arrival in waited:
                elsewhere.reply(arrival)
            service.close(lambda: elsewhere.accept(8))


def who_answers_for_another_draws_one_each(program, folder):
    """Who began a dialog goes on with it as if from the address of a phone that answers nothing, and answers himself what goes there. Each of
    his answers draws one NOTIFY; once he is silent the last of them alone comes again. An answer from that address, by whatever port a
    NAT sends it, lets go all that waits, and from then on nothing waits."""
    with ExitStack() as stack:
        service = stack.enter_context(Service(program, "alice"))
        operator = stack.enter_context(service.operator())
        stranger = stack.enter_context(Observer(service, "alice", ELSEWHERE))
        phone, port = (stack.enter_context(Observer(service, "alice")) for _ in range(2))
        dialog = stranger.ask("SIP/2.0 200 OK")
        stranger.accept(1)
        answers_noted(operator, "1")
        lines = ("Event: message-summary", "Expires: 3600")
        phone.send(phone.request("SUBSCRIBE", dialog.call_id, dialog.asked + 1, dialog.tag, lines))
        same("the answer to the refresh", "SIP/2.0 200 OK", Message(phone.observe(1)[0].octets).first)
        came = phone.notified(2)
        for new in range(1, CHANGES + 1):
            operator.tell(f"MAIL alice voice {new} 0 0 0")
        # A line is answered before its NOTIFY is made.
        counters_become(operator, lambda: {"held": str(CHANGES)})
        for number in range(3, ANSWERED + 3):
            asked = time.time()
            stranger.reply(came)
            came = phone.notified(number)
        last = [came, *phone.observe(2)]
        are_sends("the NOTIFY that the stranger leaves unanswered", last, MOMENTS[:3], asked, service)
        # On a busy machine the first one came to him again before he was heard.
        strange = [it for it in stranger.observe_until(time.monotonic() + ON_ITS_WAY) if not is_number(it, 1)]
        same("what else comes to the stranger", [], strange)
        port.reply(last[-1])
        for number in range(ANSWERED + 3, CHANGES + 3):
            phone.accept(number)
        have_waited(operator, CHANGES)
        for new, number in ((1, CHANGES + 3), (2, CHANGES + 4)):
            operator.tell(f"MAIL alice voice {new} 0 0 0")
            last.append(phone.notified(number))
        for arrival in last[-2:]:
            phone.reply(arrival)
        service.close(lambda: phone.accept(CHANGES + 5))


def a_phone_that_answers_from_elsewhere_is_told_all(program, folder):
    """A phone with two addresses answers from the other one: each NOTIFY comes, one behind the answer to the one before."""
    with Service(program, "alice") as service, service.operator() as operator, Observer(service, "alice") as phone:
        with Observer(service, "alice", ELSEWHERE) as elsewhere:
            phone.ask("SIP/2.0 200 OK")
            came = phone.notified(1)
            for new in range(1, 11):
                operator.tell(f"MAIL alice voice {new} 0 0 0")
            # A line is answered before its NOTIFY is made.
            counters_become(operator, lambda: {"held": "10"})
            for number in range(2, 12):
                elsewhere.reply(came)
                came = phone.notified(number)
            same("what the last of them tells", "Voice-Message: 10/0 (0/0)", Message(came.octets).body.splitlines()[-1])
            elsewhere.reply(came)
            answers_noted(operator, "1")
            asked = time.time()
            for new in (1, 2):
                operator.tell(f"MAIL alice voice {new} 0 0 0")
            came = [phone.notified(12), *phone.observe(2)]
            are_sends("the one NOTIFY behind all these answers", came, MOMENTS[:3], asked, service)
            elsewhere.reply(came[-1])
            elsewhere.reply(phone.notified(13))
            answers_noted(operator, "1")
            have_waited(operator, 11)
            service.close(lambda: elsewhere.reply(phone.notified(14)))


def what_waits_is_given_up_too(program, folder):
    """What waits for the answer to a NOTIFY is dropped when that is given up, and of one dialog no more than 64 wait."""
    with Service(program, "alice") as service, Observer(service, "alice") as phone, service.operator() as operator:
        asked = time.time()
        phone.ask("SIP/2.0 200 OK")
        for new in range(1, 71):
            operator.tell(f"MAIL alice voice {new} 0 0 0")
        counters_become(operator, lambda: {"held": "64", "held_dropped": "6"})
        are_sends("the NOTIFY that nobody answers", phone.leave_unanswered(), MOMENTS, asked, service)
        counters_become(operator, lambda: {"live": "0", "given_up": "1", "held_dropped": "70"})
        service.close()


def silence_brings_it_again(program, folder):
    with Service(program, "alice") as service, Observer(service, "alice") as phone, service.operator() as operator:
        asked = time.time()
        phone.ask("SIP/2.0 200 OK")
        came = phone.observe(5)
        are_sends("a NOTIFY that nobody answers", came, MOMENTS[:5], asked, service)
        phone.reply(came[-1])
        phone.hears_nothing()
        operator.tell("MAIL alice voice 2 8 0 2")
        phone.accept(2, HEARD)
        service.close(lambda: phone.accept(3))


def a_burst_comes_again_in_time(program, folder):
    """Nothing is open, so the thread that sends sleeps until somebody wakes it. It stands still while its worker posts six NOTIFYs, so it is woken
    once for them all. Nobody answers them: half a second later it begins to send them again."""
    with Service(program, "alice") as service, service.operator() as operator, ExitStack() as stack:
        phones = [stack.enter_context(Observer(service, "alice")) for _ in range(MANY)]
        for phone in phones:
            phone.ask("SIP/2.0 200 OK")
            phone.accept(1)
        for new in range(1, ROUNDS + 1):
            answers_noted(operator, MANY)
            time.sleep(ON_ITS_WAY)
            with held(service.running.process.pid):
                operator.tell(f"MAIL alice voice {new} 0 0 0")
                time.sleep(ON_ITS_WAY)
            came = [(phone.notified(new + 1), *phone.observe(1)) for phone in phones]
            first, again = (min(arrival.time for arrival in arrivals) for arrivals in zip(*came))
            if again - first > MOMENTS[1] + LATE + service.running.delay():
                raise AssertionError(f"the first of {MANY} NOTIFYs at once comes again after {again - first:.3f} s, {MOMENTS[1]} s was wanted")
            for phone, (_, arrival) in zip(phones, came):
                phone.reply(arrival)
        service.close(*(lambda phone=phone: phone.accept(ROUNDS + 2) for phone in phones))


def a_provisional_answer_slows_it_down(program, folder):
    with Service(program, "alice") as service, Observer(service, "alice") as phone:
        asked = time.time()
        phone.ask("SIP/2.0 200 OK")
        first = phone.notified(1)
        phone.reply(first, "100 Trying")
        came = [first, *phone.observe(3)]
        are_sends("a NOTIFY that is answered by a 100", came, MOMENTS_WHEN_PROCEEDING, asked, service)
        phone.reply(came[-1])
        phone.hears_nothing()
        service.close(lambda: phone.accept(2))


def a_481_ends_all_of_its_dialog(program, folder):
    """Of two dialogs with three unanswered NOTIFYs each one is ended by a 481 to the second of them; the other goes on."""
    with Service(program, "--linger", "0", "alice") as service, service.operator() as operator:
        with Observer(service, "alice") as gone, Observer(service, "alice") as other:
            dialog = gone.ask("SIP/2.0 200 OK")
            gone.accept(1)
            other.ask("SIP/2.0 200 OK")
            other.accept(1)
            answers_noted(operator, "2")
            asked = time.time()
            for new in (1, 2, 3):
                operator.tell(f"MAIL alice voice {new} 0 0 0")
            second = gone.notified(3)
            gone.notified(4)
            gone.reply(second, GONE)
            gone.observe_until(time.monotonic() + ON_ITS_WAY)
            gone.hears_nothing()
            came = other.observe(3 * 4)
            for octets in {arrival.octets for arrival in came}:
                sends = [arrival for arrival in came if arrival.octets == octets]
                are_sends("a NOTIFY of the other dialog", sends, MOMENTS[:4], asked, service)
            operator.tell("MAIL alice voice 4 0 0 0")
            other.notified(5)
            gone.go_on(dialog, 3600)
            gone.expect(f"SIP/2.0 {GONE}")
            service.close()


def another_call_id_answers_nothing(program, folder):
    """A phone answers each NOTIFY at once, but with another Call-ID, so in no dialog of its own (RFC 3261 section 12). As of a silent phone one
    NOTIFY comes again until it is given up, what waits behind it is dropped then, and the row goes as its subscription does."""
    with Service(program, "alice") as service, Observer(service, "alice") as phone, service.operator() as operator:
        asked = time.time()
        phone.ask("SIP/2.0 200 OK")
        came = phone.observe(1)
        phone.reply_astray(came[0])
        operator.tell("MAIL alice voice 1 0 0 0")
        end = time.monotonic() + came[0].time - time.time() + GIVEN_UP + QUIET
        while arrival := phone.arrival(end - time.monotonic()):
            phone.reply_astray(arrival)
            came.append(arrival)
        are_sends("a NOTIFY that is answered with another Call-ID", came, MOMENTS, asked, service)
        counters_become(operator, lambda: {"live": "0", "given_up": "1", "held": "1", "held_dropped": "1"})
        same("the rows", [], rows_told(operator, "WATCHERS"))
        service.close()


def a_481_with_another_call_id_ends_nothing(program, folder):
    """A 481 and a 603 with another Call-ID say nothing of the dialog: its subscription keeps its row, counts for its source, and is told on."""
    with Service(program, "--per-source", "1", "alice") as service, Observer(service, "alice") as phone, service.operator() as operator:
        dialog = phone.ask("SIP/2.0 200 OK")
        first = phone.notified(1)
        for status in (GONE, "603 Decline"):
            phone.reply_astray(first, status)
        phone.reply(first)
        answers_noted(operator, "1")
        phone.ask("SIP/2.0 503 Service Unavailable")
        same("the row", [dialog.tag], [row[2] for row in rows_told(operator, "WATCHERS")])
        counted = operator.counters()
        names = ("live", "per_source", "gone_by_481", "notifies_refused_603")
        same("what is counted", ("1", "1", "0", "0"), tuple(counted[name] for name in names))
        operator.tell("MAIL alice voice 2 8 0 2")
        phone.accept(2, HEARD)
        service.close(lambda: phone.accept(3))


def a_stale_number_is_done_with(program, folder):
    """A NOTIFY was lost, and when it comes again the phone has seen the next one: it answers by a 500 (RFC 3261 section
    12.2.2), which is a final answer."""
    with Service(program, "alice") as service, Observer(service, "alice") as phone, service.operator() as operator:
        phone.ask("SIP/2.0 200 OK")
        phone.accept(1)
        answers_noted(operator, "1")
        asked = time.time()
        operator.tell("MAIL alice voice 1 0 0 0")
        lost = phone.notified(2)
        operator.tell("MAIL alice voice 2 8 0 2")
        phone.accept(3, HEARD)
        # On a busy machine it came again before the next one.
        again = phone.passed or [phone.notified(2)]
        are_sends("the NOTIFY that was lost", [lost, *again], MOMENTS[: 1 + len(again)], asked, service)
        phone.reply(again[-1], "500 Server Internal Error")
        phone.hears_nothing()
        operator.tell("MAIL alice voice 0 10 0 0")
        phone.accept(4)
        service.close(lambda: phone.accept(5))


def it_is_given_up(program, folder):
    """Two phones that are silent for good, beside one that answers at the fifth time, which is told of a change behind the end of the
    others. The first that is given up is told at once, the other one once a minute is over, or at the end of the service; with
    --log-requests each has a line of its own."""
    with Service(program, "--log-requests", "alice") as service, service.operator() as operator:
        observers = [Observer(service, "alice") for _ in range(3)]
        with observers[0] as silent, observers[1] as other, observers[2] as late:
            asked = time.time()
            dialog = silent.ask("SIP/2.0 200 OK")
            second = other.ask("SIP/2.0 200 OK")
            late.ask("SIP/2.0 200 OK")
            late.reply(late.observe(5)[-1])
            sends = [phone.leave_unanswered() for phone in (silent, other)]
            for came in sends:
                are_sends("a NOTIFY that nobody ever answers", came, MOMENTS, asked, service)
            late.hears_nothing(ON_ITS_WAY)
            # Where a busy machine was late with some, the eleventh would come too late, and isn't sent.
            repeats = sum(len(came) - 1 for came in sends) + 4
            counters_become(operator, lambda: {"given_up": "2", "live": "1", "repeats": str(repeats)})
            operator.tell("MAIL alice voice 2 8 0 2")
            late.accept(2, HEARD)
            silent.go_on(dialog, 3600)
            silent.expect(f"SIP/2.0 {GONE}")
            ended = service.close(lambda: late.accept(3))
            mailbox = "alice"
            both = [(silent.me, dialog.tag), (other.me, second.tag)]
            # Where a busy machine was late with the sends to the first, the other is given up before.
            if f"tag={second.tag} at {other.me}\n".encode() in ended.err:
                both.reverse()
            (first, tag), (last, _) = both
            log = [
                f"notifyd: nobody answered 1 NOTIFYs, the last of them from {mailbox};tag={tag} at {first}\n",
                f"notifyd: nobody answered 1 more NOTIFYs, the last of them at {last}\n",
                *(f"notifyd: {me} NOTIFY {mailbox};tag={tag} unanswered\n" for me, tag in both),
            ]
            same("which of these lines the log lacks", [], [line for line in log if line.encode() not in ended.err])


def the_last_send_is_answered_too_late(program, folder):
    """Phones that answer the eleventh send alone, when their worker may have ended their subscriptions. WATCHERS has just those that go on,
    as a refresh shows, once their workers said so."""
    with Service(program, "alice") as service, service.operator() as operator, ExitStack() as stack:
        phones = []
        for _ in range(6):
            phone = stack.enter_context(Observer(service, "alice"))
            phones.append((phone, phone.ask("SIP/2.0 200 OK"), time.monotonic()))
            time.sleep(0.15)
        for phone, _, began in phones:
            came = phone.observe_until(began + MOMENTS[-1] + 0.2)
            # Where a busy machine was late, the last one isn't sent, or comes later and isn't answered.
            if len(came) == len(MOMENTS):
                phone.reply(came[-1])
        time.sleep(GIVEN_UP - MOMENTS[-1] + 1)
        going_on = []
        for phone, dialog, _ in phones:
            phone.go_on(dialog, 3600)
            if phone.is_answered() == "SIP/2.0 200 OK":
                phone.accept(2)
                going_on.append(dialog.tag)
        counters_become(operator, lambda: {"live": str(len(going_on))})
        same("the rows", sorted(going_on), sorted(row[2] for row in rows_told(operator, "WATCHERS")))
        service.close()


def a_loss_behind_a_late_answer_is_counted(program, folder):
    """A phone answers one NOTIFY so late that its worker is asked whether the subscription lives, and the next one never. That this one is given
    up is counted and told, and then its row goes."""
    with Service(program, "--log-requests", "alice") as service, Observer(service, "alice") as phone, service.operator() as operator:
        dialog = phone.ask("SIP/2.0 200 OK")
        phone.accept(1)
        answers_noted(operator, "1")
        operator.tell("MAIL alice voice 1 0 0 0")
        phone.reply(phone.observe(9)[-1])
        answers_noted(operator, "1")
        operator.tell("MAIL alice voice 2 0 0 0")
        phone.leave_unanswered()
        counters_become(operator, lambda: {"given_up": "1", "live": "0"})
        ended = service.close()
        line = f"notifyd: {phone.me} NOTIFY alice;tag={dialog.tag} unanswered\n"
        assert line.encode() in ended.err, ended.err


def who_leaves_one_unanswered_has_no_row(program, folder):
    """Where each NOTIFY is sent once, nothing tells but its worker that a subscription is over. It tells of a phone that never answers, and of
    one that answers all but one: for 32 seconds both have their rows, then neither a row nor a place among those of their source. One that
    answers stays."""
    with Service(program, "--repeats", "0", "--per-source", "3", "alice") as service, service.operator() as operator, ExitStack() as stack:
        silent, deaf, other, late = (stack.enter_context(Observer(service, "alice")) for _ in range(4))
        began = time.monotonic()
        for phone in (silent, deaf, other):
            dialog = phone.ask("SIP/2.0 200 OK")
        for number, heard in enumerate(((deaf, other), (other,), (deaf, other)), 1):
            if number > 1:
                operator.tell(f"MAIL alice voice {number} 0 0 0")
            for phone in heard:
                phone.accept(number)
            answers_noted(operator, str(len(heard)))
        time.sleep(max(0.0, began + GIVEN_UP - 1.5 - time.monotonic()))
        rows = len(rows_told(operator, "WATCHERS"))
        if time.monotonic() < began + GIVEN_UP:
            same("how many rows there are before", 3, rows)
        late.ask("SIP/2.0 503 Service Unavailable")
        counters_become(operator, lambda: {"live": "1", "given_up": "0"})
        same("the row that stays", [dialog.tag], [row[2] for row in rows_told(operator, "WATCHERS")])
        if time.monotonic() > began + 3 * GIVEN_UP:
            raise AssertionError("the rows went later than behind a minute")
        late.ask("SIP/2.0 200 OK")
        counters_become(operator, lambda: {"live": "2"})
        service.close()


def what_is_dropped_ends_its_subscription(program, folder):
    """Of what waits for a first answer 64 are kept. Their worker waits for the answers to the others, too: so it ends the subscription of a
    phone that answers all that it is sent, and WATCHERS has no row of it then."""
    with Service(program, "alice") as service, Observer(service, "alice") as phone, service.operator() as operator:
        phone.ask("SIP/2.0 200 OK")
        for new in range(1, 71):
            operator.tell(f"MAIL alice voice {new} 0 0 0")
        counters_become(operator, lambda: {"held": "64", "held_dropped": "6"})
        for number in range(1, 66):
            phone.accept(number)
        same("how many rows there are before", 1, len(rows_told(operator, "WATCHERS")))
        counters_become(operator, lambda: {"live": "0", "given_up": "0"})
        service.close()


def code_becomes(operator, number, code):
    """Waits until the one row of WATCHERS says that the NOTIFY with this number was answered with this code."""
    came = None

    def is_noted():
        nonlocal came
        came = [word for line in operator.ask("WATCHERS").splitlines()[1:] for word in line.split(" ")[5::3]]
        return came == [str(number), f"code={code}"]

    comes_true(is_noted)
    same(f"the answer to NOTIFY {number}", [str(number), f"code={code}"], came)


def a_phone_that_refuses_stays(program, folder):
    """A phone that refuses each NOTIFY stays subscribed. Its row has the last code, each refusal counts once, and the log tells the first
    at once and the others at the end. A 500 to a NOTIFY that a later one overtook says nothing."""
    with Service(program, "alice") as service, service.operator() as operator, Observer(service, "alice") as phone:
        dialog = phone.ask("SIP/2.0 200 OK")
        code_becomes(operator, 0, 0)
        for number, status in enumerate(("403 Forbidden", "403 Forbidden", "603 Decline", "415 Unsupported Media Type"), 1):
            came = phone.notified(number)
            phone.reply(came, status)
            code_becomes(operator, number, status[:3])
            phone.reply(came, status)
            operator.tell(f"MAIL alice voice {number} 0 0 0")
        phone.accept(5, "Messages-Waiting: yes\r\nVoice-Message: 4/0 (0/0)\r\n")
        code_becomes(operator, 5, 200)
        for new in (1, 2):
            operator.tell(f"MAIL alice voice {new} 0 0 0")
        overtaken, last = phone.notified(6), phone.notified(7)
        phone.reply(last)
        code_becomes(operator, 7, 200)
        phone.reply(overtaken, "500 Server Internal Error")
        phone.hears_nothing()
        code_becomes(operator, 7, 200)
        counted = {name: count for name, count in operator.counters().items() if name.startswith("notifies_refused_") and count != "0"}
        same("what was refused", {"notifies_refused_403": "2", "notifies_refused_603": "1", "notifies_refused_other": "1"}, counted)
        ended = service.close(lambda: phone.accept(8))
        log = [
            f"notifyd: phones refused 1 NOTIFYs, the last of them from alice;tag={dialog.tag} at {phone.me} with 403",
            f"notifyd: phones refused 3 more NOTIFYs, the last of them at {phone.me} with 415",
        ]
        same("what the log says of it", log, [line for line in ended.err.decode().splitlines() if "phones refused" in line])


def a_farewell_comes_again(program, folder):
    """The service waits for the answer, and no longer."""
    with Service(program, "--linger", "30", "alice") as service, Observer(service, "alice") as phone, service.operator() as operator:
        phone.ask("SIP/2.0 200 OK")
        phone.accept(1)
        answers_noted(operator, "1")

        def answer_late():
            came = phone.observe(3)
            are_sends("the farewell", came, MOMENTS[:3], asked, service)
            same("what it says", OVER + "deactivated", Message(came[0].octets).value("Subscription-State"))
            phone.reply(came[-1])

        asked = time.time()
        service.close(answer_late, lambda: ends_within(service, SOON))


def ends_within(service, seconds):
    """The service ends in so many seconds, and as many more as its threads wait for a processor."""
    end = time.monotonic() + seconds
    while service.running.process.poll() is None:
        if time.monotonic() > end + service.running.delay():
            raise AssertionError(f"it doesn't end within {seconds} seconds")
        time.sleep(0.02)


def a_silent_phone_is_waited_for(words, seconds, moments):
    """A check that a farewell that nobody answers is sent at these moments, as a service with these words lingers for so many
    seconds."""

    def check(program, folder):
        with Service(program, *words, "alice") as service, Observer(service, "alice") as phone, service.operator() as operator:
            phone.ask("SIP/2.0 200 OK")
            phone.accept(1)
            answers_noted(operator, "1")  # else the farewell would wait for that
            asked = time.time()
            ended = service.close(lambda: ends_within(service, seconds + SOON))
            came = phone.observe_until(time.monotonic() + ON_ITS_WAY)
            are_sends("the farewell", came, moments, asked, service, seconds)
            same("NOTIFYs lost, as the line at the end says", "1", last_counters(ended)["lost"])

    return check


def nothing_is_repeated(program, folder):
    with Service(program, "--repeats", "0", "alice") as service, Observer(service, "alice") as phone:
        with service.operator() as operator:
            phone.ask("SIP/2.0 200 OK")
            phone.notified(1)
            phone.hears_nothing(2.0)
            operator.tell("MAIL alice voice 2 8 0 2")
            phone.notified(2, HEARD)
            phone.hears_nothing(2.0)
            same("NOTIFYs sent again", "0", operator.counters()["repeats"])
            service.close(lambda: phone.notified(3))


def one_is_repeated_at_a_time(program, folder):
    """With room for one transaction a NOTIFY beside it is sent once, and the next has the room again once the first is answered."""
    with Service(program, "--repeats", "1", "alice") as service, Observer(service, "alice") as phone:
        with service.operator() as operator:
            phone.ask("SIP/2.0 200 OK")
            phone.accept(1)
            answers_noted(operator, "1")
            asked = time.time()
            operator.tell("MAIL alice voice 1 0 0 0")
            second = phone.notified(2)
            operator.tell("MAIL alice voice 2 0 0 0")
            phone.notified(3)
            came = [second, *phone.passed]
            came += phone.observe(3 - len(came))
            are_sends("the NOTIFY that has the room", came, MOMENTS[:3], asked, service)
            phone.reply(came[-1])
            phone.hears_nothing()
            same("NOTIFYs sent once", "1", operator.counters()["once"])
            asked = time.time()
            operator.tell("MAIL alice voice 2 8 0 2")
            fourth = phone.notified(4, HEARD)
            are_sends("the NOTIFY behind it", [fourth, *phone.observe(1)], MOMENTS[:2], asked, service)
            phone.reply(fourth)
            service.close(lambda: phone.accept(5))


def one_dialog_leaves_room(program, folder):
    """A phone that answered its first NOTIFY and is silent from then on asks for more time, again and again. Its dialog takes `--open` of the
    room for NOTIFYs that wait for answers, and what is more is sent once; that to another phone comes again all the same."""
    words = ("--repeats", "8", "--open", "3", "alice", "bob")
    with Service(program, *words) as service, Observer(service, "alice") as silent, Observer(service, "bob") as other:
        with service.operator() as operator:
            dialog = silent.ask("SIP/2.0 200 OK")
            silent.accept(1)
            answers_noted(operator, "1")
            for _ in range(12):
                silent.go_on(dialog, 3600)
            counters_become(operator, lambda: {"notifies": "13", "once": "9"})
            asked = time.time()
            other.ask("SIP/2.0 200 OK")
            came = other.observe(3)
            are_sends("the NOTIFY to another phone", came, MOMENTS[:3], asked, service)
            other.reply(came[-1])
            other.hears_nothing()
            counters_become(operator, lambda: {"once": "9", "held": "0"})
            silent.reply(silent.notified(4))
            asked = time.time()
            silent.go_on(dialog, 3600)
            again = [silent.notified(14), *(it for it in silent.observe_until(time.monotonic() + 2.0) if is_number(it, 14))]
            are_sends("the NOTIFY that has the room", again, MOMENTS[:3], asked, service)
            service.close()


def a_silent_dialog_leaves_places(program, folder):
    """A phone that answers nothing asks for more time, again and again. Its NOTIFYs take half of the places of those that wait for a first
    answer, and what is more is dropped. So a change waits for the first answer of another phone, too, which is told of it then."""
    with Service(program, "--repeats", "8", "alice", "bob") as service, service.operator() as operator:
        with Observer(service, "alice") as silent, Observer(service, "bob") as other:
            dialog = silent.ask("SIP/2.0 200 OK")
            for _ in range(12):
                silent.go_on(dialog, 3600)
            counters_become(operator, lambda: {"held": "4", "held_dropped": "8"})
            other.ask("SIP/2.0 200 OK")
            first = other.notified(1, NO_MESSAGES)
            operator.tell("MAIL bob voice 2 8 0 2")
            counters_become(operator, lambda: {"held": "5", "held_dropped": "8", "once": "0"})
            other.reply(first)
            other.accept(2, HEARD)
            operator.tell("MAIL bob voice 0 10 0 0")
            other.accept(3, "Messages-Waiting: no\r\nVoice-Message: 0/10 (0/0)\r\n")
            service.close(lambda: other.accept(4))


def fetches_leave_room(program, folder):
    """Who asks for the state alone (`Expires: 0`), again and again, and answers nothing, takes half of the room for NOTIFYs that wait for answers.
    What is more is sent once, also the first one to a phone that subscribes then. A NOTIFY of a change comes again, to that phone and to one
    that was there before, which answer it late."""
    with Service(program, "--repeats", "8", "alice", "bob") as service, service.operator() as operator, ExitStack() as stack:
        early, late = phones = [stack.enter_context(Observer(service, "bob")) for _ in range(2)]
        fetcher = stack.enter_context(Observer(service, "alice"))
        early.ask("SIP/2.0 200 OK")
        early.accept(1)
        answers_noted(operator, "1")
        for _ in range(12):
            fetcher.begin("SUBSCRIBE", "message-summary", ("Event: message-summary", "Expires: 0"))
        counters_become(operator, lambda: {"notifies": "13", "once": "8"})
        late.ask("SIP/2.0 200 OK")
        late.accept(1)
        answers_noted(operator, "2")
        counters_become(operator, lambda: {"notifies": "14", "once": "9"})
        asked = time.time()
        operator.tell("MAIL bob voice 2 8 0 2")
        for phone in phones:
            came = [phone.notified(2, HEARD), *phone.observe(2)]
            are_sends("the NOTIFY of a change", came, MOMENTS[:3], asked, service)
            phone.reply(came[-1])
        answers_noted(operator, "2")
        same("NOTIFYs sent once", "9", operator.counters()["once"])
        service.close(*(lambda phone=phone: phone.accept(3) for phone in phones))


def checks():
    # The longest stands first, so that others are tried beside it.
    yield "repeats: eleven times at most, and one who answers the fifth is told of the next change", it_is_given_up
    yield "repeats: a NOTIFY that is lost behind a late answer is counted as given up", a_loss_behind_a_late_answer_is_counted
    yield "repeats: who answers the eleventh may have no subscription, and WATCHERS no row then", the_last_send_is_answered_too_late
    yield "repeats: with --repeats 0 a row goes with its subscription", who_leaves_one_unanswered_has_no_row
    yield "repeats: a row goes with its subscription where a NOTIFY was dropped", what_is_dropped_ends_its_subscription
    yield "repeats: who refuses each NOTIFY stays, and is told", a_phone_that_refuses_stays
    yield "repeats: what waits for an answer is given up with its NOTIFY", what_waits_is_given_up_too
    yield "repeats: who answers with another Call-ID has answered nothing", another_call_id_answers_nothing
    yield "repeats: a phone that answers nothing draws one NOTIFY, and all that waited once it answers", a_stranger_draws_one
    yield "repeats: an address elsewhere draws one NOTIFY until it answers", an_address_elsewhere_draws_one
    yield "repeats: who answers for another address draws one NOTIFY there for each answer", who_answers_for_another_draws_one_each
    yield "repeats: who answers from elsewhere is told all, one after the other", a_phone_that_answers_from_elsewhere_is_told_all
    yield "repeats: after 0.5, 1.5, 3.5 and 7.5 seconds, and no more once it is answered", silence_brings_it_again
    yield "repeats: NOTIFYs that are sent at once come again after half a second", a_burst_comes_again_in_time
    yield "repeats: a 100 makes the interval four seconds", a_provisional_answer_slows_it_down
    yield "repeats: a 481 ends all of its dialog, and of no other", a_481_ends_all_of_its_dialog
    yield "repeats: a 481 with another Call-ID ends nothing", a_481_with_another_call_id_ends_nothing
    yield "repeats: a number that is stale, and so answered by a 500, is done with", a_stale_number_is_done_with
    yield "repeats: a farewell comes again, and the service ends once it is answered", a_farewell_comes_again
    for words, seconds in ((("--linger", "0"), 0), (("--linger", "1"), 1), ((), 2)):
        moments = tuple(moment for moment in MOMENTS if moment < max(seconds, 0.1))
        told = f"repeats: {' '.join(words) or 'without --linger'}: a silent phone is waited for {seconds} seconds"
        yield told, a_silent_phone_is_waited_for(words, seconds, moments)
    yield "repeats: with --repeats 0 each is sent once", nothing_is_repeated
    yield "repeats: with --repeats 1 one at a time", one_is_repeated_at_a_time
    yield "repeats: with --open 3 one dialog's refreshes leave room for others", one_dialog_leaves_room
    yield "repeats: with --repeats 8 a silent dialog leaves places to another phone that waits", a_silent_dialog_leaves_places
    yield "repeats: with --repeats 8 fetches leave room for NOTIFYs of changes", fetches_leave_room
