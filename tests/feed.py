"""A voicemail system at `notifyd serve`: its NOTIFYs outside any dialog tell what mailboxes hold (RFC 3842 section 5.2)."""

import socket

from phone import Message, open_socket
from service import Service, address, counters_become
from suite import comes_true, free_port, run, same

# The body of RFC 3842 section 3.5's example, and of its section 5.2's, with and without what may be left out.
SIMPLE = "Messages-Waiting: yes\r\nMessage-Account: sip:alice@vmail.example.com\r\nVoice-Message: 2/8 (0/2)\r\n"
WHOLE = (
    "Messages-Waiting: yes\r\nMessage-Account: sip:alice@vmail.example.com\r\nVoice-Message: 4/8 (1/2)\r\nText-Message: 3/7\r\n"
    "\r\nTo: <alice@atlanta.example.com>\r\nFrom: <bob@biloxi.example.com>\r\nSubject: carpool tomorrow?\r\n"
)
NOTHING = "Messages-Waiting: no\r\n"

# Bodies that tell nothing.
WRONG = {
    "no status line": "Voice-Message: 2/8 (0/2)\r\n",
    "neither yes nor no": "Messages-Waiting: maybe\r\nVoice-Message: 2/8\r\n",
    "an account that is no URI": "Messages-Waiting: yes\r\nMessage-Account: <alice>\r\nVoice-Message: 2/8\r\n",
    "a line without a colon": "Messages-Waiting: yes\r\nVoice-Message 2/8\r\n",
    "a line without an end": "Messages-Waiting: yes\r\nVoice-Message: 2/8",
    "an unknown class": "Messages-Waiting: yes\r\nSmoke-Message: 2/8\r\n",
    "no counts": "Messages-Waiting: yes\r\nVoice-Message: many\r\n",
    "half of the urgent ones": "Messages-Waiting: yes\r\nVoice-Message: 2/8 (1)\r\n",
    "more behind the counts": "Messages-Waiting: yes\r\nVoice-Message: 2/8 (1/2) x\r\n",
    "a count of 33 bits": "Messages-Waiting: yes\r\nVoice-Message: 4294967296/0\r\n",
    "more urgent than there are": "Messages-Waiting: yes\r\nVoice-Message: 2/8 (3/0)\r\n",
    "a class twice": "Messages-Waiting: yes\r\nVoice-Message: 2/8\r\nVoice-Message: 2/8\r\n",
    "waiting, and no count": "Messages-Waiting: yes\r\n",
    "nothing": "",
}


class Voicemail:
    """A voicemail system at this port. It repeats nothing by itself."""

    def __init__(self, feed):
        self.socket = open_socket(("127.0.0.1", feed))
        self.number = 0

    def __enter__(self):
        return self

    def __exit__(self, *_):
        self.socket.close()

    def request(self, body, mailbox="alice", method="NOTIFY", event="message-summary", tag=""):
        self.number += 1
        head = [
            f"{method} sip:{mailbox}@127.0.0.1 SIP/2.0",
            f"Via: SIP/2.0/UDP 127.0.0.1:9;rport;branch=z9hG4bKvm{self.number}",
            "Max-Forwards: 70",
            "From: <sip:voicemail@127.0.0.1>;tag=vm1",
            f"To: <sip:{mailbox}@127.0.0.1>{tag}",
            f"Call-ID: vm{self.number}",
            f"CSeq: 1 {method}",
            *([f"Event: {event}"] if event else []),
            "Subscription-State: terminated",
            "Content-Type: application/simple-message-summary",
            f"Content-Length: {len(body)}",
        ]
        return "\r\n".join([*head, "", body]).encode()

    def send(self, octets):
        """The answer to a request. The port opens just behind the line that says that the service listens: until then nobody is there."""
        answer = None

        def is_answered():
            nonlocal answer
            try:
                self.socket.send(octets)
                answer = Message(self.socket.recv(65535))
                return True
            except ConnectionRefusedError:
                return False

        if not comes_true(is_answered):
            raise AssertionError("nobody listens at the port of voicemail systems")
        return answer

    def tell(self, body, status="200 OK", **how):
        """Tells of a mailbox, which must be answered so."""
        answer = self.send(self.request(body, **how))
        same(f"the answer to {body!r}", f"SIP/2.0 {status}", answer.first)
        return answer


def heard(program, *words, networks=("127.0.0.0/8",)):
    """A service with alice and bob that hears voicemail systems from these networks, and the port for those."""
    feed = free_port()
    named = [word for network in networks for word in ("--feed-from", network)]
    return Service(program, *named, "--feed-listen", address(feed), *words, "alice", "bob"), feed


def a_watcher_hears(program, _):
    service, feed = heard(program, "--workers", "2")
    with service, Voicemail(feed) as voicemail, service.phone("alice") as phone, service.operator() as operator:
        dialog = phone.subscribe()
        answer = voicemail.tell(SIMPLE)
        same("the tag of the answer", "voicemail", answer.tag("To"))
        phone.expect_notify("active", "Messages-Waiting: yes\r\nVoice-Message: 2/8 (0/2)\r\n")
        shown = operator.ask("SHOW alice").splitlines()
        same("what SHOW says", ["MAIL alice voice 2 8 0 2", "MAIL alice fax 0 0 0 0"], shown[2:4])
        # Told again, and by a repeat, nothing changes and nobody hears of it.
        voicemail.tell(SIMPLE)
        octets = voicemail.request(SIMPLE)
        same("two answers to one request", voicemail.send(octets).lines, voicemail.send(octets).lines)
        voicemail.tell(NOTHING)
        phone.expect_notify("active", "Messages-Waiting: no\r\nVoice-Message: 0/0 (0/0)\r\n")
        phone.leave(dialog, "Messages-Waiting: no\r\nVoice-Message: 0/0 (0/0)\r\n")
        counters = operator.counters()
        same("changes and bad summaries", ("2", "0"), (counters["changes"], counters["bad_summaries"]))
        service.close()


def a_repeat_behind_a_newer_one(program, _):
    service, feed = heard(program)
    with service, Voicemail(feed) as voicemail, service.operator() as operator:
        operator.counters()  # so it takes lines
        older = voicemail.request(SIMPLE)
        answer = voicemail.send(older)
        same("the answer to the older one", "SIP/2.0 200 OK", answer.first)
        voicemail.tell(NOTHING)
        again = voicemail.send(older)
        same("the answer to its retransmission", [answer.first, *answer.lines], [again.first, *again.lines])
        same("the counts", "MAIL alice voice 0 0 0 0", operator.ask("SHOW alice").splitlines()[2])
        # One that the service refused is answered the same too. It isn't counted again.
        unknown = voicemail.request(NOTHING, mailbox="carol")
        same("two answers to one request", voicemail.send(unknown).lines, voicemail.send(unknown).lines)
        counters = operator.counters()
        same("changes and bad summaries", ("2", "1"), (counters["changes"], counters["bad_summaries"]))
        service.close()


def all_classes(program, _):
    service, feed = heard(program)
    with service, Voicemail(feed) as voicemail, service.operator() as operator:
        operator.counters()  # so it takes lines
        voicemail.tell(WHOLE)
        lines = operator.ask("SHOW alice").splitlines()[2:]
        same("both classes", ["MAIL alice voice 4 8 1 2", "MAIL alice text 3 7 0 0"], [lines[0], lines[4]])
        # It is all of it: what isn't named any more is gone.
        voicemail.tell("messages-waiting:YES\r\nFAX-MESSAGE :\t1 / 0( 1/0 )\r\nnone: 5/5\r\n")
        lines = operator.ask("SHOW alice").splitlines()[2:]
        wanted = ["voice 0 0 0 0", "fax 1 0 1 0", "pager 0 0 0 0", "multimedia 0 0 0 0", "text 0 0 0 0"]
        same("one class", [f"MAIL alice {it}" for it in wanted], lines[:5])
        # Without an account the Request-URI names the mailbox.
        voicemail.tell("Messages-Waiting: yes\r\nVoice-Message: 1/0\r\n", mailbox="bob")
        same("the other mailbox", "MAIL bob voice 1 0 0 0", operator.ask("SHOW bob").splitlines()[2])
        service.close()


def refused(program, _):
    service, feed = heard(program)
    with service, Voicemail(feed) as voicemail, service.operator() as operator:
        operator.counters()  # so it takes lines
        for name, body in WRONG.items():
            try:
                voicemail.tell(body, "400 Bad Request")
            except AssertionError as wrong:
                raise AssertionError(f"{name}: {wrong}") from None
        one = "Messages-Waiting: yes\r\nVoice-Message: 1/0\r\n"
        voicemail.tell(one, "404 Not Found", mailbox="carol")
        answer = voicemail.tell(one, "489 Bad Event", event="presence")
        same("the packages", "message-summary", answer.value("Allow-Events"))
        voicemail.tell(one, "489 Bad Event", event="")
        voicemail.tell(one, "481 Call/Transaction Does Not Exist", tag=";tag=w0-1")
        answer = voicemail.tell("", "405 Method Not Allowed", method="OPTIONS")
        same("the methods", "NOTIFY", answer.value("Allow"))
        counters = operator.counters()
        same("what is counted", (str(len(WRONG) + 5), "0"), (counters["bad_summaries"], counters["changes"]))
        service.close()


def from_elsewhere(program, _):
    service, feed = heard(program, networks=("192.0.2.0/24", "198.51.100.7/32"))
    with service, Voicemail(feed) as voicemail, service.operator() as operator:
        voicemail.socket.settimeout(0.5)
        try:
            voicemail.tell(SIMPLE)
        except socket.timeout:
            pass
        else:
            raise AssertionError("a NOTIFY from no network is answered")
        # It may come late to a busy service, but then it is counted.
        counters_become(operator, lambda: {"bad_summaries": "1"})
        try:
            raise AssertionError(f"a NOTIFY from no network is answered: {voicemail.socket.recv(65535)}")
        except socket.timeout:
            pass
        service.close()


def without_the_option(program, _):
    with Service(program, "alice") as service, Voicemail(service.sip) as voicemail:
        voicemail.tell(SIMPLE, "405 Method Not Allowed")
        service.close()


def no_such_option(program, _):
    for words, said in (
        (["--feed-from", "127.0.0.1"], b"--feed-from <a.b.c.d/bits>"),
        (["--feed-listen", "nowhere"], b"--feed-listen <a.b.c.d:port>"),
    ):
        ended = run(program, ["serve", *words, "alice"], b"")
        same(f"whether {words} are refused", True, ended.status in (1, 3) and said in ended.err)


def its_port_is_in_use(program, _):
    with socket.socket(socket.AF_INET, socket.SOCK_DGRAM) as other:
        other.bind(("127.0.0.1", 0))
        words = ["--listen", address(free_port()), "--control", address(free_port())]
        words += ["--feed-from", "127.0.0.0/8", "--feed-listen", address(other.getsockname()[1]), "alice"]
        ended = run(program, ["serve", *words], b"")
        same("how it ends", (3, True), (ended.status, b"a port in use: --feed-listen" in ended.err))


def checks():
    yield "a voicemail's NOTIFY reaches a watcher once", a_watcher_hears
    yield "a voicemail's retransmission behind a newer NOTIFY", a_repeat_behind_a_newer_one
    yield "a summary is all that a mailbox holds", all_classes
    yield "summaries and requests that are refused", refused
    yield "a voicemail that is not named is not heard", from_elsewhere
    yield "without --feed-from a NOTIFY is refused", without_the_option
    yield "words of the two options that are wrong", no_such_option
    yield "the port of a voicemail is in use", its_port_is_in_use
