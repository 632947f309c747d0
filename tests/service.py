"""`notifyd serve` from its first datagram to its farewell: phones subscribe over sockets, an operator tells what happened."""

import contextlib
import json
import os
import re
import signal
import socket
import struct
import subprocess
import time

from phone import NO_MESSAGES, OVER, PATIENCE, Message, Operator, Phone, open_socket, persist
from suite import LIMIT, LONG_LIMIT, Running, comes_true, ended_with, free_port, run, same, stand_still, tell, tell_close
from tags import home_of, local_tag

# With a seed of zeros and this address for phones a notifier's messages are known to the byte, at whatever port it listens.
ZEROS = "0" * 64
KNOWN = ("--contact", "127.0.0.1:5060", "--seed", ZEROS)

SUBSCRIBE = b"""\
SUBSCRIBE sip:alice@127.0.0.1 SIP/2.0
Via: SIP/2.0/UDP 127.0.0.1:5070;branch=z9hG4bKa1
Max-Forwards: 70
From: <sip:alice@127.0.0.1>;tag=f1
To: <sip:alice@127.0.0.1>
Call-ID: c1
CSeq: 1 SUBSCRIBE
Contact: <sip:alice@127.0.0.1:5070>
Event: message-summary
Content-Length: 0

""".replace(b"\n", b"\r\n")

ANSWER = b"""\
SIP/2.0 200 OK
Via: SIP/2.0/UDP 127.0.0.1:5070;branch=z9hG4bKa1
From: <sip:alice@127.0.0.1>;tag=f1
To: <sip:alice@127.0.0.1>;tag=w0-1-76b8e0ada0f13d90
Call-ID: c1
CSeq: 1 SUBSCRIBE
Contact: <sip:127.0.0.1:5060>
Expires: 3600
Content-Length: 0

""".replace(b"\n", b"\r\n")

NOTIFY = b"""\
NOTIFY sip:alice@127.0.0.1:5070 SIP/2.0
Via: SIP/2.0/UDP 127.0.0.1:5060;branch=z9hG4bK-w0-1-76b8e0ada0f13d90-1
Max-Forwards: 70
From: <sip:alice@127.0.0.1>;tag=w0-1-76b8e0ada0f13d90
To: <sip:alice@127.0.0.1>;tag=f1
Call-ID: c1
CSeq: 1 NOTIFY
Contact: <sip:127.0.0.1:5060>
Event: message-summary
Subscription-State: active;expires=3600
Content-Type: application/simple-message-summary
Content-Length: 22

Messages-Waiting: no
""".replace(b"\n", b"\r\n")

# Datagrams that are no SIP message, one for each cause by which a datagram of UDP can be refused, in the order of STATUS.
UNREAD = (
    b"no message",
    SUBSCRIBE.replace(b"CSeq: 1", b"CSeq: one"),
    SUBSCRIBE.replace(b"Call-ID: c1\r\n", b""),
    SUBSCRIBE.replace(b"Call-ID: c1\r\n", b"Call-ID: c1\r\nCall-ID: c1\r\n"),
    SUBSCRIBE.replace(b"Content-Length: 0", b"Content-Length: 1"),
)

HEARD = "Messages-Waiting: yes\r\nVoice-Message: 2/8 (0/2)\r\n"
A_TEXT = "Messages-Waiting: yes\r\nText-Message: 1/0 (0/0)\r\n"

# What STATUS says of NOTIFYs sent again, where each was answered in time.
NOTHING_REPEATED = {"repeats": "0", "given_up": "0", "once": "0", "lost": "0", "gone_by_481": "0"}

# What it says of receives, where none failed.
NOTHING_FAILED = {"failed_receives": "0", "too_long": "0"}


def address(port):
    return f"127.0.0.1:{port}"


class Service:
    """A service at two ports, to be used in a `with`: it runs once this is made, and at the end of the block at the latest it
    is killed."""

    def __init__(self, program, *words, ports=None, limit=LIMIT, stdin=subprocess.DEVNULL):
        self.program = program
        self.sip, self.control = ports or (free_port(), free_port())
        places = ("--listen", address(self.sip), "--control", address(self.control))
        self.running = Running(program, ["serve", *places, *words], limit, stdin)

    def __enter__(self):
        self.running.__enter__()
        try:
            self.running.lines_until(b"listening")
        except BaseException:
            self.running.__exit__()
            raise
        return self

    def __exit__(self, *_):
        self.running.__exit__()

    def phone(self, user):
        return Phone(self.sip, user)

    def operator(self):
        return Operator(self.control)

    def close(self, *farewells):
        """Has it closed by `notifyd tell`, makes these calls, by which phones hear and answer its farewell, and waits for its end,
        which must be a good one. What it wrote."""
        tell_close(self.program, self.running.process, "--control", address(self.control))
        for hear in farewells:
            hear()
        ended = self.running.end()
        same("the exit status", 0, ended.status)
        return ended


def next_datagram(phone):
    """The next datagram, nothing where none comes."""
    try:
        return persist(phone.recv, 65535)
    except socket.timeout:
        return b""


def as_written_down(program, folder):
    with Service(program, *KNOWN, "--workers", "1", "alice", "bob") as service:
        with open_socket(("127.0.0.1", service.sip)) as phone:
            phone.send(SUBSCRIBE)
            same("the answer", ANSWER, next_datagram(phone))
            same("the NOTIFY", NOTIFY, next_datagram(phone))
            phone.send(Message(NOTIFY).answer("200 OK"))
            service.close(lambda: phone.send(Message(next_datagram(phone)).answer("200 OK")))


def a_change_is_notified(program, folder):
    with Service(program, "alice") as service, service.phone("alice") as phone, service.operator() as operator:
        dialog = phone.subscribe()
        operator.tell("MAIL alice voice 2 8 0 2")
        phone.expect_notify("active", HEARD)
        operator.tell("MAIL alice voice 2 8 0 2\n")  # nothing changes
        operator.tell("MAIL alice fax 0 1 0 0")
        both = HEARD + "Fax-Message: 0/1 (0/0)\r\n"
        phone.expect_notify("active", both)
        phone.refresh(dialog, 1800, both)
        phone.leave(dialog, both)
        service.close()


def each_line_is_answered(program, folder):
    lines = (
        ("MAIL alice voice 2 8 0 2", "ok"),
        ("MAIL carol voice 1 0 0 0", "unknown mailbox"),
        ("MAIL alice voice 1 0 2 0", "bad line"),  # more of them urgent than there are
        ("MAIL alice voice 1 0 0", "bad line"),
        ("TICK 5", "bad line"),  # a service has a clock
        ("PROGRESS w0-7-0000000000000000 180 Ringing", "ok"),
        ("PROGRESS w0-7-0000000000000000 99 Early", "bad line"),
        ("status", "bad line"),
        ("", "bad line"),
    )
    with Service(program, "alice") as service, service.operator() as operator:
        for line, answer in lines:
            operator.tell(line, answer)
        service.close()


def changes_are_counted(program, folder):
    """STATUS tells a feed that is dead from one that has nothing to tell: lines that change something are counted, those that can't, and how
    long ago the last one did. A repeat with its token, and a question, are none of them."""
    once = "@0123456789abcdef MAIL alice voice 2 0 0 0"
    lines = (("MAIL alice voice 1 0 0 0", "ok"), (once, "ok"), (once, "ok"), ("MAIL bob voice 1 0 0 0", "unknown mailbox"), ("SHOW bob", "unknown mailbox"), ("WATCHERS bob", "unknown mailbox"), ("MAIL alice", "bad line"))
    names = ("changes", "unknown_mailboxes", "bad_lines")
    with Service(program, "alice") as service, service.operator() as operator:
        same("what is counted at first", ["0"] * 3, [operator.counters()[name] for name in names])
        time.sleep(2.2)
        same("whether no change is of just now", True, int(operator.counters()["change_age"]) >= 2)
        began = time.monotonic()
        for line, answer in lines:
            operator.tell(line, answer)
        counted = operator.counters()
        same("what is counted", ["2", "1", "1"], [counted[name] for name in names])
        same("whether the last change is of just now", True, int(counted["change_age"]) <= time.monotonic() - began)
        service.close()


def answers_get_no_answer(program, folder):
    """What another service answers is answered by none, in its life and while it ends: two of them fall silent."""
    answers = ("ok", "bad line", "unknown mailbox", "closed", "out of memory", "busy", "ok\nup 3\n")
    with Service(program, "alice") as service, service.operator() as operator:
        for answer in answers:
            operator.say(answer)
        # The next answer is that of the line behind them.
        operator.tell("MAIL bob voice 1 0 0 0", "unknown mailbox")
        same("control lines", str(len(answers) + 2), operator.counters()["control_lines"])
        service.close()


def show_text(mailbox, **told):
    """What SHOW says of a mailbox of a service with one worker, which was told of these classes."""
    classes = ("voice", "fax", "pager", "multimedia", "text")
    untold = "".join(f" {name}" for name in classes if name not in told)
    lines = [f"MAIL {mailbox} {name} {told.get(name, '0 0 0 0')}\n" for name in classes]
    return "ok\nworker 0\n" + "".join(lines) + (f"untold{untold}\n" if untold else "")


def what_was_told_is_shown(program, folder):
    with Service(program, "--workers", "1", "alice", "bob") as service, service.operator() as operator:
        operator.tell("SHOW alice", show_text("alice"))
        operator.tell("MAIL alice voice 2 8 0 2")
        operator.tell("MAIL alice fax 0 1 0 0")
        operator.tell("MAIL alice voice 1 9 0 0")
        operator.tell("MAIL alice voice 1 9 2 0", "bad line")
        operator.tell("SHOW alice", show_text("alice", voice="1 9 0 0", fax="0 1 0 0"))
        operator.tell("SHOW bob", show_text("bob"))
        for name in ("pager", "multimedia", "text"):
            operator.tell(f"MAIL alice {name} 0 0 0 0")
        operator.tell("SHOW alice", show_text("alice", voice="1 9 0 0", fax="0 1 0 0", pager="0 0 0 0", multimedia="0 0 0 0", text="0 0 0 0"))
        for line in ("SHOW carol", "DUMP carol"):
            operator.tell(line, "unknown mailbox")
        for line in ("SHOW", "WATCHERS alice one", "show alice"):
            operator.tell(line, "bad line")
        operator.tell("MAIL bob text 3 0 0 0")
        alice = "".join(f"MAIL alice {it}\n" for it in ("voice 1 9 0 0", "fax 0 1 0 0", "pager 0 0 0 0", "multimedia 0 0 0 0", "text 0 0 0 0"))
        bob = "MAIL bob text 3 0 0 0\n"
        operator.tell("DUMP", "ok\n" + alice + bob)
        operator.tell("DUMP alice", "ok\n" + bob)
        operator.tell("DUMP bob", "ok\n")
        service.close()


def all_counts_are_dumped(program, folder):
    """A thousand mailboxes take some pages, and `notifyd tell` follows them."""
    path = f"{folder}/mailboxes"
    with open(path, "w") as file:
        file.writelines(f"mailbox-{number}\n" for number in range(1000))
    with Service(program, "--mailboxes", path) as service, service.operator() as operator:
        lines = [f"MAIL mailbox-{number} voice {number} 0 0 0" for number in range(0, 1000, 2)]
        for line in lines:
            operator.tell(line)
        page = operator.ask("DUMP")
        same("whether a page is short", True, len(page) < 8300)
        same("the last line of a page", "more mailbox-", page.splitlines()[-1][:13])
        ended = tell(program, "--control", address(service.control), "DUMP")
        ended_with(ended, 0, "".join(f"{line}\n" for line in lines).encode(), b"")
        service.close()


def a_repeat_is_no_news(program, folder):
    """A line that comes again late, with its token, is answered as it was and changes nothing."""
    first, other = "@0123456789abcdef", "@fedcba9876543210"
    with Service(program, "--workers", "1", "alice") as service, service.operator() as operator:
        operator.tell(f"{first} MAIL alice voice 1 0 0 0")
        operator.tell(f"{other} MAIL alice voice 0 1 0 0")
        operator.tell(f"{first} MAIL alice voice 1 0 0 0")
        operator.tell("SHOW alice", show_text("alice", voice="0 1 0 0"))
        operator.tell(f"{first.upper()} no line")  # the same token
        operator.tell("@0123456789abcde MAIL alice voice 3 0 0 0", "bad line")
        operator.tell("MAIL alice voice 2 0 0 0")
        operator.tell("MAIL alice voice 2 0 0 0")
        operator.tell("SHOW alice", show_text("alice", voice="2 0 0 0"))
        service.close()


def services_fall_silent(program, folder):
    """A line's answer, which another service hears in its turn, ends there: none answers the other's answer."""
    with Service(program, "alice") as service, Service(program, "bob") as other:
        with service.operator() as one, other.operator() as two:
            two.say(one.ask("MAIL bob voice 1 0 0 0"))
            # What comes next from the other is the answer to this line.
            one.say(two.ask("MAIL alice voice 1 0 0 0"))
            for operator in (one, two):
                same("control lines", "3", operator.counters()["control_lines"])
        service.close()
        other.close()


def forged(source, target, octets, address="127.0.0.1"):
    """An IPv4 packet (RFC 791, RFC 768) with a datagram to this port of 127.0.0.1 that seems to come from that one of this address."""
    udp = struct.pack("!HHHH", source, target, 8 + len(octets), 0) + octets
    addresses = socket.inet_aton(address) + socket.inet_aton("127.0.0.1")
    return struct.pack("!BBHHHBBH8s", 0x45, 0, 20 + len(udp), 0, 0, 64, socket.IPPROTO_UDP, 0, addresses) + udp


def raw_socket():
    """A socket that sends IPv4 packets as they are, or None for a user who may have none."""
    try:
        return socket.socket(socket.AF_INET, socket.SOCK_RAW, socket.IPPROTO_RAW)
    except PermissionError:
        return None


def a_service_hears_no_line_of_its_own(program, folder):
    """A line that seems to come from a socket of the service itself is dropped and counted: else it would answer itself. Who may not
    send such a packet tries nothing."""
    with Service(program, "alice") as service, service.operator() as operator:
        raw = raw_socket()
        if not raw:
            service.close()
            return
        with raw:
            for source in (service.control, service.sip):
                raw.sendto(forged(source, service.control, b"STATUS"), ("127.0.0.1", 0))
        counters_become(operator, lambda: {"control_foreign": "2", "datagrams": "0"})
        operator.tell("MAIL alice voice 1 0 0 0")
        service.close()


def a_datagram_of_nobody_is_dropped(program, folder):
    """Nobody can be answered at port 0 (RFC 768): a datagram from there is dropped, so that no send fails. Who may not send such a packet
    tries nothing."""
    asked = SUBSCRIBE.replace(b"SUBSCRIBE", b"OPTIONS")
    with Service(program, "alice") as service, service.operator() as operator:
        raw = raw_socket()
        if not raw:
            service.close()
            return
        with raw, open_socket(("127.0.0.1", service.sip)) as other:
            for target, octets in ((service.sip, asked), (service.control, b"STATUS")):
                raw.sendto(forged(0, target, octets), ("127.0.0.1", 0))
            other.send(asked.replace(b"z9hG4bKa1", b"z9hG4bKb1"))
            next_datagram(other)
        counters_become(operator, lambda: {"datagrams": "1", "answers": "1", "failed": "0"})
        service.close()


def lines_wait_for_a_stalled_service(program, folder):
    """Two lines are sent again and again while the service stands still. Each is done once, in the order in which they came first."""
    first, second = "@0123456789abcdef MAIL alice voice 1 0 0 0", "@fedcba9876543210 MAIL alice voice 2 0 0 0"
    with Service(program, "--workers", "1", "alice") as service, service.operator() as one, service.operator() as two:
        stand_still(service.running.process)
        for _ in range(3):
            one.say(first)
            two.say(second)
        service.running.process.send_signal(signal.SIGCONT)
        for operator in (one, two):
            same("the answers", ["ok"] * 3, [operator.hear() for _ in range(3)])
        one.tell("SHOW alice", show_text("alice", voice="2 0 0 0"))
        same("control lines", "8", one.counters()["control_lines"])
        service.close()


def status_is_an_object(program, folder):
    with Service(program, "--workers", "2", "alice") as service:
        ended = tell(program, "--json", "--control", address(service.control), "STATUS")
        same("the exit status", 0, ended.status)
        told = json.loads(ended.out)
        same("some of the counters", (0, 0, 2, 0), tuple(told[name] for name in ("begun", "live", "workers", "workers_ended")))
        service.close()


def rows_told(operator, line):
    """The rows that WATCHERS tells: of each the mailbox, who watches, the tag, and the numbers of the last NOTIFY and of the last that
    was answered."""
    first, *rows = operator.ask(line).splitlines()
    same(f"the first line of {line}", "ok", first)
    return sorted((row[0], row[1], row[3], int(row[4]), int(row[5])) for row in (line.split(" ") for line in rows))


def rows_become(operator, line, *wanted):
    """Waits until WATCHERS tells these rows: an answer counts just after it came."""
    until = time.monotonic() + PATIENCE
    came = None
    while came != sorted(wanted) and time.monotonic() < until:
        time.sleep(0.02)
        came = rows_told(operator, line)
    same(f"the rows of {line}", sorted(wanted), came)


def who_watches_is_told(program, folder):
    """A phone that answers, one that doesn't, for which a change waits, and one at another mailbox: how far each was told, and how far it
    answered."""
    with Service(program, *KNOWN, "--workers", "1", "alice", "bob") as service, service.operator() as operator:
        operator.tell("WATCHERS", "ok\n")
        with open_socket(("127.0.0.1", service.sip)) as silent, service.phone("alice") as phone, service.phone("bob") as other:
            silent.send(SUBSCRIBE)
            for octets in (ANSWER, NOTIFY):
                same("what comes to the silent phone", octets, next_datagram(silent))
            uri, tag = "sip:alice@127.0.0.1", "w0-1-76b8e0ada0f13d90"
            place = "127.0.0.1:{}".format(*silent.getsockname()[1:])
            told = re.sub(r" \d+ \d+ code=", " AGE LEFT code=", operator.ask("WATCHERS alice"))
            same("the row of the silent phone", f"ok\nalice {uri} {place} {tag} 1 0 AGE LEFT code=0 contact=sip:alice@127.0.0.1:5070\n", told)
            dialog, away = phone.subscribe(), other.subscribe()
            operator.tell("MAIL alice voice 2 8 0 2")
            phone.expect_notify("active", HEARD)
            behind, well = ("alice", uri, tag, 1, 0), ("alice", uri, dialog.tag, 2, 2)
            strange = ("bob", "sip:bob@127.0.0.1", away.tag, 1, 1)
            rows_become(operator, "WATCHERS alice", behind, well)
            rows_become(operator, "WATCHERS bob", strange)
            rows_become(operator, "WATCHERS", behind, well, strange)
            rows_become(operator, "WATCHERS * 0", behind, well, strange)
            rows_become(operator, "WATCHERS * 1", behind)  # those before the second row
            operator.tell("WATCHERS carol", "unknown mailbox")
            same("how many live", "3", operator.counters()["live"])
            # A row goes with the last NOTIFY, and at a 481.
            phone.leave(dialog, HEARD)
            rows_become(operator, "WATCHERS alice", behind)
            silent.send(Message(NOTIFY).answer("100 Trying"))
            silent.send(Message(NOTIFY).answer("481 Call/Transaction Does Not Exist"))
            rows_become(operator, "WATCHERS", strange)
            counters_become(operator, lambda: {"live": "1", "gone_by_481": "1"})
            service.close(other.hear_farewell)


def who_watches_is_cut(program, folder):
    """WATCHERS tells the first 64 octets of the URI of a subscriber's address, a backslash as its two hex digits, and `-` for one too long."""
    with Service(program, "alice") as service, service.operator() as operator:
        told = []
        for number, user in enumerate((b"a" * 50, b"a" * 51, b"a" * 200, b"a" * 500, b"a\\x0ab")):
            with open_socket(("127.0.0.1", service.sip)) as phone:
                request = SUBSCRIBE.replace(b"z9hG4bKa1", b"z9hG4bKa%d" % number).replace(b"Call-ID: c1", b"Call-ID: c%d" % number)
                phone.send(request.replace(b"From: <sip:alice", b"From: <sip:" + user))
                tag = Message(next_datagram(phone)).tag("To")
                phone.send(Message(next_datagram(phone)).answer("200 OK"))
                told.append(tag)
        shown = ["sip:" + "a" * 50 + "@127.0.0.1", "sip:" + "a" * 51 + "@127.0.0....", "sip:" + "a" * 60 + "...", "-", "sip:a\\x5cx0ab@127.0.0.1"]
        rows_become(operator, "WATCHERS", *(("alice", uri, tag, 1, 1) for uri, tag in zip(shown, told)))
        service.close()


# Contacts of phones behind one proxy, and how they stand in a row: cut behind 64 octets, a backslash as its two hex digits, `-` for one that
# is too long.
CONTACTS = (
    (b"sip:alice@192.0.2.21:5062;line=1", "sip:alice@192.0.2.21:5062;line=1"),
    (b"sip:alice@192.0.2.22:5062;line=2", "sip:alice@192.0.2.22:5062;line=2"),
    (b"sip:a\\x20user=bob@192.0.2.23", "sip:a\\x5cx20user=bob@192.0.2.23"),
    (b"sip:alice@192.0.2.24;line=" + b"4" * 60, "sip:alice@192.0.2.24;line=" + "4" * 38 + "..."),
    (b"sip:alice@192.0.2.25;line=" + b"5" * 600, "-"),
)


def contacts_told(operator):
    """What stands behind the code in each row, by its tag."""
    return {row[3]: row[9:] for row in (line.split(" ") for line in operator.ask("WATCHERS").splitlines()[1:])}


def phones_behind_a_proxy_are_told_apart(program, folder):
    """All of one account, from one address: WATCHERS tells the Contact of each. A refresh from another Contact is told too."""
    with Service(program, "alice") as service, service.operator() as operator, open_socket(("127.0.0.1", service.sip)) as proxy:
        wanted = {}
        for number, (contact, shown) in enumerate(CONTACTS):
            request = SUBSCRIBE.replace(b"z9hG4bKa1", b"z9hG4bKa%d" % number).replace(b"Call-ID: c1", b"Call-ID: c%d" % number)
            proxy.send(request.replace(b"sip:alice@127.0.0.1:5070", contact))
            tag = Message(next_datagram(proxy)).tag("To")
            notify = next_datagram(proxy)
            same("where the NOTIFY goes", b"NOTIFY " + contact + b" SIP/2.0", notify.split(b"\r\n")[0])
            proxy.send(Message(notify).answer("200 OK"))
            wanted[tag] = ["contact=" + shown]
        same("the Contacts", wanted, contacts_told(operator))
        tag, *_ = wanted
        again = SUBSCRIBE.replace(b"z9hG4bKa1", b"z9hG4bKb1").replace(b"Call-ID: c1", b"Call-ID: c0").replace(b"CSeq: 1 ", b"CSeq: 2 ")
        again = again.replace(b"To: <sip:alice@127.0.0.1>", b"To: <sip:alice@127.0.0.1>;tag=" + tag.encode())
        proxy.send(again.replace(b"sip:alice@127.0.0.1:5070", b"sip:alice@192.0.2.26"))
        next_datagram(proxy)
        proxy.send(Message(next_datagram(proxy)).answer("200 OK"))
        same("the Contacts behind a refresh", {**wanted, tag: ["contact=sip:alice@192.0.2.26"]}, contacts_told(operator))
        service.close(*[lambda: proxy.send(Message(next_datagram(proxy)).answer("200 OK"))] * len(CONTACTS))


def what_is_watched_is_told(program, folder):
    """WATCHERS tells the mailbox of the Request-URI, whatever the To says, and the transfer of a REFER by its tag."""
    with Service(program, "alice", "bob") as service, service.operator() as operator, service.phone("bob") as phone:
        with open_socket(("127.0.0.1", service.sip)) as other:
            to_bob = SUBSCRIBE.replace(b"To: <sip:alice", b"To: <sip:bob")
            other.send(to_bob.replace(b"From: <sip:alice", b'From: "To: <x>" <sip:carol'))
            tag = Message(next_datagram(other)).tag("To")
            notify = next_datagram(other)
            transfer = phone.refer("sip:carol@127.0.0.1")
            at_alice = ("alice", "sip:carol@127.0.0.1", tag, 1, 0)
            at_transfer = (transfer, "sip:bob@127.0.0.1", transfer, 1, 1)
            rows_become(operator, "WATCHERS", at_alice, at_transfer)
            rows_become(operator, "WATCHERS alice", at_alice)
            rows_become(operator, "WATCHERS bob")
            other.send(Message(notify).answer("481 Call/Transaction Does Not Exist"))
            rows_become(operator, "WATCHERS", at_transfer)
            service.close(phone.hear_farewell)


def watchers_are_told_page_by_page(program, folder):
    with Service(program, "--workers", "2", "alice", "bob") as service, service.operator() as operator:
        with service.phone("alice") as phone, service.phone("bob") as other:
            tags = sorted(phone.subscribe().tag for _ in range(300))
            last = other.subscribe().tag
            page = operator.ask("WATCHERS")
            same("whether a page is short", True, len(page) <= 8192)
            same("the last line of a page", "more ", page.splitlines()[-1][:5])
            for words, wanted in ((["WATCHERS"], sorted([*tags, last])), (["WATCHERS alice"], tags), (["WATCHERS bob"], [last])):
                ended = tell(program, "--control", address(service.control), *words)
                same("the exit status", 0, ended.status)
                same(f"the tags of {words}", wanted, sorted(line.split(" ")[3] for line in ended.out.decode().splitlines()))
            service.close(other.hear_farewell, *[phone.hear_farewell] * len(tags))


def the_clock_ends_a_subscription(program, folder):
    with Service(program, "--min-time", "1", "bob") as service, service.phone("bob") as phone:
        phone.subscribe(seconds=1)
        phone.expect_notify(OVER + "timeout", NO_MESSAGES)
        service.close()


def counters_become(operator, count):
    """Waits until STATUS counts as this call does, of the counters that it names: one goes up just after its datagram went out, or
    came."""
    until = time.monotonic() + PATIENCE
    wanted = came = None
    while wanted is None or came != wanted and time.monotonic() < until:
        time.sleep(0.02)
        wanted, came = count(), operator.counters()
        came = {name: count for name, count in came.items() if name in wanted}
    same("the counters", wanted, came)


def last_counters(ended):
    """What the line at the end of a service counts, each counter by its name."""
    beginning, *counts = ended.err.decode().splitlines()[-1].split(", ")
    same("how the line at the end begins", "notifyd: ended: up N", re.sub("up [0-9]+", "up N", beginning))
    return dict(count.split(" ", 1) for count in counts)


def status_counts(program, folder):
    with Service(program, "alice") as service, service.phone("alice") as phone, service.operator() as operator:
        phone.subscribe()
        operator.tell("MAIL alice voice 2 8 0 2")
        phone.expect_notify("active", HEARD)
        phone.leave(phone.subscribe(HEARD), HEARD)
        phone.refer("sip:carol@127.0.0.1")
        for octets in UNREAD:
            phone.send(octets)

        def count():
            """Four requests and an answer to each of five NOTIFYs came as SIP; of three subscriptions one was left. Where a busy machine was late
            with an answer its NOTIFY came again, and was answered again."""
            phone.hear_again()
            again = phone.repeats
            same("what the phone sent", 9 + again + len(UNREAD), phone.sent)
            counted = {"datagrams": str(14 + again), "events": str(9 + again), "answers": "4", "notifies": "5", "starts": "1", "failed": "0"}
            return {**counted, "begun": "3", "over": "1", "unread": "1 1 1 1 1 0 0", **NOTHING_REPEATED, "repeats": str(again), **NOTHING_FAILED}

        told = {"live": "2", "answers_200": "3", "answers_202": "1", "answers_503": "0", "workers_ended": "0"}
        causes = {f"unread_{cause}": "1" for cause in ("not_sip", "bad_header", "header_missing", "header_twice", "short_body")}
        counters_become(operator, lambda: {**count(), **told, **causes, "unread_too_long": "0"})
        counted, again = count(), phone.repeats
        ended = service.close(lambda: phone.hear_farewell(HEARD), lambda: phone.hear_farewell("SIP/2.0 100 Trying\r\n"))
        phone.hear_again()
        again = phone.repeats - again
    # Two farewells more, and the service hears their answers, or ends before.
    counted = {**counted, "notifies": "7", "over": "3", "repeats": str(int(counted["repeats"]) + again)}
    came = last_counters(ended)
    more = int(came["datagrams"]) - int(counted["datagrams"])
    counted = {**counted, "datagrams": str(int(counted["datagrams"]) + more), "events": str(int(counted["events"]) + more)}
    if more < 2:
        counted["lost"] = came["lost"]
    same("the counters at the end", counted, {name: came[name] for name in counted})
    same("whether two datagrams more came at most", True, 0 <= more <= 2 + again)


def each_answer_has_a_counter(program, folder):
    """Also those to URIs of other schemes (RFC 3261 section 21.4.14). At the end it is told what was refused, and not told before."""
    with Service(program, "alice") as service, service.operator() as operator:
        with service.phone("alice") as phone, service.phone("bob") as stranger:
            phone.subscribe()
            stranger.ask("SIP/2.0 404 Not Found")
            for uri in "tel:200", "sips:alice@127.0.0.1":
                request = phone.request("SUBSCRIBE", uri, 1, "", ("Event: message-summary",))
                phone.send(request.replace(b" sip:alice@127.0.0.1 ", f" {uri} ".encode(), 1))
                phone.expect("SIP/2.0 416 Unsupported URI Scheme")
            stranger.send(b"hello")
            counters_become(operator, lambda: {"answers": "4", "answers_200": "1", "answers_404": "1", "answers_416": "2", "unread_not_sip": "1"})
            told = operator.counters()
            same("the sum of the answers", int(told["answers"]), sum(int(count) for name, count in told.items() if name.startswith("answers_")))
            lines = service.close(phone.hear_farewell).err.decode().splitlines()
    wanted = ["1 datagrams were no SIP messages", "1 requests were answered 404", "2 requests were answered 416"]
    same("the lines before the last", [f"notifyd: {line}" for line in wanted], lines[-4:-1])


def close_says_farewell(program, folder):
    with Service(program, *KNOWN, "--workers", "1", "alice", "bob") as service, service.phone("alice") as phone:
        phone.subscribe()
        ended = service.close(lambda: phone.hear_farewell(NO_MESSAGES))
        lines = ended.err.decode().splitlines()
        hello, *more, goodbye = [line for line in lines if "the system gives" not in line]
        places = f"listening at {address(service.sip)}, control at {address(service.control)}"
        same("the line at the start", f"notifyd: {places}, 1 workers, 2 mailboxes", hello)
        same("the lines between", [], more)
        same("how the line at the end begins", "notifyd: ended: up ", goodbye[:19])
        # An answer and two NOTIFYs; of the events ticks are some.
        same("what is printed", b"WORKER 0 N 3 closed\n", re.sub(rb"0 \d+", b"0 N", ended.out, count=1))
        told = run(program, ["tell", "--control", address(service.control), "STATUS"])
        ended_with(told, 3, b"", b"notifyd: nobody answered\n")


def lines_are_refused_at_the_end(program, folder):
    """While a service waits for the answer to its farewell it does nothing more for an operator."""
    with Service(program, "--linger", "32", "alice") as service, service.phone("alice") as phone, service.operator() as operator:
        phone.subscribe()
        operator.tell("CLOSE")
        for line in ("STATUS", "MAIL alice voice 1 0 0 0", "no line", "CLOSE"):
            operator.tell(line, "closed")
        phone.hear_farewell(NO_MESSAGES)
        same("the exit status", 0, service.running.end().status)


def subscriptions_may_be_kept(program, folder):
    with Service(program, "--keep-subscriptions", "alice") as service, service.phone("alice") as phone:
        phone.subscribe()
        service.close()
        phone.socket.settimeout(0.2)
        same("what comes behind the end", b"", next_datagram(phone.socket))


def a_transfer_is_told(program, folder):
    with Service(program, "alice") as service, service.phone("bob") as phone, service.operator() as operator:
        tag = phone.refer("sip:carol@127.0.0.1")
        started = service.running.process.stdout.readline()
        same("the line of the transfer", f"START {tag} sip:carol@127.0.0.1\n".encode(), started)
        # A transfer that failed is told so at the next second: this one goes on behind that.
        time.sleep(2)
        operator.tell(f"PROGRESS {tag} 180 Ringing")
        phone.expect_notify("active", "SIP/2.0 180 Ringing\r\n")
        operator.tell(f"PROGRESS {tag} 200 OK")
        phone.expect_notify(OVER + "noresource", "SIP/2.0 200 OK\r\n")
        service.close()


def by_worker(tags):
    """These tags by their workers, those of each in their order: what two workers do at once has none."""
    told = {}
    for tag in tags:
        told.setdefault(tag.partition("-")[0], []).append(tag)
    return told


def nobody_reads_its_output(program, folder):
    """START lines fill a pipe that nobody reads. Behind that each is dropped and counted, and its phone is told at once that the transfer
    fails. Phones, STATUS and CLOSE go on, and the lines in the pipe are whole, each once, and those of a worker in order."""
    count, target = 60, "sip:" + "c" * 3000
    with Service(program, "alice") as service, service.phone("bob") as phone, service.operator() as operator:
        tags, failed = [], set()

        def hear():
            """The next message; of a transfer that fails its dialog is noted."""
            message = phone.receive()
            if message.is_notify() and message.value("Subscription-State") == OVER + "noresource":
                same("what a phone is told of a transfer that fails", "SIP/2.0 500 Server Internal Error\r\n", message.body)
                failed.add(message.tag("From"))
            return message

        def wait_for(is_it):
            while not is_it(message := hear()):
                pass
            return message

        def all_are_counted():
            """Whether each was written or dropped. The phone hears meanwhile: what it doesn't answer is given up."""
            nonlocal told
            phone.socket.settimeout(0)
            with contextlib.suppress(BlockingIOError):
                while True:
                    hear()
            phone.socket.settimeout(PATIENCE)
            told = operator.counters()
            return int(told["starts"]) + int(told["starts_dropped"]) == count

        for _ in range(count):
            phone.begin("REFER", "refer;id=1", (f"Refer-To: <{target}>",))
            tags.append(wait_for(lambda message: message.first == "SIP/2.0 202 Accepted").tag("To"))
        told = {}
        comes_true(all_are_counted)
        same("how many were written or dropped", str(count), str(int(told["starts"]) + int(told["starts_dropped"])))
        while len(failed) < int(told["starts_dropped"]):
            hear()
        same("whether some were written, and some dropped", True, told["starts"] != "0" and told["starts_dropped"] != "0")
        with service.phone("alice") as other:
            other.leave(other.subscribe(), NO_MESSAGES)
        operator.tell("CLOSE")
        ended = service.running.end()
        same("the exit status", 0, ended.status)
        starts = [line.split(b" ")[1].decode() for line in ended.out.splitlines() if line.endswith(target.encode())]
        written = [tag for tag in tags if tag not in failed]
        same("the transfers whose lines were written, those of each worker in order", by_worker(written), by_worker(starts))
        same("the lines behind them", len(starts), sum(line.startswith(b"START") for line in ended.out.splitlines()))


def a_long_reason_is_told_whole(program, folder):
    """A control line may be as long as a datagram: no more of it is lost than of a SIP message."""
    reason = "x" * 9_000
    with Service(program, "alice") as service, service.phone("bob") as phone, service.operator() as operator:
        tag = phone.refer("sip:carol@127.0.0.1")
        operator.tell(f"PROGRESS {tag} 180 {reason}")
        phone.expect_notify("active", f"SIP/2.0 180 {reason}\r\n")
        service.close(phone.hear_farewell)


def a_file_names_mailboxes(program, folder):
    path = os.path.join(folder, "mailboxes")
    with open(path, "w") as file:
        file.write("# a mailbox a line\nalice\n\n#carol\nbob")
    with Service(program, "--mailboxes", path, "dave") as service, service.operator() as operator:
        for user in ("alice", "bob", "dave"):
            with service.phone(user) as phone:
                dialog = phone.subscribe()
                operator.tell(f"MAIL {user} text 1 0 0 0")
                phone.expect_notify("active", A_TEXT)
                phone.leave(dialog, A_TEXT)
        for user in ("carol", "#carol", ""):
            with service.phone(user) as phone:
                phone.ask("SIP/2.0 404 Not Found")
        operator.tell("MAIL carol text 1 0 0 0", "unknown mailbox")
        operator.tell("MAIL #carol text 1 0 0 0", "unknown mailbox")
        service.close()


def a_file_names_none(program, folder):
    path = os.path.join(folder, "mailboxes")
    words = ["serve", "--listen", address(free_port()), "--control", address(free_port()), "--mailboxes", path]
    why = f"notifyd: no such file, or it can't be read as UTF-8 text: {path}\n"
    ended_with(run(program, words), 3, b"", why.encode())
    with open(path, "w") as file:
        file.write("# some\nalice\nbob and dave\n")
    why = f"notifyd: {path}, line 3: no name of a mailbox: bob and dave (one or more characters, none of them a space, `@` or `:`)\n"
    ended_with(run(program, words), 3, b"", why.encode())
    with open(path, "w") as file:
        file.write("# none\n\n")
    why = "notifyd: no mailbox: name some, or a file of them with --mailboxes <file>\n"
    ended_with(run(program, words), 1, b"", why.encode())


def two_workers_have_homes(program, folder):
    users = ("alice", "bob", "dave", "erin")
    serials = [0, 0]
    with Service(program, "--seed", ZEROS, "--workers", "2", *users) as service, service.operator() as operator:
        for user in users:
            home = home_of(user, 2)
            serials[home] += 1
            with service.phone(user) as phone:
                dialog = phone.subscribe()
                same(f"the tag of the subscription to {user}", local_tag(ZEROS, home, serials[home]), dialog.tag)
                operator.tell(f"MAIL {user} voice 2 8 0 2")
                phone.expect_notify("active", HEARD)
                phone.leave(dialog, HEARD)
        ended = service.close()
    # For each phone two answers and three NOTIFYs.
    lines = "".join(f"WORKER {worker} N {5 * count} closed\n" for worker, count in enumerate(serials))
    same("what is printed", lines.encode(), re.sub(rb"(?m)^(WORKER \d) \d+", rb"\1 N", ended.out))


def it_starts_again_at_once(program, folder):
    ports = free_port(), free_port()
    with Phone(ports[0], "alice") as phone:
        with Service(program, "alice", ports=ports) as service:
            old = phone.subscribe()
            service.close(lambda: phone.hear_farewell(NO_MESSAGES))
        with Service(program, "alice", ports=ports) as service:
            phone.go_on(old, 3600)
            phone.expect("SIP/2.0 481 Call/Transaction Does Not Exist")
            phone.leave(phone.subscribe(), NO_MESSAGES)
            service.close()


def a_taken_port_is_told(program, folder):
    for taken in ("--listen", "--control"):
        with open_socket(("127.0.0.1", 9)) as other:
            ports = {"--listen": free_port(), "--control": free_port(), taken: other.getsockname()[1]}
            words = [word for name, port in ports.items() for word in (name, address(port))]
            ended = run(program, ["serve", *words, "alice"])
            why = f"notifyd: a port in use: {taken}\n"
            ended_with(ended, 3, b"", why.encode())


def a_file_names_ranges(program, folder):
    path = os.path.join(folder, "mailboxes")
    with open(path, "w") as file:
        file.write("098-101\n555-123-4567\n")
    with Service(program, "--mailboxes", path) as service, service.operator() as operator:
        for user in ("098", "099", "100", "101", "555-123-4567"):
            operator.tell(f"MAIL {user} text 1 0 0 0")
            with service.phone(user) as phone:
                phone.leave(phone.subscribe(A_TEXT), A_TEXT)
        for user in ("097", "102", "98", "098-101", "0100"):
            operator.tell(f"MAIL {user} text 1 0 0 0", "unknown mailbox")
        service.close()


def the_state_is_told_first(program, folder):
    """What a file says is what the first NOTIFY tells; the rest of the mailbox is as ever."""
    path = os.path.join(folder, "state")
    with open(path, "w", encoding="utf-8") as file:
        file.write("\ufeff# at the last end\nMAIL alice voice 1 0 0 0\nMAIL carol voice 5 5 5 5\n\nMAIL alice voice 2 8 0 2")
    with Service(program, "--state", path, "alice", "bob") as service, service.operator() as operator:
        with service.phone("alice") as phone:
            dialog = phone.subscribe(HEARD)
            operator.tell("MAIL alice voice 0 0 0 0")
            phone.expect_notify("active", "Messages-Waiting: no\r\nVoice-Message: 0/0 (0/0)\r\n")
            phone.leave(dialog, "Messages-Waiting: no\r\nVoice-Message: 0/0 (0/0)\r\n")
        with service.phone("bob") as phone:
            phone.leave(phone.subscribe(NO_MESSAGES), NO_MESSAGES)
        service.close()


def a_state_is_refused(program, folder):
    path = os.path.join(folder, "state")
    none, more = "no MAIL line", "more are urgent than there are"
    lines = [(line, none) for line in ("STATUS", "CLOSE", "MAIL alice voice 1", "MAIL alice voice 1 0 0 0 ", "TICK 1", "PROGRESS w0-1-a 180 Ringing")]
    for line, fault in [*lines, ("MAIL alice voice 1 2 3 4", more), ("MAIL carol voice 1 2 0 3", more)]:
        with open(path, "w") as file:
            file.write(f"MAIL alice voice 1 0 0 0\n# and\n{line}\n")
        words = ["serve", "--listen", address(free_port()), "--control", address(free_port()), "--state", path, "alice"]
        why = f"notifyd: {path}, line 3: {fault} (MAIL <mailbox> <class> <new> <old> <urgent new> <urgent old>)\n"
        ended_with(run(program, words), 3, b"", why.encode())


def refer_may_be_left_out(program, folder):
    with Service(program, "--no-refer", "alice") as service:
        with service.phone("alice") as phone:
            phone.begin("REFER", "refer;id=1", ("Refer-To: <sip:bob@127.0.0.1>",))
            same("the packages", "message-summary", phone.expect("SIP/2.0 489 Bad Event").value("Allow-Events"))
            phone.leave(phone.subscribe(), NO_MESSAGES)
        same("what is printed", 0, service.close().out.count(b"START"))


def each_answer_is_logged(program, folder):
    """A line tells each answer, also a refusal, and whom the Request-URI names, whatever the To says; in a dialog its mailbox. Without the
    option none does."""
    for words, told in (((), False), (("--log-requests",), True)):
        with Service(program, *words, "alice") as service:
            with service.phone("alice") as phone, service.phone("bob") as stranger:
                dialog = phone.subscribe()
                phone.leave(dialog, NO_MESSAGES)
                stranger.ask("SIP/2.0 404 Not Found")
                with open_socket(("127.0.0.1", service.sip)) as other:
                    other.send(SUBSCRIBE.replace(b"To: <sip:alice", b"To: <sip:bob").replace(b"Contact", b"Expires: 0\r\nContact"))
                    tag = Message(next_datagram(other)).tag("To")
                    other.send(Message(next_datagram(other)).answer("200 OK"))
                    lines = [f"notifyd: 127.0.0.1:{other.getsockname()[1]} SUBSCRIBE sip:alice@127.0.0.1;tag={tag} 200"]
                lines += [f"notifyd: {phone.me} SUBSCRIBE {whom};tag={dialog.tag} 200" for whom in ("sip:alice@127.0.0.1", "alice")]
                refused = f"notifyd: {stranger.me} SUBSCRIBE sip:bob@127.0.0.1;tag="
            logged = service.close().err.decode().splitlines()
        same("the lines of what was granted", sorted(lines) if told else [], sorted(line for line in logged if line in lines))
        same("whether the refusal is told", told, any(line.startswith(refused) and line.endswith(" 404") for line in logged))


def what_is_refused_is_told_once_a_minute(program, folder):
    """The first minute's: two requests to nobody's mailbox, three datagrams that are no SIP."""
    with Service(program, "alice", limit=LONG_LIMIT) as service:
        with service.phone("bob") as stranger:
            for _ in range(2):
                stranger.ask("SIP/2.0 404 Not Found")
            for _ in range(3):
                stranger.send(b"hello")
        for line in (b"notifyd: 3 datagrams were no SIP messages\n", b"notifyd: 2 requests were answered 404\n"):
            service.running.lines_until(line)
        told = [line for line in service.running.err.decode().splitlines() if "listening" not in line]
        same("how many lines there are", 2, len(told))
        service.close()


def the_longest_time_is_an_hour(program, folder):
    with Service(program, "alice") as service:
        with service.phone("alice") as phone:
            dialog = phone.ask("SIP/2.0 200 OK", "Expires: 86400")
            phone.expect_notify("active;expires=3600", NO_MESSAGES)
            phone.leave(dialog, NO_MESSAGES)
        service.close()


def the_end_of_input_closes(program, folder):
    """What comes before the end is dropped, and then it is as at a CLOSE. Without the option its input is left alone."""
    with Service(program, "--until-input-ends", "alice", stdin=subprocess.PIPE) as service:
        source = service.running.process.stdin
        with service.phone("alice") as phone:
            phone.subscribe()
            source.write(b"CLOSE\n" * 1000)
            phone.leave(phone.subscribe(), NO_MESSAGES)
            source.close()
            phone.hear_farewell(NO_MESSAGES)
        service.running.process.stdin = None
        same("the exit status", 0, service.running.end().status)


def a_close_ends_it_while_input_goes_on(program, folder):
    with Service(program, "--until-input-ends", "alice", stdin=subprocess.PIPE) as service:
        # Waiting for the end of the program would close it.
        source, service.running.process.stdin = service.running.process.stdin, None
        with source, service.phone("alice") as phone:
            phone.subscribe()
            service.close(lambda: phone.hear_farewell(NO_MESSAGES))


def checks():
    yield "serve: the answer and the first NOTIFY, byte for byte", as_written_down
    yield "serve: a change is notified, and what changes nothing isn't; more time, and an end", a_change_is_notified
    yield "serve: each control line is answered", each_line_is_answered
    yield "serve: changes are counted, and how long ago the last one came", changes_are_counted
    yield "serve: an answer is not answered", answers_get_no_answer
    yield "serve: SHOW and DUMP tell what was told last", what_was_told_is_shown
    yield "serve: DUMP tells all counts, page by page, and tell follows", all_counts_are_dumped
    yield "serve: a line with a token is done once", a_repeat_is_no_news
    yield "serve: two services that hear each other fall silent", services_fall_silent
    yield "serve: a line that its own socket sent is dropped", a_service_hears_no_line_of_its_own
    yield "serve: a datagram from port 0 is dropped", a_datagram_of_nobody_is_dropped
    yield "serve: two lines under way at a service that stands still are done once each", lines_wait_for_a_stalled_service
    yield "serve: STATUS as one JSON object", status_is_an_object
    yield "serve: WATCHERS tells how far each phone was told, and how far it answered", who_watches_is_told
    yield "serve: WATCHERS tells what is watched, whatever the To says", what_is_watched_is_told
    yield "serve: WATCHERS tells the beginning of who watches", who_watches_is_cut
    yield "serve: WATCHERS tells phones behind a proxy apart", phones_behind_a_proxy_are_told_apart
    yield "serve: WATCHERS page by page, and tell follows", watchers_are_told_page_by_page
    yield "serve: the clock alone ends a subscription of a second", the_clock_ends_a_subscription
    yield "serve: STATUS counts what came and went", status_counts
    yield "serve: each answer has a counter, and what was refused is told at the end", each_answer_has_a_counter
    yield "serve: CLOSE is answered, says farewell and ends it", close_says_farewell
    yield "serve: lines that come while it ends are answered closed", lines_are_refused_at_the_end
    yield "serve: no farewell with --keep-subscriptions", subscriptions_may_be_kept
    yield "serve: a transfer is told to its end", a_transfer_is_told
    yield "serve: a transfer fails where nobody reads its line, and all else goes on", nobody_reads_its_output
    yield "serve: a control line of nine thousand octets is heard whole", a_long_reason_is_told_whole
    yield "serve: a file names mailboxes, with comments", a_file_names_mailboxes
    yield "serve: files that name none", a_file_names_none
    yield "serve: a file names ranges of mailboxes", a_file_names_ranges
    yield "serve: a file of MAIL lines is done first", the_state_is_told_first
    yield "serve: files of MAIL lines that are refused", a_state_is_refused
    yield "serve: --no-refer", refer_may_be_left_out
    yield "serve: --log-requests", each_answer_is_logged
    yield "serve: what is refused is told once a minute", what_is_refused_is_told_once_a_minute
    yield "serve: the longest time is an hour", the_longest_time_is_an_hour
    yield "serve: the end of its input closes it", the_end_of_input_closes
    yield "serve: CLOSE ends it while its input goes on", a_close_ends_it_while_input_goes_on
    yield "serve: two workers have their mailboxes", two_workers_have_homes
    yield "serve: it starts again at the same address, and knows no old dialog", it_starts_again_at_once
    yield "serve: a port in use", a_taken_port_is_told
