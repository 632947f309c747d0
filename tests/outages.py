"""`notifyd serve` where nothing leaves the machine for a while, or the process stands still: that isn't the phones' time. What can't be
sent to one address is no outage. The link is a pair of network interfaces between two namespaces, of which the service's is set down,
and a datagram from a broadcast address needs a raw socket: where one of these can't be had, a line says what wasn't tried.

`python3 tests/outages.py PROGRAM SECONDS` stops a service for so long, and takes its link away for so long, and prints what it tells."""

import ctypes
import os
import re
import shutil
import signal
import socket
import subprocess
import sys
import threading
import time

from phone import PATIENCE, Message, Operator
from repeats import GIVEN_UP, MOMENTS, Observer, are_sends
from service import HEARD, SUBSCRIBE, Service, counters_become, forged, raw_socket, rows_become
from suite import Running, comes_true, free_port, same, stand_still

# Where the service is, and where the phone. A stranger is in another network, to which no way leads any more.
SERVICE, PHONE = "10.99.9.1", "10.99.9.2"
STRANGER, ELSEWHERE = "10.99.8.2", "10.99.8.0/24"

# How often a NOTIFY is sent within so many seconds that nobody answers: at once, and after 0.5, 1.5, 3.5 and 7.5.
WATCHED, SENDS = 8.5, 5

# So many dialogs a stranger asks for.
STRANGERS = 20

# Seconds for which the process stands still, of which two count, and for which the link is down: longer than the first repeat's wait.
STOPPED, DOWN = 5, 5

# Seconds within which the first send succeeds once the link is back: one is tried each second.
SOON = 3

# How Linux names the network of a thread (setns).
NETWORK = 0x40000000


def seconds_told(operator):
    """How many seconds weren't counted."""
    return int(operator.counters()["outage_seconds"])


def a_process_that_stands_still(program, folder, seconds=STOPPED):
    """It is told, and all but two of its seconds aren't counted."""
    with Service(program, "alice") as service, service.phone("alice") as phone, service.operator() as operator:
        phone.subscribe()
        same("seconds that weren't counted before", 0, seconds_told(operator))
        began = time.monotonic()
        stand_still(service.running.process)
        time.sleep(seconds)
        service.running.process.send_signal(signal.SIGCONT)
        told = service.running.lines_until(b"the process stood still")
        # On a busy machine it stood still for longer.
        wanted = range(seconds - 3, int(time.monotonic() - began) + 1)
        same("whether what is told is about what it stood still", True, int(re.search(rb"stood still: (\d+) seconds", told).group(1)) in wanted)
        same("whether that is counted", True, seconds_told(operator) in wanted)
        operator.tell("MAIL alice voice 2 8 0 2")
        phone.expect_notify("active", HEARD)


class Link:
    """Two network namespaces with a link between them, which can be set down."""

    def __init__(self):
        number = free_port()
        self.here, self.there = f"notifyd-{os.getpid()}-{number}a", f"notifyd-{os.getpid()}-{number}b"

    def ip(self, space, *words):
        subprocess.run(["ip", "-n", space, *words], check=True, capture_output=True)

    def __enter__(self):
        try:
            for space in self.here, self.there:
                subprocess.run(["ip", "netns", "add", space], check=True, capture_output=True)
                self.ip(space, "link", "set", "lo", "up")
            self.ip(self.here, "link", "add", "near", "type", "veth", "peer", "name", "far", "netns", self.there)
            for space, name, place in (self.here, "near", SERVICE), (self.there, "far", PHONE):
                self.ip(space, "address", "add", f"{place}/24", "dev", name)
                self.ip(space, "link", "set", name, "up")
        except BaseException:
            self.__exit__()
            raise
        return self

    def __exit__(self, *_):
        for space in self.here, self.there:
            subprocess.run(["ip", "netns", "delete", space], check=False, capture_output=True)

    def go(self, state):
        self.ip(self.here, "link", "set", "near", state)

    def inside(self, *words):
        return ["netns", "exec", self.here, *words]

    def made_inside(self, space, make):
        """What this call makes, whose sockets are those of a namespace: only the thread that makes them goes there."""
        made = []

        def enter():
            with open(f"/var/run/netns/{space}", "rb") as network:
                if ctypes.CDLL(None, use_errno=True).setns(network.fileno(), NETWORK):
                    return
            made.append(make())

        thread = threading.Thread(target=enter)
        thread.start()
        thread.join()
        same(f"whether a socket of {space} can be had", 1, len(made))
        return made[0]


def open_phone(place=PHONE):
    """A socket at the phone's place, or at another one."""
    opened = socket.socket(socket.AF_INET, socket.SOCK_DGRAM)
    opened.bind((place, 5070))
    opened.connect((SERVICE, 5060))
    opened.settimeout(PATIENCE)
    return opened


def next_notify(phone, number):
    """The next NOTIFY with this number, which is answered; those that come again are too."""
    while True:
        octets = phone.recv(65535)
        if not octets.startswith(b"NOTIFY"):
            continue
        message = Message(octets)
        phone.send(message.answer("200 OK"))
        if message.value("CSeq") == f"{number} NOTIFY":
            return message


def a_link_that_is_down(program, folder, seconds=DOWN):
    """Who is told meanwhile is told when the link is back, and stays subscribed."""
    with Link() as link:
        words = ["serve", "--listen", f"{SERVICE}:5060", "--control", "127.0.0.1:5061", "alice"]
        with Running("ip", link.inside(program, *words)) as running:
            running.lines_until(b"listening at")
            operator = link.made_inside(link.here, lambda: Operator(5061))
            with operator, link.made_inside(link.there, open_phone) as phone:
                phone.send(SUBSCRIBE.replace(b"127.0.0.1:5070", f"{PHONE}:5070".encode()))
                next_notify(phone, 1)
                link.go("down")
                began = time.monotonic()
                operator.tell("MAIL alice voice 2 8 0 2")
                told = running.lines_until(b"every send fails")
                time.sleep(max(0.0, began + seconds - time.monotonic()))
                link.go("up")
                back = time.monotonic()
                same("what it is told", HEARD, next_notify(phone, 2).body)
                # Who had to wait for a processor may be as late.
                same("whether it is told soon", True, time.monotonic() - back < SOON + running.delay())
                told += running.lines_until(b"sends succeed again")
                least = seconds - 3
                same("whether what is told is about what it was down", True, int(re.search(rb"again: (\d+) seconds", told).group(1)) >= least)
                same("whether that is counted", True, seconds_told(operator) >= least)
                counters_become(operator, lambda: {"live": "1", "given_up": "0"})


def unanswered(phone, seconds):
    """How many NOTIFYs come within so many seconds, none of which is answered."""
    count, end = 0, time.monotonic() + seconds
    while (rest := end - time.monotonic()) > 0:
        phone.settimeout(rest)
        try:
            count += phone.recv(65535).startswith(b"NOTIFY")
        except TimeoutError:
            pass
    return count


def no_way_is_no_outage(program, folder):
    """No way leads to an address from which no NOTIFY was ever answered: a stranger may have named it. Another phone's NOTIFY is sent again
    at the usual moments all the same."""
    with Link() as link:
        link.ip(link.here, "route", "add", ELSEWHERE, "dev", "near")
        link.ip(link.there, "address", "add", f"{STRANGER}/24", "dev", "far")
        words = ["serve", "--listen", f"{SERVICE}:5060", "--control", "127.0.0.1:5061", "alice"]
        with Running("ip", link.inside(program, *words)) as running:
            running.lines_until(b"listening at")
            stranger = link.made_inside(link.there, lambda: open_phone(STRANGER))
            with link.made_inside(link.here, lambda: Operator(5061)) as operator, stranger, link.made_inside(link.there, open_phone) as phone:
                for number in range(STRANGERS):
                    asked = SUBSCRIBE.replace(b"127.0.0.1:5070", f"{STRANGER}:5070".encode()).replace(b"Call-ID: c1", b"Call-ID: s%d" % number)
                    stranger.send(asked.replace(b"z9hG4bKa1", b"z9hG4bKs%d" % number))
                counters_become(operator, lambda: {"live": str(STRANGERS)})
                link.ip(link.here, "route", "delete", ELSEWHERE, "dev", "near")
                phone.send(SUBSCRIBE.replace(b"127.0.0.1:5070", f"{PHONE}:5070".encode()))
                # Who had to wait for a processor may be as late.
                came = unanswered(phone, WATCHED + running.delay())
                same("whether the phone's NOTIFY was sent again at its moments", True, came >= SENDS)
                counters_become(operator, lambda: {"outage_seconds": "0"})
                same("whether sends to the stranger failed", True, int(operator.counters()["failed"]) > 0)


def a_broadcast_address_is_no_outage(program, folder):
    """What a stranger draws who sends from a broadcast address can't be sent (EACCES). A deaf phone is sent its NOTIFY at the usual moments
    all the same, and then it is gone."""
    with Service(program, "alice", "bob") as service, Observer(service, "bob") as phone, service.operator() as operator:
        asked = time.time()
        phone.ask("SIP/2.0 200 OK")
        came, count, end = [], 0, time.monotonic() + GIVEN_UP
        with raw_socket() as raw:
            while time.monotonic() < end:
                count += 1
                strange = SUBSCRIBE.replace(b"Call-ID: c1", b"Call-ID: n%d" % count)
                raw.sendto(forged(5070, service.sip, strange, "255.255.255.255"), ("127.0.0.1", 0))
                came += phone.observe_until(time.monotonic() + 0.5)
            are_sends("the NOTIFY to a deaf phone", came, MOMENTS, asked, service)
            rows_become(operator, "WATCHERS bob")
        same("whether the answers to the stranger failed", True, comes_true(lambda: int(operator.counters()["failed"]) >= count))
        same("seconds that weren't counted", 0, seconds_told(operator))


def can_link():
    """Whether two namespaces with a link may be made here."""
    if not shutil.which("ip") or not hasattr(ctypes.CDLL(None), "setns"):
        return False
    try:
        with Link():
            return True
    except (OSError, subprocess.CalledProcessError):
        return False


def checks():
    yield "serve: what the process stood still for isn't counted", a_process_that_stands_still
    if can_link():
        yield "serve: a link that is down for a while ends no subscription", a_link_that_is_down
        yield "serve: where no way leads to a stranger is no outage", no_way_is_no_outage
    else:
        print("  outages: a link that is down, and a stranger to whom no way leads, were not tried: no network namespaces with a link can be had", flush=True)
    if raw := raw_socket():
        raw.close()
        yield "serve: what can't be sent to a broadcast address is no outage", a_broadcast_address_is_no_outage
    else:
        print("  outages: a stranger at a broadcast address was not tried: no raw socket can be had", flush=True)


if __name__ == "__main__":
    for check in a_process_that_stands_still, a_link_that_is_down:
        check(os.path.abspath(sys.argv[1]), None, int(sys.argv[2]))
        print(f"{check.__name__}: well")
