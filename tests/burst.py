"""Bursts: as many changes as the service takes, told to many watchers at once, without a network between them that would keep
anything apart; changes behind a network that loses a tenth of all; and more requests than an inbox has places, while its worker
stands still."""

import contextlib
import ctypes
import os
import time

from phone import PATIENCE, open_socket
from service import SUBSCRIBE, Service, counters_become
from suite import comes_true, same
from watchers import Crowd, Feeder, Network, Watcher

WATCHERS = 60
CHANGES = 20

# What is lost of each direction, and how many watchers are behind it.
LOSS = 0.1
FAR_WATCHERS = 20

# How many events an inbox holds, with the ticks that come meanwhile. So many requests are surely in it, so many follow at once, some of
# which wait in the socket's buffer as any system has it, and so many are sent before it is looked whether they were taken.
INBOX, SURE, MORE, CHUNK = 1024, 960, 160, 64

# Seconds in which the thread that hears takes what it may.
PAUSE = 0.5

# A thread's number is less.
MOST_THREADS = 1 << 22

# The requests of ptrace(2), and what waits for a thread as for a process.
SEIZE, INTERRUPT, DETACH, ALL = 0x4206, 0x4207, 17, 0x40000000


def told_at_once(service):
    """The changes are told, and nobody hears a NOTIFY before the last of them is taken."""
    with service.operator() as operator:
        for new in range(1, CHANGES + 1):
            operator.tell(f"MAIL alice voice {new} 0 0 0")


def all_are_well(crowd):
    """Each lamp becomes right; each watcher is granted more time, and told of one change more."""
    same("whether all know the last change", True, crowd.wait(PATIENCE, lambda: crowd.all_know(CHANGES)))
    crowd.subscribe(0)
    crowd.wait(PATIENCE, crowd.all_are_answered)
    same("how watchers are answered who ask for more time", {200}, {watcher.status for watcher in crowd.watchers})
    crowd.feeder.change("alice", CHANGES + 1)
    same("whether all know one change more", True, crowd.wait(PATIENCE, lambda: crowd.all_know(CHANGES + 1)))


def gathered(service, network, count, **how):
    """So many watchers who have subscribed, each told of no messages."""
    watchers = [Watcher(f"w{number}", "alice", service.sip, network, **how) for number in range(count)]
    crowd = Crowd(network, watchers, Feeder(service.control, network.agenda))
    crowd.subscribe(0)
    is_there = lambda: crowd.all_are_answered() and crowd.all_know(0)
    same("whether all have subscribed and were told", True, crowd.wait(PATIENCE, is_there))
    return crowd


def a_burst(program, folder):
    """The sockets keep as much as the system lets them by itself, on both sides."""
    with Service(program, "alice") as service, gathered(service, Network(), WATCHERS, room=0) as crowd:
        told_at_once(service)
        all_are_well(crowd)


def a_lossy_network(program, folder):
    """The draws are the same each time."""
    network = Network(LOSS)
    with Service(program, "alice") as service, gathered(service, network, FAR_WATCHERS) as crowd:
        told_at_once(service)
        all_are_well(crowd)
        same("whether something was lost", True, network.lost > 0)


@contextlib.contextmanager
def held(thread):
    """Has a thread of a program that this one started stand still, while the others go on."""
    trace = ctypes.CDLL(None, use_errno=True).ptrace
    trace.restype, trace.argtypes = ctypes.c_long, [ctypes.c_long, ctypes.c_long, ctypes.c_void_p, ctypes.c_void_p]
    for request in (SEIZE, INTERRUPT):
        if trace(request, thread, None, None):
            raise OSError(ctypes.get_errno(), f"ptrace {request}")
    os.waitpid(thread, ALL)
    try:
        yield
    finally:
        trace(DETACH, thread, None, None)


def request(number):
    """The first request of a dialog of its own."""
    return SUBSCRIBE.replace(b"Call-ID: c1", b"Call-ID: c%d" % number).replace(b"z9hG4bKa1", b"z9hG4bKa%d" % number)


def a_worker_stands_still(program, folder):
    """As many requests come as its inbox holds, and then some that wait in the socket's buffer. None is lost."""
    count = SURE + MORE
    with Service(program, "--workers", "1", "--linger", "0", "--keep-subscriptions", "alice") as service, service.operator() as operator:
        operator.counters()
        number = service.running.process.pid
        # In the order in which they began, also where the numbers of threads begin anew.
        _sender, worker, *_others = sorted(map(int, os.listdir(f"/proc/{number}/task")), key=lambda thread: (thread - number) % MOST_THREADS)
        with open_socket(("127.0.0.1", service.sip)) as phone:
            with held(worker):
                for number in range(1, SURE + 1):
                    phone.send(request(number))
                    if number % CHUNK == 0:
                        counters_become(operator, lambda: {"datagrams": str(number)})
                for number in range(SURE + 1, count + 1):
                    phone.send(request(number))
                comes_true(lambda: int(operator.counters()["datagrams"]) > SURE)
                time.sleep(PAUSE)
                told = operator.counters()
                same("how many were answered meanwhile", "0", told["answers"])
                same("whether some wait in the socket's buffer", True, SURE < int(told["datagrams"]) <= INBOX + 1 < count)
            counters_become(operator, lambda: {"datagrams": str(count), "events": str(count), "answers_200": str(count)})
        service.close()


def checks():
    yield "a burst: 20 changes at once to 60 watchers", a_burst
    yield "a network that loses a tenth of all", a_lossy_network
    yield "more requests than an inbox holds, while its worker stands still", a_worker_stands_still
