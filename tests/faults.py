"""`notifyd serve` where the system fails: receives that fail and pass, a socket that is lost, datagrams that are too long, an address
that is taken away, a worker that runs out of memory, a log that nobody reads. Receives are made to fail by `strace`, and an address is
taken away in a network namespace: where one of these can't be had, a line says what wasn't tried."""

import fcntl
import os
import re
import resource
import shutil
import signal
import socket
import subprocess
import sys
import time
from contextlib import suppress

from phone import PATIENCE, Message, open_socket, persist
from repeats import ends_within
from service import HEARD, SUBSCRIBE, Service, address, counters_become, last_counters
from suite import LONG_LIMIT, Running, comes_true, free_port, run, same, stand_still, tell, tell_close
from tags import home_of

# A seldom receive of a thread fails: each one looks up some times a second.
PASSING = ("ENOBUFS", "ENOMEM", "ECONNREFUSED", "EHOSTUNREACH", "ENETDOWN", "EIO", "EPERM", "ETIMEDOUT", "EFAULT")

LOST = ("EBADF", "ENOTSOCK")

PLACE = "10.99.7.1"

# Of two others control lines come, which are heard from the first.
NEAR, FAR = "10.99.7.2", "10.99.7.3"

# Sends a line from an address to the control address of that place, and prints the answer, if one comes within so many seconds.
ASK = f"""
import socket, sys
asking = socket.socket(socket.AF_INET, socket.SOCK_DGRAM)
asking.bind((sys.argv[1], 0))
asking.settimeout(float(sys.argv[3]))
asking.sendto(sys.argv[2].encode(), ("{PLACE}", 5061))
try:
    print(asking.recv(65535).decode())
except socket.timeout:
    print("nothing")
"""

# Where allocations are checked none of more bytes succeeds: a worker's table outgrows them at 2,048 subscriptions.
CHECKED = {"ASAN_OPTIONS": "allocator_may_return_null=1:max_allocation_size_mb=1:symbolize=0"}

# A worker's table grows at so many subscriptions, by more than a program may take then beside what it has shortly before. Less is left
# to the others, who say farewell. Checks of allocations reserve more than the last number.
TABLE, FEW, SPARE, RESERVED = 2048, 8, 1 << 19, 1 << 40

# So many outgrow each bound.
MANY = 6000

# So many may live at a worker.
MOST = 3000

# How Linux sets how many bytes a pipe takes (F_SETPIPE_SZ), and the fewest.
SET_PIPE_SIZE, PAGE = 1031, 4096


# How `strace` follows all threads and writes nothing. By a filter of the system it stops no call but those that it is asked for, so the
# program is hardly slower.
TRACE = ("-f", "--seccomp-bpf", "-qq", "-o", "/dev/null")


def traced(call, inject):
    """The words of `strace` by which a call of the system fails so."""
    return [*TRACE, "-e", f"trace={call}", "-e", f"inject={call}:{inject}"]


class Traced(Running):
    """A program in which a call of the system fails as `strace` is asked for."""

    def __init__(self, program, call, inject, words):
        super().__init__("strace", [*traced(call, inject), program, *words], LONG_LIMIT, start_new_session=True)

    def kill(self):
        """The program too: it would go on, unseen, where `strace` alone were killed."""
        if self.process.poll() is None:
            os.killpg(self.process.pid, signal.SIGKILL)


class Failing(Service):
    """A service whose receives fail as `strace` is asked for."""

    def __init__(self, program, inject, *words):
        self.program, self.sip, self.control = program, free_port(), free_port()
        places = ("--listen", address(self.sip), "--control", address(self.control))
        self.running = Traced(program, "recvfrom", inject, ["serve", *places, *words])


def failing(*errors):
    """A check of receives that fail by each of these errors, once in a while, and that of no more than a line a minute. Two sockets are
    listened at, and anew while the service closes."""

    def passes(program, folder):
        for error in errors:
            began = time.monotonic()
            with Failing(program, f"error={error}:when=3+4", "alice") as service, service.phone("alice") as phone, service.operator() as operator:
                phone.subscribe()
                operator.tell("MAIL alice voice 2 8 0 2")
                phone.expect_notify("active", "Messages-Waiting: yes\r\nVoice-Message: 2/8 (0/2)\r\n")
                comes_true(lambda: operator.counters()["failed_receives"] != "0")
                ended = service.close(lambda: phone.hear_farewell("Messages-Waiting: yes\r\nVoice-Message: 2/8 (0/2)\r\n"))
            lines = [line for line in ended.err.decode().splitlines() if "a receive at" in line]
            most = 4 + 2 * int((time.monotonic() - began) / 60)
            same(f"whether {error} is told with its number and the address, and seldom", True, 1 <= len(lines) <= most)
            same(f"whether {error} is counted", True, last_counters(ended)["failed_receives"] != "0")

    return passes


def an_interrupted_receive_is_no_failed_one(program, folder):
    """Every fourth receive is ended by a signal, as where the process was stopped or a debugger looks."""
    with Failing(program, "error=EINTR:when=3+4", "alice") as service, service.phone("alice") as phone, service.operator() as operator:
        dialog = phone.subscribe()
        for number in range(1, 5):
            operator.tell(f"MAIL alice voice {number} 0 0 0")
            phone.expect_notify("active", f"Messages-Waiting: yes\r\nVoice-Message: {number}/0 (0/0)\r\n")
        phone.leave(dialog, "Messages-Waiting: yes\r\nVoice-Message: 4/0 (0/0)\r\n")
        ended = service.close()
    same("failed receives", "0", last_counters(ended)["failed_receives"])
    same("whether one is told", False, b"a receive at" in ended.err)


def a_lost_socket_ends_it(program, folder):
    for error in LOST:
        with Failing(program, f"error={error}:when=3+", "alice") as service:
            ended = service.running.end()
            same(f"the exit status at {error}", 3, ended.status)
            same(f"whether {error} is told", True, b"a receive at 127.0.0.1:" in ended.err)


def a_deaf_socket_ends_it(program, folder):
    """Each receive fails from the third on: that is borne for ten seconds. So long are a thousand that fail, with ten milliseconds behind each;
    on a busy machine they take longer."""
    began = time.monotonic()
    with Failing(program, "error=ENOBUFS:when=3+", "alice") as service:
        ended = service.running.end()
    same("the exit status", 3, ended.status)
    same("whether it bore that for ten seconds", True, time.monotonic() - began >= 10)
    same("whether a thousand receives failed", True, int(re.search(rb", failed_receives (\d+),", ended.err).group(1)) >= 1000)


def long_datagrams_are_dropped(program, folder):
    with Service(program, "alice") as service, service.phone("alice") as phone, service.operator() as operator:
        phone.send(SUBSCRIBE.replace(b"Max-Forwards: 70\r\n", b"Max-Forwards: 70\r\nSubject: " + b"s" * 8000 + b"\r\n"))
        comes_true(lambda: operator.counters()["too_long"] == "1")
        counted = operator.counters()
        same("what is counted of a long datagram", ("1", "1", "0"), (counted["datagrams"], counted["too_long"], counted["events"]))
        phone.leave(phone.subscribe(), "Messages-Waiting: no\r\n")
        service.close()
    with Service(program, "--max-datagram", "9000", "alice") as service, service.phone("alice") as phone, service.operator() as operator:
        phone.send(SUBSCRIBE.replace(b"Max-Forwards: 70\r\n", b"Max-Forwards: 70\r\nSubject: " + b"s" * 8000 + b"\r\n"))
        same("the answer to a datagram that may be as long", b"SIP/2.0 200 OK", phone.socket.recv(65535).split(b"\r\n")[0])
        same("what is counted as too long", "0", operator.counters()["too_long"])
        service.close()


def less_room_is_told(program, folder):
    """As much as a socket may ask for no system gives."""
    with Service(program, "--receive-buffer", str(1 << 30), "alice") as service:
        told = service.running.err
        service.close()
    with open("/proc/sys/net/core/rmem_max", encoding="ascii") as limit:
        got = int(limit.read())
    line = f"notifyd: the system gives the socket of --listen room for {got} octets, not for {1 << 30}\n"
    same("whether less room is told", got < 1 << 30, line.encode() in told)


def drops_of_the_system_are_told(program, folder):
    """While the service stands still the system keeps few datagrams, and drops the others: each came or is counted."""
    count = 400
    with Service(program, "--receive-buffer", "4096", "alice") as service, service.phone("alice") as phone, service.operator() as operator:
        counters_become(operator, lambda: {"kernel_drops": "0"})
        stand_still(service.running.process)
        for _ in range(count):
            phone.send(b"s" * 1000)
        service.running.process.send_signal(signal.SIGCONT)
        heard = dropped = 0

        def all_are_counted():
            nonlocal heard, dropped
            told = operator.counters()
            heard, dropped = int(told["datagrams"]), int(told["kernel_drops"])
            return heard + dropped == count

        comes_true(all_are_counted)
        same("how many came or were dropped", count, heard + dropped)
        same("whether some were dropped", True, dropped > 0)
        ended = service.close()
    same("what is told at the end", str(dropped), last_counters(ended)["kernel_drops"])


def asked_again(operator, line, seconds=1):
    """What a line is answered that may be dropped, and so is asked again until it is answered, and how often it was asked. An answer that
    comes behind the next question isn't taken for one to that."""
    asked, until = 0, time.monotonic() + PATIENCE
    while time.monotonic() < until:
        with open_socket(operator.socket.getpeername()) as other:
            other.settimeout(seconds)
            other.send(line.encode())
            asked += 1
            try:
                return other.recv(65535).decode(), asked
            except socket.timeout:
                pass
    raise AssertionError(f"the line {line} is not answered, asked {asked} times")


def drops_at_the_control_socket_are_told(program, folder):
    """So are control lines: each came or is counted, in a counter of its own. So are the questions, which may be dropped too."""
    count = 400
    with Service(program, "--receive-buffer", "4096", "alice") as service, service.operator() as operator, service.operator() as feeder:
        counters_become(operator, lambda: {"control_drops": "0"})
        before = int(operator.counters()["control_lines"])
        stand_still(service.running.process)
        for _ in range(count):
            feeder.say("x" * 1000)
        service.running.process.send_signal(signal.SIGCONT)
        told, sent = {}, count

        def all_are_counted():
            nonlocal told, sent
            answer, asked = asked_again(operator, "STATUS")
            told, sent = dict(line.split(" ", 1) for line in answer.splitlines()[1:]), sent + asked
            return int(told["control_lines"]) - before + int(told["control_drops"]) == sent

        comes_true(all_are_counted)
        same("how many came or were dropped", sent, int(told["control_lines"]) - before + int(told["control_drops"]))
        same("whether some were dropped", True, int(told["control_drops"]) > 0)
        same("what SIP datagrams were dropped", "0", told["kernel_drops"])
        service.close()


class Place:
    """A network namespace with an address that can be taken away."""

    def __init__(self):
        self.name = f"notifyd-{os.getpid()}-{free_port()}"

    def ip(self, *words):
        subprocess.run(["ip", "-n", self.name, *words], check=True, capture_output=True)

    def __enter__(self):
        subprocess.run(["ip", "netns", "add", self.name], check=True, capture_output=True)
        self.ip("link", "set", "lo", "up")
        self.ip("address", "add", f"{PLACE}/32", "dev", "lo")
        return self

    def __exit__(self, *_):
        subprocess.run(["ip", "netns", "delete", self.name], check=False, capture_output=True)

    def inside(self, *words):
        return ["netns", "exec", self.name, *words]


def an_address_is_taken_away(program, folder):
    with Place() as place:
        words = ["serve", "--listen", f"{PLACE}:5060", "--control", "127.0.0.1:5061", "alice"]
        with Running("ip", place.inside(program, *words)) as running:
            running.lines_until(b"listening at")
            place.ip("address", "delete", f"{PLACE}/32", "dev", "lo")
            tell_close(program, running.process, inside=("ip", *place.inside()))
            began = time.monotonic()
            same("the exit status", 0, running.end().status)
            same("whether it ended at once", True, time.monotonic() - began < 10)


def lines_from_elsewhere_are_dropped(program, folder):
    """Where networks are named, no others are answered, nor is anything done for them; this machine's own lines are heard."""
    with Place() as place:
        for ip in (NEAR, FAR):
            place.ip("address", "add", f"{ip}/32", "dev", "lo")
        words = ["serve", "--listen", "127.0.0.1:5060", "--control", f"{PLACE}:5061", "--control-allow", f"{NEAR}/32", "alice"]
        with Running("ip", place.inside(program, *words)) as running:
            told = running.lines_until(b"listening at")

            def ask(ip, line, seconds=PATIENCE):
                return run("ip", place.inside(sys.executable, "-c", ASK, ip, line, str(seconds))).out.decode().rstrip("\n")

            same("the answer to a line of a network that is heard", "ok", ask(NEAR, "MAIL alice voice 1 0 0 0"))
            for line in "MAIL alice voice 2 0 0 0", "STATUS", "CLOSE":
                same(f"the answer to {line} from elsewhere", "nothing", ask(FAR, line, 1))
            same("what was told", "MAIL alice voice 1 0 0 0", ask("127.0.0.1", "SHOW alice").splitlines()[2])
            counted = dict(line.split(" ", 1) for line in ask(NEAR, "STATUS").splitlines()[1:])
            same("what is counted", ("6", "3"), (counted["control_lines"], counted["control_foreign"]))
            told_here = tell(program, "--control", f"{PLACE}:5061", "SHOW", "alice", inside=("ip", *place.inside()))
            same("what this machine is told at the control address", b"MAIL alice voice 1 0 0 0", told_here.out.splitlines()[2])
            same("the answer to CLOSE", "ok", ask("127.0.0.1", "CLOSE"))
            ended = running.end()
            same("the exit status", 0, ended.status)
            same("whether it warns", False, b"warning" in told + ended.err)
        with Running("ip", place.inside(program, *words[:5], "alice")) as running:
            running.lines_until(b"warning: other machines may reach the control address")
            same("the answer to a line from elsewhere, where no network is named", "ok", ask(FAR, "CLOSE"))
            same("the exit status", 0, running.end().status)


class Bounded(Service):
    """A service that can't have more memory than it has at a moment, and a little."""

    def __init__(self, program, *words):
        self.program, self.sip, self.control = program, free_port(), free_port()
        places = ("--listen", address(self.sip), "--control", address(self.control))
        self.running = Running(program, ["serve", *places, *words], LONG_LIMIT, env={**os.environ, **CHECKED})

    def bound(self):
        """From now on it can't."""
        process = self.running.process.pid
        with open(f"/proc/{process}/status", encoding="ascii") as lines:
            held = next(int(line.split()[1]) << 10 for line in lines if line.startswith("VmData"))
        if held < RESERVED:
            resource.prlimit(process, resource.RLIMIT_DATA, (held + SPARE, held + SPARE))


def has_closed(operator, number):
    """Waits until a service has answered so many requests, so that nothing of them waits in its memory: whether it closed before, when each
    line is answered `closed`, or ended."""
    until = time.monotonic() + PATIENCE
    while time.monotonic() < until:
        try:
            told = operator.ask("STATUS")
        except ConnectionRefusedError:
            return True
        if told.startswith("closed"):
            return True
        if int(re.search(r"^answers (\d+)$", told, re.M).group(1)) >= number:
            return False
        time.sleep(0.1)
    raise AssertionError(f"it doesn't answer {number} requests")


def answer_what_came(stranger):
    """Answers the NOTIFYs that came: who answers none for 32 seconds is subscribed no more."""
    usual = stranger.gettimeout()
    stranger.settimeout(0)
    with suppress(BlockingIOError):
        while True:
            octets = persist(stranger.recv, 65535)
            if octets.startswith(b"NOTIFY "):
                persist(stranger.send, Message(octets).answer("200 OK"))
    stranger.settimeout(usual)


def fill(service, operator, mailbox):
    """Subscribes strangers to this mailbox, and has them told of changes, until the service closes. Its memory is bounded shortly
    before the table of their worker grows."""
    request = SUBSCRIBE.replace(b"alice", mailbox.encode())
    with open_socket(("127.0.0.1", service.sip)) as stranger:
        for number in range(1, MANY):
            persist(stranger.send, request.replace(b"Call-ID: c1", b"Call-ID: c%d" % number).replace(b"bKa1", b"bK%d" % number))
            answer_what_came(stranger)
            if number % 1000 == 0:
                operator.ask(f"MAIL {mailbox} voice {number} 0 0 0")
            is_near = number >= TABLE - FEW
            # One more was answered before, that of the phone.
            if (is_near or number % 50 == 0) and has_closed(operator, number + 1):
                return
            if number == TABLE - FEW:
                service.bound()
    raise AssertionError(f"{MANY} subscriptions don't fill it")


def a_worker_without_memory_ends_it(program, folder):
    """Strangers fill one worker. Who is subscribed at the other one is told that this is over, and so subscribes again once the service
    is started again."""
    full = "alice"
    worker = home_of(full, 2)
    other = next(name for name in ("bob", "carol", "dan", "eve") if home_of(name, 2) != worker)
    words = ("--workers", "2", "--table", str(MOST), "--repeats", "0", "--linger", "0", full, other)
    with Bounded(program, *words) as service, service.phone(other) as phone, service.operator() as operator:
        phone.subscribe()
        fill(service, operator, full)
        phone.hear_farewell()
        ended = service.running.end()
        same("the exit status", 4, ended.status)
        line = b"notifyd: worker %d ran out of memory, and so the service closed\n" % worker
        same("whether the worker is named", True, line in ended.err)
        ends = [words.split()[4:] for words in ended.out.splitlines()]
        same("how its workers ended", [b"closed", b"nomemory"], sorted(end[0] for end in ends))


def answers_are_not_logged(service, count):
    """So many requests are answered and logged, which nobody reads, while a phone is told of a change. The service closes, and ends."""
    with service.phone("alice") as phone, service.phone("bob") as asking, service.operator() as operator:
        phone.subscribe()
        for number in range(count):
            same("whether a request is answered", True, asking.is_heard(asking.request("OPTIONS", f"o{number}", 1, "", ())))
        operator.tell("MAIL alice voice 2 8 0 2")
        phone.expect_notify("active", HEARD)
        operator.tell("CLOSE")
        phone.hear_farewell(HEARD)
        ends_within(service, PATIENCE)
    return service.running.end()


def a_log_that_nobody_reads_is_dropped(program, folder):
    """Its pipe is full behind some of the answers; what is in it are whole lines."""
    count = 2500
    with Service(program, "--log-requests", "alice") as service:
        ended = answers_are_not_logged(service, count)
    same("the exit status", 0, ended.status)
    lines = [line for line in ended.err.decode().split("\n") if "OPTIONS" in line]
    form = r"notifyd: 127\.0\.0\.1:\d+ OPTIONS sip:bob@127\.0\.0\.1;tag=\S+ 405"
    same("lines that aren't whole", [], [line for line in lines if not re.fullmatch(form, line)])
    same("whether some were written, and some dropped", True, 0 < len(lines) < count)


class OneStream(Service):
    """A service that writes both of its streams to one pipe, as `2>&1` asks for, which takes no more than a page."""

    def __init__(self, program, *words):
        self.program, self.sip, self.control = program, free_port(), free_port()
        places = ("--listen", address(self.sip), "--control", address(self.control))
        self.running = Running("sh", ["-c", 'exec "$0" "$@" >&2', program, "serve", *places, *words])
        fcntl.fcntl(self.running.process.stderr, SET_PIPE_SIZE, PAGE)


def neither_stream_is_read(program, folder):
    """The lines of the workers find no room either: that is a fault, and no wait."""
    with OneStream(program, "--log-requests", "alice") as service:
        ended = answers_are_not_logged(service, 200)
    same("the exit status", 3, ended.status)
    same("what is told", [b"SUBSCRIBE"], [line.split()[2] for line in ended.err.splitlines() if b"listening" not in line])


def can_trace():
    """Whether `strace` may make calls fail here."""
    if not shutil.which("strace"):
        return False
    return subprocess.run(["strace", *traced("getcwd", "error=EIO"), "true"], capture_output=True, check=False).returncode == 0


def can_separate():
    """Whether a network namespace may be made here."""
    if not shutil.which("ip"):
        return False
    try:
        with Place():
            return True
    except (OSError, subprocess.CalledProcessError):
        return False


def checks():
    yield "serve: datagrams that are too long are dropped and counted", long_datagrams_are_dropped
    yield "serve: less room for datagrams than asked for is told", less_room_is_told
    yield "serve: a worker without memory ends it", a_worker_without_memory_ends_it
    yield "serve: what the system dropped is told", drops_of_the_system_are_told
    yield "serve: what it dropped at the control socket is told", drops_at_the_control_socket_are_told
    yield "serve: a log that nobody reads keeps nobody waiting", a_log_that_nobody_reads_is_dropped
    yield "serve: nor do both streams that nobody reads", neither_stream_is_read
    if can_trace():
        yield "serve: receives that fail are tried again, told and counted", failing(*PASSING[:4])
        yield "serve: other receives that fail are tried again, told and counted", failing(*PASSING[4:])
        yield "serve: a receive that a signal ends is no failed one", an_interrupted_receive_is_no_failed_one
        yield "serve: a lost socket ends it", a_lost_socket_ends_it
        yield "serve: a socket that fails for ten seconds ends it", a_deaf_socket_ends_it
    else:
        print("  faults: failed receives were not tried: strace can't be had", flush=True)
    if can_separate():
        yield "serve: it closes where its address was taken away", an_address_is_taken_away
        yield "serve: control lines from elsewhere are dropped", lines_from_elsewhere_are_dropped
    else:
        print("  faults: an address that is taken away, and lines from elsewhere, were not tried: no network namespace can be had", flush=True)
