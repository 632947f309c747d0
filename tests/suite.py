"""What the parts of this suite share: how a part is made, how `notifyd` is started, and how a wrong answer is told.

A part is a module with a function `checks()` that yields pairs of a name and a function. Such a function is a check: it
takes the program's path and a folder of its own, which is empty and goes away behind it, and ends if all is well. If not, it
raises `AssertionError` with a text of what was wanted and what came (`same` does), or answers that text. `tests/run` names the
parts and runs the checks, some at a time, so a check may rely on nothing that another one does; it prints in the order of
`checks()`. A part may have checks that don't touch the program in a function `checks_apart()`: they are run once, and get None as
the program.

    def checks():
        yield "a script of nothing gives a page of one line", an_empty_script

    def an_empty_script(program, folder):
        ended = run(program, ["script", "1", "alice"], b"")
        same("the page", b"WORKER 0 0 0 closed\\n", ended.out)

Whatever a check starts ends with it: `run` waits for the end of a call, `Running` is for a program that goes on beside the
check. Both take a limit in seconds, behind which the program is killed and the check has failed. Ports are of 127.0.0.1, and
those at which a program is to listen come from `free_port`, which gives none twice.

A check prints the same whatever the machine does beside it. So it counts on no order that nobody promises, as that between workers, and on
no time within which a thread runs: it waits long for what must come, by `comes_true` or `tell`, and reads a counter once what it counts is done.
"""

import contextlib
import glob
import os
import re
import signal
import socket
import subprocess
import threading
import time
from collections import namedtuple

# How a call ended: its exit status (negative: the signal that killed it), and the bytes of both streams.
Ended = namedtuple("Ended", "status out err")

# How many times as slow a program may be as the built ones: `tests/run --tried` says so of one that was compiled without a proof.
SLOWER = int(os.environ.get("NOTIFYD_SLOWER", "1"))

# Seconds that a call may take where nothing else is said. All of them take far less; a busy machine may be very slow.
LIMIT = 300 * SLOWER

# The same for calls that have much to read, or start many others.
LONG_LIMIT = 600 * SLOWER


_lock = threading.Lock()


def started(words, **how):
    """Starts a program, while no port is looked at: until it runs, what was begun for it has the sockets of this process too, and
    would keep a port in use that `free_port` looks at."""
    with _lock:
        return subprocess.Popen(words, **how)


def run(program, words=(), given=b"", limit=LIMIT, **how):
    """Runs the program with these words, these bytes as standard input, and answers how it ended.

    `how` are further words for `subprocess.Popen`: `stdin` in place of the bytes, `stdout`, `cwd`.
    """
    how = {"stdin": subprocess.PIPE, "stdout": subprocess.PIPE, "stderr": subprocess.PIPE, **how}
    given = given if how["stdin"] == subprocess.PIPE else None
    with started([program, *words], **how) as process:
        try:
            out, err = process.communicate(given, timeout=limit)
        except subprocess.TimeoutExpired:
            process.kill()
            raise AssertionError(f"it did not end within {limit} seconds: {shown(words)}") from None
        except BaseException:
            process.kill()
            raise
    return Ended(process.returncode, out, err)


def waits_of(number):
    """What each thread waits for of the process with this number and of those that it started, as the system tells it: its name, its state,
    and the call that it is in."""
    waits = []
    for place in sorted(glob.glob(f"/proc/{number}/task/*")):
        try:
            name, state = read_text(f"{place}/comm").strip(), read_text(f"{place}/stat").rpartition(")")[2].split()[0]
            waits.append(f"{name} {state} {read_text(f'{place}/wchan')} {read_text(f'{place}/syscall').split(' ')[0].strip()}")
            for child in read_text(f"{place}/children").split():
                waits += waits_of(child)
        except OSError:
            pass
    return waits


def read_text(path):
    with open(path, encoding="utf-8", errors="replace") as file:
        return file.read()


class Running:
    """A program that goes on beside the check, to be used in a `with`: at its end the program is killed, if it still runs.

    `lines_until` waits for a line on standard error (a service says there that it listens), `end` for the end of the program.
    """

    def __init__(self, program, words, limit=LIMIT, stdin=subprocess.DEVNULL, **how):
        self.limit = limit
        self.process = started(
            # Without a buffer, so that `end` finds what `lines_until` has left.
            [program, *words], bufsize=0, stdin=stdin, stdout=subprocess.PIPE, stderr=subprocess.PIPE, **how
        )
        self.killer = threading.Timer(limit, self.kill)
        self.killer.daemon = True
        self.killer.start()
        self.err = b""
        self.delayed = 0.0

    def __enter__(self):
        return self

    def __exit__(self, *_):
        self.killer.cancel()
        self.kill()
        self.process.wait()
        self.process.stdout.close()
        self.process.stderr.close()

    def kill(self):
        self.process.kill()

    def delay(self):
        """For how many seconds the threads of the program waited for a processor so far, all together, or until its end: on a busy machine it may
        be so late with what it does."""
        with contextlib.suppress(OSError):
            places = glob.glob(f"/proc/{self.process.pid}/task/*/schedstat")
            self.delayed = max(self.delayed, sum(int(read_text(place).split()[1]) for place in places) / 1e9)
        return self.delayed

    def lines_until(self, part):
        """The lines on standard error up to the first that has these bytes in it."""
        for line in self.process.stderr:
            self.err += line
            if part in line:
                return self.err
        raise AssertionError(f"it ended without a line {shown(part)} on standard error: {shown(self.err)}")

    def end(self):
        """Waits for the end of the program, and answers how it ended, with all that it wrote on standard error."""
        self.killer.cancel()
        try:
            out, err = self.process.communicate(timeout=self.limit)
        except subprocess.TimeoutExpired:
            waits = waits_of(self.process.pid)
            raise AssertionError(f"it did not end within {self.limit} seconds; its threads: {waits}") from None
        self.err += err
        return Ended(self.process.returncode, out, self.err)


# How `notifyd tell` ends where no answer came within its second.
NOBODY = Ended(3, b"", b"notifyd: nobody answered\n")

# How it ends where the service closes.
CLOSED = Ended(1, b"closed\n", b"")


def tell_once(program, words, inside):
    """How `notifyd tell` with these words ends, which the words of `inside` start, if there are any."""
    first, *others = [*inside, program, "tell", *words]
    return run(first, others)


def is_unanswered(ended):
    """Whether nobody answered a line, or one of its pages."""
    return (ended.status, ended.err) == (NOBODY.status, NOBODY.err)


def tell(program, *words, inside=()):
    """How `notifyd tell` with these words ends. It waits a second for an answer, which is too short for a service that a busy machine
    keeps waiting: so it is called again until somebody answers, each time a little later, since what was asked before is answered first."""
    until, pause = time.monotonic() + LIMIT, 0
    while is_unanswered(ended := tell_once(program, words, inside)) and time.monotonic() < until:
        pause = min(pause + 1, 10)
        time.sleep(pause)
    return ended


def tell_close(program, service, *words, inside=()):
    """Has this process of a service closed by `notifyd tell` with these words and CLOSE, which must be answered `ok`. Where nobody answered
    in time it is told again: the line that was sent before may have been heard, and then it is answered `closed`, or the service has ended."""
    same("whether the service runs", None, service.poll())
    until = time.monotonic() + LIMIT
    ended = tell_once(program, [*words, "CLOSE"], inside)
    while ended == NOBODY and time.monotonic() < until:
        if service.poll() is not None:
            return
        if (ended := tell_once(program, [*words, "CLOSE"], inside)) == CLOSED:
            return
    ended_with(ended, 0, b"ok\n", b"")


def comes_true(holds, limit=LIMIT):
    """Waits until this holds, for so many seconds at most. Whether it does."""
    end = time.monotonic() + limit
    while not (held := holds()) and time.monotonic() < end:
        time.sleep(0.02)
    return held


def stand_still(process):
    """Stops a process. On a busy machine some of its threads go on for a while after the signal, so this waits until each stands still."""
    process.send_signal(signal.SIGSTOP)

    def states():
        for path in glob.glob(f"/proc/{process.pid}/task/*/stat"):
            with contextlib.suppress(OSError), open(path, encoding="utf-8", errors="replace") as file:
                yield file.read().rpartition(")")[2].split()[0]

    if not comes_true(lambda: set(states()) == {"T"}):
        raise AssertionError("a thread of a process that was stopped goes on")


def shown(thing):
    """Something as a text of one line that says which bytes it has, cut where it is long."""
    text = repr(thing)
    return text if len(text) <= 400 else f"{text[:300]} .. {text[-80:]} ({len(thing)} long)"


def same(what, wanted, came):
    """Raises AssertionError where something else came than was wanted, with the place where texts begin to differ."""
    if wanted == came:
        return
    where = ""
    if isinstance(wanted, bytes) and isinstance(came, bytes):
        start = len(os.path.commonprefix([wanted, came]))
        if start > 40:
            where = f" (from byte {start} on)"
            wanted, came = wanted[start - 40 :], came[start - 40 :]
    raise AssertionError(f"{what}{where}: wanted {shown(wanted)}, came {shown(came)}")


def ended_with(ended, status, out, err):
    """Raises AssertionError unless a call ended with this status and wrote these bytes on standard output and error."""
    same("status, standard output, standard error", Ended(status, out, err), ended)


def sip_block(datagram, source="127.0.0.1:5070"):
    """The block of a script that brings this datagram from this address."""
    return f"SIP {source} {len(datagram)}\n".encode() + datagram + b"\n"


def brief(page):
    """A page in brief: its UNREAD, WORKER and START lines, of an answer the first line behind `SIP/2.0`, of a NOTIFY its number
    and its state. Raises AssertionError where the bytes aren't a page (`docs/protocol.md`)."""
    told = []
    while page:
        line, feed, page = page.partition(b"\n")
        words = line.decode().split(" ")
        if words[0] in ("ANSWER", "NOTIFY") and words[-1].isdigit():
            length = int(words[-1])
            out, feed, page = page[:length], page[length : length + 1], page[length + 1 :]
            told.append(in_brief(words, out.decode()))
        elif words[0] in ("UNREAD", "WORKER", "START"):
            told.append(line.decode())
        else:
            raise AssertionError(f"no line of a page: {shown(line)}")
        if feed != b"\n":
            raise AssertionError(f"no line feed behind {shown(line)} and what belongs to it")
    return told


def in_brief(words, out):
    """An answer or a NOTIFY, to which a line of these words belongs, in brief."""
    if words[0] == "ANSWER":
        return out.partition("\r\n")[0].removeprefix("SIP/2.0 ")
    states = re.findall(r"^Subscription-State: (.*)\r$", out, re.M)
    return f"NOTIFY {words[2]} {' '.join(states)}"


def first_answer(port, question, seconds):
    """What a program at this port of this machine answers first, which is asked again and again for so many seconds. None where it answers
    nothing. `question` says what to ask from a socket."""
    until = time.monotonic() + seconds
    with socket.socket(socket.AF_INET, socket.SOCK_DGRAM) as asker:
        asker.settimeout(0.2)
        asker.connect(("127.0.0.1", port))
        while time.monotonic() < until:
            try:
                asker.send(question(asker))
                return asker.recv(65535)
            except ConnectionRefusedError:
                time.sleep(0.05)
            except socket.timeout:
                pass
    return None


# Ports that the system gives by itself begin at 32768; those below are asked for by their number alone. A run has blocks of them for itself:
# as long as it goes on it holds the first number of each as a port of TCP, where no program of these checks listens.
FIRST_PORT, BLOCKS, BLOCK = 10_048, 343, 64
_holders = []


def own_ports():
    """The ports of blocks that no other run holds, one after the other."""
    for number in range(BLOCKS):
        first = FIRST_PORT + BLOCK * ((os.getpid() + number) % BLOCKS)
        holder = socket.socket(socket.AF_INET, socket.SOCK_STREAM)
        try:
            holder.bind(("127.0.0.1", first))
        except OSError:
            holder.close()
            continue
        _holders.append(holder)
        yield from range(first, first + BLOCK)


_ports = own_ports()


def free_port():
    """A UDP port of 127.0.0.1 that is free, and that no other check has, be it of this run or of another on this machine."""
    with _lock:
        for port in _ports:
            with socket.socket(socket.AF_INET, socket.SOCK_DGRAM) as probe:
                try:
                    probe.bind(("127.0.0.1", port))
                    return port
                except OSError:
                    continue
    raise AssertionError("no UDP port of 127.0.0.1 is free")
