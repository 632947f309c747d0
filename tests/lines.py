"""What `notifyd tell -` makes of the lines of its standard input, and what it tells a service, a real one or one that this module plays."""

import os
import pty
import re
import signal
import socket
import subprocess
import time

from calls import ASKED, Late, Lines, ask, fake_service, in_time, service_words, untokened
from suite import LIMIT, LONG_LIMIT, SLOWER, Ended, Running, comes_true, ended_with, free_port, run, same, started, tell

# A line that is longer than a datagram, and what is shown of it.
LONG = b"MAIL " + b"a" * 70_000 + b" voice 1 0 0 0"
LONG_SHOWN = LONG[:64] + b"..."

# Lines that are not asked, whatever the service would answer, and how each is shown.
UNTOLD = [
    (b"CLOSE", b"CLOSE"),
    (b"RESTART", b"RESTART"),
    (b"STATUS", b"STATUS"),
    (b"DUMP", b"DUMP"),
    (b"WATCHERS alice", b"WATCHERS alice"),
    (b"SHOW alice", b"SHOW alice"),
    (b"TICK 1", b"TICK 1"),
    (b"ok", b"ok"),
    (b"@0123456789abcdef CLOSE", b"@0123456789abcdef CLOSE"),
    (b"@0123456789abcdef MAIL alice voice 1 0 0 0", b"@0123456789abcdef MAIL alice voice 1 0 0 0"),
    (b"mail alice voice 1 0 0 0", b"mail alice voice 1 0 0 0"),
    (b" MAIL alice voice 1 0 0 0", b" MAIL alice voice 1 0 0 0"),
    (b"MAIL alice voice 1 0 0 0\r", b"MAIL alice voice 1 0 0 0\\x0d"),
    (b"MAIL alice voice 0 0 1 0", b"MAIL alice voice 0 0 1 0"),
    (b"MAIL \x1b[2J\\ voice 1 0 0", b"MAIL \\x1b[2J\\x5c voice 1 0 0"),
    (b"MAIL j\xfcrgen voice 1 0 0 0", b"MAIL j\\xfcrgen voice 1 0 0 0"),
    (b"CLOSE\x00\x9b31m\xe2\x80\xae", b"CLOSE\\x00\\x9b31m\\xe2\\x80\\xae"),
    (b"PROGRESS w0-1 200 OK", b"PROGRESS w0-1 200 OK"),
    (b"x" * 64, b"x" * 64),
    (b"x" * 65, b"x" * 64 + b"..."),
]


def teller(program, words, given, **how):
    """`notifyd tell -` with words, to which these bytes are written. It goes on beside the check."""
    running = Running(program, words, stdin=subprocess.PIPE, **how)
    running.process.stdin.write(given)
    running.process.stdin.close()
    running.process.stdin = None
    return running


def told_to_a_fake(given, answers, status, err, options=()):
    """A check that these bytes are told as these lines, each answered so. The tokens are numbers in a
    row."""

    def check(program, _):
        service, words = fake_service()
        with service, teller(program, [*words, "-", *options], given) as telling:
            lines, tokens = Lines(service), []
            for line, answer in answers:
                came, source = lines.next(telling.process) or (None, None)
                if came is None:
                    break
                same("the line", b"@N " + line, untokened(came))
                tokens.append(int(came[1:17], 16))
                service.sendto(answer, source)
            ended = lines.end(telling)
            same("the tokens", [(tokens[0] + at) % 2**64 for at in range(len(answers))] if tokens else [], tokens)
            ended_with(ended, status, b"", err)

    return in_time(check)


@in_time
def a_late_service(program, _):
    """A line that is answered late is asked again behind the same token, and its second answer isn't taken for one to the next line,
    which is asked from another port, and again until it is answered itself."""
    service, words = fake_service()
    with service, teller(program, [*words, "-"], b"MAIL a voice 1 0 0 0\nMAIL b voice 1 0 0 0\nMAIL c voice 1 0 0 0\n") as telling:
        lines = Lines(service)
        first, source = lines.take()
        same("a repeat", (first, source), lines.take())
        service.sendto(b"ok", source)
        second, next_source = lines.next(telling.process) or lines.late()
        same("the second line", b"@N MAIL b voice 1 0 0 0", untokened(second))
        same("another port", True, next_source != source)
        service.sendto(b"ok", source)
        came = lines.take()
        while came[0] == first:
            came = lines.take()
        same("a repeat of the second line", (second, next_source), came)
        service.sendto(b"ok", next_source)
        third, last_source = lines.next(telling.process) or lines.late()
        same("the third line", b"@N MAIL c voice 1 0 0 0", untokened(third))
        service.sendto(b"ok", last_source)
        ended_with(lines.end(telling), 0, b"", b"")


def a_silent_service(program, _):
    """A line is asked five times, and then it ends: no further line is asked."""
    service, words = fake_service()
    with service, teller(program, [*words, "-"], b"\nMAIL a voice 1 0 0 0\nMAIL b voice 1 0 0 0\n") as telling:
        lines = [service.recv(65536) for _ in range(ASKED)]
        same("the lines", [b"@N MAIL a voice 1 0 0 0"] * ASKED, [untokened(line) for line in lines])
        same("how many tokens there are", 1, len(set(lines)))
        ended_with(telling.end(), 3, b"", b"notifyd: nobody answered (line 2)\n")
        service.setblocking(False)
        try:
            raise AssertionError(f"one line more: {service.recv(65536)}")
        except BlockingIOError:
            pass


def nobody_listens(program, _):
    words = ["tell", "--control", f"127.0.0.1:{free_port()}", "-"]
    ended_with(run(program, words, b"MAIL a voice 1 0 0 0\n"), 3, b"", b"notifyd: nobody answered (line 1)\n")
    ended_with(run(program, words, b"\n# nothing to tell\n"), 0, b"", b"")


def a_folder_as_input(program, folder):
    descriptor = os.open(folder, os.O_RDONLY)
    try:
        ended_with(run(program, ["tell", "-"], stdin=descriptor), 3, b"", b"notifyd: device fault\n")
    finally:
        os.close(descriptor)


# Lines between those, and what is said of all.
GOOD = b"MAIL alice voice 7 0 0 0"
GIVEN = b"".join(line + b"\n" + GOOD + b"\n" for line, _ in UNTOLD)
REFUSED = b"".join(b"notifyd: line %d: no MAIL line: %s\n" % (2 * at + 1, text) for at, (_, text) in enumerate(UNTOLD))


@in_time
def lines_that_are_untold(program, _):
    """Each is told with its number, and those between them are done once each. A line that comes again counts as none."""
    _, control, words = service_words(["alice", "--workers", "1"])
    with Running(program, words) as service:
        service.lines_until(b"listening")
        ended = run(program, ["tell", "--control", f"127.0.0.1:{control}", "-"], GIVEN)
        if b"nobody answered" in ended.err:
            raise Late
        ended_with(ended, 1, b"", REFUSED)
        same("lines that were done", len(UNTOLD), counted(control, b"changes"))
        same("lines that were refused", (0, 0), (counted(control, b"bad_lines"), counted(control, b"unknown_mailboxes")))
        same("the counts", b"ok\nMAIL alice voice 7 0 0 0\n", ask(control, b"DUMP"))
        same("the answer to CLOSE", b"ok", ask(control, b"CLOSE"))
        same("the status", 0, service.end().status)


def told_lines(program, control, given):
    """How `notifyd tell -` ends with these lines. Where a busy machine kept the service waiting they are told anew."""
    ended = None

    def is_told():
        nonlocal ended
        ended = run(program, ["tell", "--control", f"127.0.0.1:{control}", "-"], given, limit=LONG_LIMIT)
        return b"nobody answered" not in ended.err

    comes_true(is_told)
    return ended


def counted(control, name):
    """A counter of a service."""
    return int(re.search(rb"^%s (\d+)$" % name, ask(control, b"STATUS"), re.M).group(1))


def eight_bit_text(program, _):
    """Names of mailboxes are UTF-8: one of a service is known, and another is shown so that it steers no terminal."""
    name = "jürgen-☎"
    _, control, words = service_words([name])
    with Running(program, words) as service:
        service.lines_until(b"listening")
        given = f"MAIL {name} voice 3 1 0 0\nMAIL müller fax 1 0 0 0".encode()
        ended = told_lines(program, control, given)
        ended_with(ended, 1, b"", b"notifyd: line 2: unknown mailbox: MAIL m\\xc3\\xbcller fax 1 0 0 0\n")
        same("the counts", f"ok\nMAIL {name} voice 3 1 0 0\n".encode(), ask(control, b"DUMP"))


@in_time
def lines_of_every_length(program, _):
    """A line that fills a datagram is told whole, and one octet more is refused, as is any longer one, however long."""
    service, words = fake_service()
    front = b"PROGRESS w0-1 200 "
    fits = front + b"a" * (65_489 - len(front))
    given = fits + b"\n" + fits + b"a\n" + LONG + b"\n" + b"x" * 3_000_000 + b"\nMAIL a voice 1 0 0 0"
    with service, started([program, *words, "-", "--progress"], stdin=subprocess.PIPE, stdout=subprocess.PIPE, stderr=subprocess.PIPE) as telling:
        service.setsockopt(socket.SOL_SOCKET, socket.SO_RCVBUF, 1 << 20)
        try:
            lines = Lines(service)
            os.set_blocking(telling.stdin.fileno(), True)
            telling.stdin.write(fits + b"\n")
            telling.stdin.flush()
            came, source = lines.next(telling)
            same("the longest line", 65_507, len(came))
            same("its text", fits, came[18:])
            service.sendto(b"ok", source)
            telling.stdin.write(given[len(fits) + 1 :])
            telling.stdin.close()
            telling.stdin = None
            came, source = lines.next(telling) or lines.late()
            same("the last line", b"@N MAIL a voice 1 0 0 0", untokened(came))
            service.sendto(b"ok", source)
            out, err = telling.communicate(timeout=LIMIT)
            if b"nobody answered" in err:
                lines.late()
        finally:
            telling.kill()
        wanted = [
            b"notifyd: line 2: too long: " + fits[:64] + b"...",
            b"notifyd: line 3: too long: " + LONG_SHOWN,
            b"notifyd: line 4: too long: " + b"x" * 64 + b"...",
        ]
        same("its end", (1, b"", wanted), (telling.returncode, out, err.splitlines()))


@in_time
def counts_are_told(program, _):
    """With --progress-bar it says how many lines were done, a second apart, and at the end: on a busy machine more often."""
    service, words = fake_service()
    began = time.monotonic()
    with service, Running(program, [*words, "-", "--progress-bar"], stdin=subprocess.PIPE) as telling:
        lines = Lines(service)
        for told in (b"MAIL a voice 1 0 0 0\nCLOSE\n", b"MAIL b voice 1 0 0 0\nMAIL c voice 1 0 0 0\n"):
            telling.process.stdin.write(told)
            for _ in range(told.count(b"MAIL")):
                _, source = lines.next(telling.process) or lines.late()
                service.sendto(b"ok", source)
            time.sleep(1.2)
        telling.process.stdin.close()
        telling.process.stdin = None
        ended = lines.end(telling)
    refused, counts = b"notifyd: line 2: no MAIL line: CLOSE", ended.err.splitlines()
    same("the refused line", 1, counts.count(refused))
    counts.remove(refused)
    same("the last one", b"notifyd: 3 done, 1 refused", counts[-1])
    same("others", 1, counts.count(b"notifyd: 2 done, 1 refused"))
    same("whether they are a second apart", True, len(counts) <= 1 + int(time.monotonic() - began))
    same("the status", 1, ended.status)


@in_time
def counts_on_a_terminal(program, _):
    """So it does where standard error is a terminal."""
    ours, theirs = pty.openpty()
    service, words = fake_service()
    with service:
        telling = started([program, *words, "-"], stdin=subprocess.PIPE, stdout=subprocess.PIPE, stderr=theirs)
        os.close(theirs)
        try:
            telling.stdin.write(b"MAIL a voice 1 0 0 0\n")
            telling.stdin.close()
            _, source = service.recvfrom(65536)
            service.sendto(b"ok", source)
            status, shows = telling.wait(timeout=LIMIT), os.read(ours, 4096)
            if b"nobody answered" in shows:
                raise Late
            same("the status and what the terminal shows", (0, b"notifyd: 1 done, 0 refused\r\n"), (status, shows))
        finally:
            telling.kill()
            telling.wait()
            telling.stdout.close()
            os.close(ours)


def a_script_on_a_terminal(program, _):
    """Without arguments it says on a terminal that it reads a script there; elsewhere it doesn't."""
    ended_with(run(program, [], b""), 0, b"WORKER 0 0 0 closed\n", b"")
    ours, theirs = pty.openpty()
    script = started([program], stdin=theirs, stdout=subprocess.PIPE, stderr=subprocess.PIPE)
    os.close(theirs)
    try:
        os.write(ours, b"\x04")
        out, err = script.communicate(timeout=LIMIT)
    finally:
        script.kill()
        os.close(ours)
    same("the page", b"WORKER 0 0 0 closed\n", out)
    same("what is said", True, err.startswith(b"notifyd: reading a script from standard input") and err.count(b"\n") == 1)


# Mailboxes, and how often each is told something: fewer times by a slow program. Half of the lines are more than a pipe holds.
BOXES, ROUNDS = 400, 50 if SLOWER == 1 else 20


def state(number):
    """The line that tells a mailbox for the nth time of 20,000, each with other counts."""
    return b"MAIL %d voice %d 0 0 0\n" % (1000 + number % BOXES, number)


def twenty_thousand_lines(program, folder):
    """They are done in their order. Where `notifyd tell -` is stopped in the midst, and the lines are told anew, none is lost, and
    the counts are as if each had been done once."""
    path = os.path.join(folder, "mailboxes")
    with open(path, "w", encoding="utf-8") as file:
        file.write(f"1000-{1000 + BOXES - 1}\n")
    lines = [state(number) for number in range(BOXES * ROUNDS)]
    wanted = b"".join(sorted(lines[-BOXES:]))
    _, control, words = service_words(["--mailboxes", path, "--workers", "2"])
    asked = ["tell", "--control", f"127.0.0.1:{control}"]
    with Running(program, words, limit=LONG_LIMIT) as service:
        service.lines_until(b"listening")
        with started([program, *asked, "-"], stdin=subprocess.PIPE, stdout=subprocess.PIPE, stderr=subprocess.PIPE) as telling:
            telling.stdin.write(b"".join(lines[: len(lines) // 2]))
            telling.stdin.flush()
            telling.send_signal(signal.SIGTERM)
            telling.stdin.close()
            same("stopped by the signal", -signal.SIGTERM, telling.wait(timeout=LIMIT))
            same("what it said", (b"", b""), (telling.stdout.read(), telling.stderr.read()))
        front = tell(program, *asked[1:], "DUMP").out
        done = 1 + max(int(line.split(b" ")[3]) for line in front.splitlines())
        same("some were done, not all", True, BOXES < done < len(lines))
        same("what is done is a front of the lines", front_of(lines, done), front)
        ended_with(told_lines(program, control, b"".join(lines)), 0, b"", b"")
        same("the counts", wanted, tell(program, *asked[1:], "DUMP").out)
        same("the answer to CLOSE", b"ok", ask(control, b"CLOSE"))
        same("the status", 0, service.end().status)


def front_of(lines, count):
    """What DUMP tells where so many lines were done."""
    last = {line.split(b" ")[1]: line for line in lines[:count]}
    return b"".join(sorted(last.values()))


@in_time
def a_service_that_ends(program, _):
    """Where the service ends in the midst, it ends with status 3."""
    _, control, words = service_words(["alice"])
    with Running(program, words) as service:
        service.lines_until(b"listening")
        asked = ["tell", "--control", f"127.0.0.1:{control}", "-"]
        with started([program, *asked], stdin=subprocess.PIPE, stdout=subprocess.PIPE, stderr=subprocess.PIPE) as telling:
            try:
                telling.stdin.write(b"MAIL alice voice 1 0 0 0\n")
                telling.stdin.flush()
                comes_true(lambda: counted(control, b"changes") == 1)
                same("the answer to CLOSE", b"ok", ask(control, b"CLOSE"))
                same("the status of the service", 0, service.end().status)
                if telling.poll() is not None:
                    raise Late  # its line was answered too late
                telling.stdin.write(b"MAIL alice voice 2 0 0 0\nMAIL alice voice 3 0 0 0\n")
                telling.stdin.close()
                telling.stdin = None
                out, err = telling.communicate(timeout=LIMIT)
            finally:
                telling.kill()
        ended = Ended(telling.returncode, out, err)
        ended_with(ended, 3, b"", b"notifyd: nobody answered (line 2)\n")


A = b"MAIL a voice 1 0 0 0"
B = b"MAIL b fax 4294967295 0 4294967295 0"
C = b"PROGRESS w0-1 180 Ringing"


def checks():
    yield "an empty input", told_to_a_fake(b"", [], 0, b"")
    yield "lines of an input", told_to_a_fake(A + b"\n" + B + b"\n", [(A, b"ok"), (B, b"ok")], 0, b"")
    yield "a last line without its line feed", told_to_a_fake(A + b"\n" + B, [(A, b"ok"), (B, b"ok")], 0, b"")
    yield "empty lines and comments", told_to_a_fake(b"\n\n# MAIL\n" + A + b"\n#\n\n", [(A, b"ok")], 0, b"")
    yield "a transfer", told_to_a_fake(C + b"\n" + A, [(C, b"ok"), (A, b"ok")], 0, b"", ["--progress"])
    yield "no transfer", told_to_a_fake(
        C + b"\n" + A, [(A, b"ok")], 1, b"notifyd: line 1: no MAIL line: PROGRESS w0-1 180 Ringing\n"
    )
    yield "a CLOSE among transfers", told_to_a_fake(
        b"CLOSE\n" + C, [(C, b"ok")], 1, b"notifyd: line 1: no MAIL or PROGRESS line: CLOSE\n", ["--progress"]
    )
    yield "a refused line", told_to_a_fake(
        A + b"\n" + B + b"\n" + A,
        [(A, b"ok"), (B, b"unknown mailbox"), (A, b"ok\nand more")],
        1,
        b"notifyd: line 2: unknown mailbox: " + B + b"\n",
    )
    yield "an answer that would steer a terminal", told_to_a_fake(
        A, [(A, b"\x1b[2J" + b"y" * 80)], 1, b"notifyd: line 1: \\x1b[2J" + b"y" * 60 + b"...: " + A + b"\n"
    )
    yield "a service out of memory", told_to_a_fake(
        A + b"\n" + B, [(A, b"out of memory"), (A, b"out of memory"), (A, b"ok"), (B, b"ok")], 0, b""
    )
    yield "a closed service", told_to_a_fake(A + b"\n" + B + b"\n" + A, [(A, b"ok"), (B, b"closed")], 3, b"notifyd: closed (line 2)\n")
    yield "a late service", a_late_service
    yield "a silent service", a_silent_service
    yield "lines where nobody listens", nobody_listens
    yield "a folder as lines", a_folder_as_input
    yield "lines that are not told", lines_that_are_untold
    yield "lines that are not told reach no service", told_to_a_fake(GIVEN, [(GOOD, b"ok")] * len(UNTOLD), 1, REFUSED)
    yield "8-bit text", eight_bit_text
    yield "lines of every length", lines_of_every_length
    yield "counts that are told", counts_are_told
    yield "counts on a terminal", counts_on_a_terminal
    yield "a script on a terminal", a_script_on_a_terminal
    yield "a service that ends", a_service_that_ends
    yield "20,000 lines", twenty_thousand_lines
