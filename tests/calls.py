"""What the program makes of its words, of scripts, of an operator's words and lines, and of devices that fail.

The tables say what is handed in and what must come of it, by the tables and grammars of `docs/protocol.md`,
`docs/operating.md` and the man page. That a call is refused before anything is read is seen by its standard input, a folder:
whoever reads it fails. What good lines of a script say is seen by their pages, `what_lines_say` among them (`pages.py`).
"""

import os
import re
import resource
import socket
import sys

from pages import SEED, data
from phone import Message
from suite import LIMIT, LONG_LIMIT, Ended, Running, brief, comes_true, ended_with, free_port, run, same, shown, sip_block, tell

BAD_ARGUMENTS = Ended(1, b"", b"notifyd: bad arguments\n")
BAD_SCRIPT = Ended(2, b"", b"notifyd: bad script\n")
DEVICE_FAULT = b"notifyd: device fault\n"

# What is no script.
BAD_SCRIPTS = [
    b"SIP 127.0.0.1:1 5\nhell\n",
    b"SIP 127.0.0.1:1 5\nhello!\n",
    b"SIP 127.0.0.1:1 5\nhello\n\n",
    b"SIP 256.0.0.1:1 0\n\n",
    b"SIP 127.0.0.1:65536 0\n\n",
    b"SIP 127.0.0.01:1 0\n\n",
    b"SIP 127.0.1:1 0\n\n",
    b"SIP 127.0.0.1:1  0\n\n",
    b"SIP 127.0.0.1:1 65537\n\n",
    b"MAIL alice voice 4294967296 0 0 0\n",
    b"MAIL alice voice 1 0 2 0\n",
    b"MAIL alice video 1 0 0 0\n",
    b"MAIL  voice 1 0 0 0\n",
    b"MAIL alice voice 1 0 0\n",
    b"MAIL alice voice 1 0 0 0 \n",
    b"PROGRESS w0-1 99 x\n",
    b"PROGRESS t 99 x\n",
    b"PROGRESS w0-1 700 x\n",
    b"PROGRESS w0-1 200\n",
    b"PROGRESS w0-1 200 a\tb\n",
    b"TICK 18446744073709551616\n",
    b"TICK 00\n",
    b"TICK +1\n",
    b"TICK x\n",
    b"TICK \n",
    b"TICK 1",
    b"TICK 1\nTICK 2",
    b"TICK 1\r\n",
    b"TICK 1\n\n",
    b"tick 1\n",
    b"CLOSE\n",
    b"\n",
    b"MAIL \xff voice 1 0 0 0\n",
    b"PROGRESS \xff 200 OK\n",
    b"PROGRESS a 200 \xff\n",
    # A byte longer than a script may be.
    b"PROGRESS t 200 " + b"a" * 1_048_561 + b"\n",
]

# Scripts, and their pages.
GOOD_SCRIPTS = [
    (b"SIP 127.0.0.1:1 5\nhello\n", b"UNREAD 1 1\nWORKER 0 0 0 closed\n"),
    (b"SIP 0.0.0.0:0 0\n\n", b"UNREAD 1 1\nWORKER 0 0 0 closed\n"),
    (b"SIP 255.255.255.255:65535 1\n\n\n", b"UNREAD 1 1\nWORKER 0 0 0 closed\n"),
    (b"MAIL alice voice 4294967295 4294967295 4294967295 4294967295\n", b"WORKER 0 1 0 closed\n"),
    (
        b"MAIL alice fax 1 0 0 0\nMAIL alice pager 0 0 0 0\nMAIL a multimedia 2 8 0 2\nMAIL a text 0 1 0 1\n",
        b"WORKER 0 4 0 closed\n",
    ),
    (b"PROGRESS w0-1 100 Trying\nPROGRESS w0-1 699 \nPROGRESS w0-1 486  Busy Here\n", b"WORKER 0 3 0 closed\n"),
    (b"TICK 0\nTICK 18446744073709551615\n", b"WORKER 0 2 0 closed\n"),
    (b"", b"WORKER 0 0 0 closed\n"),
    # As long as a script may be.
    (b"PROGRESS t 200 " + b"a" * 1_048_560 + b"\n", b"WORKER 0 1 0 closed\n"),
]

# Words that ask for no run.
BAD_WORDS = [
    ["script"],
    ["alice"],
    ["script", "1"],
    ["script", "0", "alice"],
    ["script", "257", "alice"],
    ["script", "01", "alice"],
    ["script", "--seed"],
    ["script", "--seed", SEED],
    ["script", "--stop", "1"],
    ["script", "--stop", "--seed", SEED, "1", "alice"],
    ["script", "--seed", "00", "1", "alice"],
    ["script", "--seed", "x" + SEED[1:], "1", "alice"],
    ["Script", "1", "alice"],
    ["script", "1", b"\xff"],
    ["udp"],
    ["udp", "5060", "5061", "1", "1"],
    ["udp", "0", "5061", "1", "1", "alice"],
    ["udp", "5060", "65536", "1", "1", "alice"],
    ["udp", "5060", "5061", "0", "1", "alice"],
    ["udp", "5060", "5061", "257", "1", "alice"],
    ["udp", "5060", "5061", "1", "4294967296", "alice"],
    ["udp", "05060", "5061", "1", "1", "alice"],
    ["udp", "--stop", "--seed", SEED, "5060", "5061", "1", "1", "alice"],
    ["script", "5060", "5061", "1", "1", "alice"],
]

TOLD = ["200 OK", "NOTIFY 1 active;expires=3600"]

STOPPED = TOLD + ["NOTIFY 2 terminated;reason=deactivated"]

# Words, who subscribes, and the page in brief. The hashes of the mailboxes are 0 of an empty one, 51 of `3`, 1333411234 of
# `--stop`, 97717 of `bob`.
GOOD_WORDS = [
    (["script", "1", "alice"], ["alice"], ["WORKER 0 1 2 closed", *TOLD]),
    (
        ["script", "256", "", "two words"],
        [""],
        ["WORKER 0 1 2 closed", *TOLD, *(f"WORKER {number} 0 0 closed" for number in range(1, 256))],
    ),
    (
        ["script", "--stop", "2", "3", "--stop"],
        ["3", "--stop"],
        ["WORKER 0 2 3 closed", *STOPPED, "WORKER 1 2 3 closed", *STOPPED],
    ),
    (
        ["script", "--seed", SEED, "--stop", "16", "bob"],
        ["bob"],
        [
            *(f"WORKER {number} 1 0 closed" for number in range(5)),
            "WORKER 5 2 3 closed",
            *STOPPED,
            *(f"WORKER {number} 1 0 closed" for number in range(6, 16)),
        ],
    ),
]

FORM = " (one or more characters, none of them a space, `@` or `:`)"

SPAN = " (from a number up to one of as many digits, a million of them at most)"


def times(fault):
    """What is said of a time that isn't in the range that others leave."""
    return f"times that don't go together: {fault} (--min-time is the least, --max-time the greatest)"



NOWHERE = "0.0.0.0 is no address for phones: --contact <a.b.c.d:port>"

# Words behind `serve` that are refused, the status, and the line behind `notifyd: `.
BAD_SERVICES = [
    (["--workers", "0"], 1, "a bad value: --workers <1 to 256>"),
    (["--workers", "257"], 1, "a bad value: --workers <1 to 256>"),
    (["--kept", "0"], 1, "a bad value: --kept <1 to 4096>"),
    (["--repeats", "65537"], 1, "a bad value: --repeats <0 to 65536>"),
    (["--repeats", "-1"], 1, "a bad value: --repeats <0 to 65536>"),
    (["--linger", "33"], 1, "a bad value: --linger <0 to 32>"),
    (["--linger", "00"], 1, "a bad value: --linger <0 to 32>"),
    (["--linger", ""], 1, "a bad value: --linger <0 to 32>"),
    (["alice", "--repeats"], 1, "a value is missing: --repeats <0 to 65536>"),
    (["--repeats", "all"], 1, "a bad value: --repeats <0 to 65536>"),
    (["--open", "0"], 1, "a bad value: --open <1 to 65536>"),
    (["--open", "65537"], 1, "a bad value: --open <1 to 65536>"),
    (["alice", "--open"], 1, "a value is missing: --open <1 to 65536>"),
    (["--linger", "0.5"], 1, "a bad value: --linger <0 to 32>"),
    (["alice", "--linger"], 1, "a value is missing: --linger <0 to 32>"),
    (["--guesses", "5"], 1, "a bad value: --guesses <at once>/<a minute>, each 1 to 65536"),
    (["--guesses", "0/20"], 1, "a bad value: --guesses <at once>/<a minute>, each 1 to 65536"),
    (["--guesses=5/65537"], 1, "a bad value: --guesses <at once>/<a minute>, each 1 to 65536"),
    (["--max-texts", "511"], 1, "a bad value: --max-texts <512 to 65535>"),
    (["--max-texts", "65536"], 1, "a bad value: --max-texts <512 to 65535>"),
    (["--listen", "localhost"], 3, "a bad value: --listen <a.b.c.d:port>"),
    (["alice", "--seed", "00"], 1, "a bad value: --seed <64 hex digits>"),
    (["alice", "--mailboxes"], 1, "a value is missing: --mailboxes <file>"),
    (["--port", "5060"], 1, "no such option: --port (notifyd serve --help lists them)"),
    (["--port=5060"], 1, "no such option: --port=5060 (notifyd serve --help lists them)"),
    (["--no-refer=yes"], 1, "no such option: --no-refer=yes (notifyd serve --help lists them)"),
    (["--listen=localhost:5060"], 3, "a bad value: --listen <a.b.c.d:port>"),
    (["--workers="], 1, "a bad value: --workers <1 to 256>"),
    (["alice", "--state"], 1, "a value is missing: --state <file>"),
    (["two words"], 1, "no name of a mailbox: two words" + FORM),
    (["alice@example.com"], 1, "no name of a mailbox: alice@example.com" + FORM),
    (["sip:alice"], 1, "no name of a mailbox: sip:alice" + FORM),
    ([], 1, "no mailbox: name some, or a file of them with --mailboxes <file>"),
    (["--listen", "0.0.0.0:5060", "alice"], 1, NOWHERE),
    (["--contact", "0.0.0.0:5060", "alice"], 1, NOWHERE),
    (["--max-time", "600", "--default-time", "601", "alice"], 1, times("--default-time is 601, but must be from 60 to 600")),
    (["--default-time", "3600", "--max-time", "600", "alice"], 1, times("--default-time is 3600, but must be from 60 to 600")),
    (["--max-time", "100", "--refer-time", "180", "alice"], 1, times("--refer-time is 180, but must be from 60 to 100")),
    (["--min-time", "200", "--refer-time", "180", "alice"], 1, times("--refer-time is 180, but must be from 200 to 3600")),
    (["--min-time", "600", "--max-time", "300", "alice"], 1, times("--max-time is 300, but must be from 600 to 4294967295")),
    (["--max-time", "59", "alice"], 1, times("--max-time is 59, but must be from 60 to 4294967295")),
    (["--mailboxes", "nowhere"], 3, "no such file, or it can't be read as UTF-8 text: nowhere"),
    (["--state=nowhere", "alice"], 3, "no such file, or it can't be read as UTF-8 text: nowhere"),
    (["--listen", "198.51.100.1:5060", "alice"], 3, "an address not of this machine: --listen"),
    (["--listen=127.0.0.1:0", "--control=198.51.100.1:5061", "alice"], 3, "an address not of this machine: --control"),
]

# Words behind `serve` that are good: the least and the greatest numbers of some options, and a bound of times by itself.
GOOD_SERVICES = [
    ["--guesses", "1/65536", "--max-texts", "512", "alice"],
    ["--guesses=65536/1", "--max-texts", "65535", "alice"],
    ["--max-time", "300", "alice"],
    ["--max-time", "60", "alice"],
    ["--min-time", "3600", "alice"],
    ["--repeats", "0", "--linger", "0", "alice"],
    ["--repeats", "65536", "--linger", "32", "alice"],
    ["--open", "1", "alice"],
    ["--open=65536", "--repeats", "0", "alice"],
    ["--linger", "32", "--linger", "1", "--repeats", "1", "alice"],
    ["--linger=32", "--linger", "1", "--repeats=1", "--no-refer", "alice"],
]

# A file of mailboxes, how many it names, or the line that names none.
MAILBOX_FILES = [
    ("\n# people\n#\nalice\n", 1, None),
    ("alice\nbob", 2, None),
    ("alice\ntwo words\n", None, "line 2: no name of a mailbox: two words" + FORM),
    ("--listen\n", None, "line 1: no name of a mailbox: --listen" + FORM),
    ("alice\nbob@home\n", None, "line 2: no name of a mailbox: bob@home" + FORM),
    ("sip:alice\n", None, "line 1: no name of a mailbox: sip:alice" + FORM),
    ("alice\n1000-1099\n098-101\n", 105, None),
    ("alice\nbob\nalice\n100-110\n105-114\n", 17, None),
    ("\ufeffalice\nbob", 2, None),
    ("\ufeff# people\nalice\n", 1, None),
    ("alice\n\ufeffcarol\n", 2, None),
    ("alice\n555-123-4567\n555-\n+555-1234\n", 4, None),
    ("alice\n555-1234\n", None, "line 2: no range of mailboxes: 555-1234" + SPAN),
    ("7-07\n", None, "line 1: no range of mailboxes: 7-07" + SPAN),
    ("1000-19999\n", None, "line 1: no range of mailboxes: 1000-19999" + SPAN),
    ("#\n0-999999\n", None, "line 2: no range of mailboxes: 0-999999" + SPAN),
    ("1000000000000000000-1000000000000000001\n", None, "line 1: no range of mailboxes: 1000000000000000000-1000000000000000001" + SPAN),
    ("alice\n1999-1000\n", None, "line 2: no range of mailboxes: 1999-1000" + SPAN),
    ("0000000-1000000\n", None, "line 1: no range of mailboxes: 0000000-1000000" + SPAN),
]

USAGE = b"notifyd: usage: notifyd tell [--control <a.b.c.d:port>] <line>; notifyd tell [--control <a.b.c.d:port>] - [--progress] [--progress-bar]; notifyd tell --json [--control <a.b.c.d:port>] STATUS\n"

# Words behind `tell` that are no call of it.
BAD_TELLS = [
    [],
    ["--control", "127.0.0.1:7000"],
    ["--control", "localhost:7000", "STATUS"],
    ["--contact", "STATUS"],
    ["--json"],
    ["--json", "DUMP"],
    ["--json", "WATCHERS"],
    ["--json", "--control", "127.0.0.1:7000", "SHOW", "alice"],
    ["--control", "127.0.0.1:7000", "--json", "STATUS"],
    ["--json", "-"],
    ["--progress", "-"],
    ["-", "--progress-bar", "--progress"],
    ["-", "--progress", "--progress"],
    ["-", "--control", "127.0.0.1:7000"],
    ["-", "MAIL"],
    ["--control", "localhost:7000", "-"],
]

# Control lines, what a service with the mailbox alice answers, and whether `notifyd udp` handles an event for it.
CONTROL_LINES = [
    (b"MAIL alice voice 2 8 0 2", b"ok", True),
    (b"MAIL a fax 1 0 0 0", b"unknown mailbox", True),
    (b"PROGRESS w0-1-a 180 Ringing\n", b"ok", True),
    (b"PROGRESS t 200 ", b"ok", True),
    (b"TICK 5", b"bad line", True),
    (b"TICK 7", b"bad line", True),
    (b"TICK 7\n", b"bad line", True),
    (b"", b"bad line", False),
    (b"\n", b"bad line", False),
    (b"CLOSE\n\n", b"bad line", False),
    (b"CLOSE ", b"bad line", False),
    (b"close", b"bad line", False),
    (b"SIP 127.0.0.1:1 0", b"bad line", False),
    (b"TICK 1\nTICK 2\n", b"bad line", False),
    (b"STATUS now", b"bad line", False),
]

# What a service answers at the third try, and the status of `notifyd tell`.
ANSWERS = [(b"ok\nup 3\n", 0), (b"ok", 0), (b"okay", 1), (b"unknown mailbox", 1)]

TWO_WORKERS = ["script", "2", "alice", "bob"]

# A script, how many bytes its page has, every how many the output fails, and the words.
SHORT_OUTPUTS = [
    ("an_empty_script.script", 20, 1, []),
    ("an_empty_script.script", 40, 1, TWO_WORKERS),
    ("one_subscription.script", 791, 7, []),
    ("one_subscription.script", 811, 7, TWO_WORKERS),
]


def subscribe(user, call_id="c1"):
    """A SUBSCRIBE to this mailbox."""
    lines = [
        f"SUBSCRIBE sip:{user}@127.0.0.1 SIP/2.0",
        f"Via: SIP/2.0/UDP 127.0.0.1:5070;branch=z9hG4bK{call_id}",
        f"From: <sip:{user}@127.0.0.1>;tag=f1",
        f"To: <sip:{user}@127.0.0.1>",
        f"Call-ID: {call_id}",
        "CSeq: 1 SUBSCRIBE",
        f"Contact: <sip:{user}@127.0.0.1:5070>",
        "Event: message-summary",
        "Expires: 3600",
    ]
    return "\r\n".join([*lines, "", ""]).encode()


def call(program, words, stdin):
    """How the program ends with this file, folder or device as its standard input."""
    opened = os.open(stdin, os.O_RDONLY)
    try:
        return run(program, words, stdin=opened)
    finally:
        os.close(opened)


def script_gives(script, wanted):
    """A check that the program without words ends so with this script."""
    return lambda program, _: same("its end", wanted, run(program, [], script, limit=LONG_LIMIT))


def words_are_refused(words):
    """A check that words are bad arguments, before anything is read."""
    return lambda program, folder: same("its end", BAD_ARGUMENTS, call(program, words, folder))


def words_give(words, users, wanted):
    """A check that the page of a script with a SUBSCRIBE of each of these users is this one in brief."""

    def check(program, _):
        script = b"".join(sip_block(subscribe(user, f"c{number}")) for number, user in enumerate(users))
        ended = run(program, words, script)
        ended_with(ended, 0, ended.out, b"")
        same("the page in brief", wanted, brief(ended.out))
        same("a tag of 64 zeros as seed", SEED not in words, b"-1-76b8e0ada0f13d90" in ended.out)

    return check


def fronts_are_refused(words):
    """A check that of all fronts of a script only the empty one and the whole are scripts."""

    def check(program, _):
        script = data("one_subscription.script")
        same("bytes of the script", 308, len(script))
        for end in range(1, len(script)):
            same(f"the end with {end} bytes of the script", BAD_SCRIPT, run(program, words, script[:end]))
        for whole in (b"", script):
            same("the status with the empty script or the whole", 0, run(program, words, whole).status)

    return check


def script_checks():
    for script in BAD_SCRIPTS:
        yield f"{shown(script)} is no script", script_gives(script, BAD_SCRIPT)
    for script, page in GOOD_SCRIPTS:
        yield f"{shown(script)} is a script", script_gives(script, Ended(0, page, b""))
    yield "no front of a script is one", fronts_are_refused([])
    yield "no front of a script is one for two workers", fronts_are_refused(TWO_WORKERS)


def word_checks():
    for words in BAD_WORDS:
        yield f"{words} are refused", words_are_refused(words)
    for words, users, wanted in GOOD_WORDS:
        yield f"{words} are good", words_give(words, users, wanted)


def service_words(words):
    """Ports for SIP and for control lines, and words of a service there."""
    sip, control = free_port(), free_port()
    return sip, control, ["serve", "--listen", f"127.0.0.1:{sip}", "--control", f"127.0.0.1:{control}", *words]


def ask(port, line):
    """What a service at this port answers to a datagram."""
    with socket.socket(socket.AF_INET, socket.SOCK_DGRAM) as asker:
        asker.settimeout(LIMIT)
        asker.connect(("127.0.0.1", port))
        asker.send(line)
        return asker.recv(65536)


def service_is_refused(words, status, line):
    """A check that words behind `serve` are refused so."""
    wanted = Ended(status, b"", f"notifyd: {line}\n".encode())
    return lambda program, _: same("its end", wanted, run(program, ["serve", *words]))


def service_begins(asked):
    """A check that a service begins with these words, and ends well."""

    def check(program, _):
        _, control, words = service_words(asked)
        with Running(program, words) as service:
            same("the count", True, service.lines_until(b"listening").endswith(b" 1 mailboxes\n"))
            same("the answer to CLOSE", b"ok", ask(control, b"CLOSE"))
            same("the status", 0, service.end().status)

    return check


def a_port_in_use(program, _):
    """The address of an option can't be had."""
    for option in ("--listen", "--control"):
        with socket.socket(socket.AF_INET, socket.SOCK_DGRAM) as taken:
            taken.bind(("127.0.0.1", 0))
            _, _, words = service_words([option, f"127.0.0.1:{taken.getsockname()[1]}", "alice"])
            line = f"notifyd: a port in use: {option}\n"
            ended_with(run(program, words), 3, b"", line.encode())


def a_service_as_asked(program, _):
    """Options and mailboxes stand in any order, the last of an option counts; times, workers and the end are as asked."""
    asked = "alice --workers 4 --max-time 600 --default-time 300 bob --workers 2 --keep-subscriptions alice".split()
    sip, control, words = service_words(asked)
    hello = f"notifyd: listening at 127.0.0.1:{sip}, control at 127.0.0.1:{control}, 2 workers, 2 mailboxes\n"
    with Running(program, words) as service, socket.socket(socket.AF_INET, socket.SOCK_DGRAM) as phone:
        same("the first line", hello.encode(), service.lines_until(b"listening"))
        phone.bind(("127.0.0.1", 0))
        phone.settimeout(LIMIT)
        phone.sendto(subscribe("bob"), ("127.0.0.1", sip))
        outs = phone.recv(65536), phone.recv(65536)
        same("a grant of 600 seconds", True, b"\r\nExpires: 600\r\n" in outs[0])
        same("a watcher told of 600 seconds", True, b"\r\nSubscription-State: active;expires=600\r\n" in outs[1])
        phone.sendto(Message(outs[1]).answer("200 OK"), ("127.0.0.1", sip))
        same("the answer to CLOSE", b"ok", ask(control, b"CLOSE"))
        ended = service.end()
        same("the status", 0, ended.status)
        same("the workers", 2, ended.out.count(b"WORKER "))
        phone.setblocking(False)
        try:
            raise AssertionError(f"a farewell, in spite of --keep-subscriptions: {shown(phone.recv(65536))}")
        except BlockingIOError:
            pass


def the_greatest_time_alone(program, _):
    """Who asks for no time is granted the greatest one, where that is below the default."""
    sip, control, words = service_words(["--max-time", "300", "alice"])
    with Running(program, words) as service, socket.socket(socket.AF_INET, socket.SOCK_DGRAM) as phone:
        service.lines_until(b"listening")
        phone.bind(("127.0.0.1", 0))
        phone.settimeout(LIMIT)
        phone.sendto(subscribe("alice").replace(b"Expires: 3600\r\n", b""), ("127.0.0.1", sip))
        same("a grant of 300 seconds", True, b"\r\nExpires: 300\r\n" in phone.recv(65536))
        same("the answer to CLOSE", b"ok", ask(control, b"CLOSE"))
        same("the status", 0, service.end().status)


def mailboxes_of_a_file(text, count, refusal):
    """A check that the file names so many mailboxes, of which alice is the first, or is refused for a line."""

    def check(program, folder):
        path = os.path.join(folder, "mailboxes")
        with open(path, "w", encoding="utf-8") as file:
            file.write(text)
        _, control, words = service_words(["--mailboxes", path])
        if refusal:
            return ended_with(run(program, words), 3, b"", f"notifyd: {path}, {refusal}\n".encode())
        with Running(program, words) as service:
            same("the count", True, service.lines_until(b"listening").endswith(f" {count} mailboxes\n".encode()))
            same("the answer for alice", b"ok", ask(control, b"MAIL alice voice 1 0 0 0"))
            same("the answer for carol", b"unknown mailbox", ask(control, b"MAIL carol voice 1 0 0 0"))

    return check


def serve_checks():
    for words, status, line in BAD_SERVICES:
        yield f"serve {words} is refused", service_is_refused(words, status, line)
    for words in GOOD_SERVICES:
        yield f"serve {words} begins", service_begins(words)
    yield "serve at a port in use", a_port_in_use
    yield "serve as it is asked", a_service_as_asked
    yield "serve with the greatest time alone", the_greatest_time_alone
    for text, count, refusal in MAILBOX_FILES:
        yield f"a file of mailboxes {text!r}", mailboxes_of_a_file(text, count, refusal)


def lines_at_a_service(program, _):
    """Each control line is answered as it should be; the service ends with CLOSE, with its LF or without."""
    for close in (b"CLOSE", b"CLOSE\n"):
        _, control, words = service_words(["alice"])
        with Running(program, words) as service:
            service.lines_until(b"listening")
            for line, wanted, _ in CONTROL_LINES:
                same(f"the answer to {line!r}", wanted, ask(control, line))
            for line in (b"STATUS", b"STATUS\n"):
                same(f"the answer to {line!r}", b"ok\nup ", ask(control, line)[:6])
            same(f"the answer to {close!r}", b"ok", ask(control, close))
            same("the status", 0, service.end().status)


def line_at_udp(line, is_event):
    """A check that `notifyd udp` handles an event for this control line, or none."""

    def check(program, _):
        control = free_port()
        words = ["udp", str(free_port()), str(control), "1", "0", "alice"]
        with Running(program, words) as notifier:
            tell_all(control, [line, b"CLOSE\n"])
            ended = notifier.end()
        ended_with(ended, 0, f"WORKER 0 {int(is_event)} 0 closed\n".encode(), b"")

    return check


def tell_all(port, lines):
    """Sends these lines to a port of 127.0.0.1 once somebody listens there. Until then the system refuses what is sent."""
    with socket.socket(socket.AF_INET, socket.SOCK_DGRAM) as teller:
        teller.connect(("127.0.0.1", port))
        teller.settimeout(0.05)

        def is_there():
            try:
                teller.send(b"nothing that a notifier does")
                teller.recv(1)
            except ConnectionRefusedError:
                return False
            except TimeoutError:
                return True

        if not comes_true(is_there):
            raise AssertionError(f"nobody listens at port {port}")
        for line in lines:
            teller.send(line)


def line_checks():
    yield "control lines at a service", lines_at_a_service
    for line, _, is_event in CONTROL_LINES:
        yield f"{line!r} at udp", line_at_udp(line, is_event)
    yield "b'CLOSE' at udp", line_at_udp(b"CLOSE", False)


def udp_with_four_datagrams(program, _):
    """So many datagrams of SIP are read as were asked for, and then the end comes with CLOSE."""
    sip, control = free_port(), free_port()
    with Running(program, ["udp", str(sip), str(control), "1", "4", "alice"]) as notifier:
        tell_all(control, [b"MAIL alice voice 1 0 0 0"])
        tell_all(sip, [b"CLOSE"] * 3)
        tell_all(control, [b"CLOSE"])
        ended_with(notifier.end(), 0, b"WORKER 0 1 0 closed\n", b"")


def udp_with_a_stop(program, _):
    """The planned stop counts as handled by each of two workers."""
    control = free_port()
    words = ["udp", "--seed", SEED, "--stop", str(free_port()), str(control), "2", "0", "a b"]
    with Running(program, words) as notifier:
        tell_all(control, [b"CLOSE"])
        ended_with(notifier.end(), 0, b"WORKER 0 1 0 closed\nWORKER 1 1 0 closed\n", b"")


def udp_checks():
    yield "udp with four datagrams", udp_with_four_datagrams
    yield "udp with a planned stop", udp_with_a_stop


def fake_service():
    """A socket at which a service might be, and the words of `notifyd tell` that name it."""
    service = socket.socket(socket.AF_INET, socket.SOCK_DGRAM)
    service.bind(("127.0.0.1", 0))
    service.settimeout(LIMIT)
    return service, ["tell", "--control", f"127.0.0.1:{service.getsockname()[1]}"]


# How often `notifyd tell` asks a line within its second, and how often a check is made that plays the service, where this machine was too late.
ASKED, TRIES = 5, 20


class Late(Exception):
    """This machine was so late with an answer that `notifyd tell` had given up: it had asked five times by then."""


def in_time(check):
    """A check that plays a service, made again where this machine was too late."""

    def made(program, folder):
        for _ in range(TRIES):
            try:
                return check(program, folder)
            except Late:
                pass
        raise AssertionError(f"{TRIES} times nobody was answered within a second")

    return made


class Lines:
    """The lines that come to a service which a check plays. One that comes again, since it wasn't answered soon enough, is the same."""

    def __init__(self, service):
        self.service = service
        self.copies = {}  # how often each came

    def take(self):
        """What comes next, and from where."""
        line, source = self.service.recvfrom(65536)
        self.copies[line] = self.copies.get(line, 0) + 1
        return line, source

    def next(self, teller):
        """The next line that didn't come before, and from where. None where the process that tells them ends."""
        self.service.settimeout(0.05)
        try:
            while True:
                is_over = teller.poll() is not None
                try:
                    line, source = self.take()
                    if self.copies[line] == 1:
                        return line, source
                except TimeoutError:
                    if is_over:
                        return None
        finally:
            self.service.settimeout(LIMIT)

    def late(self):
        """A line doesn't come: the one before was answered too late, or nobody asked it often enough."""
        if ASKED in self.copies.values():
            raise Late
        raise AssertionError(f"no line more; these came: {self.copies}")

    def end(self, teller):
        """How whoever tells them ends, who tells no line more."""
        ended = teller.end()
        more = self.next(teller.process)
        if b"nobody answered" in ended.err and ASKED in self.copies.values():
            raise Late
        if more is not None:
            raise AssertionError(f"one line more: {shown(more[0])}")
        return ended


def answered_at_the_third_try(answer, status):
    """A check that a line is sent again until it is answered, and the answer printed."""

    def check(program, _):
        service, words = fake_service()
        with service, Running(program, [*words, "MAIL", "alice", "voice 1 0", "0", "0"]) as teller:
            lines = Lines(service)
            for _ in range(3):
                line, source = lines.take()
                same("the line", b"@N MAIL alice voice 1 0 0 0", untokened(line))
            same("how many lines there are", 1, len(lines.copies))
            service.sendto(answer, source)
            ended_with(lines.end(teller), status, answer + b"\n", b"")

    return in_time(check)


def untokened(line):
    """The line with N for the sixteen hex digits of its token."""
    return re.sub(rb"\A@[0-9a-f]{16} ", b"@N ", line)


def never_answered(program, _):
    """A line is sent five times, and then nobody answered."""
    service, words = fake_service()
    with service:
        ended_with(run(program, [*words, "STATUS"]), 3, b"", b"notifyd: nobody answered\n")
        service.setblocking(False)
        lines = [service.recv(65536) for _ in range(5)]
        same("the lines, each behind the same token", [b"@N STATUS"] * 5, [untokened(line) for line in lines])
        same("how many tokens there are", 1, len(set(lines)))
        try:
            raise AssertionError(f"a sixth line: {shown(service.recv(65536))}")
        except BlockingIOError:
            pass


def nobody_listens(program, _):
    for port in (1, free_port()):
        words = ["tell", "--control", f"127.0.0.1:{port}", "STATUS"]
        ended_with(run(program, words), 3, b"", b"notifyd: nobody answered\n")


def why_a_line_is_bad(program, _):
    """Where a MAIL line has its form, but more are urgent than there are, that is said; of any other bad line nothing is."""
    more = b"notifyd: more are urgent than there are (<new> <old> <urgent new> <urgent old>)\n"
    lines = [("alice voice 1 2 3 4", more), ("bob fax 1 2 1 3", more), ("alice voice 0 0 1 0", more)]
    lines += [(line, b"") for line in ("alice voice 1 2 3", "alice video 1 2 3 4", "alice voice 1 2 3 x", "alice voice 1 2 3 04", "a b voice 1 2 3 4")]
    _, control, words = service_words(["alice"])
    with Running(program, words) as service:
        service.lines_until(b"listening")
        for line, why in lines:
            ended = tell(program, "--control", f"127.0.0.1:{control}", "MAIL", *line.split(" "))
            same(f"what comes of MAIL {line}", Ended(1, b"bad line\n", why), ended)
        same("the answer to CLOSE", b"ok", ask(control, b"CLOSE"))
        same("the status", 0, service.end().status)


def tell_checks():
    for words in BAD_TELLS:
        yield f"tell {words} is refused", lambda program, _, words=words: same(
            "its end", Ended(1, b"", USAGE), run(program, ["tell", *words])
        )
    for answer, status in ANSWERS:
        yield f"tell is answered {answer!r}", answered_at_the_third_try(answer, status)
    yield "tell says why a line is bad", why_a_line_is_bad
    yield "tell is never answered", never_answered
    yield "tell at a port where nobody is", nobody_listens


def a_folder_as_input(program, folder):
    for words in ([], TWO_WORKERS):
        ended_with(call(program, words, folder), 3, b"", DEVICE_FAULT)


def an_input_that_never_ends(program, _):
    for words in ([], TWO_WORKERS):
        same("its end", BAD_SCRIPT, call(program, words, "/dev/zero"))


def a_full_output(program, _):
    with open("/dev/full", "wb") as full:
        for words in ([], TWO_WORKERS, ["--help"]):
            ended = run(program, words, b"", stdout=full)
            same("the status", 3, ended.status)
            same("standard error", b"" if words == ["--help"] else DEVICE_FAULT, ended.err)


def output_that_fails(name, length, step, words):
    """A check that fronts of a page are out where a file takes no more. They are tried by this module as a program."""

    def check(program, folder):
        asked = [os.path.abspath(__file__), name, str(length), str(step), os.path.join(folder, "page"), program, *words]
        same("its end", Ended(0, b"", b""), run(sys.executable, ["-B", *asked], limit=LONG_LIMIT))

    return check


def write_to_short_files(name, length, step, path, program, *words):
    """Has the program write a page of so many bytes to files that take no more than 0 bytes, a step, two, and so on. It runs
    in a process of its own, since such a limit holds for all threads."""
    script, step = data(name), int(step)
    page = run(program, words, script).out
    same("bytes of the page", int(length), len(page))
    _, hard = resource.getrlimit(resource.RLIMIT_FSIZE)
    for most in range(0, len(page) + step, step):
        resource.setrlimit(resource.RLIMIT_FSIZE, (most, hard))
        with open(path, "wb") as file:
            # Python ignores the signal of a file that is too long, and so does the program that it starts.
            ended = run(program, words, script, stdout=file, restore_signals=False)
        with open(path, "rb") as file:
            same(f"what a file of {most} bytes has", page[:most], file.read())
        wanted = (0, b"") if most >= len(page) else (3, DEVICE_FAULT)
        same(f"the end with a file of {most} bytes", wanted, (ended.status, ended.err))


def device_checks():
    yield "a folder as standard input", a_folder_as_input
    yield "an input that never ends", an_input_that_never_ends
    yield "an output that takes nothing", a_full_output
    for output in SHORT_OUTPUTS:
        yield f"an output that fails: {output}", output_that_fails(*output)


def checks():
    for part in (script_checks, word_checks, serve_checks, line_checks, udp_checks, tell_checks, device_checks):
        yield from part()


if __name__ == "__main__":
    try:
        write_to_short_files(*sys.argv[1:])
    except AssertionError as told:
        sys.exit(str(told))
