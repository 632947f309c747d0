"""`notifyd serve --log-json`: each line on standard error is one JSON object, with the members of its kind and no others.

Each kind of line is raised here, but for one of a worker without memory and one of a record that the journal lacks. A line that can't be
written is told as `lost`: none is."""

import json
import os
import re
import signal
import time

from faults import Failing, Traced, can_trace
from passwords import ASKED, FORBIDDEN, Caller, Somewhere, own_uri, password_file
from phone import NO_MESSAGES, Operator, Phone
from service import SUBSCRIBE, Service, address
from suite import LONG_LIMIT, Running, free_port, run, same, tell_close

# The members of each kind of line behind `time` and `what`, in order. Where something is wrong `level` stands in front of them.
MEMBERS = {
    "listening": ("address", "control", "workers", "mailboxes"),
    "control_reachable": ("control",),
    "small_buffer": ("option", "octets", "asked"),
    "journal": ("folder", "course"),
    "answered": ("address", "method", "user", "code"),
    "unanswered": ("address", "method", "mailbox", "tag"),
    "barred": ("address", "user"),
    "outage_began": ("most",),
    "outage_ended": ("seconds",),
    "outage_too_long": ("seconds",),
    "stood_still": ("seconds",),
    "counted": ("counter", "more"),
    "not_done": ("counter", "more", "cause"),
    "receive_failed": ("address", "cause"),
    "given_up": ("more", "address", "mailbox", "tag"),
    "refused": ("more", "address", "code", "mailbox", "tag"),
    "worker_out_of_memory": ("worker",),
    "ended": ("counters",),
    "not_running": ("status", "text"),
}

# Members that some lines of their kind lack.
LACKED = {"not_done": {"cause"}, "given_up": {"mailbox", "tag"}, "refused": {"mailbox", "tag"}}

LEVELS = {"control_reachable": "warning", "small_buffer": "warning", "not_done": "warning", "receive_failed": "warning", "outage_began": "warning", "outage_ended": "warning", "outage_too_long": "warning", "stood_still": "warning", "worker_out_of_memory": "error", "not_running": "error"}

BAD_COURSES = {"ends_subscriptions", "unreadable", "unfit", "unwritable"}

TIME = r"\d{4}-\d\d-\d\dT\d\d:\d\d:\d\d\.\d{3}Z"

# A pipe takes so many octets at once, whoever else writes to it.
LONGEST = 4096


def once(pairs):
    """A JSON object that has each name once."""
    same("names that stand twice in an object", len({name for name, _ in pairs}), len(pairs))
    return dict(pairs)


def record(line):
    """A line of the log, which must be of a kind that is known and have its members."""
    same(f"whether {line} is short, ASCII and has no blank outside texts", True, len(line) < LONGEST and line.isascii() and line.startswith(b'{"time":"') and line.endswith(b"}"))
    told = json.loads(line, object_pairs_hook=once)
    what = told.get("what")
    same(f"whether {what} is a kind of line", True, what in MEMBERS)
    same(f"the time of {what}", True, re.fullmatch(TIME, told["time"]) is not None)
    level = "warning" if told.get("course") in BAD_COURSES else LEVELS.get(what)
    same(f"the level of {what}", level, told.get("level"))
    lacked = {name for name in LACKED.get(what, ()) if name not in told}
    head = ("time", "what", "level") if level else ("time", "what")
    same(f"the members of {what}", [*head, *(it for it in MEMBERS[what] if it not in lacked)], list(told))
    return told


def records(octets):
    """The lines of a log, each an object."""
    same("whether the log ends with a line", b"\n", octets[-1:])
    return [record(line) for line in octets.splitlines()]


def of(log, what, **members):
    """The lines of this kind, which have these members."""
    return [it for it in log if it["what"] == what and all(it[name] == value for name, value in members.items())]


def begins_and_ends(program, folder):
    """The first line and the last one, answers, and what was counted. The time is this machine's."""
    began = time.time()
    with Service(program, "--log-json", "--log-requests", "--workers", "2", "alice", "bob") as service:
        with service.phone("alice") as phone, service.phone("carol") as stranger, service.operator() as operator:
            dialog = phone.subscribe()
            phone.leave(dialog, NO_MESSAGES)
            stranger.ask("SIP/2.0 404 Not Found")
            names = set(operator.counters()) - {"unread"}
            me, other = phone.me, stranger.me
        log = records(service.close().err)
    same("the first line", (address(service.sip), address(service.control), 2, 2), tuple(log[0][it] for it in MEMBERS["listening"]))
    granted = of(log, "answered", address=me)
    wanted = [("SUBSCRIBE", f"{whom};tag={dialog.tag}", 200) for whom in ("sip:alice@127.0.0.1", "alice")]
    same("the lines of what was granted", wanted, [(it["method"], it["user"], it["code"]) for it in granted])
    same("the lines of what was refused", [404], [it["code"] for it in of(log, "answered", address=other)])
    same("what is counted", [1], [it["more"] for it in of(log, "counted", counter="answers_404")])
    same("the last line", "ended", log[-1]["what"])
    counters = log[-1]["counters"]
    same("the counters", (names, True), (set(counters), all(isinstance(it, int) for it in counters.values())))
    same("two of them", (3, 1), (counters["datagrams"] - counters["notifies"], counters["answers_404"]))
    last = time.strptime(log[-1]["time"], "%Y-%m-%dT%H:%M:%S.%fZ")
    at = time.mktime(last) - time.timezone
    same("whether the time is this machine's", True, began - 2 < at < time.time() + 2)


# Users of a Request-URI that a stranger may write, and how they stand in the log.
NAMES = (
    ("a\\b", "a\\x5cb"),
    ("a\\x0ab", "a\\x5cx0ab"),
    ("','what':'ended'}", "','what':'ended'}"),
    ("%22,%22what%22:%22ended%22}", "%22,%22what%22:%22ended%22}"),
)

# What a stranger may write into a To: none of it stands in the log.
NOBODY = '"\\",\\"what\\":\\"ended\\"}\t\u202e\u2028\u009b2J" '.encode()

# How long such a user is of which its line tells what stands in the first 64 octets of the Request-URI.
LENGTHS = (62, 64, 256, 4000)


def log_of_names(program, *options):
    """The log of a service at which somebody asked for each of these users, and for long ones."""
    with Service(program, *options, "--log-requests", "--max-texts", "8000", "alice") as service, service.phone("bob") as stranger:
        for number, name in enumerate([name.encode() for name, _ in NAMES] + [b"b" * length for length in LENGTHS]):
            asked = SUBSCRIBE.replace(b"SUBSCRIBE sip:alice", b"SUBSCRIBE sip:" + name).replace(b"Call-ID: c1", b"Call-ID: c%d" % number)
            stranger.send(asked.replace(b"bKa1", b"bKa%d" % number).replace(b"To: ", b"To: " + NOBODY))
            same(f"the answer to {name}", b"SIP/2.0 404 ", stranger.socket.recv(65535)[:12])
        return service.close().err, stranger.me


def are_shown(users):
    """Each name stands in the log as it is to be shown."""
    same("how many lines there are", len(NAMES) + len(LENGTHS), len(users))
    for (name, shown), user in zip(NAMES, users):
        same(f"how {name} stands in the log", True, user.startswith(f"sip:{shown}@127.0.0.1;tag="))
    same("how long ones stand there", ["sip:" + "b" * 60 + "..."] * len(LENGTHS), users[len(NAMES):])


def no_name_forges_a_line(program, folder):
    """Whatever stands in a Request-URI is one member of its line, printable ASCII, and is cut; a To isn't told."""
    log, _ = log_of_names(program, "--log-json")
    are_shown([it["user"] for it in of(records(log), "answered")])


def no_name_breaks_a_plain_line(program, folder):
    """The same in the log for people: each line is printable ASCII."""
    log, stranger = log_of_names(program)
    same("whether each line is printable", True, re.fullmatch(rb"([ -~]+\n)+", log) is not None)
    lines = re.findall(r"(?m)^notifyd: (\S+) SUBSCRIBE (.*) 404$", log.decode())
    same("where they were sent from", {stranger}, {it[0] for it in lines})
    are_shown([it[1] for it in lines])


def nobody_answers(program, folder):
    """Two phones that never answer: each is told, the first at once, the other one at the end."""
    with Service(program, "--log-json", "--log-requests", "alice", limit=LONG_LIMIT) as service:
        with service.phone("alice") as silent, service.phone("alice") as other:
            silent.ask("SIP/2.0 200 OK")
            service.running.lines_until(b'"what":"given_up"')
            other.ask("SIP/2.0 200 OK")
            service.running.lines_until(b'"what":"unanswered","address":"%s"' % other.me.encode())
            tags = [phone.dialogs[next(iter(phone.dialogs))].tag for phone in (silent, other)]
            log = records(service.close().err)
    same("who is given up", [(it.me, "NOTIFY", "alice", tag) for it, tag in zip((silent, other), tags)], [(it["address"], it["method"], it["mailbox"], it["tag"]) for it in of(log, "unanswered")])
    first, *more = of(log, "given_up")
    same("the first one", (1, silent.me, "alice", tags[0]), (first["more"], first["address"], first["mailbox"], first["tag"]))
    same("where the others were sent", [(1, other.me)], [(it["more"], it["address"]) for it in more])


def a_guesser_is_told(program, folder):
    with Service(program, "--log-json", "--passwords", password_file(folder), "--guesses", "1/1", "alice") as service:
        with Somewhere("127.0.0.2", service.sip, "alice") as guesser:
            caller = Caller(guesser)
            wrong = caller.right("wonder")
            caller.again(wrong, ASKED)
            caller.again(wrong, FORBIDDEN)
            at = guesser.me
        log = records(service.close().err)
    same("who is barred", [(at, "alice")], [(it["address"], it["user"]) for it in of(log, "barred")])
    same("what is counted", {"challenged", "barred"}, {it["counter"] for it in of(log, "counted")})


def courses_of_a_journal(program, folder):
    """What becomes of a journal, each time that a service begins."""
    place = os.path.join(folder, 'a "journal"\n')
    os.mkdir(place)
    courses, ports = [], (free_port(), free_port())
    for words in (("--workers", "1"), ("--workers", "1"), ("--workers", "1", "--max-time", "1800"), ("--workers", "2")):
        with Service(program, "--log-json", "--journal", place, *words, "alice", ports=ports) as service, service.operator() as operator:
            operator.counters()
            service.running.process.send_signal(signal.SIGKILL)
            log = records(service.running.end().err)
        courses.append([(it["folder"].endswith('a "journal"\\x0a'), it["course"]) for it in of(log, "journal")])
    same("what is told", [[], [(True, "goes_on")], [(True, "goes_on_renewed")], [(True, "ends_subscriptions")]], courses)
    for name in os.listdir(place):
        with open(os.path.join(place, name), "wb") as file:
            file.write(b"no journal")
    with Service(program, "--log-json", "--journal", place, "alice") as service:
        same("what is told of one that can't be read", ["unreadable"], [it["course"] for it in of(records(service.close().err), "journal")])
    with Service(program, "--log-json", "--journal", "/proc/none", "alice") as service:
        same("what is told of one that can't be written", ["unwritable"], [it["course"] for it in of(records(service.close().err), "journal")])


def other_machines_may_reach_it(program, folder):
    control = free_port()
    words = ["serve", "--log-json", "--listen", address(free_port()), "--control", f"0.0.0.0:{control}", "--receive-buffer", str(1 << 30), "alice"]
    with Running(program, words) as running:
        running.lines_until(b'"what":"control_reachable"')
        tell_close(program, running.process, "--control", address(control))
        log = records(running.end().err)
    same("the warning", [f"0.0.0.0:{control}"], [it["control"] for it in of(log, "control_reachable")])
    with open("/proc/sys/net/core/rmem_max", encoding="ascii") as limit:
        got = int(limit.read())
    wanted = [(option, got, 1 << 30) for option in ("--listen", "--control")] if got < 1 << 30 else []
    same("the room of the sockets", wanted, [(it["option"], it["octets"], it["asked"]) for it in of(log, "small_buffer")])


def no_service_runs(program, folder):
    """Why none runs is an object too, with the exit status."""
    missing = os.path.join(folder, 'no "file\x01')
    for words, status, text in (
        (["--port", "5060"], 1, "no such option: --port (notifyd serve --help lists them)"),
        (["--state", missing, "alice"], 3, "no such file, or it can't be read as UTF-8 text: "),
        ([], 1, "no mailbox: name some, or a file of them with --mailboxes <file>"),
    ):
        for all_words in ["--log-json", *words], [*words, "--log-json"]:
            ended = run(program, ["serve", *all_words])
            same(f"the exit status of {all_words}", status, ended.status)
            (told,) = records(ended.err)
            same("what is told", (status, True), (told["status"], told["text"].startswith(text)))
    same("a name in it", True, told is not None and run(program, ["serve", "--log-json", "--state", missing, "alice"]).err.count(b"\\\\x01") == 1)


def receives_fail(program, folder):
    """Receives that fail are told, with the system's words."""
    with Failing(program, "error=ENOBUFS:when=3+4", "--log-json", "alice") as service:
        service.running.lines_until(b'"what":"receive_failed"')
        log = records(service.close().err)
    failed = of(log, "receive_failed")
    same("where", True, {it["address"] for it in failed} <= {address(service.sip), address(service.control)})
    same("why", {"No buffer space available (os error 105)"}, {it["cause"] for it in failed})


def sends_fail(program, folder):
    """A NOTIFY that can't be sent is told at the end, with the system's words: it is sent again."""
    sip, control = free_port(), free_port()
    words = ["serve", "--log-json", "--listen", address(sip), "--control", address(control), "alice"]
    with Traced(program, "sendto", "error=ENETUNREACH:when=2", words) as running:
        running.lines_until(b"listening")
        with Phone(sip, "alice") as phone, Operator(control) as operator:
            phone.leave(phone.subscribe(), NO_MESSAGES)
            operator.tell("CLOSE")  # which is sent once: a second answer to it would fail too
        log = records(running.end().err)
    wanted = [("failed", 1, "Network is unreachable (os error 101)")]
    same("what is told", wanted, [(it["counter"], it["more"], it["cause"]) for it in of(log, "not_done")])


def the_plain_form_is_the_default(program, folder):
    """`script` and `udp` know no such option."""
    same("script", 1, run(program, ["script", "--log-json", "1", "alice"]).status)
    same("udp", 1, run(program, ["udp", "--log-json", str(free_port()), str(free_port()), "1", "1", "alice"]).status)
    with Service(program, "alice") as service:
        lines = service.close().err.splitlines()
    same("whether each line is plain", True, all(line.startswith(b"notifyd: ") for line in lines))


def checks():
    yield "serve --log-json: the first line, answers, counters, and the last line", begins_and_ends
    yield "serve --log-json: no name forges a line", no_name_forges_a_line
    yield "serve --log-json: NOTIFYs that nobody answers", nobody_answers
    yield "serve --log-json: whose password isn't looked at", a_guesser_is_told
    yield "serve --log-json: what becomes of a journal", courses_of_a_journal
    yield "serve --log-json: other machines may reach it, and a socket has less room", other_machines_may_reach_it
    yield "serve --log-json: why no service runs", no_service_runs
    if can_trace():
        yield "serve --log-json: what can't be sent", sends_fail
        yield "serve --log-json: receives that fail", receives_fail
    yield "serve: without --log-json each line is plain", the_plain_form_is_the_default
    yield "serve: no name breaks a plain line", no_name_breaks_a_plain_line
