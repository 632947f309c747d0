"""The window of `contrib/notifyd-exporter`: what it says of a service that a check makes up and of the program, who may ask it, that it
changes nothing, and that nobody is held up by whoever is slow. What a browser makes of its page `field/window.py` tries."""

import base64
import hashlib
import http.client
import json
import os
import re
import shutil
import signal
import socket
import time
import urllib.parse

from contrib import COUNTERS, VALUES, values
from desk import Desk, Watched
from service import Service, address
from suite import LONG_LIMIT, Ended, Running, free_port, run, same

TOP = os.path.dirname(os.path.dirname(os.path.abspath(__file__)))

EXPORTER = os.path.join(TOP, "contrib", "notifyd-exporter")

# Seconds for what takes a moment, and for what is looked at each two seconds and told at the second look: far more than either takes, since
# the machine may be busy.
SOON, LOOKS = 10, 60

# Places of the exporter, and the seconds that it gives a request.
AT_ONCE, LIMIT = 64, 10

PASSWORD = "correct horse"

# What may be asked of a service that nobody may change.
QUESTIONS = re.compile(r"STATUS|WATCHERS \*( \d+)?|DUMP( \S+)?")

PLACES = ["/", "/metrics", "/healthz", "/status.json", "/history.json", "/watchers.json", "/mailboxes.json"]


class Exporter:
    """An exporter over the service at this control port, which ends well at TERM. Used in a `with`."""

    def __init__(self, control, *words, program=EXPORTER, port=0, limit=LONG_LIMIT):
        self.running = Running(program, ["--listen", f"127.0.0.1:{port}", "--control", f"127.0.0.1:{control}", *words], limit)

    def __enter__(self):
        self.running.__enter__()
        said = self.running.lines_until(b"listening at").decode()
        self.port = int(re.search(r"http://127\.0\.0\.1:(\d+)/", said)[1])
        self.said, self.place = said, f"http://127.0.0.1:{self.port}/"
        return self

    def __exit__(self, kind, *_):
        if kind is None:
            self.running.process.send_signal(signal.SIGTERM)
            ended = self.running.end()
            same("the end of the exporter", (0, b"", self.said), (ended.status, ended.out, ended.err.decode()))
        self.running.__exit__()

    def ask(self, place, method="GET", body=None, **lines):
        """The answer at this place, with its text as `text`."""
        connection = http.client.HTTPConnection("127.0.0.1", self.port, timeout=LOOKS)
        connection.request(method, place, body, {name.replace("_", "-"): value for name, value in lines.items()})
        answer = connection.getresponse()
        answer.text = answer.read().decode()
        connection.close()
        return answer

    def status(self, place, **how):
        return self.ask(place, **how).status

    def json(self, place, **query):
        """What is told at this place, once something is known to tell."""
        until = time.monotonic() + LOOKS
        while True:
            answer = self.ask(f"{place}?{urllib.parse.urlencode(query)}")
            same(f"status and kind of {place}", (200, "application/json; charset=utf-8"), (answer.status, answer.getheader("Content-Type")))
            told = json.loads(answer.text)
            if told.get("survey") != 0 or told["why"] or time.monotonic() > until:
                return told

    def raw(self, octets):
        """All that is answered to these bytes."""
        with socket.create_connection(("127.0.0.1", self.port), timeout=LOOKS) as own:
            own.sendall(octets)
            found = b""
            while came := own.recv(65535):
                found += came
        return found


def becomes(what, ask, wanted, seconds=LOOKS):
    """Waits until an answer is the wanted one."""
    until = time.monotonic() + seconds
    while (came := ask()) != wanted and time.monotonic() < until:
        time.sleep(0.1)
    same(what, wanted, came)


def rows_of(exporter, **query):
    return exporter.json("/watchers.json", **query)["rows"]


def a_page_of_metrics(program, folder):
    """Both write the same families: of the exporter the seconds of the answer come to them."""
    with Desk() as desk, Exporter(desk.port) as exporter:
        desk.status = COUNTERS.decode()
        answer = exporter.ask("/metrics")
        same("status and kind", (200, "text/plain; version=0.0.4; charset=utf-8"), (answer.status, answer.getheader("Content-Type")))
        told = values(answer.text.encode())
        same("whether the answer took a while", True, 0 < float(told.pop("notifyd_scrape_seconds")) < SOON)
        same("the values", VALUES, told)
    env = {**os.environ, "NOTIFYD_TELL": f"printf {COUNTERS.decode()!r}", "NOTIFYD_CONTROL": ""}
    ended = run(os.path.join(TOP, "contrib", "notifyd-metrics"), env=env)
    same("the values of notifyd-metrics", (0, VALUES), (ended.status, values(ended.out)))


def a_service_that_is_not_there(program, folder):
    with Exporter(free_port()) as exporter:
        began = time.monotonic()
        same("the metrics", {"notifyd_reachable": "0"}, values(exporter.ask("/metrics").text.encode()))
        same("whether that is said soon", True, time.monotonic() - began < SOON)
        same("the status of /healthz", 503, exporter.status("/healthz"))
        told = exporter.json("/status.json")
        same("whether it is reachable, and why not", (False, "Connection refused", {}), (told["reachable"], told["why"], told["counters"]))
        told = exporter.json("/watchers.json")
        same("what is known of watchers", (0, None, []), (told["survey"], told["age"], told["rows"]))


def a_service_goes_and_comes(program, folder):
    """It is silent for a while, goes, and is there again at the same port, begun anew."""
    with Desk([Watched(0, "alice")]) as desk, Exporter(desk.port) as exporter:
        becomes("the status of /healthz", lambda: exporter.status("/healthz"), 200)
        becomes("who watches", lambda: [it["mailbox"] for it in rows_of(exporter)], ["alice"])
        desk.is_silent = True
        same("the metrics", {"notifyd_reachable": "0"}, values(exporter.ask("/metrics").text.encode()))
        becomes("the status of /healthz", lambda: exporter.status("/healthz"), 503)
        since = exporter.json("/status.json")["silent_since"]
        same("whether the moment is told", True, 0 < time.time() - since < LOOKS)
        same("who is known to watch", ["alice"], [it["mailbox"] for it in rows_of(exporter)])
        becomes("why nothing newer is known", lambda: exporter.json("/watchers.json")["why"], "no answer")
    desk_again = Desk([Watched(1, "bob")], port=desk.port, up=1)
    with Exporter(desk.port) as exporter:
        becomes("the status of /healthz", lambda: exporter.status("/healthz"), 503)
        with desk_again:
            becomes("the status of /healthz", lambda: exporter.status("/healthz"), 200)
            becomes("who watches", lambda: [it["mailbox"] for it in rows_of(exporter)], ["bob"])


def the_last_hour(program, folder):
    with Desk(live=7, notifies=100, answers_404=5, per_source=0, forbidden=3, answers_503=0) as desk, Exporter(desk.port) as exporter:
        becomes("whether there are two samples", lambda: len(exporter.json("/history.json")["samples"]) >= 2, True)
        told = exporter.json("/history.json")
        same("the names", ["number", "moment", "up", "live", "notifies", "repeats", "given_up", "refused"], told["names"])
        first, second, *_ = told["samples"]
        same("numbers and values", ([1, 7, 100, 5, 3, 8], 2), ([first[0], *first[3:]], second[0]))
        same("the seconds between", True, 1 < second[1] - first[1] < SOON)
        same("what comes behind the first", [second], exporter.json("/history.json", since=1)["samples"][:1])
        told = exporter.json("/status.json")
        same("a counter, and what was refused", (100, 8), (told["counters"]["notifies"], told["refused"]))


def watchers_in_pages(program, folder):
    """1,203 phones in pages, however they are chosen, each once and in one order."""
    rows = [Watched(number, f"box{number % 400:03}", 2, 2, " code=200 repeats=1") for number in range(1203)]
    with Desk(rows) as desk, Exporter(desk.port) as exporter:
        found, begin = [], 0
        while begin is not None:
            told = exporter.json("/watchers.json", **{"from": begin, "count": 500})
            same("where the page begins, and how many there are", (begin, 1203), (told["from"], told["total"]))
            found, begin = found + told["rows"], told["next"]
        same("all of them", sorted(it.tag for it in rows), sorted(it["tag"] for it in found))
        same("their order", sorted(found, key=lambda it: (it["mailbox"], it["address"])), found)
        row = next(it for it in rows if it.tag == found[0]["tag"])
        wanted = {"mailbox": "box000", "user": row.user, "address": row.address, "tag": row.tag}
        wanted |= {"sent": 2, "answered": 2, "age": row.age, "left": row.left}
        wanted |= {"state": "well", "silent": 0, "more": {"code": "200", "repeats": "1"}}
        same("a row", wanted, found[0])
        same("fields beyond those", ["code", "repeats"], told["fields"])
        same("rows of a page where nothing is said", 100, len(rows_of(exporter)))
        same("rows of a page at most", 500, len(rows_of(exporter, count=100000)))
        same("rows of a mailbox", 4, exporter.json("/watchers.json", mailbox="box001")["total"])
        same("rows of none", ([], None), tuple(exporter.json("/watchers.json", mailbox="box").get(name) for name in ("rows", "next")))
        same("rows by words", {"box077"}, {it["mailbox"] for it in rows_of(exporter, search="10.0. BOX077")})
        same("rows by a tag", [rows[9].tag], [it["tag"] for it in rows_of(exporter, search=rows[9].tag)])
        same("rows by an address", [rows[700].tag], [it["tag"] for it in rows_of(exporter, search=rows[700].address)])
        same("the place of a row", 250, exporter.json("/watchers.json", anchor=found[250]["tag"])["anchor"])
        same("behind the last one", ([], None), tuple(exporter.json("/watchers.json", **{"from": 5000}).get(name) for name in ("rows", "next")))
        for bad in "from=x", "from=-1", "count=1e3", "from=99999999999":
            same(f"the status of {bad}", 400, exporter.status(f"/watchers.json?{bad}"))


def phones_fall_behind(program, folder):
    """A phone that doesn't answer is behind at the second look. Where its row goes it stays as gone, until it comes back."""
    rows = [Watched(number, "alice", 3, 3) for number in range(3)]
    with Desk(rows) as desk, Exporter(desk.port) as exporter:
        def states():
            return [(it["address"], it["state"]) for it in rows_of(exporter, state="behind,gone")]

        same("who is behind at first", [], states())
        rows[2].sent = 4
        becomes("who is behind", states, [(rows[2].address, "behind")])
        same("who is first of all", rows[2].address, rows_of(exporter)[0]["address"])
        told = exporter.json("/watchers.json", state="behind")
        same("how many are how", ({"behind": 1, "gone": 0, "refuses": 0, "waiting": 0, "well": 2}, 1), (told["states"], told["total"]))
        same("how the mailbox is", (3, 1), tuple(exporter.json("/mailboxes.json")["mailboxes"][0][name] for name in ("watchers", "behind")))
        desk.rows = rows[:2]
        becomes("who is gone", states, [(rows[2].address, "gone")])
        again = Watched(2, "alice")
        again.tag = "w0-99-new"
        desk.rows = [*rows[:2], again]
        becomes("who is behind or gone", states, [])
        rows[0].sent = 5
        becomes("who is behind", states, [(rows[0].address, "behind")])
        rows[0].answered = 5
        becomes("who is behind once it answered", states, [])


def phones_refuse(program, folder):
    """A phone that refuses what it is told isn't well, though it answers, until it takes the next NOTIFY."""
    rows = [Watched(number, "alice", 3, 3, f" code={code}") for number, code in enumerate((200, 603, 403, 0))]
    with Desk(rows) as desk, Exporter(desk.port) as exporter:
        def states():
            return [(it["address"], it["state"]) for it in rows_of(exporter)]

        well = [(it.address, "well") for it in rows]
        refuse = [(it.address, "refuses") for it in rows]
        becomes("who refuses", states, [refuse[1], refuse[2], well[0], well[3]])
        rows[2].more = " code=200"
        becomes("who refuses", states, [refuse[1], well[0], well[2], well[3]])


def a_restart_forgets_who_was_behind(program, folder):
    rows = [Watched(number, "alice", 3, 3 - number) for number in range(2)]
    with Desk(rows) as desk, Exporter(desk.port) as exporter:
        becomes("how many are behind", lambda: exporter.json("/watchers.json")["states"]["behind"], 1)
        desk.rows, desk.counters["up"] = [], 1
        becomes("who is told", lambda: exporter.json("/watchers.json")["rows"], [])


def a_service_that_is_busy(program, folder):
    """It is asked once more, and then left alone for a while; meanwhile the page says so, and shows what was known."""
    with Desk([Watched(0, "alice")]) as desk:
        desk.busy = 1
        with Exporter(desk.port) as exporter:
            becomes("who watches", lambda: [it["mailbox"] for it in rows_of(exporter)], ["alice"])
            desk.busy = 1000
            becomes("why nothing newer is known", lambda: exporter.json("/watchers.json")["why"], "busy")
            same("who watches", ["alice"], [it["mailbox"] for it in rows_of(exporter)])
            asked = 1000 - desk.busy
            time.sleep(3)
            same("whether it is left alone", True, 1000 - desk.busy - asked <= 2)
            same("whether it is reachable", 200, exporter.status("/healthz"))
            desk.busy = 0
            becomes("what is known again", lambda: exporter.json("/watchers.json")["why"], None)


def a_service_that_is_busy_later(program, folder):
    """Where a page behind the first isn't told, it is asked for again some times: what the others told isn't lost."""
    rows = [Watched(number, f"m{number}") for number in range(400)]
    with Desk(rows) as desk:
        desk.busy_later = 3
        with Exporter(desk.port) as exporter:
            becomes("how many watch", lambda: exporter.json("/watchers.json")["total"], len(rows))
            same("how often it is busy yet", 0, desk.busy_later)
            desk.busy_later = 1000
            becomes("why nothing newer is known", lambda: exporter.json("/watchers.json")["why"], "busy")
            same("how many watch", len(rows), exporter.json("/watchers.json")["total"])


def mailboxes_in_pages(program, folder):
    mails = [line for number in range(900) for line in (f"MAIL m{number:03} voice {number % 2} 4 0 1\n", f"MAIL m{number:03} fax 0 0 0 0\n")]
    with Desk([Watched(number, f"m{number % 2:03}") for number in range(3)] + [Watched(9, "untold")], mails) as desk, Exporter(desk.port) as exporter:
        told = exporter.json("/mailboxes.json", count=2)
        wanted = [{"mailbox": f"m00{number}", "counts": {"voice": [number, 4, 0, 1], "fax": [0, 0, 0, 0]}, "watchers": 2 - number, "behind": 0} for number in range(2)]
        same("the first ones", (wanted, 2, 901, 901), (told["mailboxes"], told["next"], told["total"], told["all"]))
        told = exporter.json("/mailboxes.json", search="untold")
        same("one that nothing was told of", [{"mailbox": "untold", "counts": {}, "watchers": 1, "behind": 0}], told["mailboxes"])
        same("the last one", ["untold"], [it["mailbox"] for it in exporter.json("/mailboxes.json", **{"from": 900})["mailboxes"]])


def texts_of_strangers(program, folder):
    """Whatever a name has in it, an answer has nothing but ASCII, and says that it is JSON."""
    name = '<img/src=x>&"\'\\\x85\u202e\u2066\ufeffא'
    rows = [Watched(0, name), Watched(1, "\udcff"), Watched(2, "a", more=" code=200 <b>=1 x")]
    with Desk(rows, [f"MAIL {name} voice 1 0 0 0\n", "MAIL short voice 1\n"]) as desk, Exporter(desk.port) as exporter:
        found = {it["mailbox"]: it for it in rows_of(exporter)}
        same("the names", {name, "\ufffd", "a"}, set(found))
        same("what is no field", {"code": "200"}, found["a"]["more"])
        for place in "/watchers.json", "/mailboxes.json":
            answer = exporter.ask(place)
            same(f"whether {place} is ASCII", True, answer.text.isascii() and "\x7f" not in answer.text)
            same("how it is to be read", "nosniff", answer.getheader("X-Content-Type-Options"))
        same("what it holds", {"voice": [1, 0, 0, 0]}, exporter.json("/mailboxes.json", search="<IMG")["mailboxes"][0]["counts"])


def the_page_and_its_policy(program, folder):
    """The policy lets the page run its own script alone, and make no markup of texts; and it has nothing that would."""
    with Exporter(free_port()) as exporter:
        answer = exporter.ask("/")
        policy = dict(it.strip().split(" ", 1) for it in answer.getheader("Content-Security-Policy").split(";"))
        for kind, element in ("script-src", "script"), ("style-src", "style"):
            texts = re.findall(rf"<{element}>(.*?)</{element}>", answer.text, re.S)
            hashes = [f"'sha256-{base64.b64encode(hashlib.sha256(it.encode()).digest()).decode()}'" for it in texts]
            same(f"what {kind} allows", (1, " ".join(hashes)), (len(texts), policy[kind]))
        for name in "default-src", "frame-ancestors", "base-uri", "form-action", "trusted-types":
            same(f"what {name} allows", "'none'", policy[name])
        same("what else it allows", ("'self'", "'script'"), (policy["connect-src"], policy["require-trusted-types-for"]))
        page = answer.text.replace("http://www.w3.org/2000/svg", "")
        for word in "innerHTML", "outerHTML", "insertAdjacentHTML", "document.write", "eval(", "onclick=", " style=", "http:", "https:", "//cdn":
            same(f"how often the page has {word}", 0, page.count(word))
        same("the page is itself", True, answer.text.startswith("<!DOCTYPE html>") and answer.status == 200)
        for place in PLACES:
            names = {it.lower() for it in exporter.ask(place).headers}
            same(f"what {place} says to other sites", [], [it for it in names if it.startswith("access-control")])
            same(f"what is missing at {place}", set(), {"content-security-policy", "x-content-type-options", "cache-control"} - names)


def without_its_page(program, folder):
    """The one file is installed alone: all but the page is there."""
    alone = shutil.copy(EXPORTER, os.path.join(folder, "notifyd-exporter"))
    with Exporter(free_port(), program=alone) as exporter:
        same("what is said", True, "no page: " in exporter.said)
        same("status of the page and of the metrics", (404, 200), (exporter.status("/"), exporter.status("/metrics")))
    shared = os.path.join(folder, "share", "notifyd")
    os.makedirs(shared)
    os.makedirs(os.path.join(folder, "bin"))
    shutil.copy(os.path.join(TOP, "contrib", "notifyd-window.html"), shared)
    with Exporter(free_port(), program=shutil.copy(EXPORTER, os.path.join(folder, "bin"))) as exporter:
        same("status of the page in share", 200, exporter.status("/"))


def other_sites(program, folder):
    """Who calls it by a name that isn't its own, or asks for another site's page, gets nothing."""
    with Desk() as desk, Exporter(desk.port, "--name", "PBX.example") as exporter:
        own = f"127.0.0.1:{exporter.port}"
        for host, wanted in (
            (own, 200), ("127.0.0.1", 200), ("localhost:8080", 200), ("LocalHost", 200), ("[::1]:9160", 200), ("192.0.2.1:9160", 200),
            ("pbx.example:9160", 200), ("evil.example", 421), (f"evil.example:{exporter.port}", 421), ("127.0.0.1.evil.example", 421),
            ("localhost.evil.example", 421), ("127.0.0.1@evil.example", 421), ("", 421), ("127.0.0.1:9160:1", 421), ("[::1", 421),
        ):
            for place in "/", "/metrics", "/watchers.json", "/nothing":
                same(f"the status of {place} at {host}", wanted if place != "/nothing" or wanted != 200 else 404, exporter.status(place, Host=host))
        origins = {f"http://{own}": 200, f"https://{own}": 200, "http://evil.example": 403, "null": 403, f"http://{own}.evil.example": 403, "": 403}
        for origin, wanted in origins.items():
            same(f"the status for {origin}", wanted, exporter.status("/status.json", Origin=origin))
        for site, mode, place, wanted in (
            ("cross-site", "no-cors", "/watchers.json", 403), ("same-site", "cors", "/watchers.json", 403), ("cross-site", "no-cors", "/", 403),
            ("same-origin", "cors", "/watchers.json", 200), ("none", "navigate", "/watchers.json", 200), ("cross-site", "navigate", "/", 200),
        ):
            same(f"the status for {site} {mode} at {place}", wanted, exporter.status(place, Sec_Fetch_Site=site, Sec_Fetch_Mode=mode))
        for head in b"GET /metrics HTTP/1.0\r\n\r\n", b"GET /metrics HTTP/1.1\r\nHost: localhost\r\nHost: evil.example\r\n\r\n":
            same("the answer", b"HTTP/1.0 400 ", exporter.raw(head)[:13])


def nothing_is_changed(program, folder):
    """Whatever is asked for, the service hears questions alone."""
    with Desk([Watched(0, "alice")], ["MAIL alice voice 1 0 0 0\n"]) as desk, Exporter(desk.port) as exporter:
        body = json.dumps({"mailbox": "alice", "new": 1, "password": PASSWORD})
        for place in [*PLACES, "/mail", "/nothing"]:
            for method in "POST", "PUT", "DELETE", "PATCH", "OPTIONS", "TRACE", "CONNECT", "BREW":
                status = exporter.status(place, method=method, body=body, Content_Type="application/json")
                same(f"whether {method} of {place} is refused", True, 400 <= status < 600)
        same("what a POST is told", "nothing is changed here: --read-write is not said\n", exporter.ask("/mail", method="POST").text)
        same("the status of a GET", 405, exporter.status("/mail"))
        for line in "MAIL alice voice 9 0 0 0", "CLOSE", "x\nMAIL alice voice 9 0 0 0", "x\r\nCLOSE":
            for name in "mailbox", "search", "state", "from", "count", "anchor", "since":
                for place in "/watchers.json", "/mailboxes.json", "/history.json":
                    exporter.status(f"{place}?{name}={urllib.parse.quote(line)}")
        exporter.raw(b"GET /CLOSE HTTP/1.0\r\nHost: localhost\r\n\r\nCLOSE\n")
        answer = exporter.ask("/metrics", method="HEAD")
        same("a HEAD", (200, ""), (answer.status, answer.text))
        same("what is heard but questions", [], [it for it in desk.heard if not QUESTIONS.fullmatch(it)])


def password_file(folder, text=PASSWORD, mode=0o600):
    place = os.path.join(folder, "password")
    with open(place, "w", encoding="utf-8") as file:
        file.write(f"{text}\n")
    os.chmod(place, mode)
    return place


def a_lamp_is_turned_on(program, folder):
    """By who knows the password, from this page or from none."""
    with Desk() as desk, Exporter(desk.port, "--read-write", "--password-file", password_file(folder)) as exporter:
        def tell(also=(), kind="application/json", **lines):
            told = {"mailbox": "alice", "new": 1, "password": PASSWORD, **dict(also)}
            return exporter.ask("/mail", method="POST", body=json.dumps(told), Content_Type=kind, **lines)

        def mails():
            return [it.split(" ", 1) for it in desk.heard if "MAIL" in it]

        same("what is said", True, "may change it by the password" in exporter.said)
        same("whether it may", True, exporter.json("/status.json")["read_write"])
        answer = tell()
        same("status and text", (200, "ok\n"), (answer.status, answer.text))
        same("what is heard", True, re.fullmatch("@[0-9a-f]{16}", mails()[0][0]) is not None and mails()[0][1] == "MAIL alice voice 1 0 0 0")
        same("with all counts", 200, tell({"mailbox": "é\u202e", "class": "fax", "new": 3, "old": 8, "urgent_new": 1, "urgent_old": 2}).status)
        same("what is heard", "MAIL é\u202e fax 3 8 1 2", mails()[1][1])
        for also, wanted in (
            ({"mailbox": "a b"}, 400), ({"mailbox": "a\nCLOSE"}, 400), ({"mailbox": ""}, 400), ({"mailbox": None}, 400), ({"mailbox": "a" * 256}, 400),
            ({"mailbox": "\ud800"}, 400), ({"class": "smoke"}, 400), ({"new": -1}, 400), ({"new": 1 << 32}, 400), ({"new": "1"}, 400), ({"new": 1.0}, 400),
            ({"new": True}, 400), ({"urgent_new": 2}, 400), ({"urgent_old": 1}, 400), ({"more": "x" * 4096}, 413),
        ):
            same(f"the status of {also}", wanted, tell(also).status)
        for body in "[" * 4000, "[1]", "MAIL alice voice 1 0 0 0", "":
            same("the status of no such body", 400, exporter.status("/mail", method="POST", body=body, Content_Type="application/json"))
        same("the status of a form", 415, tell(kind="text/plain").status)
        same("the status for another site", 403, tell(Origin="http://evil.example").status)
        same("the status at another name", 421, tell(Host="evil.example").status)
        same("the status elsewhere", 405, exporter.status("/metrics", method="POST"))
        same("a wrong password, and the next one at once", (403, 429), (tell({"password": "wrong horse"}).status, tell().status))
        time.sleep(1.1)
        same("a password that is none", 403, tell({"password": None}).status)
        time.sleep(1.1)
        same("the right one later", 200, tell().status)
        same("lines that are heard", 3, len(mails()))


def slow_clients(program, folder):
    """More of them than there are places: some say nothing, some say a byte now and then, some read nothing. All others are answered, and
    each of these is gone behind its time."""
    rows = [Watched(number, "m" * 200) for number in range(600)]
    with Desk(rows) as desk, Exporter(desk.port) as exporter:
        exporter.json("/watchers.json")
        slow = [socket.create_connection(("127.0.0.1", exporter.port)) for _ in range(AT_ONCE + 30)]
        began = time.monotonic()
        for number, it in enumerate(slow):
            it.settimeout(30)
            if number % 3 == 1:
                it.sendall(b"GET /metrics HTTP/1.1\r\nHost: loc")
            elif number % 3 == 2:
                it.sendall(b"GET /watchers.json?count=500 HTTP/1.1\r\nHost: localhost\r\n\r\n")
        time.sleep(1.2)
        while time.monotonic() - began < LIMIT - 1:
            asked = time.monotonic()
            same("the status of /metrics meanwhile", 200, exporter.status("/metrics"))
            same("whether it is answered soon", True, time.monotonic() - asked < SOON)
            for it in slow[1::3]:
                try:
                    it.send(b"x")
                except OSError:
                    pass
            time.sleep(0.3)
        for it in slow:
            try:
                while it.recv(1 << 20):
                    pass
            except ConnectionError:
                pass
            it.close()
        same("whether all are gone behind their time", True, time.monotonic() - began < LIMIT + 2 * SOON)


def bad_requests(program, folder):
    with Desk() as desk, Exporter(desk.port) as exporter:
        for octets in (
            b"\r\n\r\n", b"\x16\x03\x01\x02\x00\x01\x00\x01\xfc\x03\x03\r\n", b"GET\r\n\r\n", b"GET /metrics HTTP/9\r\n\r\n", b"GET /metrics\r\n\r\n",
            b"GET / HTTP/1.1\r\nHost: localhost\r\nA: " + b"a" * 20_000 + b"\r\n\r\n", b"GET /" + b"a" * 70_000 + b" HTTP/1.1\r\n\r\n",
            b"GET / HTTP/1.1\r\nHost: localhost\r\n" + b"A: b\r\n" * 200 + b"\r\n", b"GET /%00%ff?%ff=%ff&a HTTP/1.1\r\nHost: localhost\r\n\r\n",
            b"GET //evil.example/ HTTP/1.1\r\nHost: localhost\r\n\r\n", b"GET http://evil.example/metrics HTTP/1.1\r\nHost: localhost\r\n\r\n",
            b"GET /../../etc/passwd HTTP/1.1\r\nHost: localhost\r\n\r\n", b"GET /watchers.json?" + b"a=b&" * 100 + b" HTTP/1.1\r\nHost: localhost\r\n\r\n",
        ):
            try:
                answer = exporter.raw(octets)
            except ConnectionError:
                answer = b""
            same(f"whether {octets[:60]} is refused", True, not answer or re.match(rb"HTTP/1.0 [45]\d\d |a Host line is needed|Bad ", answer) is not None)
            same("whether a stranger's text comes back", False, b"evil" in answer or b"aaaa" in answer)
        same("the status of /metrics behind all that", 200, exporter.status("/metrics"))


def bad_words(program, folder):
    good = password_file(folder)
    for words, status, said in (
        (["--listen", "9160"], 1, "no a.b.c.d:port: 9160"),
        (["--listen", "127.0.0.1:65536"], 1, "no a.b.c.d:port: 127.0.0.1:65536"),
        (["--control", "localhost:5061"], 1, "no a.b.c.d:port: localhost:5061"),
        (["--password", PASSWORD], 1, "unrecognized arguments: --password"),
        (["--read-write"], 1, "--read-write and --password-file belong together"),
        (["--password-file", good], 1, "--read-write and --password-file belong together"),
        (["--read-write", "--password-file", f"{folder}/nowhere"], 3, "No such file or directory"),
        (["alice"], 1, "unrecognized arguments: alice"),
        (["--listen", "127.0.0.1:0", "--textfile"], 1, "--textfile stands alone"),
        (["--textfile", "a.prom", "--control"], 1, "--textfile stands alone"),
        (["--textfile", "--control"], 1, "--textfile stands alone"),
    ):
        ended = run(EXPORTER, words)
        same(f"status and output of {words}", (status, b""), (ended.status, ended.out))
        same(f"whether {ended.err} says {said}", True, re.search(said, ended.err.decode()) is not None)
    words = ["--read-write", "--password-file", password_file(folder, mode=0o604)]
    same("its end", Ended(1, b"", f"notifyd-exporter: everybody may read {good}: chmod 600\n".encode()), run(EXPORTER, words))
    words = ["--read-write", "--password-file", password_file(folder, "short")]
    said = f"notifyd-exporter: the password in {good} has fewer than 8 characters\n".encode()
    same("its end", Ended(1, b"", said), run(EXPORTER, words))
    with Exporter(free_port()) as exporter:
        place = f"127.0.0.1:{exporter.port}"
        same("its end", Ended(3, b"", f"notifyd-exporter: {place}: Address already in use\n".encode()), run(EXPORTER, ["--listen", place]))
        same("what is said of who reaches it", True, "this machine alone reaches it" in exporter.said)
    with Running(EXPORTER, ["--listen", "0.0.0.0:0"]) as running:
        same("what is said of who reaches it", True, b"ALL who reach this address see who watches what" in running.lines_until(b"listening at"))


def families():
    """The names of the families, as the exporter has them."""
    with open(EXPORTER, encoding="utf-8") as file:
        text = file.read()
    found = re.findall(r'^    (gauge|counter|labelled)\("(\w+)"', text, re.M)
    return {f"notifyd_{name}" + ("" if kind == "gauge" else "_total") for kind, name in found}


def is_a_family(counter):
    """Whether a family, or one by its labels, has this counter of STATUS."""
    names = {f"notifyd_{counter}{ending}" for ending in ("", "_total", "_seconds")}
    return bool(names & families()) or re.match("(answers|notifies_refused)_([0-9]|other)|unread", counter) is not None


def a_dashboard_of_the_families(program, folder):
    """Grafana's dashboard asks for what there is, and leaves none out."""
    with open(os.path.join(TOP, "contrib", "grafana.json"), encoding="utf-8") as file:
        board = json.load(file)
    panels = [it for it in board["panels"] if it["type"] != "row"]
    asked = {name for panel in panels for target in panel["targets"] for name in re.findall(r"notifyd_\w+", target["expr"])}
    same("the families", families(), asked)
    same("panels with an identity of their own", len(board["panels"]), len({it["id"] for it in board["panels"]}))
    for panel in panels:
        box = panel["gridPos"]
        same(f"place and source of {panel['title']}", (True, "${source}"), (box["x"] + box["w"] <= 24, panel["datasource"]["uid"]))
        same(f"references in {panel['title']}", len(panel["targets"]), len({it["refId"] for it in panel["targets"]}))
    boxes = [(it["gridPos"], it["title"]) for it in board["panels"]]
    for at, (one, title) in enumerate(boxes):
        for other, name in boxes[at + 1 :]:
            is_beside = any(it["x"] + it["w"] <= its["x"] or it["y"] + it["h"] <= its["y"] for it, its in ((one, other), (other, one)))
            same(f"whether {title} and {name} stand apart", True, is_beside)


# What Grafana's schema of a dashboard (its version 38) knows, as far as this one has it: keys, and the values of those that are words.
BOARD = {
    "title", "uid", "tags", "timezone", "editable", "graphTooltip", "refresh", "time", "schemaVersion", "version", "annotations", "templating", "panels",
}
PANEL = {"id", "type", "title", "description", "datasource", "gridPos", "fieldConfig", "options", "targets"}
FIELD = {"unit", "min", "max", "decimals", "color", "thresholds", "mappings", "custom", "noValue"}
VARIABLES = {"datasource", "query"}
COLORS = {"thresholds", "palette-classic", "palette-classic-by-name", "fixed"}
UNITS = {"short", "s", "ops", "bytes"}
REDUCERS = {"lastNotNull", "last", "max", "min", "mean", "sum"}
BUILT_IN = {"__rate_interval", "__interval", "__range"}


def known(what, allowed, came):
    same(f"words that Grafana doesn't know in {what}", set(), set(came) - allowed)


def a_panel_of_the_schema(panel, variables):
    name, defaults = panel["title"], panel["fieldConfig"]["defaults"]
    known(name, PANEL, panel)
    known(f"defaults of {name}", FIELD, defaults)
    same(f"overrides of {name}", [], panel["fieldConfig"]["overrides"])
    known(f"unit and colour of {name}", UNITS | COLORS, {defaults["unit"], *([defaults["color"]["mode"]] if "color" in defaults else [])})
    same(f"type and identity of {name}", (True, True), (panel["type"] in ("stat", "timeseries"), type(panel["id"]) is int and panel["id"] > 0))
    box = panel["gridPos"]
    same(f"place of {name}", True, set(box) == set("xywh") and all(type(it) is int for it in box.values()) and min(box["w"], box["h"]) > 0 <= min(box["x"], box["y"]))
    if "thresholds" in defaults:
        first, *others = [it["value"] for it in defaults["thresholds"]["steps"]]
        same(f"thresholds of {name}", ("absolute", None, sorted(others)), (defaults["thresholds"]["mode"], first, others))
    if panel["type"] == "stat":
        known(f"calculations of {name}", REDUCERS, panel["options"]["reduceOptions"]["calcs"])
    for target in panel["targets"]:
        same(f"a target of {name}", (True, panel["datasource"]), (bool(re.fullmatch("[A-Z]", target["refId"])), target["datasource"]))
        known(f"variables of {name}", variables | BUILT_IN, re.findall(r"\$\{?(\w+)", target["expr"]))
        same(f"parentheses of {name}", [target["expr"].count(it) for it in "({["], [target["expr"].count(it) for it in ")}]"])


def a_dashboard_of_the_schema(program, folder):
    """What Grafana reads of a dashboard, as far as its schema says it; and each query fits the kind of its family."""
    with open(os.path.join(TOP, "contrib", "grafana.json"), encoding="utf-8") as file:
        board = json.load(file)
    known("the dashboard", BOARD, board)
    told = board["schemaVersion"] >= 36, board["graphTooltip"] in (0, 1, 2), board["timezone"] in ("browser", "utc", ""), set(board["time"])
    same("version, tooltip, zone and time", (True, True, True, {"from", "to"}), told)
    variables = board["templating"]["list"]
    known("variables", VARIABLES, {it["type"] for it in variables})
    same("the first variable, which the others ask", ("source", "datasource", "prometheus"), tuple(variables[0][it] for it in ("name", "type", "query")))
    same("how often variables are asked anew", {None, 2}, {it.get("refresh") for it in variables})
    for panel in board["panels"]:
        a_panel_of_the_schema(panel, {it["name"] for it in variables})
        for target in panel["targets"]:
            over_time = set(re.findall(r"(?:rate|increase)\((notifyd_\w+)", target["expr"]))
            same(f"families of {panel['title']} whose growth is asked, that are no counters", set(), {it for it in over_time if not it.endswith("_total")})


def alarms_of_the_families(program, folder):
    with open(os.path.join(TOP, "contrib", "alerts.yml"), encoding="utf-8") as file:
        asked = set(re.findall(r"notifyd_\w+", "".join(line for line in file if not line.lstrip().startswith("#"))))
    same("families that are none", set(), asked - families())


def told_mail(exporter, mailbox):
    """Status and text of what a MAIL line of this mailbox is answered."""
    body = json.dumps({"mailbox": mailbox, "new": 2, "old": 8, "password": PASSWORD})
    answer = exporter.ask("/mail", method="POST", body=body, Content_Type="application/json")
    return answer.status, answer.text


def the_program_is_shown(program, folder):
    """A phone of the program, which answers and then doesn't, and a lamp that is turned on from here."""
    words = ["--read-write", "--password-file", password_file(folder)]
    feed = ["--feed-from", "127.0.0.0/8", "--feed-listen", address(free_port())]
    with Service(program, "--linger", "0", *feed, "alice", "bob") as service, service.phone("alice") as phone, Exporter(service.control, *words) as exporter:
        phone.subscribe()
        def told():
            return values(exporter.ask("/metrics").text.encode())

        becomes("how many subscriptions live", lambda: told().get("notifyd_live"), "1")
        same("families that are missing", set(), families() - {name.partition("{")[0] for name in told()})
        with service.operator() as operator:
            counters = [it.split(" ")[0] for it in operator.ask("STATUS").splitlines()[1:]]
        same("counters that no family has", [], [it for it in counters if not is_a_family(it)])

        def shown():
            return [(it["mailbox"], it["address"], it["sent"], it["answered"], it["state"]) for it in rows_of(exporter)]

        becomes("who watches", shown, [("alice", phone.me, 1, 1, "well")])
        same("the answer", (200, "ok\n"), told_mail(exporter, "alice"))
        becomes("what the phone that is silent is", shown, [("alice", phone.me, 2, 1, "behind")])
        same("what it holds", {"voice": [2, 8, 0, 0]}, exporter.json("/mailboxes.json", search="alice")["mailboxes"][0]["counts"])
        same("the answer", (409, "unknown mailbox\n"), told_mail(exporter, "nobody"))
        phone.expect_notify("active")
        becomes("what the phone is that answered", shown, [("alice", phone.me, 2, 2, "well")])
        service.close(lambda: None)
        becomes("the status of /healthz", lambda: exporter.status("/healthz"), 503)


def checks():
    yield "exporter: the program is shown", the_program_is_shown


def checks_apart():
    yield "exporter: slow clients hold nobody", slow_clients
    yield "exporter: phones fall behind, go, and come back", phones_fall_behind
    yield "exporter: phones refuse what they are told", phones_refuse
    yield "exporter: a service goes and comes", a_service_goes_and_comes
    yield "exporter: a page of metrics", a_page_of_metrics
    yield "exporter: a service that isn't there", a_service_that_is_not_there
    yield "exporter: the last hour", the_last_hour
    yield "exporter: watchers in pages", watchers_in_pages
    yield "exporter: a restart forgets who was behind", a_restart_forgets_who_was_behind
    yield "exporter: a service that is busy", a_service_that_is_busy
    yield "exporter: a service that is busy behind the first page", a_service_that_is_busy_later
    yield "exporter: mailboxes in pages", mailboxes_in_pages
    yield "exporter: texts of strangers", texts_of_strangers
    yield "exporter: the page and its policy", the_page_and_its_policy
    yield "exporter: one file without its page", without_its_page
    yield "exporter: other sites get nothing", other_sites
    yield "exporter: nothing is changed", nothing_is_changed
    yield "exporter: a lamp is turned on by the password", a_lamp_is_turned_on
    yield "exporter: bad requests", bad_requests
    yield "exporter: bad words", bad_words
    yield "exporter: a dashboard of the families", a_dashboard_of_the_families
    yield "exporter: a dashboard of Grafana's schema", a_dashboard_of_the_schema
    yield "exporter: alarms of the families", alarms_of_the_families
