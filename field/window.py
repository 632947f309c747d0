#!/usr/bin/env python3
"""Looks at the page of contrib/notifyd-exporter as an operator's browser does, and has Prometheus scrape it:

    field/window.py [<program>] [--figures | --subscriptions N]

It takes Debian's packages chromium, chromium-driver and prometheus, and three minutes. Some services of thousands of phones are made up. One
of 64,000 subscriptions is the program's, as are those with a phone that dies, and those that Prometheus loses. A build without proofs is
too slow for so many and has 500, unless --subscriptions says otherwise. With --figures the pictures of docs are made anew, and small where
pngquant is installed.
"""

import importlib.machinery
import importlib.util
import json
import math
import os
import random
import statistics
import subprocess
import sys
import tempfile
import threading
import time
import urllib.request

sys.dont_write_bytecode = True
import cases
from browser import Browser
from desk import Desk, Watched
from multitude import Multitude
from service import Service
from suite import Running, free_port, run, same
from exporter import EXPORTER, Exporter

FIGURES = os.path.join(cases.TOP, "docs", "figures")

PASSWORD = "correct horse"

# Subscriptions of the program, those of a build without proofs, and seconds for each thousand of them to begin, however busy the machine is.
SUBSCRIPTIONS, FEW, PATIENCE = 64000, 500, 60

# Scrapes of Prometheus whose time is taken, and the seconds between two of them.
SCRAPES, BETWEEN = 60, 0.2

# Seconds for what the page does at its next look, for what comes at the one after that, and until a dead phone is red at the latest.
LOOK, LOOKS, RED = 12, 25, 35

# Keys of WebDriver.
ESCAPE, ENTER, DOWN, END, BACK = "\ue00c", "\ue007", "\ue015", "\ue010", "\ue003"

# For scripts: the rows of watchers that are seen, those of mailboxes, and whether each row has its texts.
ROWS = "[...document.querySelectorAll('#watchers .space .row')].filter(it => !it.hidden && it.getBoundingClientRect().top < innerHeight)"
BOXES = "[...document.querySelectorAll('#mailboxes .space .row')].filter(it => !it.hidden)"
ARE_THERE = f"({ROWS}.length && {ROWS}.every(it => it.children[0].textContent.length > 2))"
COUNT = "document.querySelector('#watchers small').textContent"
STATE = "document.getElementById('state').textContent"


def rows(browser):
    """The rows of watchers that are seen: each its class and the texts of its cells."""
    return browser.run(f"return {ROWS}.map(it => [it.className, ...[...it.children].map(cell => cell.textContent)])")


def filled(browser, wanted, seconds=LOOKS):
    """Waits until the table says that there are so many, and its rows are there."""
    browser.wait(f"return {COUNT} === '{wanted}' && {ARE_THERE}", seconds)


def turns(browser, more=2):
    """Waits until the page has been refreshed so many times."""
    before = browser.run("return Number(document.body.dataset.turns ?? 0)")
    browser.wait(f"return Number(document.body.dataset.turns ?? 0) >= {before + more}", LOOKS)


def is_whole(browser, width):
    """Nothing of the page is wider than it, and its console complains of nothing."""
    same("how wide the page is", True, browser.run("return document.documentElement.scrollWidth") <= width)
    same("what the console complains of", [], browser.errors())


def typed(browser, text):
    """Types this in place of what is searched."""
    browser.run("document.getElementById('search').focus(); document.getElementById('search').select()")
    browser.press(text or BACK)


def shown(case):
    """The case, with a browser of its own."""
    def also(*words):
        with Browser() as browser:
            return case(browser, *words)

    return also


def three_watchers(browser):
    """All that WATCHERS tells of them is there, and fields that it doesn't tell yet get columns of their own."""
    phones = [Watched(number, name, 3, 3 - number // 2) for number, name in enumerate(["alice", "alice", "bob"])]
    mails = ["MAIL alice voice 2 8 0 2\n", "MAIL alice fax 0 1 0 0\n", "MAIL carol voice 0 0 0 0\n"]
    with Desk(phones, mails) as desk, Exporter(desk.port) as exporter:
        browser.open(exporter.place)
        filled(browser, "3")
        browser.wait("return document.title === '(1) notifyd'", LOOKS)
        turns(browser, 1)
        told = rows(browser)
        same("the one that is behind comes first", ("row behind", "bob"), (told[0][0], told[0][2]))
        same("the words of the next", ["✓ well", "alice", "alice@pbx.example", "10.0.0.0:5060", "3", "3", "0 s", "60 min", phones[0].tag], told[1][1:])
        boxes = browser.run(f"return {BOXES}.map(it => [it.children[0].classList.contains('on'), ...[...it.children].map(cell => cell.textContent)])")
        alice = [True, "alice", "voice 2/8 (0/2), fax 0/1", "2", ""]
        same("the mailboxes", [alice, [False, "bob", "–", "1", "1"], [False, "carol", "voice 0/0", "0", ""]], boxes)
        for it in phones:
            it.more = " code=200 transport=udp"
        browser.wait("return [...document.querySelectorAll('#watchers .head .cell')].some(it => it.textContent === 'Transport')", LOOKS)
        browser.wait("return [...document.querySelectorAll('#watchers .space .cell')].some(it => it.textContent === 'udp')", LOOK)
        charts = browser.run("return [...document.querySelectorAll('figure')].map(it => it.innerText.split('\\n')[0])")
        same("the charts", ["Subscriptions", "NOTIFYs", "Repeats", "Given up", "Refused"], charts)
        is_whole(browser, 1280)


def the_place_is_kept(browser):
    """3,000 watchers: while the page is refreshed, rows come and go, and some fall behind, what was at the top stays there, and what has the
    focus, is chosen and is searched."""
    phones = [Watched(number, f"m{1000 + number // 3}", 3, 3) for number in range(3000)]
    with Desk(phones, [f"MAIL m{number} voice {number % 3} 1 0 0\n" for number in range(1000, 2000)]) as desk, Exporter(desk.port) as exporter:
        browser.open(exporter.place)
        filled(browser, "3,000")
        browser.run("const grid = document.querySelector('#watchers .grid'); grid.focus(); grid.scrollTop = 1500 * 30")
        browser.wait(f"return {ARE_THERE}", LOOK)
        browser.press(DOWN + DOWN)
        chosen = browser.wait("return document.querySelector('#watchers .row.chosen')?.children[8].textContent")
        first = rows(browser)[0]
        phones[5].sent = phones[40].sent = 4
        desk.rows = [*phones[:100], *phones[110:], Watched(5000, "0000")]
        browser.wait("return document.title === '(2) notifyd'", LOOKS)
        turns(browser)
        same("the row at the top", first[2:5], rows(browser)[0][2:5])
        same("the row that is chosen", chosen, browser.run("return document.querySelector('#watchers .row.chosen').children[8].textContent"))
        same("what has the focus", True, browser.run("return document.activeElement.matches('#watchers .grid')"))
        browser.press("/")
        browser.press("m1777")
        filled(browser, "3 of 2,991")
        turns(browser)
        told = browser.run("const it = document.activeElement; return [it.value, it.selectionStart, it.id]")
        same("what is searched, and where the caret is", ["m1777", 5, "search"], told)
        same("the rows", {"m1777"}, {it[2] for it in rows(browser)})


def found_by_hand(browser):
    """What is searched, chosen by keys, and clicked among 3,000 of them."""
    phones = [Watched(number, f"m{1000 + number // 3}", 3, 3 - (number in (5, 40))) for number in range(3000)]
    with Desk(phones) as desk, Exporter(desk.port) as exporter:
        browser.open(exporter.place)
        filled(browser, "3,000")
        for it in phones[1234].tag, phones[1234].address:
            typed(browser, it)
            filled(browser, "1 of 3,000")
        browser.press(ESCAPE)
        filled(browser, "3,000")
        browser.wait("return document.title === '(2) notifyd'", LOOKS)
        for value, wanted in ("behind,gone", "2 of 3,000"), ("", "3,000"):
            browser.run(f"document.querySelector('[name=which][value=\"{value}\"]').click()")
            filled(browser, wanted)
        browser.run("document.querySelector('#watchers .grid').focus()")
        browser.press(END)
        browser.wait(f"return {ROWS}.at(-1).children[1].textContent === 'm1999'", LOOK)
        browser.press(ENTER)
        filled(browser, "3 of 3,000")
        same("where the page is", "#mailbox=m1999", browser.run("return location.hash"))
        browser.press(ESCAPE)
        filled(browser, "3,000")
        browser.run(f"{BOXES}[0].click()")
        filled(browser, "3 of 3,000")
        browser.run("document.getElementById('only').click()")
        filled(browser, "3,000")
        is_whole(browser, 1280)


def many_watchers(browser):
    """64,000 of them: the first rows are there soon, those in the middle soon after they are scrolled to, and no more of them are drawn than
    are seen."""
    phones = [Watched(number, f"{10000 + number // 2}", 3, 3) for number in range(64000)]
    mails = [f"MAIL {number} voice 1 2 0 0\n" for number in range(10000, 42000)]
    with Desk(phones, mails) as desk, Exporter(desk.port) as exporter:
        began = time.monotonic()
        browser.open(exporter.place)
        filled(browser, "64,000", 60)
        first = time.monotonic() - began
        times = []
        for place in 32000, 63980, 12345, 50000:
            began = time.monotonic()
            browser.run(f"document.querySelector('#watchers .grid').scrollTop = {place} * 30")
            browser.wait(f"return {ARE_THERE} && {ROWS}[0].place > {place - 60}", LOOK)
            times.append(time.monotonic() - began)
        same("whether few rows are drawn", True, browser.run("return document.querySelectorAll('.row').length") < 120)
        began = time.monotonic()
        typed(browser, phones[-1].address)
        filled(browser, "1 of 64,000")
        found = time.monotonic() - began
        browser.press(ESCAPE)
        filled(browser, "64,000")
        phones[33333].sent = 4
        browser.wait("return document.title === '(1) notifyd'", 90)
        typed(browser, phones[33333].tag)
        filled(browser, "1 of 64,000")
        same("how it is", "row behind", rows(browser)[0][0])
        is_whole(browser, 1280)
    return f"        first rows in {first:.1f} s, where it is scrolled to in {max(times):.2f} s at most, found in {found:.2f} s"


def names_of_strangers(browser):
    """Names with markup, controls of C1, marks that turn the direction, and letters that are written from the right."""
    names = ["<img/src=x/onerror=window.bad=1>", "</script><b>&amp;", "a\u202ecba\u2066", "c1\x85\x9b31m", "\ufeffz\u200bero", "עברית", "a\u0301\u0301"]
    phones = [Watched(number, name, 2, 1) for number, name in enumerate(names)]
    with Desk(phones, [f"MAIL {name} voice 1 0 0 0\n" for name in names]) as desk, Exporter(desk.port) as exporter:
        browser.open(exporter.place)
        filled(browser, str(len(names)))
        shown = {it[2] for it in rows(browser)}
        wanted = {*names[:2], "a\\u{202e}cba\\u{2066}", "c1\\u{85}\\u{9b}31m", "\\u{feff}z\\u{200b}ero", *names[5:]}
        same("how they are shown", wanted, shown)
        same("elements that came of them", [0, None], browser.run("return [document.querySelectorAll('img, b, main script').length, window.bad]"))
        titles = browser.run("return [...document.querySelectorAll('#watchers .space .cell.strong')].map(it => it.title)")
        same("marks in what is shown beside the pointer", [], [it for it in titles if any(mark in it for mark in "\u202e\u2066\x85\x9b\ufeff\u200b")])
        typed(browser, "<img")
        filled(browser, f"1 of {len(names)}")
        browser.press(ENTER)
        browser.run("document.querySelector('#watchers .grid').focus()")
        browser.press(DOWN + ENTER)
        browser.wait("return document.getElementById('only').textContent.startsWith('<img')", LOOK)
        browser.open(f"{exporter.place}#search=%3Cimg&mailbox=%3Cb%3E")
        same("elements of a place", 0, browser.run("return document.querySelectorAll('img, b').length"))
        refused = browser.run("try { document.body.innerHTML = '<b>x</b>'; return 'taken'; } catch (error) { return error.name; }")
        same("what becomes of markup", "TypeError", refused)


def away_and_back(browser):
    """The service is away, and the page says since when, and shows what was known; it comes back. So does the exporter."""
    with Desk([Watched(0, "alice")]) as desk, Exporter(desk.port) as exporter:
        browser.open(exporter.place)
        filled(browser, "1")
        same("how it is", "answers", browser.run(f"return {STATE}"))
        port = desk.port
        desk.is_silent = True
        browser.wait(f"return /^does not answer since ..:..:..$/.test({STATE})", LOOKS)
        same("what was known", "alice", rows(browser)[0][2])
        browser.wait(f"return /^1, of [0-9]+ s ago$/.test({COUNT})", LOOK)
        same("whether it is shown as old", True, browser.run("return document.body.classList.contains('old')"))
        desk.rows, desk.is_silent = [Watched(1, "bob")], False
        filled(browser, "1")
        browser.wait(f"return {ROWS}[0].children[1].textContent === 'bob' && !document.body.classList.contains('old')", LOOK)
        listen = exporter.port
    browser.wait(f"return {STATE} === 'notifyd-exporter does not answer'", LOOKS)
    with Desk([Watched(2, "carol")], port=port) as desk, Exporter(desk.port, port=listen) as exporter:
        browser.wait(f"return {ROWS}[0]?.children[1].textContent === 'carol' && {STATE} === 'answers'", LOOKS)


def addresses(state):
    """For scripts: the addresses of the rows that are in this state."""
    return f"{ROWS}.filter(it => it.classList.contains('{state}')).map(it => it.children[3].textContent).join()"


def a_dead_phone_is_red(browser, program):
    """A phone of the program dies, and its mailbox changes: it is red within 35 seconds, and stays so where its NOTIFY is given up."""
    with Service(program, "--linger", "0", "alice") as service, service.operator() as operator, Exporter(service.control) as exporter:
        with service.phone("alice") as living, service.phone("alice") as dead:
            for phone in living, dead:
                phone.subscribe()
            browser.open(exporter.place)
            filled(browser, "2")
            operator.tell("MAIL alice voice 1 0 0 0")
            died = time.monotonic()
            living.expect_notify("active")
            browser.wait(f"return {addresses('behind')} === '{dead.me}'", RED)
            red = time.monotonic() - died
            same("the one that lives", ["well"], [it[0][4:] for it in rows(browser) if it[4] == living.me])
            browser.wait(f"return {addresses('gone')} === '{dead.me}'", 60)
            gone = time.monotonic() - died
        service.close(lambda: None)
    return f"        red behind {red:.1f} s, gone behind {gone:.1f} s"


def status_of(process, name):
    """A line of the system's of a process, in MB."""
    with open(f"/proc/{process.pid}/status", encoding="ascii") as file:
        return next(int(line.split()[1]) // 1024 for line in file if line.startswith(name))


def processor(process):
    """Seconds of a processor that a process has taken."""
    with open(f"/proc/{process.pid}/stat", encoding="ascii") as file:
        words = file.read().rpartition(")")[2].split()
    return (int(words[11]) + int(words[12])) / os.sysconf("SC_CLK_TCK")


def all_rows(exporter):
    """Who watches, page after page, as often as it takes for all pages to be of one look."""
    while True:
        place, tags, surveys = 0, [], set()
        while place is not None:
            told = exporter.json("/watchers.json", count=500, **{"from": place})
            tags += [it["tag"] for it in told["rows"]]
            surveys.add(told["survey"])
            place = told["next"]
        if len(surveys) == 1:
            return tags


def scrapes(exporter, looks):
    """Milliseconds that scrapes take, while somebody looks or nobody does: their median, and the most of them."""
    took = []
    for number in range(SCRAPES):
        if looks and number % 10 == 0:
            exporter.json("/watchers.json")
        began = time.monotonic()
        same("the status of a scrape", 200, exporter.status("/metrics"))
        took.append(1000 * (time.monotonic() - began))
        time.sleep(BETWEEN)
    return f"{statistics.median(took):.0f} ms, {max(took):.0f} at most"


def is_told(exporter, phones):
    """All that watch are there, in pages, and each is found by its tag, its address and its mailbox."""
    began = time.monotonic()
    while exporter.json("/watchers.json", count=1)["total"] < len(phones.mailboxes):
        same("whether all are told", True, time.monotonic() - began < PATIENCE * 5)
        time.sleep(0.2)
    first = time.monotonic() - began
    tags = all_rows(exporter)
    same("rows that come twice", len(tags), len(set(tags)))
    same("tags that are told", set(phones.tags.values()), set(tags))
    for number in 0, len(phones.mailboxes) - 1:
        asked = {"search": phones.tags[number]}, {"search": f"{phones.address(number)} {phones.tags[number]}"}
        same("who is found", [[phones.tags[number]]] * 2, [[it["tag"] for it in exporter.json("/watchers.json", **query)["rows"]] for query in asked])
    others = {phones.tags[number] for number, name in enumerate(phones.mailboxes) if name == phones.mailboxes[0]}
    same("who watches a mailbox", others, {it["tag"] for it in exporter.json("/watchers.json", mailbox=phones.mailboxes[0], count=500)["rows"]})
    return first


def is_seen(browser, exporter, phones, dead):
    """The page shows them, and finds the dead one."""
    began = time.monotonic()
    browser.open(exporter.place)
    filled(browser, f"{len(phones.mailboxes):,}", 60)
    first = time.monotonic() - began
    browser.wait("return document.title === '(1) notifyd'", 90)
    same("which row is the first", (True, phones.address(dead)), (rows(browser)[0][0] in ("row behind", "row gone"), rows(browser)[0][4]))
    browser.run(f"document.querySelector('#watchers .grid').scrollTop = {len(phones.mailboxes) // 2} * 30")
    browser.wait(f"return {ARE_THERE} && {ROWS}[0].place > {len(phones.mailboxes) // 2 - 60}", LOOKS)
    typed(browser, phones.tags[dead])
    filled(browser, f"1 of {len(phones.mailboxes):,}", LOOKS)
    is_whole(browser, 1280)
    return first


def real_subscriptions(browser, program, folder, count):
    """So many subscriptions of the program: in pages of the exporter, in the page, found, and one of them behind once its phone is dead."""
    boxes = max(1, count // 2)
    place = os.path.join(folder, "mailboxes")
    with open(place, "w", encoding="ascii") as file:
        file.write(f"100000-{100000 + boxes - 1}\n")
    words = ["--workers", "4", "--table", "65536", "--max-time", "86400", "--default-time", "86400", "--mailboxes", place]
    phones = Multitude([str(100000 + number % boxes) for number in range(count)])
    limit = PATIENCE * (10 + count // 1000)
    with Service(program, *words, limit=2 * limit) as service, phones.at(service.sip), Exporter(service.control, limit=2 * limit) as exporter:
        begun = phones.await_all(limit)
        first = is_told(exporter, phones)
        dead = count // 3
        phones.dead.add(dead)
        with service.operator() as operator:
            operator.tell(f"MAIL {phones.mailboxes[dead]} voice 1 0 0 0")
        died = time.monotonic()
        becomes("who is behind", lambda: [it["tag"] for it in exporter.json("/watchers.json", state="behind,gone")["rows"]], [phones.tags[dead]], RED)
        red = time.monotonic() - died
        seen = is_seen(browser, exporter, phones, dead)
        taken, began = processor(exporter.running.process), time.monotonic()
        looked = scrapes(exporter, True)
        share = (processor(exporter.running.process) - taken) / (time.monotonic() - began)
        time.sleep(12)
        alone = scrapes(exporter, False)
        most = status_of(exporter.running.process, "VmHWM")
        service.running.process.kill()
    return (
        f"        {count:,} subscriptions in {begun:.1f} s; all told in {first:.1f} s, in the page {seen:.1f} s; the dead one behind {red:.1f} s\n"
        f"        a scrape takes {looked} while somebody looks, {alone} else; the exporter {most} MB, and {share:.0%} of a processor; load {os.getloadavg()[0]:.0f}"
    )


def a_lamp_from_the_page(browser, program, folder):
    """With --read-write the page turns a lamp on, by the password; without it there is no such button."""
    place = os.path.join(folder, "password")
    with open(os.open(place, os.O_WRONLY | os.O_CREAT, 0o600), "w", encoding="ascii") as file:
        file.write(PASSWORD)
    with Service(program, "--linger", "0", "alice") as service, Exporter(service.control) as exporter:
        browser.open(exporter.place)
        browser.wait(f"return {STATE} === 'answers'", LOOK)
        same("whether there is a button", True, browser.run("return document.getElementById('tell').hidden"))
        with Exporter(service.control, "--read-write", "--password-file", place) as exporter, service.phone("alice") as phone:
            phone.subscribe()
            browser.open(exporter.place)
            browser.wait("return !document.getElementById('tell').hidden", LOOK)
            for password, wanted in ("wrong horse", "wrong password"), (PASSWORD, "ok"):
                browser.run(
                    "const [tell, mailbox, password] = ['tell', 'lamp-mailbox', 'lamp-password'].map(it => document.getElementById(it));"
                    "tell.click(); mailbox.value = 'alice'; password.value = ''; password.focus()"
                )
                browser.press(password + ENTER)
                browser.wait(f"return document.getElementById('lamp-answer').textContent === '{wanted}'", LOOK)
                browser.run("document.getElementById('lamp-close').click()")
                time.sleep(1.1)
            same("what the lamp shows", True, "Messages-Waiting: yes" in phone.expect_notify("active").body)
            browser.wait("return document.querySelector('#mailboxes .cell.lamp.on')?.textContent === 'alice'", LOOKS)
            same("what the console complains of", [], [it for it in browser.errors() if "403" not in it])
        service.close(lambda: None)


def it_fits(browser):
    """It is whole at 400 pixels, and at much more; and dark where that is asked for."""
    phones = [Watched(number, f"{1000 + number}", 3, 3 - (number < 2), " code=200 repeats=0") for number in range(40)]
    with Desk(phones) as desk, Exporter(desk.port) as exporter:
        for width in 400, 640, 900, 1120, 1920:
            browser.resize(width, 800)
            browser.open(exporter.place)
            filled(browser, "40")
            is_whole(browser, width)
            cut = browser.run(
                f"return {ROWS}.flatMap(it => [...it.querySelectorAll('.state, .code:not(.tag), .number')])"
                ".filter(it => it.scrollWidth > it.clientWidth + 1).map(it => it.textContent)"
            )
            same(f"what is cut at {width} pixels", [], cut)
            heights = browser.run(f"return {ROWS}.map(it => it.scrollHeight <= it.clientHeight + 1)")
            same(f"whether the rows hold what they show at {width} pixels", {True}, set(heights))
            apart = browser.run(
                f"const at = {ROWS}.map(it => it.getBoundingClientRect()); return at.slice(1).every((it, k) => Math.abs(it.top - at[k].bottom) < 1)"
            )
            same(f"whether each row stands below the one before at {width} pixels", True, apart)
        browser.resize(1280, 860)


# ---- Prometheus


def prometheus(folder, place, seconds=1):
    """Prometheus over this exporter, which it scrapes each second, with the alarms of contrib."""
    config = os.path.join(folder, "prometheus.yml")
    told = {
        "global": {"scrape_interval": f"{seconds}s", "scrape_timeout": f"{seconds}s", "evaluation_interval": f"{seconds}s"},
        "rule_files": [os.path.join(cases.TOP, "contrib", "alerts.yml")],
        "scrape_configs": [{"job_name": "notifyd", "static_configs": [{"targets": [place]}]}],
    }
    with open(config, "w", encoding="ascii") as file:
        json.dump(told, file)
    port = free_port()
    words = [f"--config.file={config}", f"--storage.tsdb.path={folder}/{port}", f"--web.listen-address=127.0.0.1:{port}", "--log.level=error"]
    return Running("prometheus", words), f"http://127.0.0.1:{port}/api/v1"


def answered(place):
    try:
        with urllib.request.urlopen(place, timeout=5) as answer:
            return json.load(answer)["data"]
    except OSError:
        return None


def firing(api):
    told = answered(f"{api}/alerts")
    return {it["labels"]["alertname"] for it in told["alerts"] if it["state"] == "firing"} if told else None


def becomes(what, ask, wanted, seconds):
    until = time.monotonic() + seconds
    while (came := ask()) != wanted and time.monotonic() < until:
        time.sleep(0.1)
    same(what, wanted, came)


def value(api, query):
    told = answered(f"{api}/query?query={query}")
    return told["result"][0]["value"][1] if told and told["result"] else None


def a_real_scrape(program, folder):
    """Prometheus takes what it is told; it raises the alarm with the scrape that finds the service gone, and another by its cause."""
    with Service(program, "--table", "1", "--workers", "1", "alice") as service, Exporter(service.control) as exporter:
        text = urllib.request.urlopen(f"{exporter.place}metrics").read()
        same("what promtool finds wrong", (0, b"", b""), run("promtool", ["check", "metrics"], text))
        running, api = prometheus(folder, f"127.0.0.1:{exporter.port}")
        with running:
            becomes("whether it is scraped", lambda: value(api, "notifyd_reachable"), "1", 30)
            same("whether the scrape is well", "1", value(api, "up"))
            becomes("which alarms there are", lambda: firing(api), set(), 10)
            with service.phone("alice") as phone, service.phone("alice") as other:
                phone.subscribe()
                other.ask("SIP/2.0 503 Service Unavailable")
                becomes("which alarms there are where it is full", lambda: firing(api), {"NotifydIsFull"}, 15)
                service.running.process.kill()
                service.running.process.wait()
                gone = time.monotonic()
                becomes("which alarms there are where it is gone", lambda: firing(api), {"NotifydIsFull", "NotifydDoesNotAnswer"}, 15)
                first = time.monotonic() - gone
    return f"        the alarm came {first:.1f} s behind the end, where it is scraped each second"


def each_alarm(program, folder):
    """Each alarm comes by its cause, and no other with it. The service is a made-up one."""
    with Desk(port=free_port(), **dict.fromkeys(("failed", "failed_receives", "once"), 0)) as desk, Exporter(desk.port) as exporter:
        running, api = prometheus(folder, f"127.0.0.1:{exporter.port}")
        with running:
            becomes("which alarms there are where nothing is heard", lambda: firing(api), {"NotifydHearsNothing"}, 30)
            desk.counters["up"] = 1
            becomes("which alarms there are where the service has just begun", lambda: firing(api), set(), 15)
            raised = set()
            for counter, alarm in (
                ("failed", "NotifydFails"), ("answers_503", "NotifydIsFull"), ("kernel_drops", "NotifydIsBehind"), ("given_up", "NotifydGivesUp"),
            ):
                desk.counters[counter] += 1
                raised.add(alarm)
                becomes(f"which alarms there are by {counter}", lambda: firing(api), raised, 15)
            desk.unread[-1] += 1
            raised.add("NotifydOutOfMemory")
            becomes("which alarms there are where memory was short", lambda: firing(api), raised, 15)
            exporter.running.process.kill()
            exporter.running.process.wait()
            becomes("which alarms there are where the exporter is gone", lambda: "NotifydDoesNotAnswer" in firing(api), True, 15)
            exporter.__init__(desk.port, port=exporter.port)
            exporter.__enter__()
            becomes("which alarms there are where it is back", lambda: "NotifydDoesNotAnswer" in firing(api), False, 15)


def dashboards_are_known(program, folder):
    """Each expression of Grafana's dashboard is one that Prometheus understands."""
    with open(os.path.join(cases.TOP, "contrib", "grafana.json"), encoding="utf-8") as file:
        panels = json.load(file)["panels"]
    rules = [
        {"record": f"panel_{panel['id']}_{target['refId']}", "expr": target["expr"].replace("$__rate_interval", "1m").replace("$instance", ".*")}
        for panel in panels for target in panel["targets"]
    ]
    place = os.path.join(folder, "rules.yml")
    with open(place, "w", encoding="ascii") as file:
        json.dump({"groups": [{"name": "panels", "rules": rules}]}, file)
    told = run("promtool", ["check", "rules", place])
    same(f"what promtool says: {told.err.decode()}", 0, told.status)


# ---- pictures for docs


def exporter_module():
    loader = importlib.machinery.SourceFileLoader("notifyd_exporter", EXPORTER)
    module = importlib.util.module_from_spec(importlib.util.spec_from_loader("notifyd_exporter", loader))
    loader.exec_module(module)
    return module


def an_hour(history, drawn):
    """Fills in an hour as it may be at a small company: a burst of mail now and then, one phone that dies, some that ask for too little."""
    now, notifies, repeats, given_up, refused = time.time(), 4000, 31, 2, 9
    for at in range(1790):
        burst = 14 * math.exp(-((at - 520) / 40) ** 2) + 9 * math.exp(-((at - 1330) / 70) ** 2)
        notifies += int(drawn.random() * (1.2 + burst) * 1.6)
        repeats += drawn.random() < 0.02 + burst / 60
        given_up += at in (611, 612, 640)
        refused += drawn.random() < (0.12 if 900 < at < 960 else 0.002)
        live = 118 + int(6 * math.sin(at / 260)) + (at > 500) * 12 - (at > 640) * 3
        silent = 1000 <= at < 1012
        values = [None] * 6 if silent else [90_000 + 2 * at, live, notifies, repeats, given_up, refused]
        history.kept.append([at + 1, round(now - 2 * (1790 - at), 1), *values])
    history.number = 1790
    return notifies, repeats, given_up, refused


def some_mail(desk, drawn, is_over):
    while not is_over.wait(0.5):
        desk.counters["notifies"] += drawn.randint(0, 2)


def pictures():
    """The pages of a small company, light and dark, and on a phone."""
    drawn = random.Random(71)
    exporter = exporter_module()
    people = ["anna", "arif", "bo", "carla", "dana", "emil", "fatma", "gil", "hanna", "ines", "jan", "kaya", "lena", "mats", "nora", "otto", "pia", "ruth", "sales", "support"]
    phones = [Watched(number, people[number * 7 % len(people)], 2 + number % 9, 2 + number % 9) for number in range(127)]
    for number, it in enumerate(phones):
        it.address = f"192.0.2.{20 + number}:{5060 if number % 3 else 49152 + number * 131 % 9999}"
        it.age, it.left = 1 + number * 211 % 90_000, 60 + number * 97 % 3500
    mails = [f"MAIL {name} voice {max(0, drawn.randint(-2, 4))} {drawn.randint(0, 9)} 0 0\n" for name in people]
    os.makedirs(FIGURES, exist_ok=True)
    with Desk(phones, mails, up=93_400) as desk:
        wanted = exporter.Desk(("127.0.0.1", desk.port))
        wanted.name = "127.0.0.1:5061"
        history = exporter.History.__init__

        def begun(self, told):
            history(self, told)
            counts = an_hour(self, drawn)
            desk.counters |= dict(zip(("notifies", "repeats", "given_up", "answers_404"), counts), per_source=0, forbidden=0, answers_503=0)

        exporter.History.__init__ = begun
        server = exporter.Server(("127.0.0.1", 0), wanted, page=exporter.page_text(None))
        threading.Thread(target=server.serve_forever, daemon=True).start()
        for it in phones[3], phones[31], phones[77]:
            it.sent += 1
        is_over = threading.Event()
        threading.Thread(target=some_mail, args=(desk, drawn, is_over), daemon=True).start()
        for name, size, is_dark in ("window-light", (1120, 700), False), ("window-dark", (1120, 700), True), ("window-narrow", (400, 700), False):
            with Browser(*size, is_dark) as browser:
                browser.open("http://127.0.0.1:{}/".format(*server.server_address[1:]))
                filled(browser, "127")
                browser.wait("return document.title === '(3) notifyd'", LOOKS)
                turns(browser, 2)
                place = os.path.join(FIGURES, f"{name}.png")
                browser.picture(place)
                if cases.are_there("pngquant"):
                    subprocess.run(["pngquant", "--force", "--skip-if-larger", "--nofs", "--output", place, "64", place], check=True)
        is_over.set()
        server.shutdown()
        server.server_close()


def main():
    figures = "--figures" in sys.argv
    wanted = sys.argv.index("--subscriptions") if "--subscriptions" in sys.argv else None
    count = int(sys.argv.pop(wanted + 1)) if wanted else None
    sys.argv = [it for it in sys.argv if it not in ("--figures", "--subscriptions")]
    all_of_them = cases.Cases()
    if not cases.are_there("chromium", "chromedriver"):
        cases.skip("the page in a browser: chromium or its driver isn't installed (Debian's packages chromium, chromium-driver)")
        return all_of_them.end()
    if figures:
        pictures()
        return 0
    program = cases.program()
    count = count or (FEW if program.endswith(".tried") else SUBSCRIPTIONS)
    with tempfile.TemporaryDirectory() as folder:
        all_of_them.check("the page shows three watchers", shown(three_watchers))
        all_of_them.check("it keeps the place among 3,000 of them", shown(the_place_is_kept))
        all_of_them.check("what is searched among them is found", shown(found_by_hand))
        all_of_them.check("it is usable with 64,000 of them", shown(many_watchers))
        all_of_them.check("names of strangers are texts", shown(names_of_strangers))
        all_of_them.check("the service is away and back", shown(away_and_back))
        all_of_them.check(f"it is usable with {count:,} subscriptions of the program", shown(real_subscriptions), program, folder, count)
        all_of_them.check("a dead phone is red", shown(a_dead_phone_is_red), program)
        all_of_them.check("the page turns a lamp on", shown(a_lamp_from_the_page), program, folder)
        all_of_them.check("it fits from 400 to 1,920 pixels", shown(it_fits))
        if cases.are_there("prometheus", "promtool"):
            all_of_them.check("Prometheus scrapes the exporter, and raises alarms", a_real_scrape, program, folder)
            all_of_them.check("each alarm comes by its cause", each_alarm, program, folder)
            all_of_them.check("Prometheus understands Grafana's dashboard", dashboards_are_known, program, folder)
        else:
            cases.skip("a scrape: prometheus isn't installed")
    return all_of_them.end()


if __name__ == "__main__":
    sys.exit(main())
