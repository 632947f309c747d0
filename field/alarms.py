#!/usr/bin/env python3
"""Raises each alarm of contrib/alerts.yml by its cause, and none beside it: field/alarms.py [<program>]. It takes a minute.

Two pages of contrib/notifyd-metrics are taken, one before the cause and one behind it, and promtool (Debian's package prometheus) says
which alarms they raise: the first page stands for each minute up to the last four, and the second for these. An hour of silence isn't
waited for: its two pages are taken at once, and only the service's time goes on. field/alerts.yml has what no service does within a minute.
"""

import json
import os
import re
import resource
import subprocess
import sys
import tempfile
import time

sys.dont_write_bytecode = True
import cases
from faults import PLACE, Place, can_separate
from phone import Phone
from service import NO_MESSAGES, SUBSCRIBE, Service, address, counters_become
from suite import Running, free_port, run, same

CONTRIB = os.path.join(cases.TOP, "contrib")

RULES = os.path.join(CONTRIB, "alerts.yml")

# An alarm by its name, with its severity and what it says.
ALARM = re.compile(r"- alert: (\w+)\n.*?severity: (\w+)\n.*?summary: ([^\n]*)", re.S)

# A line of a page, with its labels, if it has any.
SAMPLE = re.compile(r"(\w+)(?:\{(.*)\})? (\d+)$")

# Minutes of a test: an hour and a few for those alarms that look so far back, and else less than that.
HOUR, SHORT = 70, 12

# The minutes at the end of which the second page is told.
BEHIND = 4

# Seconds until a NOTIFY is given up at the latest, and until a counter has changed.
GIVING_UP, PATIENCE = 40, 10

# Routes of a request that takes more memory than a thread holds in reserve, and the longest datagram that there is.
ROUTES, LONGEST = 3000, 65507


def page(program, control, *place):
    """The metrics of a service at this control port: each sample by its name and its labels."""
    tell = {"NOTIFYD_TELL": f"{program} tell", "NOTIFYD_CONTROL": f"--control {address(control)}"}
    words = [*place, os.path.join(CONTRIB, "notifyd-metrics")]
    told = subprocess.run(words, env={**os.environ, **tell}, capture_output=True, text=True, check=False)
    found = [SAMPLE.match(line).groups() for line in told.stdout.splitlines() if not line.startswith("#")]
    return {(name, labels or ""): int(value) for name, labels, value in found}


def counted(sample, pages):
    """Takes pages until this counter is above 0: the last of them."""
    until = time.monotonic() + PATIENCE
    told = pages()
    while not told[sample] and time.monotonic() < until:
        time.sleep(0.1)
        told = pages()
    same(f"whether {sample[0]} has risen", True, told[sample] > 0)
    return told


def series(sample, before, after, minutes):
    """The values of a sample in each minute."""
    name, labels = sample
    first, last = (str(it[sample]) if sample in it else "stale" for it in (before, after))
    values = [first] * (minutes - BEHIND) + [last] * BEHIND
    if name == "notifyd_up_seconds":
        values = [value if value == "stale" else str(int(value) + 60 * minute) for minute, value in enumerate(values)]
    return {"series": f'{name}{{{labels and labels + ","}instance="tried"}}', "values": " ".join(values)}


def expected(alarm, severity, summary, minutes, raised):
    labels = {"severity": severity, "instance": "tried"} | ({"cause": "no_memory"} if alarm == "NotifydOutOfMemory" else {})
    told = {"exp_labels": labels, "exp_annotations": {"summary": summary.replace("{{ $labels.instance }}", "tried")}}
    return {"eval_time": f"{minutes - 1}m", "alertname": alarm, "exp_alerts": [told] if alarm in raised else []}


def raises(before, after, minutes, *raised):
    """These alarms, and no others, are raised by the pages."""
    with open(RULES, encoding="utf-8") as file:
        alarms = ALARM.findall(file.read())
    same("whether contrib/alerts.yml has these alarms", set(), set(raised) - {alarm for alarm, _, _ in alarms})
    test = {
        "interval": "1m",
        "input_series": [series(sample, before, after, minutes) for sample in sorted(before | after)],
        "alert_rule_test": [expected(*alarm, minutes, raised) for alarm in alarms],
    }
    with tempfile.NamedTemporaryFile("w", suffix=".yml") as file:
        json.dump({"rule_files": [RULES], "evaluation_interval": "1m", "tests": [test]}, file)
        file.flush()
        told = subprocess.run(["promtool", "test", "rules", file.name], capture_output=True, text=True, check=False)
    same(f"whether promtool agrees:\n{told.stdout}{told.stderr}", 0, told.returncode)


def nothing_is_wrong(program):
    """A phone subscribes, is told, and leaves, within an hour."""
    with Service(program, "alice") as service, service.phone("alice") as phone, service.operator() as operator:
        before = page(program, service.control)
        dialog = phone.subscribe()
        operator.tell("MAIL alice voice 1 0 0 0")
        told = phone.expect_notify("active").body
        phone.leave(dialog, told)
        after = counted(("notifyd_over_total", ""), lambda: page(program, service.control))
        service.close()
    raises(before, after, HOUR)


def a_service_is_gone(program):
    with Service(program, "alice") as service:
        before = page(program, service.control)
        service.running.process.kill()
        service.running.process.wait()
        after = page(program, service.control)
    raises(before, after, SHORT, "NotifydDoesNotAnswer")


def a_send_fails(program):
    """The address of the service is taken away while a lamp watches, and the mailbox changes."""
    with Place() as place:
        inside = ("ip", *place.inside())
        with Running(inside[0], [*inside[1:], program, "serve", "--listen", f"{PLACE}:5060", "--linger", "0", "alice"]) as service:
            service.lines_until(b"listening at")
            with Running(inside[0], [*inside[1:], os.path.join(CONTRIB, "lamp"), f"{PLACE}:5060", "alice"]) as lamp:
                for _ in range(2):
                    lamp.process.stdout.readline()
                before = page(program, 5061, *inside)
                place.ip("address", "delete", f"{PLACE}/32", "dev", "lo")
                run(inside[0], [*inside[1:], program, "tell", "MAIL", "alice", "voice", "1", "0", "0", "0"])
                after = counted(("notifyd_failed_total", ""), lambda: page(program, 5061, *inside))
                run(inside[0], [*inside[1:], program, "tell", "CLOSE"])
                service.end()
    raises(before, after, SHORT, "NotifydFails")


def a_line_fails(program):
    """Standard output takes nothing, and a phone asks for a transfer."""
    sip, control = free_port(), free_port()
    with open("/dev/full", "wb") as full:
        words = [program, "serve", "--listen", address(sip), "--control", address(control), "alice"]
        with subprocess.Popen(words, stdin=subprocess.DEVNULL, stdout=full, stderr=subprocess.PIPE) as service:
            try:
                while b"listening at" not in service.stderr.readline():
                    same("whether the service starts", None, service.poll())
                before = page(program, control)
                with Phone(sip, "alice") as phone:
                    phone.refer("sip:carol@127.0.0.1")
                    after = counted(("notifyd_failed_total", ""), lambda: page(program, control))
            finally:
                service.kill()
    raises(before, after, SHORT, "NotifydFails")


def memory_is_short(program):
    """For a moment the service gets no more memory, and in that a long request comes. Then it goes on."""
    routes = b"Record-Route: " + b",".join([b"<sip:a@192.0.2.1;lr>"] * ROUTES) + b"\r\n"
    with Service(program, "--max-datagram", str(LONGEST), "alice") as service, service.phone("alice") as phone:
        before = page(program, service.control)
        process = service.running.process.pid
        with open(f"/proc/{process}/status", encoding="ascii") as lines:
            held = next(int(line.split()[1]) << 10 for line in lines if line.startswith("VmData"))
        usual = resource.prlimit(process, resource.RLIMIT_DATA, (held, resource.getrlimit(resource.RLIMIT_DATA)[1]))
        phone.send(SUBSCRIBE.replace(b"Max-Forwards: 70\r\n", b"Max-Forwards: 70\r\n" + routes))
        time.sleep(1)
        resource.prlimit(process, resource.RLIMIT_DATA, usual)
        after = counted(("notifyd_unread_total", 'cause="no_memory"'), lambda: page(program, service.control))
        phone.subscribe()
        service.close(lambda: phone.hear_farewell(NO_MESSAGES))
    raises(before, after, SHORT, "NotifydOutOfMemory")


def a_phone_is_silent(program):
    """It subscribes, and answers no NOTIFY."""
    with Service(program, "--linger", "0", "alice") as service, service.phone("alice") as phone:
        before = page(program, service.control)
        phone.ask("SIP/2.0 200 OK")
        time.sleep(GIVING_UP)
        after = page(program, service.control)
        service.close()
    raises(before, after, SHORT, "NotifydGivesUp")


def nobody_speaks(program):
    with Service(program, "alice") as service, service.phone("alice") as phone, service.operator() as operator:
        phone.subscribe()
        counters_become(operator, lambda: {"datagrams": str(phone.sent)})
        before, after = page(program, service.control), page(program, service.control)
        service.close(lambda: phone.hear_farewell(NO_MESSAGES))
    raises(before, after, HOUR, "NotifydHearsNothing")


def main():
    if not cases.are_there("promtool"):
        cases.skip("the alarms by their causes: promtool isn't installed (Debian's package prometheus)")
        return cases.Cases().end()
    program, all_of_them = cases.program(), cases.Cases()
    all_of_them.check("no alarm where all is well", nothing_is_wrong, program)
    all_of_them.check("an alarm where the service is gone", a_service_is_gone, program)
    if can_separate():
        all_of_them.check("an alarm where a send fails", a_send_fails, program)
    else:
        cases.skip("the alarm where a send fails: no network namespace can be had")
    all_of_them.check("an alarm where a START line can't be written", a_line_fails, program)
    all_of_them.check("an alarm where there was no memory to read a datagram", memory_is_short, program)
    all_of_them.check("an alarm where a NOTIFY is given up", a_phone_is_silent, program)
    all_of_them.check("an alarm where nobody speaks for an hour", nobody_speaks, program)
    return all_of_them.end()


if __name__ == "__main__":
    sys.exit(main())
