#!/usr/bin/env python3
"""Finds a dead phone by WATCHERS: field/dead_phone.py [<program>]. Two phones watch a mailbox, one of them dies, and the mailbox
changes: a row,

    mailbox watcher address tag sent answered since until code=.. contact=..

has a number answered below the number sent where the phone is dead, and the same number where it lives. Where the service answers `busy`
this is left out.
"""

import sys
import time
from collections import namedtuple

sys.dont_write_bytecode = True
import cases
from service import NO_MESSAGES, Service, address
from suite import run, same

Row = namedtuple("Row", "mailbox watcher address tag sent answered since until named")

# Seconds in which an answer is noted.
PATIENCE = 10


def rows(program, service):
    """The rows of alice's mailbox, by the addresses of their phones."""
    told = run(program, ["tell", "--control", address(service.control), "WATCHERS", "alice"])
    same("the exit status", 0, told.status)
    lines = [line.split(" ", len(Row._fields) - 1) for line in told.out.decode().splitlines() if line != "ok"]
    same("words of each row", {len(Row._fields)}, {len(line) for line in lines})
    return {row.address: row for row in (Row(*line) for line in lines)}


def is_dead(row):
    return int(row.answered) < int(row.sent)


def a_dead_phone_is_found(program):
    with Service(program, "--linger", "0", "alice", "bob") as service, service.operator() as operator:
        with service.phone("alice") as living, service.phone("alice") as dead, service.phone("bob") as other:
            for phone in (living, dead, other):
                phone.subscribe(NO_MESSAGES)
            operator.tell("MAIL alice voice 1 0 0 0")
            tag = living.expect_notify("active").tag("From")
            until = time.monotonic() + PATIENCE
            told = rows(program, service)
            while is_dead(told[living.me]) and time.monotonic() < until:
                time.sleep(0.1)
                told = rows(program, service)
            same("whose rows there are", {living.me, dead.me}, set(told))
            row = told[living.me]
            same("the row of the phone that lives", ("alice", tag, "2", "2"), (row.mailbox, row.tag, row.sent, row.answered))
            same("what the dead one was sent and answered", ("2", "1"), (told[dead.me].sent, told[dead.me].answered))
        service.close()


def main():
    program, all_of_them = cases.program(), cases.Cases()
    with Service(program, "alice") as service, service.operator() as operator:
        is_busy = operator.ask("WATCHERS") == "busy"
    if is_busy:
        cases.skip("a dead phone found by WATCHERS: the service answers busy")
    else:
        all_of_them.check("WATCHERS finds a dead phone", a_dead_phone_is_found, program)
    return all_of_them.end()


if __name__ == "__main__":
    sys.exit(main())
