#!/usr/bin/env python3
"""100,000 MAIL lines by `notifyd tell -`, stopped and started in the midst: field/feeding.py [<program>]. It needs Python 3 alone.

A thousand mailboxes change a hundred times each, and twenty of them have a watcher. First all lines are told at once: printed is how many a second
(goal: 15,000, with a proved program). Then the feed stands still in the midst (SIGSTOP) and goes on a second later. Next the service does, for half a
second, so that a line is asked again behind its token. At last the feed is ended (SIGTERM), and another one begins with the first line that wasn't
done.

The counter `changes` says each time how many lines were done. All of them were, once: the counter is as high as there were lines, DUMP has the
last counts, and a watcher hears each change of its mailbox once, in order.
"""

import os
import signal
import subprocess
import sys
import tempfile
import threading
import time

sys.dont_write_bytecode = True
import cases
from plant import Phone, Plant
from service import Service, address
from suite import same

BOXES, ROUNDS, WATCHERS = 1000, 100, 20

# The lines of a pass, and where in the second one the feed stands still, the service does, and the feed is ended.
LINES = BOXES * ROUNDS
PAUSED, HELD, ENDED = (LINES * part // 8 for part in (1, 3, 5))

# Seconds for which the feed stands still, and the service: a line that nobody answers for a second ends the feed.
PAUSE, HOLD = 1.0, 0.5

# Seconds that a pass may take, and the last NOTIFYs.
PATIENCE, ARRIVAL = 600, 15


def line(number):
    """The nth line of all passes: a mailbox has another count at each."""
    return f"MAIL {1000 + number % BOXES} voice {number + 1} 0 0 0\n"


class Feed:
    """`notifyd tell -` with the lines from this number to that one, which are those of a file."""

    def __init__(self, trial, first, end):
        place = os.path.join(trial.folder, f"lines.{first}")
        with open(place, "w", encoding="ascii") as file:
            file.writelines(line(number) for number in range(first, end))
        with open(place, "rb") as file:
            words = [trial.service.program, "tell", "--control", address(trial.service.control), "-"]
            self.process = subprocess.Popen(words, stdin=file, stdout=subprocess.PIPE, stderr=subprocess.PIPE)

    def ended(self, status):
        """It must end so, without a word."""
        out, err = self.process.communicate(timeout=PATIENCE)
        same("how the feed ends", (status, b"", b""), (self.process.returncode, out, err))


class Trial:
    """A service, and phones that watch some of its mailboxes."""

    def __init__(self, folder, service, plant):
        self.folder, self.service, self.plant = folder, service, plant
        self.wrong = None
        self.told = 0

    def changes(self):
        with self.service.operator() as operator:
            return int(operator.counters()["changes"])

    def reached(self, count):
        """Waits until so many lines were done, of both passes."""
        end = time.monotonic() + PATIENCE
        while self.changes() < count:
            if time.monotonic() >= end:
                raise AssertionError(f"{count} lines were not done within {PATIENCE} seconds")
            time.sleep(0.005)

    def tick(self):
        """What is waited for is looked at each 50 milliseconds, also where no phone hears anything."""
        self.plant.agenda.add(0.05, self.tick)

    def watch(self):
        self.tick()
        for number in range(WATCHERS):
            phone = Phone(self.plant, str(1000 + number), ("127.0.0.1", self.service.sip), 3600)
            self.plant.add(phone)
            phone.begin()
        if not self.plant.wait(ARRIVAL, lambda: all(phone.shown is not None for phone in self.plant.phones)):
            raise AssertionError("a phone has no lamp")

    def beside(self, action):
        """Does something while the phones are heard. What it raises is raised."""

        def acted():
            try:
                action()
            except BaseException as wrong:
                self.wrong = wrong

        thread = threading.Thread(target=acted, daemon=True)
        thread.start()
        self.plant.wait(PATIENCE, lambda: not thread.is_alive())
        if self.wrong:
            raise self.wrong

    def compare(self, passes):
        """All lines of so many passes were done, each once."""
        last = passes * LINES
        self.plant.wait(ARRIVAL, lambda: all(phone.notifies == 1 + passes * ROUNDS for phone in self.plant.phones))
        same("lines that were done", last, self.changes())
        words = [self.service.program, "tell", "--control", address(self.service.control), "DUMP"]
        wanted = sorted(line(number) for number in range(last - BOXES, last))
        same("the counts", "".join(wanted), subprocess.run(words, capture_output=True, text=True, check=True).stdout)
        heard = [(phone.shown, phone.notifies, phone.backward, phone.doubled) for phone in self.plant.phones]
        same("what phones heard", [(last - BOXES + number + 1, 1 + passes * ROUNDS, 0, 0) for number in range(WATCHERS)], heard)

    def close(self):
        self.service.close()

    def all_at_once(self):
        began = time.monotonic()

        def tell():
            Feed(self, 0, LINES).ended(0)
            self.took = time.monotonic() - began

        self.beside(tell)
        self.compare(1)
        return f"          {LINES / self.took:.0f} lines a second; load {os.getloadavg()[0]:.0f} on {os.cpu_count()} processors"

    def stopped(self):
        self.beside(self.stop_and_start)
        self.compare(2)
        return f"          the second feed began with line {self.told - LINES + 1:,}"

    def stop_and_start(self):
        feed = Feed(self, LINES, 2 * LINES)
        for process, where, seconds in (feed.process, PAUSED, PAUSE), (self.service.running.process, HELD, HOLD):
            self.reached(LINES + where)
            process.send_signal(signal.SIGSTOP)
            time.sleep(seconds)
            process.send_signal(signal.SIGCONT)
        self.reached(LINES + ENDED)
        feed.process.send_signal(signal.SIGTERM)
        feed.ended(-signal.SIGTERM)
        # What it had asked last may still be on its way.
        time.sleep(0.5)
        self.told = self.changes()
        same("whether it was ended in the midst", True, LINES + ENDED <= self.told < 2 * LINES)
        Feed(self, self.told, 2 * LINES).ended(0)


def main():
    notifyd, told = cases.program(), cases.Cases()
    with tempfile.TemporaryDirectory(prefix="feeding-") as folder:
        mailboxes = os.path.join(folder, "mailboxes")
        with open(mailboxes, "w", encoding="ascii") as file:
            file.write(f"1000-{1000 + BOXES - 1}\n")
        with Service(notifyd, "--mailboxes", mailboxes, "--workers", "2", limit=2 * PATIENCE) as service, Plant(lambda phone, new: None) as plant:
            trial = Trial(folder, service, plant)
            trial.watch()
            if told.check(f"{LINES:,} lines", trial.all_at_once):
                told.check("as many, while the feed stands still, the service does, and the feed begins anew", trial.stopped)
            told.check("CLOSE ends it", trial.close)
    return told.end()


if __name__ == "__main__":
    sys.exit(main())
