"""What the scripts of cases beside field/run share: how a case is counted and told, as field/run does it. The last line of such a script is
"N passed, M failed"."""

import os
import shutil
import signal
import sys
import traceback

HERE = os.path.dirname(os.path.abspath(__file__))
TOP = os.path.dirname(HERE)
sys.path.append(os.path.join(TOP, "tests"))

NOTIFYD = os.path.join(TOP, "crates", "notifyd", "out", "notifyd")

# How much of what a failed case says is shown.
SHOWN = 4000


def leave(number, _):
    sys.exit(128 + number)


class Cases:
    """The cases of a script, whose services and folders go where somebody stops it."""

    def __init__(self):
        self.passed = self.failed = 0
        signal.signal(signal.SIGTERM, leave)

    def check(self, name, case, *words):
        """Runs a case: it fails where it raises AssertionError, or something else by which it can't go on. What it gives is shown, and
        given on."""
        try:
            told = case(*words)
        except AssertionError as wrong:
            return self.fail(name, str(wrong) or "an assertion without a text")
        except Exception:
            return self.fail(name, traceback.format_exc())
        print(f"ok      {name}", flush=True)
        if told:
            print(told, flush=True)
        self.passed += 1
        return True

    def fail(self, name, wrong):
        print(f"FAILED  {name}\n{wrong[:SHOWN]}", flush=True)
        self.failed += 1
        return False

    def end(self):
        """The exit status, once all is told."""
        print(f"{self.passed} passed, {self.failed} failed", flush=True)
        return 1 if self.failed else 0


def skip(why):
    print(f"skipped: {why}", flush=True)


def program():
    """The program that is tried: the first word, or else the built one."""
    path = os.path.abspath(sys.argv[1] if len(sys.argv) > 1 else NOTIFYD)
    if not os.access(path, os.X_OK):
        raise SystemExit(f"no program at {path}: make run builds it")
    return path


def are_there(*names):
    """Whether these programs are installed."""
    return all(shutil.which(name) for name in names)
