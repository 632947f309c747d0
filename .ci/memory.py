"""How many checks of the prover may run at a time, by the machine's memory."""
import contextlib
import glob
import re
import threading

from copies import TOP, below, read

# kB that a check takes: each one, for each line of its crate's code, and for each line of the crates below. Measured, and rounded up.
EACH, OWN, BELOW = 900_000, 250, 130

# kB that are left to whatever else runs.
LEFT = 2_000_000


def lines(crate):
    return sum(read(it).count("\n") for it in glob.glob(f"{TOP}/crates/{crate}/src/**/*.rt", recursive=True))


def need(crate):
    """The kB that a check of a crate is likely to take."""
    return EACH + OWN * lines(crate) + BELOW * sum(map(lines, below([crate]) - {crate}))


def available():
    return int(re.search(r"MemAvailable: *(\d+)", read("/proc/meminfo"))[1])


def resident(process):
    """The kB that a process holds, or none where it has ended."""
    with contextlib.suppress(OSError, ValueError, IndexError):
        return 4 * int(read(f"/proc/{process}/statm").split()[1])
    return 0


class Memory:
    """The checks that run, and what they may still take. One begins where there is memory for it, and in any case once none runs and nothing
    else needs the machine."""

    def __init__(self, is_shared):
        self.is_shared, self.running, self.changed = is_shared, {}, threading.Condition()

    def fits(self, kilobytes, is_alone):
        if not self.running and not self.is_shared():
            return True
        if is_alone and self.running:
            return False
        owed = sum(max(0, it - resident(process)) for it, process in self.running.values())
        return available() - owed - LEFT >= kilobytes

    @contextlib.contextmanager
    def room(self, crate, is_alone):
        """Waits until there is memory for a check of a crate, or until no other runs, and gives what is to be told of its process."""
        key, kilobytes = object(), need(crate)
        with self.changed:
            while not self.fits(kilobytes, is_alone):
                self.changed.wait(2)
            self.running[key] = kilobytes, 0

        def runs(process):
            self.running[key] = kilobytes, process

        try:
            yield runs
        finally:
            with self.changed:
                del self.running[key]
                self.changed.notify_all()
