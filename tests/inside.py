"""Calls inside one process, made without a proof. Above all, each allocation of a call fails in turn: what takes memory says so
exactly where one failed, and leaves all else as it was.

The program stands in `inside/` as text, `*.rt.in`: no proof is asked of it, so it is no crate. On a copy of the repository it is one,
and `rt try` compiles it so that one allocation of each run fails, always that of the same number. A run makes a call behind so
many allocations that the failing one is the first of the call, in the next run the second, and so on up to runs in which the call
ends before it. In each of these the call must say that memory ran out, and leave things as its contract says; a call that goes on all
the same, whole `again`, has swallowed the failure.

On each copy a replay has a method that shows its list. Wrong bodies are planted on further copies (`inside/*.edit`): one that swallows
a failure, which must be seen, and one by which a worker is gone while a port is open, which no crew has: so the answers that a port and a
feed have for it are met. It needs `rt`."""

import glob
import os
import re
import resource
import shutil
import subprocess
import sys
import tempfile
import threading
import time

TOP = os.path.dirname(os.path.dirname(os.path.abspath(__file__)))
sys.path.append(os.path.join(TOP, ".ci"))

from copies import WRONG, below, copy_to, read, write
from edits import alone
from suite import run, same

FOLDER = os.path.join(TOP, "tests", "inside")

# What the program stands on.
LIBRARIES = (
    "sip_text event_headers sip_read sip_write package message_summary refer snapshots notifier queues crew transport scripts feeds arguments server"
)

# The number of the allocation that fails. No call makes so many, with what stands before it.
REFUSED = 2000

# So many runs in a row in which a call ends before the failing allocation end a sweep.
ENOUGH = 4

# The calls, and for what each is refused in some run: for the whole of it, for the parts of these numbers, or for nothing.
CALLS = {
    "read": {"refused"},
    "wrong_messages": {"refused 1", "refused 2", "refused 3", "refused 4"},
    "wrong_texts": {"refused 1", "refused 2", "refused 3", "refused 4", "refused 5", "refused 6"},
    "values": {"refused 1", "refused 2", "refused 3"},
    "headers": {"refused 1", "refused 2", "refused 3", "refused 4"},
    "answer": {"refused"},
    "notify": {"refused"},
    "new_cell": {"refused"},
    "new_mailboxes": {"refused"},
    "new_transfers": {"refused"},
    "new_desk": {"refused"},
    "new_inbox": {"refused"},
    "new_outbox": {"refused"},
    "bind": set(),
    "mailboxes": {"refused 2", "refused 4"},
    "transfers": {"refused 1", "refused 2", "refused 3", "refused 4", "refused 5", "refused 6"},
    "mail": {"refused 1", "refused 2", "refused 3"},
    "transfer": {"refused 1", "refused 2", "refused 3", "refused 4"},
    "replay": {"refused 1", "refused 2", "refused 3"},
    "script": {"refused"},
    "scripts": {"refused"},
    "start": {"refused"},
    "closed": {"refused", "refused 1", "refused 2", "refused 3"},
    "dropped": {"refused", "refused 1", "refused 2", "refused 3"},
}

# The edit by which a replay shows its list, which nothing else reads: it is made on each copy.
SHOWS = "a_replay_shows_its_list"

# Seconds that the compiler may take: less than two minutes on a machine where nothing else runs, much longer beside proofs.
LIMIT = 1800


def plant(edit, folder):
    """Puts the body of this name into the crew of a copy."""
    texts = {}
    if not alone("crew", f"{FOLDER}/{edit}.edit").apply(texts, folder):
        raise AssertionError(f"what {edit}.edit changes doesn't stand there once")
    for file, text in texts.items():
        write(f"{folder}/crates/crew/{file}", text)


def furnish(folder, edit):
    """Makes a copy of the repository in which the program is a crate, with a wrong body or none. Answers the crate's folder."""
    copy_to(folder, below(LIBRARIES.split()), WRONG)
    for name in [SHOWS, edit] if edit else [SHOWS]:
        plant(name, folder)
    crate = f"{folder}/crates/inside"
    os.makedirs(f"{crate}/src")
    for name in os.listdir(FOLDER):
        if name.endswith(".rt.in"):
            write(f"{crate}/src/{name[:-3]}", read(f"{FOLDER}/{name}"))
    write(f"{folder}/crates.txt", f"{read(f'{folder}/crates.txt')}inside: {LIBRARIES}\n")
    return crate


def told_by(program, name, burden=0, **how):
    """What a call told that was made behind so many allocations. `how` are further words for `subprocess.Popen`."""
    ended = run(program, [], f"{name} {burden}\n".encode(), **how)
    line = re.search(rf"(?m)^{name}: (.*)$", ended.out.decode(errors="replace"))
    return line[1] if line else f"nothing, status {ended.status}"


def take(folder, program):
    """Copies the program from where `rt try` runs it, below this folder, once it stands there whole."""
    for found in glob.glob(f"{folder}/tmp/**/program", recursive=True):
        try:
            shutil.copy(found, program)
            os.chmod(program, 0o755)
            if told_by(program, "read", 0) == "whole":
                return True
        except OSError:  # It is being written, or gone already.
            pass
    return False


def compiled(edit, program):
    """Compiles the program with the wrong body of this name, or with none, and leaves it at this path.

    `rt try` keeps no program, and a run of it takes long. So it is given some runs to make, and the program is copied meanwhile."""
    if not shutil.which("rt"):
        raise AssertionError("no command rt: the toolchain isn't installed")
    with tempfile.TemporaryDirectory(prefix="inside-") as folder:
        crate = furnish(folder, edit)
        for name in ["tmp", "cases", *(f"cases/read{it}" for it in range(50))]:
            os.mkdir(f"{folder}/{name}") if "read" not in name else write(f"{folder}/{name}", "read 0\n")
        words = ["rt", "try", "--steps", "1", "--fail-alloc", str(REFUSED), "--cases", f"{folder}/cases"]
        how = {"cwd": crate, "env": {**os.environ, "TMPDIR": f"{folder}/tmp"}, "stdin": subprocess.DEVNULL}
        with open(f"{folder}/log", "w+b") as log, subprocess.Popen(words, stdout=log, stderr=log, **how) as compiler:
            end = time.monotonic() + LIMIT
            while compiler.poll() is None and time.monotonic() < end:
                if take(folder, program):
                    compiler.terminate()
                    return
                time.sleep(0.1)
            compiler.terminate()
            log.seek(0)
            raise AssertionError(f"it is not compiled: {log.read().decode(errors='replace').strip()[-600:]}")


class Program:
    """The program with a wrong body or none, compiled for the first that asks."""

    def __init__(self, edit):
        self.edit, self.lock, self.folder = edit, threading.Lock(), None

    def path(self):
        with self.lock:
            if self.folder is None:
                folder = tempfile.TemporaryDirectory(prefix="inside-program-")
                os.chmod(folder.name, 0o755)
                compiled(self.edit, f"{folder.name}/program")
                self.folder = folder
        return f"{self.folder.name}/program"

    def told(self, name, burden=0):
        return told_by(self.path(), name, burden)


RIGHT, SWALLOWS, GONE = Program(None), Program("a_refusal_is_swallowed"), Program("a_worker_is_gone")


def swept(program, name):
    """Gives what a call told in the runs in which each of its allocations fails, in their order."""
    ended = 0
    for burden in range(REFUSED, 0, -1):
        told = program.told(name, burden)
        yield told
        ended = ended + 1 if told == "whole" else 0
        if ended == ENOUGH:
            return


def is_refused(name):
    """A check that a call says that memory ran out at each allocation that fails, and at no other: first in the runs in which the
    failing one stands before the call, then in all of those in which it is one of the call, then no more."""

    def check(program, folder):
        came, parts = list(swept(RIGHT, name)), CALLS[name]
        same("what was refused, and all else that was told", sorted(parts | {"before", "whole"}), sorted(set(came)))
        order = "".join("r" if it in parts else it[0] for it in came)
        same("the order of the runs", True, bool(re.fullmatch("b+r+w+" if parts else "b+w+", order)) or order)

    return check


def ports_join_the_crew(program, folder):
    same("the run", "whole", RIGHT.told("joined"))


def start_none():
    """Lets the process that begins here start no thread. Root may start any number, so it is somebody else then."""
    resource.setrlimit(resource.RLIMIT_NPROC, (1, 1))
    if os.getuid() == 0:
        os.setgid(65534)
        os.setuid(65534)


def open_few(count):
    """Lets the process that begins here have so many open files and sockets, the three streams among them."""
    return lambda: resource.setrlimit(resource.RLIMIT_NOFILE, (count, count))


def a_refused_socket_is_told(program, folder):
    # One beside the streams: the socket is bound, and has none for its other wire.
    same("the run", "refused a socket", told_by(RIGHT.path(), "bind", preexec_fn=open_few(4)))


def a_refused_thread_is_told(program, folder):
    same("the run", "refused a thread", told_by(RIGHT.path(), "start", preexec_fn=start_none))


def a_swallowed_refusal_is_seen(program, folder):
    same("a failure that isn't told, among the runs", True, any(it == "SWALLOWED" for it in swept(SWALLOWS, "closed")))


def a_gone_worker_is_told(program, folder):
    same("the run", "whole", GONE.told("gone"))


def checks():
    return []


def checks_apart():
    # The first checks have the programs compiled side by side.
    yield "two ports are handed back, and join their crew", ports_join_the_crew
    yield "a crew whose thread is refused says so", a_refused_thread_is_told
    yield "a socket that is refused is told", a_refused_socket_is_told
    yield "a worker that swallows a failed allocation is seen", a_swallowed_refusal_is_seen
    yield "Gone and Left are told where a worker is gone", a_gone_worker_is_told
    for name in CALLS:
        yield f"each allocation fails once: {name}", is_refused(name)
