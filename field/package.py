#!/usr/bin/env python3
"""Makes the Debian package of a program, and installs, starts, upgrades and removes it: field/package.py [<program>]. It takes root.

FIELD_DEBIAN names a folder that `debootstrap --variant=minbase stable FOLDER` has made: the package goes into a copy of it, and whatever
runs there finds nothing else. Without it the package goes into an empty folder, and runs on this machine's libraries. systemd runs in
neither: the service is started as its unit says, by the same words, environment, user and rights, and ended by TERM.
"""

import os
import re
import shlex
import shutil
import signal
import subprocess
import sys
import tempfile
import time
import urllib.request

sys.dont_write_bytecode = True
import cases
from service import address
from suite import Running, free_port, run, same

OPTIONS, MAILBOXES, UNIT = "etc/notifyd/options", "etc/notifyd/mailboxes", "usr/lib/systemd/system/notifyd.service"

# The unit of the window for browsers and Prometheus, and its page.
WINDOW, PAGE = "usr/lib/systemd/system/notifyd-exporter.service", "usr/share/notifyd/notifyd-window.html"

# What the tools of packages keep for themselves, and where kernel and systemd have theirs.
OTHERS = ("var/lib/dpkg/", "var/log/", "var/cache/", "dev/", "proc/", "sys/", "run/", "tmp/")

# Where files of the package lie, as words of its unit name them.
OWN = re.compile(r"^/(usr/s?bin/|etc/notifyd|var/lib/notifyd)")

# The rights that the unit leaves a service, whose user has this number.
NOBODY = 65534
RIGHTS = ["setpriv", f"--reuid={NOBODY}", f"--regid={NOBODY}", "--clear-groups", "--no-new-privs", "--bounding-set=-all", "--inh-caps=-all"]

# How a command is run inside a whole machine, of which it sees its own processes' folder: that goes with it.
INSIDE = ["unshare", "--mount", "sh", "-c", 'mount -t proc proc "$0/proc" && exec chroot "$0" "$@"']

# Seconds that the unit gives a stop, and in which the service that runs meanwhile sees its package upgraded.
STOP, LIMIT = 30, 900


def done(*words, **how):
    """What a command says, which must end well."""
    ended = subprocess.run(words, capture_output=True, text=True, check=False, **how)
    same(f"the exit status of {shlex.join(words)}: {ended.stdout}{ended.stderr}", 0, ended.returncode)
    return ended.stdout


class Machine:
    """A folder that stands for a machine."""

    def __init__(self, folder, debian):
        self.root, self.folder, self.is_whole = f"{folder}/machine", folder, bool(debian)
        if debian:
            done("cp", "-a", debian, self.root)
        else:
            for part in ("info", "updates", "triggers"):
                os.makedirs(f"{self.root}/var/lib/dpkg/{part}")
            for part in ("status", "available"):
                open(f"{self.root}/var/lib/dpkg/{part}", "w").close()
        self.before = self.files()

    def path(self, place):
        return os.path.join(self.root, place)

    def files(self):
        """All that there is, but for what belongs to others."""
        found = set()
        for folder, folders, names in os.walk(self.root):
            found |= {os.path.relpath(os.path.join(folder, name), self.root) for name in [*folders, *names]}
        return {it for it in found if not f"{it}/".startswith(OTHERS)}

    def more(self):
        """What there is beside what was there at first."""
        return self.files() - self.before

    def words(self, words):
        """These words, as they have to be said from outside."""
        return [*INSIDE, self.root, *words] if self.is_whole else [self.place(word) for word in words]

    def place(self, word):
        """A place of a file of the package as it is seen by who runs it."""
        return self.root + word if not self.is_whole and OWN.match(word) else word

    def dpkg(self, *words):
        if self.is_whole:
            return done("chroot", self.root, "dpkg", *words)
        log = f"--log={self.folder}/dpkg.log"
        return done("dpkg", f"--root={self.root}", log, "--force-script-chrootless", "--force-depends", "--no-triggers", *words)

    def install(self, package):
        if self.is_whole:
            package = f"/{os.path.relpath(shutil.copy(package, self.path('tmp')), self.root)}"
        self.dpkg("--install", package)


class Unit:
    """A service as its unit starts it."""

    def __init__(self, machine):
        with open(machine.path(UNIT), encoding="utf-8") as file:
            self.lines = re.findall(r"(?m)^(\w+)=(.*)$", file.read())
        self.machine = machine

    def values(self, name):
        return [value for key, value in self.lines if key == name]

    def environment(self):
        """What the unit and its file of options set."""
        told = dict(it.split("=", 1) for line in self.values("Environment") for it in shlex.split(line))
        for place in self.values("EnvironmentFile"):
            with open(self.machine.path(place.lstrip("-/")), encoding="utf-8") as file:
                told |= dict(line.strip().split("=", 1) for line in file if "=" in line and not line.startswith("#"))
        return {name: self.machine.place(value) for name, value in told.items()}

    def start(self):
        """The service, which runs and listens."""
        environment = self.environment()
        for state in self.values("StateDirectory"):
            os.makedirs(self.machine.path(f"var/lib/{state}"), exist_ok=True)
            os.chown(self.machine.path(f"var/lib/{state}"), NOBODY, NOBODY)
        words = []
        for word in shlex.split(self.values("ExecStart")[0]):
            words += shlex.split(environment.get(word[1:], "")) if word.startswith("$") else [word]
        words = self.machine.words([*RIGHTS, *words])
        running = Running(words[0], words[1:], LIMIT, env={"PATH": "/usr/sbin:/usr/bin:/sbin:/bin", **environment}, cwd="/")
        running.lines_until(b"listening at")
        return running


class Package:
    """The package in a machine, and an operator who listens at these ports."""

    def __init__(self, program, folder, debian):
        os.chmod(folder, 0o755)
        self.program, self.folder, self.machine = program, folder, Machine(folder, debian)
        self.sip, self.control = address(free_port()), address(free_port())
        self.service, self.package = None, None

    def made(self, version):
        """The package of this version."""
        quick = {**os.environ, "DPKG_DEB_COMPRESSOR_LEVEL": "1"}
        told = done(os.path.join(cases.TOP, ".ci", "deb"), self.program, version, self.folder, env=quick)
        self.package = told.splitlines()[-1]
        return self.package

    def has_no_errors(self):
        self.made("1.0~first")
        done("lintian", "--allow-root", "--fail-on", "error", self.package)

    def is_installed(self):
        self.machine.install(self.made("1.0~first"))
        for place in ("usr/sbin/notifyd", "usr/bin/notifyd-run", "usr/bin/notifyd-lamp", "usr/bin/notifyd-exporter", MAILBOXES, UNIT, WINDOW, PAGE):
            same(f"whether there is a {place}", True, os.path.exists(self.machine.path(place)))
        for place in self.machine.more():
            status = os.lstat(self.machine.path(place))
            same(f"owner and rights for others of {place}", (0, 0, 0), (status.st_uid, status.st_gid, status.st_mode & 0o6022))
        self.configure()

    def configure(self):
        """An operator says where the service listens, and which mailboxes there are."""
        with open(self.machine.path(OPTIONS), "a", encoding="utf-8") as file:
            file.write(f"NOTIFYD_OPTIONS=--listen {self.sip} --control {self.control}\n")
        with open(self.machine.path(MAILBOXES), "a", encoding="utf-8") as file:
            file.write("alice\n")

    def has_good_units(self):
        """systemd finds nothing wrong with the units, where the programs that they name are those of the package."""
        for unit in UNIT, WINDOW:
            place = os.path.join(self.folder, os.path.basename(unit))
            with open(self.machine.path(unit), encoding="utf-8") as text, open(place, "w", encoding="utf-8") as file:
                file.write(re.sub(r"(?<=[=\s])/usr/s?bin/notifyd", lambda found: self.machine.root + found.group(), text.read()))
            told = subprocess.run(["systemd-analyze", "verify", "--man=no", place], capture_output=True, text=True, check=False)
            same(f"what systemd says of {unit}", (0, ""), (told.returncode, told.stdout + told.stderr))

    def shows_itself(self):
        """The installed window has its page, and asks the service. It has Python 3 of this machine."""
        self.starts()
        words = ["--listen", "127.0.0.1:0", "--control", self.control]
        with Running("python3", [self.machine.path("usr/bin/notifyd-exporter"), *words], LIMIT) as window:
            place = re.search(rb"http://[0-9.:]+/", window.lines_until(b"listening at"))[0].decode()
            with urllib.request.urlopen(place) as page, urllib.request.urlopen(f"{place}metrics") as metrics:
                same("whether there is a page", True, b"<title>notifyd</title>" in page.read())
                same("whether the service is reached", True, b"\nnotifyd_reachable 1\n" in metrics.read())
        self.stops()

    def starts(self):
        self.service = Unit(self.machine).start()

    def told(self, *line):
        """Tells the service a line by the installed program."""
        words = self.machine.words(["/usr/sbin/notifyd", "tell", "--control", self.control, *line])
        same(f"what {line} is answered", b"ok\n", run(words[0], words[1:]).out)

    def lamp(self):
        """The installed lamp, which has Python 3 of this machine. What it prints first is read."""
        lamp = Running("python3", [self.machine.path("usr/bin/notifyd-lamp"), self.sip, "alice"], LIMIT)
        same("how the lamp is answered", b"SIP/2.0 200 OK\n", lamp.process.stdout.readline())
        return lamp, shows(lamp)

    def stops(self):
        """TERM goes to the first process alone, as the unit says, which has a while to end."""
        self.service.process.send_signal(signal.SIGTERM)
        began = time.monotonic()
        same("the exit status", 0, self.service.end().status)
        same(f"whether it ended within {STOP} seconds", True, time.monotonic() - began < STOP)

    def lights_a_lamp(self):
        self.starts()
        lamp, first = self.lamp()
        with lamp:
            same("what the lamp shows first", "active, Messages-Waiting: no", first)
            self.told("MAIL", "alice", "voice", "1", "0", "0", "0")
            same("what the lamp shows then", "active, Messages-Waiting: yes, Voice-Message: 1/0 (0/0)", shows(lamp))
            self.machine.install(self.made("1.0~second"))
            with open(self.machine.path(MAILBOXES), encoding="utf-8") as file:
                same("whether an upgrade keeps what was written", True, "alice\n" in file.readlines())
            self.stops()
            same("what the lamp shows last", "terminated, Messages-Waiting: yes, Voice-Message: 1/0 (0/0)", shows(lamp))
            same("how the lamp ends", 0, lamp.end().status)

    def lights_it_again(self):
        """The new program runs, and knows what was told before the restart where its unit keeps that."""
        keeps = bool(Unit(self.machine).values("StateDirectory"))
        self.starts()
        lamp, first = self.lamp()
        with lamp:
            known = "yes, Voice-Message: 1/0 (0/0)" if keeps else "no"
            same("what the lamp shows first", f"active, Messages-Waiting: {known}", first)
            self.told("MAIL", "alice", "voice", "0", "1", "0", "0")
            same("what the lamp shows then", "active, Messages-Waiting: no, Voice-Message: 0/1 (0/0)", shows(lamp))
            self.stops()
            same("how the lamp ends", 0, lamp.end().status)
        return f"        its unit {'keeps' if keeps else 'does not keep'} what mailboxes hold"

    def is_removed(self):
        """What an operator wrote stays until it is purged, and so does what the service itself wrote. Then nothing is left."""
        self.machine.dpkg("--remove", "notifyd")
        left = {place for place in self.machine.more() if not place.startswith("var/lib/notifyd")}
        same("what is left", {"etc/notifyd", OPTIONS, MAILBOXES}, left & self.machine.more() - {"etc"})
        self.machine.dpkg("--purge", "notifyd")
        same("what is left once it is purged", set(), {place for place in self.machine.more() if "notifyd" in place})

    def end(self):
        if self.service:
            self.service.__exit__()


def shows(lamp):
    """What a lamp shows next, without the time that is left."""
    line = lamp.process.stdout.readline().decode().strip()
    return re.sub(r"^Subscription-State: (\w+)[^,]*", r"\1", line)


def main():
    all_of_them = cases.Cases()
    if os.getuid() or not cases.are_there("dpkg", "dpkg-deb", "setpriv"):
        cases.skip("the package, since that takes root, dpkg and setpriv")
        return all_of_them.end()
    debian = os.environ.get("FIELD_DEBIAN")
    with tempfile.TemporaryDirectory() as folder:
        package = Package(cases.program(), folder, debian and os.path.abspath(debian))
        try:
            try_package(package, all_of_them)
        finally:
            package.end()
    return all_of_them.end()


def try_package(package, all_of_them):
    if cases.are_there("lintian"):
        all_of_them.check("lintian finds no error in the package", package.has_no_errors)
    else:
        cases.skip("what lintian says of the package: it isn't installed")
    where = "a Debian of its own" if package.machine.is_whole else "an empty folder: FIELD_DEBIAN names no Debian"
    if not all_of_them.check(f"the package is installed in {where}", package.is_installed):
        return
    if cases.are_there("systemd-analyze"):
        all_of_them.check("systemd finds its units good", package.has_good_units)
    else:
        cases.skip("what systemd says of the unit: systemd-analyze isn't there")
    if all_of_them.check("it is started as its unit says, lights a lamp, is upgraded, and ends at TERM", package.lights_a_lamp):
        all_of_them.check("it is started again, and lights a lamp", package.lights_it_again)
    all_of_them.check("its window shows it", package.shows_itself)
    all_of_them.check("it is removed, and what was written stays until it is purged", package.is_removed)


if __name__ == "__main__":
    sys.exit(main())
