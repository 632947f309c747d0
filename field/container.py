#!/usr/bin/env python3
"""Builds the container of contrib/Containerfile over a program, runs it, and stops it: field/container.py [<program>]. It takes podman
(Debian's packages podman and, where crun can't run it, runc).

It stands on the image that the Containerfile names, where podman has or gets it, and else on the Debian in the folder FIELD_DEBIAN, as
`debootstrap --variant=minbase stable FOLDER` makes one. Images and containers that it makes go at its end.
"""

import os
import re
import shutil
import subprocess
import sys
import tempfile
import time

sys.dont_write_bytecode = True
import cases
from package import shows
from service import address
from suite import Running, free_port, same

CONTAINERFILE = os.path.join(cases.TOP, "contrib", "Containerfile")

# Seconds for a command of podman, for getting an image, and those that the Containerfile says for a stop.
PATIENCE, GETTING, STOP = 300, 60, 30

# As few as there are on any machine: podman asks for more than it may have where it was given less.
LIMITS = ("--ulimit", "nofile=1024:1024", "--ulimit", "nproc=1024:1024")


def podman(*words, limit=PATIENCE, **how):
    """How a command of podman ends."""
    runtime = ("--runtime", "runc") if cases.are_there("runc") else ()
    try:
        return subprocess.run(["podman", *runtime, *words], capture_output=True, text=True, timeout=limit, check=False, **how)
    except subprocess.TimeoutExpired:
        raise AssertionError(f"podman {words[0]} doesn't end within {limit} seconds") from None


def done(*words):
    """What a command of podman says, which must end well."""
    ended = podman(*words)
    same(f"the exit status of podman {' '.join(words)}: {ended.stderr}", 0, ended.returncode)
    return ended.stdout.strip()


class Container:
    """The container, and all that is made for it, each by a name of its own."""

    def __init__(self, program, folder):
        self.program, self.folder = program, folder
        self.name = f"notifyd-field-{os.getpid()}"
        self.sip, self.control = address(free_port()), address(free_port())
        with open(CONTAINERFILE, encoding="utf-8") as file:
            self.base = re.search(r"(?m)^FROM (\S+)$", file.read())[1]

    def has_base(self):
        """Whether there is an image to stand on."""
        if podman("image", "exists", self.base).returncode == 0:
            return True
        if podman("pull", "--quiet", f"docker.io/library/{self.base}", limit=GETTING).returncode == 0:
            return True
        debian, name = os.environ.get("FIELD_DEBIAN"), f"localhost/{self.name}-base:latest"
        if not debian:
            return False
        with subprocess.Popen(["tar", "-C", debian, "--exclude=./proc/*", "--exclude=./sys/*", "-c", "."], stdout=subprocess.PIPE) as files:
            same("the exit status of podman import", 0, podman("import", "--quiet", "-", name, stdin=files.stdout).returncode)
        self.base = name
        return True

    def is_built(self):
        """By the command that the Containerfile gives, over the program in the place of the built one."""
        run = "contrib/notifyd-run"
        for place, source in ("crates/notifyd/out/notifyd", self.program), (run, os.path.join(cases.TOP, run)):
            os.makedirs(os.path.join(self.folder, os.path.dirname(place)), exist_ok=True)
            shutil.copy(source, os.path.join(self.folder, place))
        told = done("build", "--format", "docker", "--pull=never", "--from", self.base, "-f", CONTAINERFILE, "-t", self.name, self.folder)
        return f"        on {self.base}" if told else None

    def runs(self, *words):
        done("run", "-d", "--name", self.name, *LIMITS, *words)

    def logs(self):
        ended = podman("logs", self.name)
        return ended.stdout + ended.stderr

    def listens(self):
        until = time.monotonic() + PATIENCE
        while "listening at" not in self.logs():
            same(f"whether the container listens: {self.logs()}", True, time.monotonic() < until)
            time.sleep(0.2)

    def stops(self):
        """It ends well, and goes. What doesn't end in time is killed, and has another status. In which time podman came back."""
        began = time.monotonic()
        done("stop", "--time", str(STOP), self.name)
        took = time.monotonic() - began
        same(f"the exit status: {self.logs()}", "0", done("inspect", "--format", "{{.State.ExitCode}}", self.name))
        done("rm", self.name)
        return took

    def lights_a_lamp(self):
        self.runs("--network", "host", self.name, "--listen", self.sip, "--control", self.control, "alice")
        self.listens()
        with Running(os.path.join(cases.TOP, "contrib", "lamp"), [self.sip, "alice"], 2 * PATIENCE) as lamp:
            same("how the lamp is answered", b"SIP/2.0 200 OK\n", lamp.process.stdout.readline())
            same("what it shows first", "active, Messages-Waiting: no", shows(lamp))
            line = ("--control", self.control, "MAIL alice voice 1 0 0 0")
            same("what the mail is answered", "ok", done("exec", self.name, "notifyd", "tell", *line))
            same("what it shows then", "active, Messages-Waiting: yes, Voice-Message: 1/0 (0/0)", shows(lamp))
            took = self.stops()
            same("what it shows last", "terminated, Messages-Waiting: yes, Voice-Message: 1/0 (0/0)", shows(lamp))
            same("how it ends", 0, lamp.end().status)
        return f"        podman stop took {took:.1f} seconds"

    def is_healthy(self):
        """Where nothing is said of addresses, the health check finds the service."""
        self.runs("--network", "none", self.name, "alice")
        self.listens()
        done("healthcheck", "run", self.name)
        self.stops()

    def end(self):
        podman("rm", "--force", "--time", "0", self.name)
        podman("rmi", "--force", self.name)
        if self.base.startswith("localhost/"):
            podman("rmi", "--force", self.base)


def main():
    all_of_them = cases.Cases()
    if not cases.are_there("podman"):
        cases.skip("the container: podman isn't installed")
        return all_of_them.end()
    with tempfile.TemporaryDirectory() as folder:
        container = Container(cases.program(), folder)
        try:
            if not container.has_base():
                cases.skip(f"the container: there is no {container.base}, and FIELD_DEBIAN names no Debian")
            elif all_of_them.check("the container is built", container.is_built):
                all_of_them.check("it lights a lamp, and ends in time, with a farewell and status 0", container.lights_a_lamp)
                all_of_them.check("its health is seen", container.is_healthy)
        finally:
            container.end()
    return all_of_them.end()


if __name__ == "__main__":
    sys.exit(main())
