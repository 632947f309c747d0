"""Copies of the repository with some of its crates alone, for the scripts of this folder and `tests/inside.py`."""
import filecmp
import os
import shutil
import subprocess

TOP = os.path.dirname(os.path.dirname(os.path.abspath(__file__)))

# What of a crate's folder has its wrong bodies, which nothing is made of.
WRONG = ("must-fail", "wrong.edits", "run-refuses")


def read(path):
    with open(path, encoding="utf-8", newline="") as file:
        return file.read()


def write(path, text):
    """Puts a new file in the place of this one, which may have other names."""
    if os.path.lexists(path):
        os.remove(path)
    with open(path, "w", encoding="utf-8", newline="") as file:
        file.write(text)


def renew(source, to):
    """Puts a copy of a file there, and leaves one that is the same as it is."""
    if os.path.isfile(to) and filecmp.cmp(source, to, shallow=False):
        return
    os.makedirs(os.path.dirname(to), exist_ok=True)
    if os.path.lexists(to):
        os.remove(to)
    shutil.copyfile(source, to)


def graph():
    """Of each crate of crates.txt the libraries that it lists."""
    lines = [it.split("#")[0].strip().partition(":") for it in read(f"{TOP}/crates.txt").splitlines()]
    return {name: rest.split() for name, _, rest in lines if name}


def below(names):
    """These crates and all that they stand on."""
    lists, found, left = graph(), set(), list(names)
    while left:
        name = left.pop()
        if name not in found:
            found.add(name)
            left += [it for it in lists[name] if it in lists]
    return found


def files_of(names, without=()):
    """The repository's files of these crates, but for what in their folders has one of these names, and the files that every copy has."""
    words = ["git", "ls-files", "-z", "--cached", "--others", "--exclude-standard", "crates"]
    listed = subprocess.run(words, cwd=TOP, stdout=subprocess.PIPE, check=True).stdout.decode().split("\0")
    wanted = {it for it in listed if it and it.split("/")[1] in names and it.split("/")[2] not in without}
    return {it for it in wanted | {"HANDLES"} if os.path.isfile(f"{TOP}/{it}")}


def copy_to(folder, names, without=()):
    """Copies the files of these crates to the folder, and leaves what is the same there as it is."""
    wanted = files_of(names, without)
    for at, folders, files in os.walk(f"{folder}/crates"):
        folders[:] = [it for it in folders if it != "out"]
        for name in files:
            if os.path.relpath(f"{at}/{name}", folder) not in wanted:
                os.remove(f"{at}/{name}")
    for it in sorted(wanted):
        renew(f"{TOP}/{it}", f"{folder}/{it}")
    with open(f"{TOP}/crates.txt", encoding="utf-8") as lines:
        write(f"{folder}/crates.txt", "".join(it for it in lines if it.split(":")[0] in names))
    if not os.path.isdir(f"{folder}/.git"):
        subprocess.run(["git", "init", "--quiet", "."], cwd=folder, check=True)
