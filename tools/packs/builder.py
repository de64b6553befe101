"""Proves and builds the program certain, if it is missing or older than a file that it is built from."""

import contextlib
import os
import re
import subprocess
import time

ROOT = os.path.dirname(os.path.dirname(os.path.dirname(os.path.abspath(__file__))))
PROGRAM = os.path.join(ROOT, "crates", "certain", "out", "certain")
BEGUN = re.compile(rb"rt: chose --jobs \d+ for (\w+)$")
PROVED = re.compile(rb"logic=proved (?:.* )?functions=(\d+)\b")


class NotBuilt(Exception):
    """The program can't be built."""


def build(say):
    """Tells one line a crate; what the prover says goes to a log."""
    if os.path.exists(PROGRAM) and changed(PROGRAM) >= newest():
        return
    log = os.path.join(ROOT, "target", "certain.log")
    say("proving and building the program with 'rt run' in crates/certain; from nothing that takes long, and a line is told "
        "for each crate")
    start = time.monotonic()
    os.makedirs(os.path.dirname(log), exist_ok=True)
    try:
        status = prove(log, say)
    except OSError as error:
        raise NotBuilt(f"'rt' can't be run ({error.strerror}): the Rattle kit must be on the PATH") from None
    if status or not os.path.exists(PROGRAM):
        raise NotBuilt(f"'rt run' in crates/certain failed with exit status {status}; what it said is in {os.path.relpath(log)}")
    with contextlib.suppress(OSError):
        os.utime(PROGRAM)       # rt leaves a program that needs no new proof as it is
    say(f"built in {time.monotonic() - start:.0f} seconds; the prover's words are in {os.path.relpath(log)}")


def prove(log, say):
    """rt's exit status, or the program's: rt runs it, with no pack and no query. A line is told for each crate that is proved anew."""
    order, name = built_from("certain"), None
    with open(log, "wb") as kept, subprocess.Popen(["rt", "run"], cwd=os.path.join(ROOT, "crates", "certain"),
                                                   stdin=subprocess.DEVNULL, stdout=subprocess.PIPE,
                                                   stderr=subprocess.STDOUT) as rt:
        for line in rt.stdout:
            kept.write(line)
            if begun := BEGUN.match(line):
                name = begun[1].decode()
            elif (proved := PROVED.match(line)) and name in order:
                functions = int(proved[1])
                say(f"{order.index(name) + 1} of {len(order)} proved: {name}, {functions} function{'s' * (functions != 1)}")
    return rt.returncode


def built_from(name):
    """The crates of crates.txt that a crate is built from, itself the last, in rt's order: each stands after those that it needs."""
    with open(os.path.join(ROOT, "crates.txt")) as file:
        lines = (line.partition("#")[0].partition(":") for line in file)
        needs = {crate.split()[0]: names.split() for crate, colon, names in lines if colon}
    order = []

    def add(crate):
        for below in needs[crate]:
            if below in needs and below not in order:
                add(below)
        order.append(crate)

    add(name)
    return order


def newest():
    """When the newest file was changed that the program may be built from. What rt made, in each crate's folder out, is none."""
    files, crates = [os.path.join(ROOT, "crates.txt")], os.path.join(ROOT, "crates")
    for folder, folders, names in os.walk(crates):
        if os.path.dirname(folder) == crates and "out" in folders:
            folders.remove("out")
        files += [os.path.join(folder, name) for name in names]
    return max(map(changed, files))


def changed(path):
    return os.lstat(path).st_mtime if os.path.lexists(path) else 0
