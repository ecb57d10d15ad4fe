"""A crate's tests, or its program, built anew for each allocation: the first, the second and so on, up to the first that isn't reached.

Tests have to pass whichever allocation is refused, and to print a line that begins with 'no memory' where one was: that says that it was
reached. Of a program each run has to write what the file `stdout` has, or the beginning of it and no more.
"""
import collections
import itertools
import os
import subprocess

from refusal import TOP


def tried(crate, *words):
    return subprocess.run(["rt", "try", *words], cwd=TOP / "crates" / crate, stdout=subprocess.PIPE, stderr=subprocess.PIPE)


def program_is_so(crate, number, wanted):
    """Whether a run of the program is as it has to be; None where the allocation isn't reached."""
    ran = tried(crate, "--fail-alloc", str(number))
    if ran.returncode == 0 and ran.stdout == wanted:
        return None
    if ran.returncode == 1 and wanted.startswith(ran.stdout):
        return True
    print(f"{crate}: allocation {number} refused, status {ran.returncode}\n{(ran.stdout + ran.stderr).decode(errors='replace')}")
    return False


def tests_are_so(crate, number):
    """The same of a run of the tests."""
    ran = tried(crate, "--test", "--fail-alloc", str(number))
    said = (ran.stdout + ran.stderr).decode(errors="replace")
    if ran.returncode:
        print(f"{crate}: allocation {number} refused\n{said}")
        return False
    told = collections.Counter(line for line in said.splitlines() if "no memory" in line)
    for line in sorted(told):
        print(f"{told[line]:7} {line}")
    return True if told else None


def main(crates):
    for crate in crates:
        folder = TOP / "crates" / crate
        wanted = (folder / "stdout").read_bytes() if os.path.exists(folder / "src" / "main.rt") else None
        for number in itertools.count(1):
            is_so = tests_are_so(crate, number) if wanted is None else program_is_so(crate, number, wanted)
            if is_so is False:
                return 1
            if is_so is None:
                break
        print(f"{crate}: {number - 1} allocations, each refused in turn")
    return 0
