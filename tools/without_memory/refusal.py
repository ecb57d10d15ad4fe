"""What the ways of trying without memory share: the library that refuses an allocation, and which ones are refused."""
import argparse
import contextlib
import os
import pathlib
import re
import subprocess
import tempfile

TOP = pathlib.Path(__file__).resolve().parent.parent.parent
MOST = 2000


@contextlib.contextmanager
def library():
    """The library, which is loaded before a program."""
    with tempfile.TemporaryDirectory() as folder:
        made = f"{folder}/refuse.so"
        source = TOP / "tools" / "without_memory" / "refuse.c"
        subprocess.run([os.environ.get("CC", "cc"), "-O2", "-shared", "-fPIC", "-o", made, source, "-ldl"], check=True)
        yield made


def run(program, made, text=b"", words=(), **how):
    """A run of a program on a text: with COUNT it says how many allocations there were, with REFUSE that one is refused."""
    environment = {**os.environ, "LD_PRELOAD": made, **how}
    return subprocess.run([program, *words], input=text, stdout=subprocess.PIPE, stderr=subprocess.PIPE, env=environment)


def count_of(ran):
    """How many allocations a run had that was asked to count them."""
    return int(re.search(rb"(?m)^allocations (\d+)", ran.stderr)[1])


def places(count, most=MOST):
    """Which of so many allocations are refused."""
    return [*range(1, min(count, most) + 1), *range(most + 1000, count + 1, 1000)]


def words_of(way, words, *options):
    """The words after the way: the options that it has, and names."""
    given = argparse.ArgumentParser(prog=f"try-without-memory {way}")
    if "most" in options:
        given.add_argument("--most", type=int, default=MOST)
    if "at" in options:
        given.add_argument("--at", default=TOP / "crates" / "app_cases" / "out" / "app_cases")
    if "tests" in options:
        given.add_argument("--tests", default="")
    given.add_argument("names", nargs="+")
    return given.parse_args(words)
