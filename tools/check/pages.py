"""What the checkers of pages share: which files are pages, and their parts."""
import os
import re
import subprocess

TOP = os.path.dirname(os.path.dirname(os.path.dirname(os.path.realpath(__file__))))


def tracked():
    """The files of the repository, without what is built."""
    listed = subprocess.run(["git", "-C", TOP, "ls-files", "--cached", "--others", "--exclude-standard"], capture_output=True, text=True)
    return sorted(file for file in listed.stdout.split("\n") if file and os.path.exists(f"{TOP}/{file}"))


def pages(files=None):
    """README.md, docs without what is generated, the benchmarks and the tour."""
    def is_page(file):
        return file in ("README.md", "bench/README.md") or (
            file.endswith(".md") and file.startswith(("docs/", "examples/")) and not file.startswith("docs/generated/"))
    return [file for file in files or tracked() if is_page(file)]


def text_of(file):
    with open(f"{TOP}/{file}", encoding="utf-8", errors="surrogateescape") as it:
        return it.read()


def without_comments(text):
    """A page as it is read: HTML comments are left out, with the lines kept."""
    return re.sub(r"<!--.*?-->", lambda it: "\n" * it[0].count("\n"), text, flags=re.S)


def prose(text):
    """Its lines with their numbers, those in fences and those that are indented as code left out."""
    fence, found = None, []
    for number, line in enumerate(without_comments(text).split("\n"), 1):
        mark = re.match(r"\s*(```+|~~~+)", line)
        if mark and (fence is None or mark[1].startswith(fence)):
            fence = mark[1] if fence is None else None
        elif fence is None and not line.startswith("    "):
            found.append((number, line))
    return found


def cells(line):
    """The cells of a row of a table. A bar in backticks or behind a backslash parts none."""
    out, cell, ticks = [], "", 0
    for part in re.split(r"(`+|\\\||\|)", line.strip().removeprefix("|").removesuffix("|")):
        if part and set(part) == {"`"}:
            ticks = 0 if ticks == len(part) else ticks or len(part)
        if part == "|" and not ticks:
            out.append(cell)
            cell = ""
        else:
            cell += part
    return [*out, cell]
