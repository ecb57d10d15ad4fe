#!/usr/bin/env python3
"""Programs and libraries of this repository without proof, compiled as proved ones are: what bench/count and tools/tcp-goodput run, and what
`bench/interface --unproved` links.

`rt try` builds programs without proof, and looks at each index and address as they run. What its compiler is given is taken while it is there,
and compiled once more as a proved program is: without these looks, for x86-64-v2, the library's comparisons of slices inlined, and so what the
sources of this repository mark as `#[inline(always)]`, while what they mark as `#[inline(never)]` isn't.
"""
import os
import re
import shutil
import subprocess
import sys
import tempfile
import time

HERE = os.path.dirname(os.path.realpath(__file__))


def crates_in(tree, room, crate, below):
    """A copy of the tree's crates, with one more that stands on those below; where its sources belong."""
    for entry in os.listdir(f"{tree}/crates"):
        if os.path.isdir(f"{tree}/crates/{entry}/src"):
            shutil.copytree(f"{tree}/crates/{entry}", f"{room}/crates/{entry}", ignore=shutil.ignore_patterns("out", "data"))
    shutil.copy(f"{tree}/HANDLES", room)
    with open(f"{tree}/crates.txt") as listed, open(f"{room}/crates.txt", "w") as written:
        written.write(listed.read() + f"{crate}: {below}\n")
    source = f"{room}/crates/{crate}/src"
    os.makedirs(source)
    return source


def module_of(room, crate, kept):
    """Runs `rt try`, and keeps what its compiler is given. What it then makes of that isn't waited for."""
    work, size, since = f"{room}/work", 0, 0
    os.mkdir(work)
    with open(f"{room}/said", "w") as said:
        tried = subprocess.Popen(["rt", "try", "--steps", "1"], cwd=f"{room}/crates/{crate}", env={**os.environ, "TMPDIR": work},
                                 stdin=subprocess.DEVNULL, stdout=said, stderr=said)
        while tried.poll() is None:
            for at, _, files in os.walk(work):
                if "module.bc" in files and os.stat(f"{at}/module.bc").st_size > size:
                    size, since = shutil.copyfile(f"{at}/module.bc", kept) and os.stat(kept).st_size, time.monotonic()
            # A first and small one is of the looks themselves, and this one is whole when it doesn't grow any more.
            if size > 1 << 20 and time.monotonic() > since + 3:
                tried.terminate()
                tried.wait()
            time.sleep(0.1)
    if not size:
        sys.exit(open(f"{room}/said").read() + f"{crate}: `rt try` built nothing")


HINT = re.compile(r"#\[inline\((always|never)\)\]\s*(?:pub(?:\([^)]*\))? )?(?:const )?fn (\w+)")
BLOCK = re.compile(r"(?m)^impl(?:<[^>]*>)? (?:[\w<>, ]+ for )?(\w+)[^\n]*\{$")


def hints_in(room):
    """What the sources say of inlining: two patterns of names, of functions that are always inlined and of those that never are."""
    names = {"always": [], "never": []}
    for at, _, files in os.walk(f"{room}/crates"):
        for file in files:
            inside = os.path.relpath(f"{at}/{file}", f"{room}/crates").removesuffix(".rt").split("/")
            if not file.endswith(".rt") or inside[1:2] != ["src"]:
                continue
            with open(f"{at}/{file}") as text:
                source = text.read()
            module = "::".join([inside[0], *(it for it in inside[2:] if it not in ("lib", "main"))])
            for hint in HINT.finditer(source):
                block = [it for it in BLOCK.finditer(source) if it.start() < hint.start() < source.index("\n}", it.end())]
                names[hint[1]].append(rf"{inside[0]}::(?:\w+::)*{block[-1][1]}::{hint[2]}" if block else f"{module}::{hint[2]}")
    return [re.compile(rf'define internal .*@"(?:{"|".join(names[which]) or "-"})(?:::<[^"]*)?"\(') for which in ("always", "never")]


def bare(line, exporter=None):
    """A line of a quick build's module without what such a build adds, if it is anything else; the exports of a crate under their own names."""
    # a look at an index, an address or a sum, or the pattern that fills a local
    if line.lstrip().startswith('call void @"rattle-llvm-checks::') or ("llvm.memset" in line and "i8 -86," in line):
        return None
    if line.startswith("attributes "):
        line = line.replace("sanitize_address", "nounwind").replace('"frame-pointer"="all"', "").replace('="x86-64"', '="x86-64-v2"')
    return exported(line, exporter) if exporter else line


def object_of(module, room, exporter=None):
    """Compiles the module without what a quick build adds. What the crate `exporter` has for C is called by its own name, and its `main` not at all."""
    clang = f"{kit()}/toolchain/bin/clang"
    always, never = hints_in(room)
    subprocess.run([clang, "-S", "-emit-llvm", "-O0", "-Xclang", "-disable-llvm-passes", "-x", "ir", module, "-o", f"{room}/text.ll"], check=True)
    with open(f"{room}/text.ll", errors="surrogateescape") as text, open(f"{room}/made.ll", "w", errors="surrogateescape") as made:
        for line in text:
            line = bare(line, exporter)
            if line is None:
                continue
            if re.match(r'define internal .*@"core::(slice::scan|cmp::slices)::', line) or always.match(line):
                line = re.sub(r"\) #(\d+) \{$", r") alwaysinline #\1 {", line)
            elif never.match(line):
                line = re.sub(r"\) #(\d+) \{$", r") noinline #\1 {", line)
            made.write(line)
    subprocess.run([clang, "-march=x86-64-v2", "-O3", "-fPIE", "-ffunction-sections", "-Wno-override-module", "-mllvm", "-trap-unreachable",
                    "-c", "-x", "ir", f"{room}/made.ll", "-o", f"{room}/made.o"], check=True)
    return f"{room}/made.o"


def kit():
    return os.path.dirname(subprocess.run(["rt", "doc"], capture_output=True, text=True, check=True).stdout.strip())


def exported(line, crate):
    """The line with the crate's functions for C under their own names."""
    line = re.sub(rf'@"{crate}::(?:\w+::)?((?:bench|zv)_\w+)"', r"@\1", line)
    if re.match(r"define internal .*@(bench|zv)_\w+\(", line):
        line = line.replace("define internal ", "define ", 1)
    return re.sub(r"^define (.*@main\()", r"define internal \1", line)


def program_of(module, room):
    libraries = [f"{kit()}/c/libos_c.a", f"{kit()}/c/liblibc_c.a"]
    subprocess.run(["cc", "-Wl,--gc-sections", object_of(module, room), *libraries, "-lm", "-o", f"{room}/made"], check=True)
    return f"{room}/made"


def library_of(name, folder, below):
    """Builds bench/NAME/*.txt over the crates below as FOLDER/libNAME.a. bench/NAME.calls calls each of its exports, so that `rt try` keeps them."""
    with tempfile.TemporaryDirectory(prefix="unproved-") as room:
        source = crates_in(os.path.dirname(HERE), room, name, " ".join(below))
        for file in os.listdir(f"{HERE}/{name}"):
            shutil.copy(f"{HERE}/{name}/{file}", f"{source}/{file.removesuffix('.txt')}.rt")
        with open(f"{source}/lib.rt") as lib, open(f"{HERE}/{name}.calls") as calls, open(f"{source}/main.rt", "w") as main:
            main.write(lib.read() + calls.read())
        os.remove(f"{source}/lib.rt")
        module_of(room, name, f"{room}/module.bc")
        made = object_of(f"{room}/module.bc", room, name)
        archive = f"{os.path.abspath(folder)}/lib{name}.a"
        if os.path.exists(archive):
            os.remove(archive)
        subprocess.run(["ar", "rcs", archive, made], check=True)


if __name__ == "__main__":
    if len(sys.argv) < 4 or not os.path.isdir(sys.argv[2]) or not os.path.exists(f"{HERE}/{sys.argv[1]}.calls"):
        sys.exit("unproved.py NAME FOLDER CRATE ..: bench/NAME/*.txt over these crates as FOLDER/libNAME.a, without its proofs")
    library_of(sys.argv[1], sys.argv[2], sys.argv[3:])
