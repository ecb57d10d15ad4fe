"""Compiles a static library of this repository to a WebAssembly module with a 64-bit memory, for tools/page and tools/page-of-hosts.

The kit compiles no crate to WebAssembly that asks for memory, as malloc and free are C's. So a build takes the module of LLVM's that the kit's
compiler is given for x86-64, whose integers, pointers and structs lie in memory as those of wasm64 do, and has the kit's clang compile it for
wasm64, together with web/memory.c, which is malloc and free, and c/memory.c. rattle-link links both.

A build without proof (a quick one) looks at indices and sums as it runs, and is kept in .quick/ until a source changes. With `proved` the crate is
checked first, over the libraries below it as `rt lib` proves and builds them, and what is compiled is what was proved.
"""
import importlib.machinery
import importlib.util
import os
import re
import shutil
import tempfile

TOP = os.path.dirname(os.path.dirname(os.path.dirname(os.path.realpath(__file__))))
TARGET = "wasm64-unknown-unknown"
MEMORY, STACK = 1 << 29, 1 << 20
LAYOUT = "e-m:e-p:64:64-p10:8:8-p20:8:8-i64:64-i128:128-n32:64-S128-ni:1:10:20"


def loaded(path, name):
    """The module of a tool."""
    loader = importlib.machinery.SourceFileLoader(name, path)
    module = importlib.util.module_from_spec(importlib.util.spec_from_loader(name, loader))
    loader.exec_module(module)
    return module


quick = loaded(f"{TOP}/tools/kit/quick-build", "quick_build")
proved_module = loaded(f"{TOP}/tools/kit/proved_module.py", "proved_module")


class Library:
    """A static library: its crate, what the names of its exports begin with, what makes a program of a copy of it in a folder, since `rt try`
    builds programs alone, and what says how far a build is."""

    def __init__(self, name, prefix, program_in, say):
        self.name, self.prefix, self.program_in, self.say = name, prefix, program_in, say

    def quick_module(self, room):
        """The module of a build without proof, which looks at indices and sums as it runs."""
        self.program_in(room)
        with quick.Progress(self.say, "rt reads the crates and writes the module"):
            quick.module_of(f"{room}/crates/{self.name}", f"{room}/module.bc")

    def proved_module(self, room):
        """The module that is compiled once the crate is proved."""
        try:
            proved_module.module_of(TOP, self.name, room)
        except proved_module.Failed as failed:
            raise quick.Failed(str(failed)) from failed

    def for_wasm(self, line, is_quick=False):
        """A line of a module as one for wasm64, with the exports of the crate, malloc and free; a quick build has the former under longer names.
        (C's attribute `export_name` would do for these, but with it the module has a table with 64-bit indices, which older engines with 64-bit
        memories refuse.)"""
        if line.startswith("target datalayout"):
            return f'target datalayout = "{LAYOUT}"\n'
        if line.startswith("target triple"):
            return f'target triple = "{TARGET}"\n'
        if line.startswith("attributes "):
            line = re.sub(r' sanitize_address| "[\w-]+"="[^"]*"', "", line)
            return line if "{ }" not in line else line.replace("{ }", "{ nounwind }")
        if is_quick:
            line = re.sub(rf'@"{self.name}::(?:\w+::)*({self.prefix}\w+)"', r"@\1", line)
        export = re.match(rf"define (?:internal )?(.*@({self.prefix}\w+|malloc|free)\(.*\)) (.*)\{{$", line)
        if export:
            return f'define {export[1]} {export[3]}"wasm-export-name"="{export[2]}" {{\n'
        return re.sub(r"^define (.*@main\()", r"define internal \1", line)

    def object_in(self, room, is_quick):
        """Compiles the module and both files of C for wasm64, into one archive."""
        tools = f"{quick.kit()}/toolchain/bin"
        quick.run([f"{tools}/clang", "-S", "-emit-llvm", "-O0", "-Xclang", "-disable-llvm-passes", "-x", "ir", f"{room}/module.bc", "-o", f"{room}/text.ll"])
        with open(f"{room}/text.ll", errors="surrogateescape") as text, open(f"{room}/{self.name}.ll", "w", errors="surrogateescape") as made:
            for line in text:
                if found := re.search(r"@llvm\.(x86|aarch64)\.[\w.]+|\bcall .*\basm (?:sideeffect |\")", line):
                    raise quick.Failed(f"the module is for one machine alone: {found[0]}")
                # The pattern that a quick build fills locals with costs much, and finds nothing that isn't looked at anyway.
                if not ("llvm.memset" in line and "i8 -86," in line):
                    made.write(self.for_wasm(line, is_quick))
        with open(f"{room}/stddef.h", "w") as head:
            head.write("typedef __SIZE_TYPE__ size_t;\n#define NULL ((void *)0)\n")
        clang = [f"{tools}/clang", f"--target={TARGET}", "-mcpu=lime1", "-O2", "-ffunction-sections"]
        for name, file in (("malloc", f"{TOP}/web/memory.c"), ("memory", f"{TOP}/c/memory.c")):
            quick.run([*clang, "-S", "-emit-llvm", "-Wall", "-Wextra", "-Werror", "-ffreestanding", "-nostdinc", f"-I{room}", file, "-o", f"{room}/{name}.c.ll"])
            with open(f"{room}/{name}.c.ll") as text, open(f"{room}/{name}.ll", "w") as made:
                made.writelines(map(self.for_wasm, text))
        for name in (self.name, "malloc", "memory"):
            quick.run([*clang, "-c", "-Wno-override-module", "-x", "ir", f"{room}/{name}.ll", "-o", f"{room}/{name}.o"])
        quick.run([f"{tools}/llvm-ar", "rcs", f"{room}/module.a", *(f"{room}/{name}.o" for name in (self.name, "malloc", "memory"))])

    def module_in(self, room, proved):
        """Makes the WebAssembly module in a room: its path."""
        (self.proved_module if proved else self.quick_module)(room)
        with quick.Progress(self.say, "clang compiles the module for wasm64"):
            self.object_in(room, not proved)
        kit = quick.kit()
        quick.run([f"{kit}/bin/rattle-link", "--target", TARGET, "--toolchain", f"{kit}/toolchain", "--memory", str(MEMORY), "--stack", str(STACK),
                   "-o", f"{room}/module.wasm", f"{room}/module.a"])
        return f"{room}/module.wasm"

    def kept_module(self):
        """The module of a quick build, which is made if it was not yet."""
        total = quick.hashlib.sha256()
        for file in (os.path.realpath(__file__), f"{TOP}/web/memory.c", f"{TOP}/c/memory.c"):
            with open(file, "rb") as it:
                total.update(it.read())
        folder = f"{TOP}/.quick/wasm-{self.name}-{quick.sum_of(TOP, self.name, total.hexdigest())}"
        if not os.path.exists(f"{folder}/module.wasm"):
            os.makedirs(f"{TOP}/.quick", exist_ok=True)
            for old in os.listdir(f"{TOP}/.quick"):
                if old.startswith(f"wasm-{self.name}-"):
                    shutil.rmtree(f"{TOP}/.quick/{old}", ignore_errors=True)
            with tempfile.TemporaryDirectory(prefix="wasm-") as room:
                made = self.module_in(room, False)
                os.makedirs(folder)
                shutil.copy(made, f"{folder}/part")
                os.replace(f"{folder}/part", f"{folder}/module.wasm")
        return f"{folder}/module.wasm"
