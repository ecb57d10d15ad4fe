"""The module of LLVM's that a static library is compiled from, once its crate is proved."""
import os
import shutil
import subprocess
import sys


class Failed(Exception):
    """What went wrong, as a text."""


def kit():
    """The folder of the kit."""
    return os.path.dirname(subprocess.run(["rt", "doc"], capture_output=True, text=True, check=True).stdout.strip())


def module_of(top, name, room, *options):
    """Proves and builds the crate over the libraries below it as `rt lib` left them, by a toolchain whose clang keeps what it is given: the path of
    that. The library itself is left in the room, too."""
    tools, module = f"{room}/toolchain", f"{room}/module.bc"
    shutil.copytree(f"{kit()}/toolchain", tools, copy_function=os.symlink)
    os.remove(f"{tools}/bin/clang")
    with open(f"{tools}/bin/clang", "w", encoding="utf-8") as file:
        file.write(f'#!/bin/sh\nfor word; do case $word in *module.bc) cp "$word" {module};; esac; done\nexec {kit()}/toolchain/bin/clang "$@"\n')
    os.chmod(file.name, 0o755)
    sys.path.insert(0, f"{kit()}/bin")
    import rtlib  # the module of `rt` itself

    crate = {it.name: it for it in rtlib.crates_below(top)}[name]
    words = crate.words([*rtlib.KEPT, *options, "--toolchain", tools, "-o", f"{room}/lib{name}.a"])
    built = subprocess.run([f"{kit()}/bin/rattle", "build", *words], cwd=f"{top}/crates/{name}")
    if built.returncode or not os.path.exists(module):
        raise Failed(f"{name} was not proved and built: (cd crates/{name} && rt lib) builds the libraries below it")
    return module
