"""Keeps the module that Rattle's LLVM backend gives to clang for b67_web: `python3 web/build/module.py OUT.bc`, called by tools/web.sh.

The crate is proved and built as `rt lib` does it, over libraries that are proved already, out of a folder of links to the kit. In it
`clang` first keeps what it is given, and then calls the kit's. If a library isn't proved, one line says so, with status 2."""

import functools
import importlib.machinery
import importlib.util
import os
import pathlib
import shutil
import sys
import tempfile

TOP = pathlib.Path(__file__).resolve().parent.parent.parent
CLANG = """#!/bin/sh
for word in "$@"; do case $word in *.bc) cp "$word" '{out}' ;; esac; done
exec '{kit}/toolchain/bin/clang' "$@"
"""


def links_to(kit, room, out):
    """Fills the room with links to all of the kit but rtlib.py, which finds the kit by its own place, and clang."""
    for inner in (".", "bin", "toolchain", "toolchain/bin"):
        (room / inner).mkdir(exist_ok=True)
        for it in (kit / inner).iterdir():
            if it.name not in ("bin", "toolchain", "rtlib.py", "clang"):
                (room / inner / it.name).symlink_to(it)
    shutil.copy(kit / "bin/rtlib.py", room / "bin/rtlib.py")
    clang = room / "toolchain/bin/clang"
    clang.write_text(CLANG.format(out=out, kit=kit), encoding="utf-8")
    clang.chmod(0o755)


def rtlib_of(room):
    """The kit's rtlib, out of the room. It sums a crate's files each time it is asked; here once."""
    sys.dont_write_bytecode = True
    loader = importlib.machinery.SourceFileLoader("rtlib", f"{room}/bin/rtlib.py")
    rtlib = importlib.util.module_from_spec(importlib.util.spec_from_loader("rtlib", loader))
    sys.modules["rtlib"] = rtlib
    loader.exec_module(rtlib)
    rtlib.Crate.stamp = functools.cache(rtlib.Crate.stamp)
    return rtlib


def main():
    if len(sys.argv) != 2 or not shutil.which("rt"):
        sys.exit(print("usage, with rt on the path: python3 web/build/module.py OUT.bc", file=sys.stderr) or 2)
    out = os.path.abspath(sys.argv[1])
    kit = pathlib.Path(shutil.which("rt")).resolve().parent.parent
    with tempfile.TemporaryDirectory() as made:
        links_to(kit, pathlib.Path(made), out)
        rtlib = rtlib_of(made)
        os.chdir(TOP / "crates/b67_web")
        crate = rtlib.Crate(os.getcwd(), str(TOP), {})
        below = crate.below()
        if lacking := [it.name for it in below if not it.is_built()]:
            print(f"not proved: {lacking[0]}, one of {len(lacking)} of the {len(below)} crates below b67_web: call `rt lib` in crates/b67_web first", file=sys.stderr)
            sys.exit(2)
        held = rtlib.lock([*below, crate])
        crate.out = sys.stderr
        os.makedirs("out", exist_ok=True)
        status = crate.build_static([])
        del held
    sys.exit(status if status or os.path.isfile(out) else print("the LLVM backend gave clang no module", file=sys.stderr) or 1)


main()
