#!/usr/bin/env python3
"""Compiles a program, or the tests of a crate, from the sources with no proof: `tools/unproved.py [CRATE ..]` (pvgate).

    tools/unproved.py                out/unproved/pvgate
    tools/unproved.py wire_tests     out/unproved/wire_tests, with --list and the name of a test as arguments

`rt try` makes a program with checks, which stops at an index out of bounds or a sum that wraps; it runs that slowly, since it
looks for bad accesses too, and keeps nothing. So what it hands to the compiler of its kit is kept here, and compiled by
the same one to a fast program, some twice as slow as the proved one. What is there already is compiled again only after a
change of its sources.
"""
import argparse
import contextlib
import glob
import os
import re
import signal
import subprocess
import sys
import tempfile
import time

ROOT = os.path.dirname(os.path.dirname(os.path.abspath(__file__)))
BUILT = os.path.join(ROOT, "out", "unproved")
PROVED = os.path.join(ROOT, "crates", "pvgate", "out", "pvgate")
TARGET = "x86_64-unknown-linux-gnu"
SMALLEST = 100_000  # bytes of the bitcode of a program; `rt try` compiles a little one first, which is none


class NotCompiled(Exception):
    """What `rt try` said."""


def read(path):
    with open(path, encoding="utf-8") as file:
        return file.read()


def libraries():
    """The libraries that each crate names, of the toolchain's too."""
    return {name: words.split() for name, words in re.findall(r"^(\w+):(.*)", read(f"{ROOT}/crates.txt"), re.M)}


def sources(crate):
    """The files of a crate's code."""
    return glob.glob(f"{ROOT}/crates/{crate}/src/**/*.rt", recursive=True)


def with_all_below(crate):
    """A crate and all of the repository that it stands on."""
    named, found = libraries(), [crate]
    for it in found:
        found += [below for below in named[it] if below in named and below not in found]
    return found


def has_tests(crate):
    return any("#[test]" in read(it) for it in sources(crate))


def is_up_to_date(path, crate):
    """Whether it was compiled from the sources as they are."""
    files = [f"{ROOT}/crates.txt", *(it for below in with_all_below(crate) for it in sources(below))]
    return os.path.exists(path) and os.path.getmtime(path) > max(map(os.path.getmtime, files))


def bitcode(room):
    """What was handed to the compiler by `rt try` in a room: whole, once the compiler writes beside it."""
    for it in glob.glob(f"{room}/*/*/module.bc"):
        if glob.glob(f"{os.path.dirname(it)}/*.o.tmp") and os.path.getsize(it) > SMALLEST:
            return it
    return None


def keep_bitcode(crate, room, out):
    """Has `rt try` begin on a crate in a room, and keeps what it hands to the compiler."""
    words = ["--", "--version"] if os.path.exists(f"{ROOT}/crates/{crate}/src/main.rt") else ["--test"]
    with tempfile.TemporaryFile() as said:
        rt = subprocess.Popen(["rt", "try", *words], cwd=f"{ROOT}/crates/{crate}", env=os.environ | {"TMPDIR": room},
                              stdin=subprocess.DEVNULL, stdout=said, stderr=said)
        try:
            while rt.poll() is None:
                with contextlib.suppress(FileNotFoundError):  # of what went meanwhile
                    found = bitcode(room)
                    if found:
                        return os.link(found, out)
                time.sleep(0.05)
        finally:
            rt.send_signal(signal.SIGTERM)
            rt.wait()
        said.seek(0)
        raise NotCompiled(said.read().decode(errors="replace"))


def compile_to(out, crate):
    os.makedirs(BUILT, exist_ok=True)
    began = time.time()
    with tempfile.TemporaryDirectory(prefix=f"{crate}-", dir=BUILT) as room:
        keep_bitcode(crate, room, f"{room}/kept.bc")
        kit = os.path.dirname(subprocess.check_output(["rt", "doc"], text=True).strip())
        run(f"{kit}/toolchain/bin/clang", f"--target={TARGET}", "-march=x86-64-v2", "-O1", "-fPIC", "-c", f"{room}/kept.bc", "-o", f"{room}/kept.o")
        run(f"{kit}/bin/rattle-link", "--target", TARGET, "--toolchain", f"{kit}/toolchain", "-o", f"{room}/kept", f"{room}/kept.o",
            f"{kit}/c/libos_c.a", f"{kit}/c/liblibc_c.a")
        os.utime(f"{room}/kept", (began, began))  # so that a source that changed meanwhile is newer
        os.replace(f"{room}/kept", out)


def run(*words):
    done = subprocess.run(words, stdin=subprocess.DEVNULL, stdout=subprocess.PIPE, stderr=subprocess.STDOUT)
    if done.returncode != 0:
        raise NotCompiled(f"{words[0]}: {done.stdout.decode(errors='replace')}")


def compiled(crate):
    """The path of a crate's program or tests."""
    out = os.path.join(BUILT, crate)
    if not is_up_to_date(out, crate):
        compile_to(out, crate)
    return out


def main():
    parser = argparse.ArgumentParser(description=__doc__, formatter_class=argparse.RawDescriptionHelpFormatter)
    parser.add_argument("crates", nargs="*", default=["pvgate"], metavar="CRATE")
    signal.signal(signal.SIGTERM, lambda *_: sys.exit(1))
    try:
        for crate in parser.parse_args().crates:
            print(os.path.relpath(compiled(crate)), flush=True)
    except NotCompiled as fault:
        sys.exit(str(fault))


if __name__ == "__main__":
    main()
