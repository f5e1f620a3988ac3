#!/usr/bin/env python3
"""Prints the wrong bodies that don't build, one line each: `tools/wrong_bodies.py [CRATE ..]`, `make refused` for all.

A wrong body is a small edit of a crate's code that turns the meaning of one promise: a wrong answer, a missed case, a dropped
write. It compiles, and the prover of that crate refuses it, so no such program is built. Each stands in a file of
crates/CRATE/must-fail or also-refused, an old and a new text, whose name is the sentence that is printed here.

`rt ci` tries those of must-fail on every change, each alone (`always`). Behind it the gate tries those of also-refused for a
quarter of an hour, first those of crates that changed, then others, which come round in later runs (`in turn`). Both fail where
one is proved. CONTRIBUTING.md says how one is written.
"""
import argparse
import glob
import os

ROOT = os.path.dirname(os.path.dirname(os.path.abspath(__file__)))
FOLDERS = {"must-fail": "always", "also-refused": "in turn"}


def crates():
    """The names of crates, lowest first."""
    with open(f"{ROOT}/crates.txt", encoding="utf-8") as file:
        return [line.partition(":")[0] for line in file if ":" in line and not line.startswith("#")]


def sentence(path):
    words = os.path.basename(path).removesuffix(".edit").replace("-", " ")
    return words[0].upper() + words[1:] + "."


def table(names):
    """The rows of these crates: crate, when it is tried, sentence."""
    for crate in names:
        for folder, when in FOLDERS.items():
            for path in sorted(glob.glob(f"{ROOT}/crates/{crate}/{folder}/*.edit")):
                yield crate, when, sentence(path)


def text(names):
    rows = list(table(names))
    width = max((len(it[0]) for it in rows), default=0)
    lines = [f"{crate:{width}}  {when:7}  {said}" for crate, when, said in rows]
    always = sum(it[1] == FOLDERS["must-fail"] for it in rows)
    last = f"{len(rows)} wrong bodies in {len({it[0] for it in rows})} crates: {always} tried always, {len(rows) - always} in turn"
    return "\n".join([*lines, last]) + "\n"


def main():
    parser = argparse.ArgumentParser(description=__doc__, formatter_class=argparse.RawDescriptionHelpFormatter)
    parser.add_argument("crates", nargs="*", metavar="CRATE", help="a crate; all if none is given")
    names = parser.parse_args().crates
    for name in names:
        if name not in crates():
            parser.error(f"{name} is no crate of crates.txt")
    print(text(names or crates()), end="")


if __name__ == "__main__":
    main()
