#!/usr/bin/env python3
"""Writes what the scripts of examples/ print, and the same in words: `.ci/examples.py PROGRAM`.

`.ci/documents.py` compares what is stored with what the program prints.
"""
import os
import subprocess
import sys

ROOT = os.path.dirname(os.path.dirname(os.path.abspath(__file__)))

sys.dont_write_bytecode = True
sys.path.append(os.path.join(ROOT, "tools"))
import explain  # noqa: E402


def scripts():
    """The scripts, by their paths without an end."""
    names = sorted(os.listdir(f"{ROOT}/examples"))
    return [f"examples/{it.removesuffix('.replay')}" for it in names if it.endswith(".replay")]


def printed(program):
    """What the program prints for each script, by the path where that is stored."""
    found = {}
    for it in scripts():
        with open(f"{ROOT}/{it}.replay", "rb") as script:
            done = subprocess.run([program, "replay"], stdin=script, stdout=subprocess.PIPE, timeout=60, check=True)
        found[f"{it}.printed"] = done.stdout.decode()
    return found


def explained():
    """What is stored as printed, in words."""
    found = {}
    for it in scripts():
        if os.path.exists(f"{ROOT}/{it}.printed"):
            with open(f"{ROOT}/{it}.printed", encoding="utf-8") as file:
                found[f"{it}.explained"] = "".join(explain.explained(file.read().splitlines()))
    return found


def write(pages):
    for path, text in pages.items():
        with open(f"{ROOT}/{path}", "w", encoding="utf-8") as file:
            file.write(text)
        print(path)


def main():
    write(printed(os.path.abspath(sys.argv[1])))
    write(explained())


if __name__ == "__main__":
    main()
