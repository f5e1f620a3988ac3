#!/usr/bin/env python3
"""Tries the edits crates/NAME/must-not-compile/*.edit: the compiler must refuse each, for the reason that it names.

Run at the top of the repository, once the libraries are built. An edit has lines as a must-fail edit: 'file: PATH', and pairs
'old: TEXT' and 'new: TEXT'; each TEXT is a line that stands in the file once. Before them stands 'refused: WORDS', of which
each error that the compiler prints must have one: words that may have blanks, parted by commas.
"""
import glob
import os
import re
import shutil
import subprocess
import sys
import tempfile

from refusals.tries import linked


def apply(edit, crate):
    """Puts the new texts of an edit into a copy of its crate, and answers the words of its refusal."""
    path = old = words = None
    for line in open(edit, encoding="utf-8").read().splitlines():
        key, _, text = line.partition(": ")
        if key == "file":
            path = os.path.join(crate, text)
        elif key == "refused":
            words = text.split(", ")
        elif key == "old":
            old = text
        elif key == "new":
            with open(path, encoding="utf-8") as file:
                whole = file.read()
            if whole.count(old) != 1:
                sys.exit(f"{edit}: an old text stands {whole.count(old)} times in {path}, and not once")
            os.remove(path)
            with open(path, "w", encoding="utf-8") as file:
                file.write(whole.replace(old, text))
    if not words:
        sys.exit(f"{edit}: it doesn't say what the compiler must refuse")
    return words


def is_refused(edit):
    """Whether the compiler refuses a copy with this edit for the reason that it names, and what it said."""
    name = edit.split("/")[1]
    with tempfile.TemporaryDirectory(prefix="must-not-compile-") as room:
        shutil.copy("crates.txt", room)
        shutil.copy("HANDLES", room)
        shutil.copytree("crates", f"{room}/crates", copy_function=linked)
        words = apply(edit, f"{room}/crates/{name}")
        how = {"cwd": f"{room}/crates/{name}", "stdout": subprocess.PIPE, "stderr": subprocess.STDOUT, "text": True}
        ran = subprocess.run(["rt", "check", "--only", ""], **how)
    errors = [line for line in ran.stdout.splitlines() if re.search(r"\berror\b", line)]
    return ran.returncode != 0 and bool(errors) and all(any(word in it for word in words) for it in errors), errors


def main():
    edits = sorted(glob.glob("crates/*/must-not-compile/*.edit"))
    failed = 0
    for edit in edits:
        refused, errors = is_refused(edit)
        failed += not refused
        print(f"{edit}: {'refused, as it must be' if refused else 'NOT REFUSED'}: {'; '.join(errors)[:200]}")
    print(f"{len(edits) - failed} passed, {failed} failed")
    return 1 if failed or not edits else 0


if __name__ == "__main__":
    sys.exit(main())
