#!/usr/bin/env python3
"""Checks the documents against the tree, and with a built program against that: `.ci/documents.py [PROGRAM]`.

- Each crate of crates.txt stands once in the table of docs/GUIDE.md. README.md has 120 lines and 1,000 words at most, all that is
  written by hand 20,000 words, with no paragraph over 120 and no cell of a table over 40; the table that bench/core.py prints isn't.
- Each relative link of each Markdown file leads to a file, and its #anchor to a heading there. Each path that one names
  leads to a file.
- Each command that a document shows in a block of `sh` is run here, and prints what a block of `text` behind it has;
  or .ci/documented/commands.py has the reason why it isn't. Without PROGRAM none is run. `./pvgate` tells, where nothing is
  built, how to get a program.
- Each clause that docs/PROOF.md names is there; each step of a way in docs/GUIDE.md names a function whose contract cites the word;
  what docs/PROVED_IN_TEN_MINUTES.md quotes stands in the sources; docs/OPERATING.md explains each option of `serve` and each line that is logged.
- Each story is in the list by which it is run, and tools/explain.py puts stories into words.
- `make refused` lists each wrong body once, and counts them.
- Generated pages are what their scripts give: docs/callers, and the explained outputs of the examples;
  with PROGRAM also the manual page and the completion in packaging, and what the examples print.

One line for each fault, and a last line with the counts; the status is 1 where there is a fault.
"""
import os
import re
import subprocess
import sys

sys.dont_write_bytecode = True
import documented  # noqa: E402  (sets the path to packaging/ and tools/)
from documented import commands, is_there, links, read, rows, sources, stories  # noqa: E402
import callers_pages  # noqa: E402
import completion  # noqa: E402
import examples  # noqa: E402
import man  # noqa: E402
import wrong_bodies  # noqa: E402

# Of README.md; of all that is written by hand; of its paragraphs and of the cells of its tables.
MOST_LINES, MOST_WORDS = 120, 1_000
MOST_WRITTEN = 20_000
MOST_IN_PARAGRAPH, MOST_IN_CELL = 120, 40


def crates():
    table = read("docs/GUIDE.md").partition("\n## The crates\n")[2].partition("\n## ")[0]
    listed = [name for cells in rows(table.split("\n")) for name in re.findall(r"`(\w+)`", cells[0])]
    names = documented.crates()
    for name in names:
        yield None if listed.count(name) == 1 else f"docs/GUIDE.md: {name} stands in the table of crates {listed.count(name)} times"
    for name in sorted(set(listed) - set(names)):
        yield f"docs/GUIDE.md: {name} is no crate of crates.txt"


def paragraphs(text):
    """The paragraphs and items of lists of a page, each in words, without tables and blocks."""
    words = []
    for line in "\n".join("\n".join(lines) if language is None else "" for language, lines in documented.blocks(text)).split("\n"):
        if not line.strip() or line.startswith(("|", "#", "- ")) or re.match(r"\d+\. ", line):
            yield words
            words = []
        if not line.startswith("|"):
            words += line.split()
    yield words


def length():
    """README.md is short, and so is what is written by hand: all of it, each page's paragraphs, and the cells of its tables."""
    lines, words = len(read("README.md").splitlines()), len(read("README.md").split())
    yield None if lines <= MOST_LINES else f"README.md: it has {lines} lines"
    yield None if words <= MOST_WORDS else f"README.md: it has {words} words"
    pages = [it for it in documented.markdown_files() if not it.startswith("docs/callers/")]
    printed = read("bench/RESULTS.md").partition("\n## What an event costs in the core\n")[2].partition("\n## ")[0]
    total = sum(len(read(it).split()) for it in pages) - sum(len(it.split()) for it in printed.split("\n") if it.startswith("|"))
    yield None if total <= MOST_WRITTEN else f"what is written by hand has {total} words"
    for page in pages:
        long = [it for it in paragraphs(read(page)) if len(it) > MOST_IN_PARAGRAPH]
        yield f"{page}: a paragraph of {len(long[0])} words begins with {' '.join(long[0][:5])}" if long else None
        wide = [it for cells in rows(documented.prose(read(page))) for it in cells if len(it.split()) > MOST_IN_CELL]
        yield f"{page}: a cell has {len(wide[0].split())} words, which begin with {wide[0][:30]}" if wide else None


def refused_bodies():
    """`make refused` lists each wrong body of a crate once, and counts all."""
    printed = subprocess.run(["make", "-s", "refused"], cwd=documented.ROOT, stdin=subprocess.DEVNULL, capture_output=True, timeout=60, check=False)
    lines = printed.stdout.decode().splitlines()
    told = [it.split(None, 1) for it in lines[:-1]]
    edits = [it.split(os.sep) for it in documented.files(".edit") if it.split(os.sep)[2] in wrong_bodies.FOLDERS]
    for crate in documented.crates():
        owed = sorted(f"{wrong_bodies.FOLDERS[it[2]]:7}  {wrong_bodies.sentence(it[3])}" for it in edits if it[1] == crate)
        yield None if sorted(line for name, line in told if name == crate) == owed else f"make refused: {crate} isn't told as its edits are"
    yield None if lines and lines[-1].startswith(f"{len(edits)} wrong bodies in ") else "make refused: its last line doesn't count the edits"


def generated(program):
    pages = {**callers_pages.pages(), **examples.explained()}
    if program is not None:
        pages = {**pages, **man.pages(program), **completion.pages(program), **examples.printed(program)}
    for path, text in pages.items():
        if not is_there(path):
            yield f"{path}: it isn't there"
        else:
            yield None if read(path) == text else f"{path}: it isn't what is generated"
    for path in set(f"docs/callers/{it}" for it in os.listdir(f"{documented.ROOT}/docs/callers")) - set(pages):
        yield f"{path}: nothing generates it"


def main():
    program = os.path.abspath(sys.argv[1]) if len(sys.argv) > 1 else None
    if program is not None and not os.access(program, os.X_OK):
        sys.exit(f"{program} isn't built")
    results = [*crates(), *length(), *links.links(), *links.paths(), *commands.commands(program), *commands.unbuilt(), *sources.promises(), *sources.ways(),
               *sources.quotes(), *sources.options(), *sources.log_lines(), *stories.stories(), *refused_bodies(), *generated(program)]
    faults = [it for it in results if it is not None]
    for fault in faults:
        print(fault)
    print(f"documents: {len(results)} checked, {len(faults)} faults")
    return 1 if faults else 0


if __name__ == "__main__":
    sys.exit(main())
