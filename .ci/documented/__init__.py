"""What checks of documents share: the tree, and Markdown in pieces. .ci/documents.py says what is checked."""
import os
import re
import sys

ROOT = os.path.dirname(os.path.dirname(os.path.dirname(os.path.abspath(__file__))))

sys.path[:0] = [os.path.join(ROOT, ".ci"), os.path.join(ROOT, "packaging"), os.path.join(ROOT, "tools")]
from wrong_bodies import crates  # noqa: E402, F401  (which checks ask for here)

FENCE = re.compile(r"^(```+|~~~+)(\w*)")


def read(path):
    with open(os.path.join(ROOT, path), encoding="utf-8") as file:
        return file.read()


def is_there(path):
    return os.path.exists(os.path.join(ROOT, path))


def files(end):
    """The files of the tree whose names end so, but for what was built."""
    for folder, folders, found in os.walk(ROOT):
        folders[:] = sorted(it for it in folders if it not in (".git", "out", "__pycache__"))
        yield from (os.path.relpath(os.path.join(folder, it), ROOT) for it in sorted(found) if it.endswith(end))


def markdown_files():
    return files(".md")


def blocks(text):
    """The text in pieces: (language, lines) of each fenced block, and (None, lines) of what stands between."""
    pieces, fence = [(None, [])], None
    for line in text.split("\n"):
        found = FENCE.match(line)
        if fence is None and found:
            fence = found.group(1)
            pieces.append((found.group(2), []))
        elif fence is not None and line.rstrip() == fence:
            fence = None
            pieces.append((None, []))
        else:
            pieces[-1][1].append(line)
    return pieces


def prose(text):
    """The lines that stand in no fenced block."""
    return [line for language, lines in blocks(text) if language is None for line in lines]


def rows(lines):
    """The rows of tables among the lines, in cells."""
    for line in lines:
        if line.startswith("| ") and not re.match(r"\|[-| ]+$", line):
            yield [it.strip() for it in line.strip().strip("|").split(" | ")]
