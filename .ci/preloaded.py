"""The library that is preloaded, by which calls of a program are refused (`refuse.c`): builds it, tells it which, and sees what it counted."""
import mmap
import os
import shutil
import subprocess
import sys

HERE = os.path.dirname(os.path.abspath(__file__))
COMPILER = shutil.which("cc")


def built(folder):
    """The library, compiled into this folder."""
    library = os.path.join(folder, "refuse.so")
    subprocess.run([COMPILER, "-O1", "-Wall", "-shared", "-fPIC", "-o", library, os.path.join(HERE, "refuse.c")], check=True)
    return library


def environment(library, what, at, file=None):
    """What tells a program's library which of its calls is refused, none where that is 0, and in which file, if any, to count them."""
    words = {"LD_PRELOAD": library, "REFUSE": what, "REFUSE_AT": str(at)}
    return words if file is None else words | {"REFUSE_COUNT": str(file)}


class Count:
    """A file in which the library counts the calls of a run."""

    def __init__(self, file):
        os.ftruncate(file, mmap.PAGESIZE)
        self.file, self.page = file, mmap.mmap(file, mmap.PAGESIZE)

    def clear(self):
        self.page[:8] = bytes(8)

    def calls(self):
        return int.from_bytes(self.page[:8], sys.byteorder)
