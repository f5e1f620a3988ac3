"""What benches have in common: the paths to what they stand on, their arguments, the program, their parts, and tables."""
import argparse
import os
import resource
import sys

ROOT = os.path.dirname(os.path.dirname(os.path.abspath(__file__)))
BUILT = os.path.join(ROOT, "crates", "pvgate", "out", "pvgate")
sys.dont_write_bytecode = True
sys.path.insert(0, os.path.join(ROOT, ".ci"))
from served.room import Room  # noqa: E402  (served sets the path to examples/)


def number(at, usual):
    """The number that is the argument at this place, or else the usual one."""
    return int(sys.argv[at]) if len(sys.argv) > at else usual


def parser(doc, parts=()):
    """What reads the arguments of a bench: --program, and words that choose its parts, where it has some."""
    it = argparse.ArgumentParser(description=doc.split("\n")[0])
    it.add_argument("--program", default=BUILT)
    if parts:
        it.add_argument("words", nargs="*", metavar="WORD", choices=[[], *parts])
    return it


def built(path):
    """The whole path of a program, which has to be there."""
    program = os.path.abspath(path)
    if not os.access(program, os.X_OK):
        sys.exit(f"{program} isn't built")
    return program


def chosen(parts, words):
    """The parts that words name; all where there are none."""
    return [part for word, part in parts.items() if not words or word in words]


def raise_limit():
    """Lets this process and those that it starts have as many files as may be."""
    most = resource.getrlimit(resource.RLIMIT_NOFILE)[1]
    resource.setrlimit(resource.RLIMIT_NOFILE, (most, most))


def run(name, program, parts, *given):
    """Runs each part in a room of its own, and prints how many of their checks passed and failed; the bench's status."""
    raise_limit()
    passed = failed = 0
    for part in parts:
        room = Room(program)
        try:
            part(room, *given)
        finally:
            room.end()
        passed, failed = passed + room.passed, failed + len(room.failed)
    print(f"{name}: {passed} passed, {failed} failed")
    return 1 if failed else 0


def row(*cells):
    """A row of a table in Markdown."""
    return f"| {' | '.join(cells)} |"


def head(*titles):
    """The first two rows of a table in Markdown."""
    return f"{row(*titles)}\n|{'---|' * len(titles)}"
