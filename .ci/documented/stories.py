"""That each story is told: what holds one stands in the list by which it is run. And that tools/explain.py reads stories."""
import os
import re

from documented import ROOT, files, is_there, read
import explain
import serve

# A function that takes nothing but the room of a story.
TAKES_A_ROOM = re.compile(r"^def (\w+)\(room(?:, \w+=\w+)*\):", re.M)
# Bytes that a story sends or prints, with no number in them.
BYTES = re.compile(r"(?:> )?(?:client s\d+|server u\d+|search \S+|s\d+|u\d+|reply) (?:[0-9a-f]{2}){8}[^{]*")


def modules():
    """Each file of a crate of tests is a module of the file above it."""
    for path in files(".rt"):
        folder, name = os.path.split(path.removesuffix("/mod.rt").removesuffix(".rt"))
        if re.match(r"crates/\w+_tests/src\b", folder) and name != "lib":
            above = [it for it in (f"{folder}/mod.rt", f"{folder}/lib.rt") if is_there(it)]
            is_named = above and re.search(rf"^(pub(\(crate\))? )?mod {name};", read(above[0]), re.M)
            yield None if is_named else f"{path}: no `mod {name};` names it, so none of its tests is run"


def served():
    """Each story of .ci/served stands in the list of .ci/serve.py."""
    listed = {f"{it.__module__}.{it.__name__}" for it in serve.STORIES}
    for path in sorted(it for it in os.listdir(f"{ROOT}/.ci/served") if it.endswith(".py")):
        text = read(f".ci/served/{path}")
        for name in TAKES_A_ROOM.findall(text):
            is_part = re.search(rf"^ .*\b{name}\(room\)", text, re.M)
            is_listed = f"served.{path.removesuffix('.py')}.{name}" in listed
            yield None if is_listed or is_part else f".ci/served/{path}: the story {name} isn't in STORIES of .ci/serve.py"


def explained():
    """Nothing that a story sends or prints is left in bytes."""
    for path in (it for it in files(".rt") if it.startswith("crates/story_tests/src/stories/")):
        left = [it for it in explain.explained(read(path).splitlines()) if BYTES.fullmatch(it.strip())]
        yield f"{path}: tools/explain.py leaves {left[0]!r} as it is" if left else None


def stories():
    yield from modules()
    yield from served()
    yield from explained()
