"""The scripts that are damaged: the examples, and those that the stories of `story_tests` hold.

Stories stand in Rust sources as byte strings; the first page of `stories/mod.rt` says how they are written. They are taken out
of the sources here, and whatever isn't understood ends the run: a story that is left out in silence would be tested no more.
"""
import os
import re

ROOT = os.path.dirname(os.path.dirname(os.path.dirname(os.path.abspath(__file__))))
STORIES = os.path.join(ROOT, "crates", "story_tests", "src", "stories")
# Files of that folder which have no stories.
WITHOUT = {"mod.rt", "beginnings.rt", "tell.rt", "text.rt"}
# Tests whose scripts are put together by code, and stand nowhere as a text.
MADE = set()

# A comment, a byte string, another string, a character, or the name of a function.
TOKEN = re.compile(r'//[^\n]*|\bb"((?:\\.|[^"\\])*)"|"(?:\\.|[^"\\])*"|b?\'(?:\\.[^\']*|[^\'\\])\'|\bfn (\w+)', re.DOTALL)
TELLS = re.compile(r"\btells\(\s*&?rt,\s*(?:rt\.)?alloc(?:\(\))?,\s*$")
ESCAPE = re.compile(rb"\\(x[0-9a-fA-F]{2}|\n\s*|.)", re.DOTALL)
PLAIN = {b"n": b"\n", b"r": b"\r", b"t": b"\t", b"0": b"\0", b"\\": b"\\", b'"': b'"', b"'": b"'"}
REPETITION = re.compile(rb"\[(\d+) from (\d+):([^\]]*)\]")
PLACE = re.compile(r"\{([^}]*)\}")


class Unread(Exception):
    """The sources have a form that isn't understood here."""


class Script:
    """A script by its lines, with what it has to print where that is known, and its status."""

    def __init__(self, name, text, printed=None, status=None):
        self.name, self.printed, self.status = name, printed, status
        self.lines = text.split(b"\n")
        self.ends_in_line = self.lines[-1] == b""
        if self.ends_in_line:
            self.lines.pop()

    def text(self, lines=None):
        return b"\n".join(self.lines if lines is None else lines) + (b"\n" if self.ends_in_line else b"")


def unescaped(literal):
    """The bytes that a byte string of Rust stands for."""
    def one(found):
        word = found[1]
        if word.startswith(b"x"):
            return bytes([int(word[1:], 16)])
        if word.startswith(b"\n"):
            return b""
        if word not in PLAIN:
            raise Unread(f"an escape: {found[0]!r}")
        return PLAIN[word]
    return ESCAPE.sub(one, literal.encode())


def filled(text, number):
    """The text of a repetition with the number in its places."""
    forms = {"d": f"{number}", "d4": f"{number:04}", "x6": f"{number:06x}", "x8": f"{number:08x}",
             "t4": "".join(f"3{digit}" for digit in f"{number:04}"[-4:])}

    def one(found):
        if found[1] not in forms:
            raise Unread(f"a place for a number: {found[0]}")
        return forms[found[1]]
    return PLACE.sub(one, text.decode("latin-1")).encode("latin-1")


def written_out(text):
    def one(found):
        count, first = int(found[1]), int(found[2])
        return b"".join(filled(found[3], number) for number in range(first, first + count))
    return REPETITION.sub(one, text)


def beginnings():
    """The beginnings that stories share, by their names."""
    with open(os.path.join(STORIES, "beginnings.rt"), encoding="utf-8") as file:
        source = file.read()
    parts = {name: unescaped(text) for name, text in re.findall(r'const (\w+): &\[u8\] = b"((?:\\.|[^"\\])*)";', source)}
    arms = re.findall(r'b"(\w+)" => Some\(&\[([^\]]*)\]\)', source)
    named = {name: [parts[it.strip()] for it in names.split(",")] for name, names in arms}
    if not named:
        raise Unread("beginnings.rt has no beginnings")
    return named


def story(name, text, shared):
    """A story's script, what it prints and its status."""
    script, printed, status = [], [], 0
    for line in written_out(text).split(b"\n"):
        if line.startswith(b"! status "):
            status = int(line[len(b"! status "):])
        elif line == b"! uncut":
            pass
        elif line.startswith(b"@"):
            if line[1:].decode() not in shared:
                raise Unread(f"{name}: the beginning {line!r}")
            for part in shared[line[1:].decode()]:
                tell(part.split(b"\n"), script, printed)
        else:
            tell([line], script, printed)
    return Script(name, b"\n".join(script), b"".join(line + b"\n" for line in printed), status)


def tell(lines, script, printed):
    for line in lines:
        (printed if line.startswith(b"> ") else script).append(line.removeprefix(b"> "))


def of_source(file, source, shared):
    """The scripts that a source of stories holds, by the names of its tests."""
    stem, test, counts, told = file.removesuffix(".rt"), None, {}, 0
    for token in TOKEN.finditer(source):
        if token[2] is not None:
            test = token[2]
        if token[1] is None:
            continue
        text = unescaped(token[1])
        is_told = bool(TELLS.search(source[:token.start()]))
        told += is_told
        # Beside stories there are scripts that a test tells by a function of its own.
        if not is_told and not text.startswith((b"edit ", b"#")):
            raise Unread(f"{file}: a byte string in {test} that is no story: {text[:40]!r}")
        counts[test] = counts.get(test, 0) + 1
        name = f"{stem}.{test}" + (f".{counts[test]}" if counts[test] > 1 else "")
        yield story(name, text, shared) if is_told else Script(name, text)
    missing = set(re.findall(r"#\[test\]\s*fn (\w+)", source)) - set(counts) - MADE
    if missing or not told:
        raise Unread(f"{file}: no script in {', '.join(sorted(missing)) or 'it'}")


def stories():
    shared, scripts = beginnings(), []
    for file in sorted(set(os.listdir(STORIES)) - WITHOUT):
        with open(os.path.join(STORIES, file), encoding="utf-8") as it:
            scripts += of_source(file, it.read(), shared)
    if not scripts:
        raise Unread(f"{STORIES} has no stories")
    return scripts


def examples():
    folder, scripts = os.path.join(ROOT, "examples"), []
    for file in sorted(os.listdir(folder)):
        if file.endswith(".replay"):
            with open(os.path.join(folder, file), "rb") as it:
                scripts.append(Script(f"examples.{file.removesuffix('.replay')}", it.read(), status=0))
    if not scripts:
        raise Unread(f"{folder} has no scripts")
    return scripts
