"""Edits: wrong bodies, as an old and a new text of a file, and the functions in which they stand."""
import glob
import os
import re

ROOT = os.path.dirname(os.path.dirname(os.path.dirname(os.path.abspath(__file__))))
TRIED, GATE = "also-refused", "must-fail"
FUNCTION = re.compile(r"( *)(?:pub(?:\([^)]*\))? )?(?:final )?(?:const )?fn (\w+)")
# The head of what has methods: what stands behind `impl` and its parameters, or the name of a trait.
OWNER = re.compile(r"(?:pub(?:\([^)]*\))? )?(?:impl(?P<impl>[ <].*)|trait (?P<trait>\w+))")


class Edit:
    """An edit of a crate: the file, the old and the new text of each of its pairs."""

    def __init__(self, path):
        self.path, self.name, self.crate = path, os.path.basename(path), path.split("/")[-3]
        self.pairs, file, old = [], "", ""
        with open(path, encoding="utf-8") as it:
            for line in it.read().split("\n"):
                key, _, text = line.partition(": ")
                if key == "file":
                    file = text.strip()
                elif key == "old":
                    old = text
                elif line.startswith("new:"):
                    self.pairs.append((file, old, line[len("new:") :].removeprefix(" ")))

    def change(self, texts):
        """The texts of files with this edit, and the file and line of each change; or why it doesn't apply."""
        texts, places = dict(texts), []
        for file, old, new in self.pairs:
            if file not in texts:
                if not os.path.isfile(f"{ROOT}/crates/{self.crate}/{file}"):
                    return None, f"there is no file {file}"
                with open(f"{ROOT}/crates/{self.crate}/{file}", encoding="utf-8") as it:
                    texts[file] = it.read()
            before, *after = texts[file].split(old) if old else [""]
            if len(after) != 1:
                return None, f"an old text stands {len(after)} times in {file}"
            places.append((file, before.count("\n") + 1))
            texts[file] = before + new + after[0]
        return (texts, places) if places else (None, "it has no old and new text")

    def functions(self):
        """The functions that it changes, each with its file, or None where it changes something else."""
        texts, places = self.change({})
        found = {(file, function_at(texts[file], line)) for file, line in places} if texts else {("", None)}
        return found if all(it for _, it in found) else None


def crates():
    """The names of the crates, lowest first, as crates.txt has them."""
    with open(f"{ROOT}/crates.txt", encoding="utf-8") as file:
        lines = [it for it in file.read().splitlines() if it.strip() and not it.startswith("#")]
    return [it.partition(":")[0].split()[0] for it in lines]


def edits(crate, folder):
    """The edits in a folder of a crate, in the order of their names."""
    return [Edit(it) for it in sorted(glob.glob(f"{ROOT}/crates/{crate}/{folder}/*.edit"))]


def function_at(text, line):
    """The name, the first and the last line of the function in which a line of a formatted text stands, or None."""
    lines = text.split("\n")
    for first in range(line - 1, -1, -1):
        found = FUNCTION.match(lines[first])
        if found:
            last = next((it for it in range(first, len(lines)) if lines[it] == f"{found[1]}}}"), -1)
            # (a goal's place is the first of the lines of comments and attributes above)
            while first and re.match(r" *(#\[|//)", lines[first - 1]):
                first -= 1
            return (found[2], first + 1, last + 1) if line - 1 <= last else None
    return None


def without_parameters(text):
    """What stands behind the angle brackets with which a text begins, if it does."""
    depth = 0
    for place, it in enumerate(text.replace("->", "  ")):
        depth += (it == "<") - (it == ">")
        if not depth:
            return text[place + 1 :] if it == ">" else text
    return text


def owner_at(text, line):
    """The name, as a check prints it, of the type or trait whose method stands at a line, or nothing."""
    for above in reversed(text.split("\n")[: line - 1]):
        if above.startswith("}"):
            return ""
        found = OWNER.match(above)
        if found and found["trait"]:
            return found["trait"]
        if found:
            of, _, owner = without_parameters(found["impl"]).rpartition(" for ")
            # (an impl of a trait has the name of both: `From<AllocError> for Fault` is `FaultFromAllocError`)
            return re.match(r"\w*", owner.strip())[0] + re.sub(r"\w+::|\W", "", of)
    return ""


def path_of(text, file, function):
    """The path of a function below its crate, as a check prints it; of a method its type and its name, since the type may
    stand in another module."""
    name, first, _ = function
    module = re.sub(r"(/mod|^src/lib|^src/main)?\.rt$", "", file).removeprefix("src").strip("/")
    is_method = text.split("\n")[first - 1].startswith(" ")
    parts = [owner_at(text, first), name] if is_method else [*module.split("/"), name]
    return "::".join(it for it in parts if it)
