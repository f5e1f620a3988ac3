#!/usr/bin/env python3
"""Checks that of all that the engine keeps the table of clients alone has rows of clients: `.ci/one_table.py`.

Looks at rows are counted where a table hands them out. Contracts say of whom the count is; that nobody keeps copies of rows from one
event to the next, and looks at these uncounted, they can't. So it is read off the types: from the fields of `Engine` on, each
type that a field names is followed, in all crates below, by its name alone. A field that names a row of a client is one fault, and
a second field with a table another.

At the end the same is done with fields planted in the texts, and each must be found. One line for each fault, and a last line with
the counts; the status is 1 where there is a fault.
"""
import glob
import os
import re
import sys

ROOT = os.path.dirname(os.path.dirname(os.path.abspath(__file__)))
CORE, BEGIN, TABLE = "gateway_core", "Engine", "Table"
ROWS = {"Session", "Channel", "ClientSub", "WaitingRead"}

# What is planted: a file, an old text that stands there once, a new one, and the field that must be found.
KNOWN = "    pub clients: Table,\n"
PLANTED = [
    ("gateway_rows/src/state.rt", KNOWN, KNOWN + "    copies: Vec<Channel>,\n", "Known.copies"),
    ("gateway_rows/src/state.rt", KNOWN, KNOWN + "    last: Option<(u32, WaitingRead)>,\n", "Known.last"),
    ("gateway_rows/src/state.rt", KNOWN, KNOWN + "    second: Option<Table>,\n", "Known.second"),
    ("gateway_rows/src/state.rt", KNOWN, KNOWN + "    of: IndexMap<\n        u32,\n        Session,\n    >,\n", "Known.of"),
    ("gateway_rows/src/state.rt", "impl Known {", "enum Hoard {\n    Of { subs: Vec<ClientSub> },\n    No,\n}\n\nimpl Known {", None),
    ("gateway_core/src/engine.rt", "pub struct Engine {", "enum Hoard {\n    Nothing,\n    One(ClientSub),\n}\n\npub struct Engine {\n    hoard: Hoard,", "Hoard"),
    ("gateway_core/src/engine.rt", "pub struct Engine {", "type Hoard = Vec<Channel>;\n\npub struct Engine {\n    hoard: Box<Hoard>,", "Hoard"),
    ("gateway_core/src/engine.rt", "pub struct Engine {", "struct Hoard(u32, WaitingRead);\n\npub struct Engine {\n    hoard: Hoard,", "Hoard"),
]

TYPE = re.compile(r"^(?:pub(?:\([^)]*\))? )?(struct|enum|type) (\w+)", re.M)
FIELD = re.compile(r"(?:pub(?:\([^)]*\))? )?(?!ghost\b)(\w+): ([^;]*)")


def sources():
    """The texts of the sources of the core and of all crates below it, by their paths, without comments."""
    texts = {}
    with open(f"{ROOT}/crates.txt", encoding="utf-8") as file:
        below = next(it.split() for it in file if it.startswith(f"{CORE}:"))
    for crate in (it.rstrip(":") for it in below):
        for path in glob.glob(f"{ROOT}/crates/{crate}/src/**/*.rt", recursive=True):
            with open(path, encoding="utf-8") as file:
                texts[os.path.relpath(path, f"{ROOT}/crates")] = re.sub(r"//.*", "", file.read())
    return texts


def body(text, at):
    """What stands in the brackets that open first behind a place, or up to the semicolon before them."""
    opened = re.compile(r"[{(;]").search(text, text.index("=", at) if text.startswith("type", at) else at)
    if opened is None or opened[0] == ";" or text.startswith("type", at):
        return text[at:text.index(";", at)]
    depth, end = 0, opened.start()
    while True:
        depth += {"{": 1, "(": 1, "}": -1, ")": -1}.get(text[end], 0)
        if depth == 0:
            return text[opened.end():end]
        end += 1


def parted(text):
    """The parts of a text between the commas that stand in no brackets."""
    parts, depth = [""], 0
    for sign in text:
        depth += (sign in "({[<") - (sign in ")}]>")
        if sign == "," and depth == 0:
            parts.append("")
        else:
            parts[-1] += sign
    return [it.strip() for it in parts if it.strip()]


def fields(kind, name, inside):
    """The fields of a type, each by its name and the names in its type. Parts of a variant have the variant's."""
    for part in parted(inside) if kind != "type" else [inside]:
        part = re.sub(r"#\[[^]]*\]\s*", "", part)
        found = FIELD.match(part) if kind == "struct" else None
        if found:
            yield f"{name}.{found[1]}", set(re.findall(r"\b[A-Z]\w*", found[2]))
        elif not part.startswith("ghost"):
            yield name, set(re.findall(r"\b[A-Z]\w*", part if kind == "struct" else re.sub(r"^\w+", "", part))) - {name}


def kept(texts):
    """The fields of all that the engine keeps outside of the table, each with the names in its type."""
    types = {}
    for text in texts.values():
        for found in TYPE.finditer(text):
            at = found.start(1)
            types.setdefault(found[2], []).extend(fields(found[1], found[2], body(text, at)))
    reached, left = {}, [BEGIN]
    while left:
        name = left.pop()
        if name not in reached and name not in ROWS | {TABLE}:
            reached[name] = types.get(name, [])
            left += [it for _, names in reached[name] for it in names if it in types]
    return [it for found in reached.values() for it in found]


def faults(texts):
    """The fields that have rows of clients, and all that have tables where there is another number of these than one."""
    found = kept(texts)
    tables = [field for field, names in found if TABLE in names]
    return [field for field, names in found if names & ROWS] + (tables if len(tables) != 1 else [])


def planted(texts):
    """What of the planted fields isn't found, or is found where nothing keeps it."""
    for path, old, new, field in PLANTED:
        if texts.get(path, "").count(old) != 1:
            yield f"crates/{path}: the place for a planted field stands there {texts.get(path, '').count(old)} times"
            continue
        found = set(faults({**texts, path: texts[path].replace(old, new)}))
        if (field not in found) if field else found:
            yield f"{new.strip().splitlines()[-1]}: planted in crates/{path}, and {'not found' if field else f'{found} found'}"


def main():
    texts = sources()
    found = set(faults(texts))
    told = [f"{it}: the engine keeps rows of clients, or a table, outside of the one table" for it in sorted(found)]
    told += list(planted(texts))
    for fault in told:
        print(fault)
    print(f"one table: {len(kept(texts))} fields and {len(PLANTED)} planted ones, {len(told)} faults")
    return 1 if told else 0


if __name__ == "__main__":
    sys.exit(main())
