"""Links of the documents, and the paths that they name."""
import glob
import os
import re

from documented import ROOT, crates, is_there, markdown_files, prose, read

LINK = re.compile(r"\]\(<?([^)\s>]+)>?(?: \"[^\"]*\")?\)")
# A path as the documents name it, from the top or from crates/.
PATH = re.compile(r"`([\w.*-]+/[\w./*-]+)`")
# What a path may begin with; a word in capitals stands for any.
TOPS = (".ci", "bench", "crates", "docs", "examples", "model", "packaging", "tools")
ANY = re.compile(r"\b(NAME|CRATE|VERSION|N)\b|/out/")


def anchors(path):
    """The anchors of a file's headings, as GitHub makes them."""
    found = []
    for line in prose(read(path)):
        if re.match(r"#{1,6} ", line):
            title = re.sub(r"\[([^\]]*)\]\([^)]*\)", r"\1", line.lstrip("#").strip()).lower()
            anchor = re.sub(r"[^\w\- ]", "", title).replace(" ", "-")
            same = sum(it == anchor or re.fullmatch(re.escape(anchor) + r"-\d+", it) is not None for it in found)
            found.append(f"{anchor}-{same}" if same else anchor)
    return found


def link_fault(path, target):
    """What is wrong with a relative link; nothing where it leads somewhere."""
    file, _, anchor = target.partition("#")
    there = os.path.normpath(os.path.join(os.path.dirname(path), file)) if file else path
    if not is_there(there):
        return f"{path}: the link {target} leads to no file"
    if anchor and there.endswith(".md") and anchor not in anchors(there):
        return f"{path}: the link {target} leads to no heading"
    return None


def links():
    for path in markdown_files():
        for line in prose(read(path)):
            for target in LINK.findall(re.sub(r"`[^`]*`", "", line)):
                if not re.match(r"\w+:", target):
                    yield link_fault(path, target)


def paths():
    """A path that a document names leads to a file."""
    firsts = {*TOPS, *crates()}
    for path in markdown_files():
        for named in PATH.findall("\n".join(prose(read(path)))):
            if named.split("/")[0] in firsts and not ANY.search(named):
                found = glob.glob(os.path.join(ROOT, named)) or glob.glob(os.path.join(ROOT, "crates", named))
                yield None if found or is_there(f"crates/{named}.antt") else f"{path}: there is no {named}"
