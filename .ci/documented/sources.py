"""What documents say of the sources: names of clauses, the steps of ways, quoted lines, and what is logged."""
import glob
import re

from documented import ROOT, blocks, crates, is_there, prose, read, rows

NAMED = re.compile(r"\b(?:fn|struct|enum|trait|mod|type|const|static) (\w+)")
DEFINED = re.compile(r"\b(?:abbrev|unfoldable|record|data|opaque)(?: pub)? (\w+)|^ *pub (?:record |data )?(\w+) :", re.M)
TICKED = re.compile(r"`([^`]+)`")
# The crate of which a table speaks that names none.
HEADLINE = "gateway_core"
GUIDE = "docs/GUIDE.md"
WAYS = ["An update", "A search", "A create", "A read", "A write", "A lost server", "An edit of the rules", "A sweep"]
# What stands in place of a word where no contract says what a step does.
TESTED = "tested"


def names(crate):
    """What a crate's code names, and the definitions of its specs."""
    found = set()
    for path in glob.glob(f"{ROOT}/crates/{crate}/src/**/*.rt", recursive=True):
        with open(path, encoding="utf-8") as file:
            found.update(NAMED.findall(file.read()))
    return found


def is_named(word, known, there):
    """Whether a word as `Engine::step`, `laws::run_is_settled` or `write_..` is a name of these crates, or a file."""
    last = word.split("::")[-1]
    if "/" in word:
        return is_there(word) or any(is_there(f"crates/{it}/{word}") or is_there(f"crates/{it}/{word}.antt") for it in there)
    if last.endswith("_.."):
        return any(it.startswith(last[:-2]) for it in known)
    return last in known


def promises():
    """Each clause that docs/PROOF.md names is there."""
    all_crates = crates()
    known = {it: names(it) for it in all_crates}
    for cells in rows(prose(read("docs/PROOF.md"))):
        words = TICKED.findall(cells[-1]) if len(cells) > 1 else []
        there = [it for it in words if it in all_crates] or [HEADLINE]
        there_names = {"fn", *(name for it in there for name in known[it])}
        for word in words:
            if word not in all_crates:
                yield None if is_named(word, there_names, there) else f"docs/PROOF.md: {word} isn't in {', '.join(there)}"
    for word in TICKED.findall("\n".join(prose(read("README.md")))):
        if re.fullmatch(r"[A-Z]\w+::\w+|(run|delivered)_\w+", word):
            yield None if is_named(word, known[HEADLINE], [HEADLINE]) else f"README.md: {word} isn't in {HEADLINE}"


def contract(path, function):
    """A function's signature and clauses, each of that name in the file."""
    text = read(path)
    return [re.split(r"\n *\{\n", text[it.start():], maxsplit=1)[0] for it in re.finditer(rf"\bfn {function}\b", text)]


def step_fault(way, cells):
    """What is wrong with a step: its number, what happens, the function behind its file, and the word behind its own."""
    number, _, place, word = cells
    where = re.fullmatch(r"`([\w/.]+)` `(\w+)`", place)
    if not where or not is_there(f"crates/{where[1]}") or not contract(f"crates/{where[1]}", where[2]):
        return f"{GUIDE}: {way}, step {number}: there is no {place}"
    if word == TESTED:
        return None
    found = re.fullmatch(r"`([\w/.]+)` `(\w+)`", word)
    if not found or not is_there(f"crates/{found[1]}"):
        return f"{GUIDE}: {way}, step {number} names no word"
    if not any(re.search(rf"\b{found[2]}\b", it.partition("(")[2]) for it in contract(f"crates/{where[1]}", where[2])):
        return f"{GUIDE}: {way}, step {number}: no {place} cites {found[2]}"
    if not any(found[2] in it for it in DEFINED.findall(read(f"crates/{found[1]}"))):
        return f"{GUIDE}: {way}, step {number}: {found[1]} doesn't define {found[2]}"
    return None


def steps():
    """The steps of each way of the guide, in cells: (way, rows)."""
    section = read(GUIDE).partition("\n## The ways\n")[2].partition("\n## ")[0]
    for part in section.split("\n### ")[1:]:
        way, _, text = part.partition("\n")
        yield way, [it for it in rows(prose(text)) if it[0].isdigit()]


def ways():
    """Each step of a way names a function whose contract cites the word, and the definition of that; or that it is tested."""
    found = dict(steps())
    yield None if list(found) == WAYS else f"{GUIDE}: its ways are {', '.join(found)}"
    for way, cells in found.items():
        in_order = [it[0] for it in cells] == [str(it) for it in range(1, len(cells) + 1)]
        yield None if cells and in_order else f"{GUIDE}: {way}: its steps aren't numbered from 1"
        for it in cells:
            yield step_fault(way, it) if len(it) == 4 else f"{GUIDE}: {way}: step {it[0]} hasn't four cells"


def quotes():
    """Each line that docs/PROVED_IN_TEN_MINUTES.md quotes stands in a file that it names, but for the prover's answers."""
    page = "docs/PROVED_IN_TEN_MINUTES.md"
    text = read(page)
    paths = {it for it in TICKED.findall("\n".join(prose(text))) if re.fullmatch(r"[\w/-]+\.(rt|antt|edit)", it) and is_there(f"crates/{it}")}
    lines = {line.strip() for it in paths for line in read(f"crates/{it}").split("\n")}
    for language, quoted in blocks(text):
        if language in ("rust", "antt", "edit"):
            for line in quoted:
                yield None if line.strip() in lines | {"..", ""} else f"{page}: no file that it names has the line `{line.strip()}`"


def options():
    """The table of options in docs/OPERATING.md has those of `serve`, as the manual page tells them, and no other."""
    page = read("packaging/pvgate.1").replace("\\-", "-").partition("\n.SH SERVE\n")[2].partition("\n.SH ")[0]
    known = {it.replace("<", "").replace(">", "") for it in re.findall(r"^\.B (--[\w-]+(?: <\w+>)?)$", page, re.M)}
    section = read("docs/OPERATING.md").partition("\n### Options\n")[2].partition("\n## ")[0]
    told = {it for cells in rows(section.split("\n")) for it in TICKED.findall(cells[0]) if it.startswith("-")}
    for it in sorted(known):
        yield None if it in told else f"docs/OPERATING.md: the option `{it}` isn't in its table"
    for it in sorted(told - known):
        yield f"docs/OPERATING.md: `serve` has no option `{it}`"


def pattern(literal):
    """A line of the log as an expression, up to what it says to write."""
    text = re.split(r"[:;] write ", literal)[0]
    return ".+".join(re.escape(it) for it in re.split(r"\{\w*\}", text))


def log_lines():
    """docs/OPERATING.md explains each line that is logged, and no other."""
    causes, notices = read("crates/serve_state/src/notice.rt").split("for Notice<'a>", 1)
    causes += read("crates/serve_state/src/cut.rt")
    logged = {pattern(it): it for it in re.findall(r'"((?:[^"\\]|\\.)+)"', notices)}
    section = read("docs/OPERATING.md").partition("\n## Log\n")[2].partition("\n## ")[0]
    told = [re.sub(r"[:;] \.\.$", "", it) for cells in rows(section.split("\n")) for it in TICKED.findall(cells[0])]
    for it, literal in logged.items():
        yield None if any(re.fullmatch(it, line) for line in told) else f"docs/OPERATING.md: the log line `{literal}` isn't explained"
    for line in told:
        yield None if any(re.fullmatch(it, line) for it in logged) else f"docs/OPERATING.md: nothing logs `{line}`"
    refusals = re.findall(r'Notice::ClientRefused\(peer, "([^"]+)"\)', read("crates/serve/src/clients.rt"))
    for why in [it.partition(" (")[0] for it in re.findall(r'"((?:[^"\\]|\\.)+)"', causes)] + refusals:
        part = ".+".join(re.escape(it) for it in re.split(r"\{\w*\}", why))
        yield None if any(re.search(part, line) for line in told) else f"docs/OPERATING.md: `{why}` isn't explained"
