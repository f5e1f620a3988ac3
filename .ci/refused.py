#!/usr/bin/env python3
"""Refuses the program each allocation in turn, and each read and write, by a library that is preloaded (`refuse.c`).

    .ci/refused.py [--program PATH] [--jobs N] [--budget SECONDS | --all] [--seed TEXT] [--list] [WORD ..]
    .ci/refused.py [--program PATH] --only RUN:KIND:AT

Runs are some scripts on both gateways, which reach every line of a script and every message, and `check-rules` on some files. An
allocation is refused alone (`alone`) or with all after it (`on`). Then what is printed is the beginning of what is printed
with ample memory, in whole lines, perhaps with `failed` behind it where a gateway runs, and the status is 4; or it is all of it, with
its status, where the program did without. A read or write that fails (`read`, `file`, `write`, alone; `read-on`, .. from there on)
is status 3, and what was printed is a beginning; reads and writes that come short (`read-1`: at most 1 byte, ..) change nothing.
A call may be unreached, since how many a run makes isn't promised: that run tried nothing, and few may be so.

--budget is in seconds of a processor, for all jobs together: 45 for each job if not given. --all does everything. Which part is done
in a budget is chosen by the seed, the commit's hash if not given. --list counts. --only does one and shows it. The last line counts
the runs that were as they must be, and those that weren't; the status is 1 where one wasn't. Without a C compiler nothing is run,
and it is said so.
"""
import os
import sys
import tempfile
import time
from collections import Counter, namedtuple

sys.dont_write_bytecode = True
import hostile  # noqa: E402
import preloaded  # noqa: E402
from damaged import damage, lines, shares  # noqa: E402
from damaged.program import BODIES, ROOT, Program  # noqa: E402

EACH_JOB = 45
FAMILIES = ("memory", "failing", "short")
UNREACHED = 1 / 500  # of all tries: 7 of 32,583 were seen once, where more ran than there were processors

SCRIPTS = [
    "examples.first", "examples.read", "examples.subscribe", "examples.edit", "hostile.three_searches",
    "access.grants_by_user_and_host", "access.refuses_faulty_access_files",
    "channels.refuses_messages_that_servers_send", "channels.takes_no_host_name_after_a_channel_was_asked_for",
    "clients.ends_clients_of_an_old_version", "edits.leads_names_by_the_rules_of_an_edit", "edits.refuses_faulty_files",
    "links.ignores_what_servers_say_of_unknown_things",
    "links.tells_clients_of_a_channel_that_a_server_drops", "properties.each_form_of_a_text_of_a_state_needs_properties",
    "reads.asks_for_the_greatest_count_that_is_read",
    "servers.keeps_messages_back_while_a_server_is_held", "servers.tells_clients_that_a_server_is_gone",
    "writes.writes_while_events_are_off_and_values_are_read",
    "limits.holds_updates_back_while_4096_messages_wait", "limits.ends_a_client_that_never_reads",
    "told_limits.an_old_search_goes_for_a_new_one", "ages.a_server_is_asked_whether_it_is_there",
    "ages.a_channel_that_a_server_owes_since_before_the_last_age_is_given_up",
    "searches.answers_searches_on_connections", "searches.makes_a_search_again_for_its_client",
]
FROM_CLIENTS = {0, 1, 2, 4, 6, 8, 9, 12, 15, 18, 19, 20, 21, 23, 99}
FROM_SERVERS = {0, 1, 18, 19, 22, 26, 27, 99}

FILES = {
    "site": None, "groups": None, "access": None,
    "aliases": b"EVALUATION ORDER DENY, ALLOW\n\\(.*\\):\\(SET\\|SP\\) ALIAS \\1:\\2 ops\n[A-Z]+[0-9]* ALLOW\nX.* DENY FROM lab7 lab8\n",
    "no-verb": b"A ALLOW\n# x\nB GRANT\n", "bad-groups": b"ops READ\nops MAYBE\n",
    "calculated": b"UAG(ops) {anna}\nASG(ops) {RULE(1, WRITE) {UAG(ops) CALC(\"A=1\")}}\n",
}
CHECKS = ["site", "site --groups groups --name BEAM:CURRENT", "site --name S01:ILK:DOOR",
          "aliases --name A:SET --host lab7 --groups groups", "no-verb", "aliases --groups bad-groups",
          "site --access access --name S01:MAG:Q1 --user anna --host desk1", "aliases --access calculated"]

# Arguments, standard input, and whether a gateway runs.
Case = namedtuple("Case", "name words script is_gateway")
# What is refused, where the calls after it are too, and to how many bytes a call comes short.
Kind = namedtuple("Kind", "name family what on shorter")

KINDS = [Kind("alone", "memory", "memory", False, 0), Kind("on", "memory", "memory", True, 0)]
KINDS += [Kind(what + ("-on" if on else ""), "failing", what, on, 0) for what in ("read", "file", "write") for on in (False, True)]
KINDS += [Kind(f"{what}-{most}", "short", what, True, most) for what in ("read", "file", "write") for most in (1, 7, 1000)]


def reached(script):
    """The commands of a script's lines, and those of the messages that it brings."""
    found = set()
    for line in script.lines:
        word = line.split(b" ")[0]
        if lines.is_good(line):
            found.add(word.decode())
            data = damage.bytes_of(line)
            behind = damage.messages(data[1]) if data else []
            found |= {(word.decode(), int.from_bytes(data[1][at:at + 2], "big")) for at in [0, *behind][:-1]}
    return found


def scripts():
    """The scripts, of which it is made sure that they reach everything."""
    named = {it.name: it for it in hostile.all_scripts()}
    chosen = [named[name] for name in SCRIPTS]
    wanted = {word.decode() for word in lines.FORMS} | {("client", it) for it in FROM_CLIENTS} | {("server", it) for it in FROM_SERVERS}
    missing = wanted - set().union(*map(reached, chosen))
    if missing:
        sys.exit(f"no script reaches {sorted(map(str, missing))}")
    return chosen


def cases(folder):
    for script in scripts():
        for body in BODIES:
            yield Case(script.name + " plain" * (body != BODIES[0]), list(body), script.text(), True)
    for line in CHECKS:
        words = [os.path.join(folder, word) if word in FILES else word for word in line.split(" ")]
        yield Case(f"check-rules {line}", ["check-rules", *words], b"", False)


def write_files(folder):
    for name, text in FILES.items():
        example = os.path.join(ROOT, "examples", {"site": "site.pvlist", "groups": "site.groups", "access": "site.access"}.get(name, name))
        if text is None:
            with open(example, "rb") as file:
                text = file.read()
        with open(os.path.join(folder, name), "wb") as file:
            file.write(text)


class Shim:
    """Runs the program with calls refused."""

    def __init__(self, path, library):
        self.program = Program(path)
        self.library, self.count = library, preloaded.Count(self.program.mapped)
        os.set_inheritable(self.count.file, True)

    def run(self, case, kind, at):
        """What is printed and the status, and how many calls of the kind there were."""
        self.count.clear()
        words = preloaded.environment(self.library, kind.what, at, self.count.file)
        words |= {"REFUSE_ON": "1"} if kind.on else {}
        words |= {"REFUSE_SHORT": str(kind.shorter)} if kind.shorter else {}
        return self.program.run(case.words, case.script, words), self.count.calls()


class Piece:
    """A case with one kind of refusal, at each of its calls."""

    def __init__(self, shim, case, kind):
        self.shim, self.case, self.kind, self.family = shim, case, kind, kind.family
        self.name = f"{case.name}:{kind.name}"
        self.notes = Counter()
        self.ample, calls = shim.run(case, kind, 0)
        self.count = min(calls, 1) if kind.family == "short" else calls

    def do(self, number):
        """Refuses one call; a text that tells what is wrong, or None."""
        ran, calls = self.shim.run(self.case, self.kind, number + 1)
        fault = self.unreached(ran, calls) if calls <= number else self.fault(ran)
        return fault and f"{self.name}:{number + 1}: {fault}: {hostile.short(ran)}"

    def unreached(self, ran, calls):
        """A run that made fewer calls than the first one tried nothing; it is counted, and has to be like the first."""
        self.notes["unreached"] += 1
        return None if ran == self.ample else f"the call isn't reached, of {calls}, and it isn't what is printed else"

    def fault(self, ran):
        if ran == self.ample:
            self.notes["done without"] += self.family == "memory"
            return None if self.family != "failing" else "a failure isn't told"
        if self.family == "short":
            return "it isn't what is printed else"
        if ran.status != (4 if self.family == "memory" else 3):
            return "the status"
        printed = ran.printed
        if self.family == "memory" and self.case.is_gateway and not self.is_beginning(printed):
            printed = printed.removesuffix(b"failed\n")
        return None if self.is_beginning(printed) else "it isn't a beginning of what is printed else"

    def is_beginning(self, printed):
        """In whole lines, but where a write failed, of which nobody knows how far it came."""
        is_whole = self.kind.what == "write" or printed == b"" or printed.endswith(b"\n")
        return is_whole and self.ample.printed.startswith(printed)


def pieces(shim, chosen):
    return [piece for case in chosen for kind in KINDS for piece in [Piece(shim, case, kind)] if piece.count]


def listed(shim, chosen):
    """Prints the calls of each case."""
    sums = dict.fromkeys(FAMILIES, 0)
    for case in chosen:
        own = pieces(shim, [case])
        print(f"{case.name}: " + ", ".join(f"{it.kind.name} {it.count:,}" for it in own if it.family != "short"))
        for it in own:
            sums[it.family] += it.count
    print(f"{len(chosen)} runs: " + ", ".join(f"{family} {sums[family]:,}" for family in FAMILIES))
    return 0


def show(shim, chosen, wanted):
    """Does one refusal, and shows it."""
    name, kind, at = wanted.rsplit(":", 2)
    for piece in pieces(shim, [it for it in chosen if it.name == name]):
        if piece.kind.name == kind:
            ran = shim.run(piece.case, piece.kind, int(at))[0]
            sys.stdout.buffer.write(ran.printed)
            sys.stdout.buffer.flush()
            fault = piece.do(int(at) - 1)
            print(f"-- status {ran.status}; {fault.split(': ')[1] if fault else 'as it must be'}")
            return 1 if fault else 0
    sys.exit(f"no such refusal: {wanted}")


def run_all(given, path, library, chosen):
    began = time.monotonic()
    done = shares.work_as_given("refused", given, EACH_JOB, lambda: pieces(Shim(path, library), chosen))
    for fault in done.faults:
        print(fault)
    counts = ", ".join(f"{family} {done.counts[family]:,}" for family in FAMILIES)
    tried, found, unreached = sum(done.counts[family] for family in FAMILIES), done.counts["faults"], done.counts["unreached"]
    print(f"refused: {len(chosen)} runs: {counts}; {done.counts['done without']:,} did without the memory; {unreached:,} unreached; "
          f"{done.spent:.0f} s of a processor, {time.monotonic() - began:.0f} s")
    if unreached > tried * UNREACHED:
        print(f"more than one call in {1 / UNREACHED:.0f} isn't reached")
        found += 1
    print(f"refused: {tried - found} passed, {found} failed")
    return 1 if found else 0


def main():
    given = shares.parser(__doc__, "RUN:KIND:AT").parse_args()
    if preloaded.COMPILER is None:
        print("refused: skipped: there is no C compiler")
        return 0
    path = os.path.abspath(given.program)
    if not os.access(path, os.X_OK):
        sys.exit(f"{path} isn't built")
    with tempfile.TemporaryDirectory(prefix="refused-") as folder:
        library = preloaded.built(folder)
        write_files(folder)
        chosen = [it for it in cases(folder) if not given.words or any(word in it.name for word in given.words)]
        if given.list:
            return listed(Shim(path, library), chosen)
        if given.only:
            return show(Shim(path, library), chosen, given.only)
        return run_all(given, path, library, chosen)


if __name__ == "__main__":
    sys.exit(main())
