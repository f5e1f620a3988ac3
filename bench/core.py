#!/usr/bin/env python3
"""What an event costs in the core, each figure beside the most that it may be.

    bench/core.py [--program PATH] [--only WORD ..] [--others N] [--names TEXT] [--whole] [--markdown]

Run by hand; it needs valgrind, takes some ten minutes, and other work on the machine changes only what is told in seconds. Instructions
are counted by callgrind in `Engine::step` and all that it calls, which leaves out the reading of lines, the drains and the printing;
behind them stands what an event costs with these. A script is performed with some events and with more, and the difference counts, so
that its beginning drops out. An exponent is that of the cost of n things as n grows, over three sizes. Seconds are those that the
processor takes from where a script's beginning was performed to where its end was, printing among them. Where a smaller size tells
that one would take minutes, it is left out and its figure estimated in proportion (`about`), unless --whole is given. --only takes rows
whose name has one of the words, --others how many variables stand beside (10,000 if not given), --names how the names of variables
begin (V if not given; six digits follow), and --markdown prints the table as bench/RESULTS.md has it.
"""
import functools
import math
import os
import re
import resource
import subprocess
import sys
import tempfile
import time

import common
import gateway
from gateway import connected, create, message, name_of, subscribe, update

STEP, DRAIN = "gateway_core::engine::Engine::step", "gateway_core::gate::EngineGatewayCalls::drain"
SIZES = (1, 2, 4)  # of a thing whose growth is measured, in parts of the row's own
BRIEF = 20  # seconds that a run may be expected to take
CROWD = 8  # clients whose channels are all on one variable
BEGUN = ["open u1", "server u1 " + message(0, count=13)]


class Counts:
    """The instructions of a run: in the steps, in the drains, and in all; with the lines that it printed."""

    def __init__(self, step, drain, whole, printed):
        self.step, self.drain, self.whole, self.printed = step, drain, whole, printed

    def over(self, less):
        return Counts(*(getattr(self, it) - getattr(less, it) for it in ("step", "drain", "whole", "printed")))


@functools.lru_cache(maxsize=None)
def counted(script):
    """What a script costs, by callgrind."""
    with tempfile.TemporaryDirectory() as folder:
        file, printed = os.path.join(folder, "counts"), os.path.join(folder, "printed")
        with open(printed, "wb") as out:
            valgrind = ["valgrind", "-q", "--tool=callgrind", f"--callgrind-out-file={file}"]
            subprocess.run([*valgrind, gateway.PROGRAM, "replay"], input=script.encode(), stdout=out, check=True)
        told = subprocess.run(["callgrind_annotate", "--inclusive=yes", "--threshold=100", file], capture_output=True, text=True, check=True)
        costs = {name: int(cost.replace(",", "")) for cost, name in re.findall(r"^ *([\d,]+) .*?:(\S+)(?: \[.*)?$", told.stdout, re.M)}
        whole = re.search(r"^ *([\d,]+) .*PROGRAM TOTALS", told.stdout, re.M).group(1)
        with open(printed, "rb") as out:
            lines = sum(1 for _ in out)
    return Counts(costs.get(STEP, 0), costs.get(DRAIN, 0), int(whole.replace(",", "")), lines)


def of_more(base, more, printed):
    """What the lines cost that are added to a script; they print so many."""
    cost = counted("\n".join([*base, *more]) + "\n").over(counted("\n".join(base) + "\n"))
    if cost.printed != printed:
        sys.exit(f"{cost.printed} lines more, where {printed} were to come")
    return cost


def used(pid):
    """Seconds of processor that a program has had, once it waits for more of its script."""
    calm, before = 0, None
    while calm < 5:
        time.sleep(0.02)
        with open(f"/proc/{pid}/stat") as file:
            waits = file.read().rpartition(")")[2].split()[0] == "S"
        with open(f"/proc/{pid}/schedstat") as file:
            now = int(file.read().split()[0])
        calm, before = calm + 1 if waits and now == before else 0, now
    return before / 1e9


def seconds(base, more):
    """Seconds of processor from the beginning of a script to its end, printing among them."""
    with tempfile.TemporaryFile() as out:
        child = subprocess.Popen([gateway.PROGRAM, "replay"], stdin=subprocess.PIPE, stdout=out)
        times = []
        for lines in (base, more):
            child.stdin.write(("\n".join(lines) + "\n").encode())
            child.stdin.flush()
            times.append(used(child.pid))
        child.communicate()
        if child.returncode:
            sys.exit(f"the replay ended with status {child.returncode}")
        return times[1] - times[0]


# The tables below: a row is its name, what it may be at most, the unit, and a function that gives the figure and a remark.


def opened(session):
    return f"open s{session} 10.0.0.5"


def one_variable(clients, dtype=5):
    """A connected variable, a LONG, and clients that each have a channel on it, of the SIDs from 1 on, and a subscription in a type."""
    yield from [*BEGUN, opened(1), "client s1 " + create(1, name_of(1))]
    yield from connected(1, name_of(1))
    for number in range(1, clients + 1):
        yield from [opened(number)] if number > 1 else []
        yield f"client s{number} " + create(1, name_of(1)) + subscribe(number, number, dtype=dtype)


def updates(clients, dtype=5):
    base, turns = [*one_variable(clients, dtype), "server u1 " + update(1)], max(4, 200 // clients)
    cost = of_more(base, ["server u1 " + update(1, value) for value in range(turns)], turns * clients)
    each = turns * clients
    return cost.step / each, f"{cost.whole / each:,.0f} in all"


@functools.lru_cache(maxsize=None)
def many_variables(others):
    """So many variables with a channel and a subscription each, and 1,000 more subscriptions of 10 clients to the second one."""
    lines = gateway.beside(others)
    for client in range(10):
        session, sid = 500 + client, others + client + 1
        ids = range(1_000 * (client + 1), 1_000 * (client + 1) + 100)
        lines += [opened(session), f"client s{session} " + create(1, name_of(2)) + "".join(subscribe(sid, own) for own in ids)]
    return lines


def beside(others, line, messages, printed, turns=100):
    cost = of_more(many_variables(others), [line] * turns, printed * turns)
    each = turns * messages
    return cost.step / each, f"{cost.whole / each:,.0f} in all"


def made_and_given_up(sid, own):
    """A subscription, as it is made and given up."""
    return subscribe(sid, own) + message(2, dtype=5, count=1, p1=sid, p2=own)


def writes(others):
    base, turns = many_variables(others), 10
    lines = list(gateway.writes(turns * gateway.WRITING))
    cost = of_more(base, lines, 2 * turns * gateway.WRITING)
    each = turns * gateway.WRITING
    return cost.step / each, f"{cost.whole / each:,.0f} in all"


def exponent(sizes, cost):
    """How a cost grows with the size, from the least to the greatest."""
    costs = [cost(size) for size in sizes]
    grown = math.log(costs[-1] / costs[0]) / math.log(sizes[-1] / sizes[0])
    return grown, ", ".join(f"{cost / size:,.0f} each of {size:,}" for cost, size in zip(costs, sizes))


def grows(least, cost):
    return exponent([least * part for part in SIZES], cost)


def sessions_of(server, sessions, channels=50):
    """Clients that each have channels on the same variables of a server."""
    names = [name_of(it) for it in range(1, channels + 1)]
    yield from [*BEGUN, opened(1), "client s1 " + "".join(create(1, name) for name in names)]
    for cid, name in enumerate(names, 1):
        yield from connected(cid, name, server=server)
    for number in range(1, sessions + 1):
        yield from [opened(number)] if number > 1 else []
        yield f"client s{number} " + "".join(create(cid, name) for cid, name in enumerate(names, 1))


def server_lost(sessions):
    return of_more(list(sessions_of("u1", sessions)), ["lost u1"], 50 * sessions).step


def crowded(channels):
    """A connected variable, and clients that each have so many channels on it, with two subscriptions on each."""
    name = name_of(1)
    yield from [*BEGUN, opened(1), "client s1 " + create(1, name)]
    yield from connected(1, name)
    for client in range(CROWD):
        session, sid = client + 1, client * channels + 1
        yield from [opened(session)] if client else []
        yield f"client s{session} " + "".join(create(cid, name) for cid in range(channels))
        yield f"client s{session} " + "".join(subscribe(sid + own // 2, own) for own in range(2 * channels))


def crowd_gone(channels):
    return of_more(list(crowded(channels)), [f"lost s{session}" for session in range(1, CROWD + 1)], 1).step


def crowd_lost(channels):
    return of_more(list(crowded(channels)), ["lost u1"], CROWD * channels).step


def crowd_row(line):
    base = list(crowded(4_096))
    return min(seconds(base, [line]) for _ in range(3)), ""


def subscribed(many):
    """A client's channel with so many subscriptions, of IDs from 1 on."""
    lines = [*one_variable(1), "server u1 " + update(1)]
    return [*lines, "client s1 " + "".join(subscribe(1, own) for own in range(2, many + 1))]


def channel_cleared(many):
    return of_more(subscribed(many), ["client s1 " + message(12, p1=1, p2=1)], 2).step


def cancelled(many):
    gone = "".join(message(2, dtype=5, count=1, p1=1, p2=own) for own in range(1, many + 1))
    return of_more(subscribed(many), ["client s1 " + gone], many + 1).step


def waiting_answered(many):
    lines = [*BEGUN, opened(1), "client s1 " + create(1, name_of(1)), *connected(1, name_of(1))]
    for number in range(1, many // 250 + 1):
        reads = (message(15, dtype=5, count=1, p1=number, p2=ioid) for ioid in range(250))
        lines += [opened(number)] if number > 1 else []
        lines.append(f"client s{number} " + create(1, name_of(1)) + "".join(reads))
    return of_more(lines, ["server u1 " + update(1)], many).step


def in_turn(many):
    """So many subscriptions made and given up, one after another, beside as many of the variable."""
    return of_more(subscribed(many), ["client s1 " + made_and_given_up(1, 100_000) * many], 2 * many).step


def rule(number):
    """A row that no name here matches: of ten three literals, three prefixes, two suffixes, a group, and one of any kind."""
    area = f"S{number:04}"
    simple = [f"{area}:MAG:Q1:SET DENY", f"{area}:VAC:.* DENY", f".*:{area}:ILK DENY"]
    others = [f"{area}:CAM DENY", f"{area}:RF:.* DENY", f"\\({area}:.*\\):SET ALIAS \\1:SP", f".*{area}\\(A\\|B\\).* DENY"]
    return [*simple, *simple, *others][number % 10]


def edit(rules):
    # Every name here is tried against all rows: it is denied by none of them, and allowed by the first.
    return [f"edit {rules} 0", ".* ALLOW", *map(rule, range(1, rules))]


def edited(channels, rules=400):
    """Seconds that the step of an edit takes, without those of reading its rules."""
    clear = gateway.beside(0)
    return seconds(gateway.beside(channels), edit(rules)) - seconds(clear, edit(rules))


def in_proportion(size, least, took, cost, is_whole):
    """The figure at this size; estimated from a smaller one, which took so long, where it would take minutes."""
    if took * size / least > BRIEF and not is_whole:
        return took * size / least, f"about: {took:.3f} at {least:,}"
    return cost(size), ""


def edit_row(args):
    return in_proportion(10_000, 1_000, edited(1_000), edited, args.whole)


def created(rules):
    """Milliseconds of a CREATE_CHAN of a new name under so many rules."""
    base, turns = [*gateway.beside(0), *edit(rules)], 20
    return seconds(base, [f"client s1000 " + create(it, f"W{it:06}") for it in range(turns)]) / turns * 1e3


GROUPS, NAMED = 64, 1_024  # of an access security file with four rules for each group, and so many users and hosts


def granting():
    """An access security file that gives 64 groups 256 rules, for 1,024 users on 1,024 hosts that are all in one list each."""
    yield "UAG(all) {" + ", ".join(f"user{it}" for it in range(NAMED)) + "}"
    yield "HAG(all) {" + ", ".join(f"10.0.{it // 256}.{it % 256}" for it in reversed(range(NAMED))) + "}"
    for it in range(GROUPS):
        yield f"ASG(G{it}) {{ RULE(1, READ) " + "RULE(1, WRITE) {UAG(all) HAG(all)} " * 3 + "}"


def grouped():
    """Rows that put each name in a group by its last digit but one and last."""
    return [".* ALLOW G0", *(f".*{it:02} ALLOW G{it % GROUPS}" for it in range(1, GROUPS))]


def by_user(access):
    """An edit with these rows and this access security file, and the users that clients say."""
    return [f"edit {GROUPS} 0 {len(access)}", *grouped(), *access]


def cleared(channels):
    """Seconds that the step of such an edit takes beside so many channels, without those of reading its files."""
    user = "client s1000 " + message(20, (f"user{NAMED - 1}".encode() + b"\0").hex())
    base = [*gateway.beside(0)[:-1], "open s1000 10.0.0.6", user, *gateway.variables(channels)]
    return seconds(base, by_user([*granting()])) - seconds(gateway.beside(0), by_user([*granting()]))


def created_by_user():
    """How many times the instructions of a CREATE_CHAN and its CLEAR_CHANNEL are with such a file those without."""
    user = "client s1001 " + message(20, (f"user{NAMED - 1}".encode() + b"\0").hex())
    turns = 1_000
    asked = ["client s1001 " + create(it, gateway.name_of(1)) + message(12, p1=it + 2, p2=it) for it in range(turns)]
    bases = ([*gateway.beside(1), *by_user(access), "open s1001 10.0.0.7", user] for access in ([], [*granting()]))
    without, by_it = (of_more(base, asked, 3 * turns).step / turns for base in bases)
    return by_it / without, f"{by_it:,.0f} instructions, {without:,.0f} without"


def access_file(groups, names, rules):
    """An access security file of so many groups of each kind, a name or a rule in a line, two more lines for each list."""
    for it in range(groups):
        yield from (f"{kind}(G{it}) {{\n" + ",\n".join(f"    {kind.lower()}{it}-{name}" for name in range(names)) + "\n}" for kind in ("UAG", "HAG"))
        yield f"ASG(G{it}) {{\n" + "\n".join([f"    RULE(1, WRITE, TRAPWRITE) {{UAG(G{it}) HAG(G{it})}}  # one of many"] * rules) + "\n}"


def checked(access):
    """Milliseconds of a processor that `check-rules` takes with this access security file, the fastest of ten times."""
    with tempfile.TemporaryDirectory() as folder:
        paths = [os.path.join(folder, it) for it in ("rules", "access")]
        for path, text in zip(paths, ("", access)):
            with open(path, "w") as file:
                file.write(text)
        took = []
        for _ in range(10):
            before = resource.getrusage(resource.RUSAGE_CHILDREN)
            subprocess.run([gateway.PROGRAM, "check-rules", paths[0], "--access", paths[1]], stdout=subprocess.DEVNULL, check=True)
            now = resource.getrusage(resource.RUSAGE_CHILDREN)
            took.append(now.ru_utime + now.ru_stime - before.ru_utime - before.ru_stime)
    return min(took) * 1e3


def access_row():
    text = "\n".join(access_file(50, 40, 14)) + "\n"
    return checked(text) - checked(""), f"{len(text):,} bytes"


def lost_row(_):
    return min(seconds(list(sessions_of("u1", 1_000)), ["lost u1"]) for _ in range(3)), ""


def held(many):
    """Bytes of a variable with a channel, a subscription and a value."""
    return (gateway.memory(gateway.beside(many)) - gateway.memory(gateway.beside(0))) * 1_024 / many


def drained(_):
    """A drain of an outbox in which nothing waits, one for each of 1,000 connections behind a line."""
    base = [opened(number) for number in range(1, 1_001)]
    return of_more(base, ["client s1 " + message(23)] * 50, 50).drain / (50 * 1_001), ""


def table(args):
    others = args.others
    covered = "client s1 " + message(15, dtype=5, count=1, p1=1, p2=0x21)
    greatest, among = ("client s1 " + made_and_given_up(2, own) for own in (999_999, 5_500))
    yield "an update, for each of 1,000 subscribers", 880, "instructions", lambda: updates(1_000)
    for asked, dtype, most in (("", 5, 2_700), (", with its time stamp", 19, 2_700), (", as a text", 0, None)):
        yield f"an update to one subscriber{asked}", most, "instructions", lambda dtype=dtype: updates(1, dtype)
    beside_many = f"beside {others:,} variables"
    yield f"a read that is covered, {beside_many}", 4_000, "instructions", lambda: beside(others, covered, 1, 1)
    yield f"an ECHO, {beside_many}", 1_500, "instructions", lambda: beside(others, "client s1000 " + message(23), 1, 1)
    yield f"a WRITE_NOTIFY and its reply, {beside_many}", 6_000, "instructions", lambda: writes(others)
    both = "a subscription made and given up beside 1,000 of the variable"
    yield f"{both}, of the greatest ID, {beside_many}", 8_000, "instructions", lambda: beside(others, greatest, 1, 2)
    yield f"{both}, of an ID among the others, {beside_many}", 8_000, "instructions", lambda: beside(others, among, 1, 2)
    yield "a server is lost, beside n sessions with 50 channels each", 1.1, "exponent", lambda: grows(25, server_lost)
    crowd = f"{CROWD} clients with n channels and twice as many subscriptions on one variable"
    yield f"{crowd} go", 1.1, "exponent", lambda: grows(256, crowd_gone)
    yield f"{crowd} lose their server", 1.1, "exponent", lambda: grows(256, crowd_lost)
    yield "CLEAR_CHANNEL with n subscriptions", 1.1, "exponent", lambda: grows(500, channel_cleared)
    yield "an update that answers n waiting reads", 1.1, "exponent", lambda: grows(1_000, waiting_answered)
    yield "n subscriptions cancelled, first made first", 1.1, "exponent", lambda: grows(500, cancelled)
    yield "n subscriptions made and given up, beside n of the variable", 1.1, "exponent", lambda: grows(250, in_turn)
    yield "a server with 50,000 channels of 1,000 sessions is lost", 0.3, "seconds", lambda: lost_row(args)
    full = "4,096 channels and 8,192 subscriptions on one variable"
    yield f"the first of {CROWD} clients with {full} goes", 0.1, "seconds", lambda: crowd_row("lost s1")
    yield f"{CROWD} clients with {full} lose their server", 0.25, "seconds", lambda: crowd_row("lost u1")
    yield "an edit with 400 rules, 10,000 channels", 0.5, "seconds", lambda: edit_row(args)
    yield "CREATE_CHAN of a new name under 4,096 rules", 2, "milliseconds", lambda: (created(4_096), "")
    yield "an access security file of 5,000 lines", 50, "milliseconds", access_row
    yield "an edit by user and host, 64 groups, 10,000 channels", 0.2, "seconds", lambda: (cleared(10_000), "")
    yield "CREATE_CHAN by user and host, to one without", 1.3, "times", created_by_user
    for many in (10_000, 60_000):
        yield f"memory of a variable, of {many:,}", 2_048, "bytes", lambda many=many: (held(many), "")
    yield "a drain of an empty outbox", None, "instructions", lambda: drained(args)


def shown(figure):
    return f"{figure:,.0f}" if figure >= 100 else f"{figure:.2f}"


def main():
    words = common.parser(__doc__)
    words.set_defaults(program=gateway.PROGRAM)
    words.add_argument("--only", nargs="+", default=[""])
    words.add_argument("--others", type=int, default=10_000)
    words.add_argument("--names", default=gateway.BEGIN)
    words.add_argument("--whole", action="store_true")
    words.add_argument("--markdown", action="store_true")
    args = words.parse_args()
    gateway.PROGRAM, gateway.BEGIN = args.program, args.names
    gateway.need_program(gateway.PROGRAM)
    if args.markdown:
        print(common.head("What", "Measured", "At most", "Beside it"), flush=True)
    for name, most, unit, figure in table(args):
        if any(word in name for word in args.only):
            found, remark = figure()
            over = "" if most is None or found <= most else f"{found / most:.1f} times"
            bar = "" if most is None else f"{most:,}"
            line = common.row(name, f"{shown(found)} {unit}", bar, "; ".join(it for it in (over, remark) if it))
            print(line if args.markdown else f"{name:100} {shown(found):>10} {bar:>7} {unit:12} {over:12} {remark}", flush=True)


if __name__ == "__main__":
    main()
