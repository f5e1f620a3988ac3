#!/usr/bin/env python3
"""Performs scripts with damaged bytes, datagrams and lines on both gateways, which have to print the same and end the same way.

    .ci/hostile.py [--program PATH] [--jobs N] [--budget SECONDS] [--all] [--every] [--seed TEXT] [--list] [WORD ..]
    .ci/hostile.py [--program PATH] --only SCRIPT:PLACE:KIND

Every example and every story is damaged in every way that `damaged/damage.py` has, each alone. `replay` and `replay --plain` have
to print the same bytes and to end with the same status, neither by a signal nor never. What stood before the damaged line prints
what it printed; the status is 0, or 2 with `line N: bad` as the last line where that line is none of a script; and a datagram that
is cut inside a message is answered as one that is cut before it.

--budget is in seconds of a processor, for all jobs together: 120 for each job if not given. What is done in a budget is chosen by
the seed, the commit's hash if not given: each script gets the same time, and of the wide ones, those with many messages in a line
or many lines, there are two. --all does everything, or goes through all scripts, wide or not, as far as a given budget goes. Of
many messages or lines only some are damaged, and of scripts that make a thousand rows and more, on which the plain gateway takes
seconds, only 64 places in each way of damage, but with --every. WORDs choose scripts whose names contain one. --list counts. --only
shows one damaged script with what both gateways print. The last line counts the scripts that did as they must, undamaged and
damaged, and those that didn't; the status is 1 where one didn't.
"""
import os
import random
import sys
import time
from collections import Counter

sys.dont_write_bytecode = True
from damaged import lines, scripts, shares  # noqa: E402
from damaged.damage import Damages, bytes_of, is_wide, messages  # noqa: E402
from damaged.program import BODIES, Program  # noqa: E402

FAMILIES = ("bytes", "datagrams", "lines")
EACH_JOB = 120
WIDE = 2  # wide scripts in a part

# A datagram that asks for a name that is served, one that nobody has, and the served one again.
THREE = b"""@served
search 10.0.0.9 000000000000000d0000000000000000\
[1 from 17:000600080005000d{x8}{x8}5431000000000000][1 from 18:000600080005000d{x8}{x8}5500000000000000]\
[1 from 19:000600080005000d{x8}{x8}5431000000000000]
> reply 000000000000000d0000000000000000\
[1 from 17:0006000813c80000ffffffff{x8}000d000000000000][1 from 19:0006000813c80000ffffffff{x8}000d000000000000]
asks
> asks U
"""


def all_scripts():
    return [*scripts.examples(), *scripts.stories(), scripts.story("hostile.three_searches", THREE, scripts.beginnings())]


class Piece:
    """A script with one family of damage, tried on the program."""

    def __init__(self, program, script, family, every):
        self.program, self.script, self.family = program, script, family
        self.name = f"{script.name} {family}"
        self.damages = Damages(script, family, every)
        self.count = self.damages.count
        self.entries = lines.entry_places(script.lines)
        self.bad = lines.first_bad(script.lines)
        self.kept, self.notes = {}, Counter()

    def do(self, number):
        """Tries one damage; a text that tells what is wrong, or None."""
        span, place = self.damages.at(number)
        text = self.script.text(self.damages.made(span, place))
        fault = self.fault(span, place, text, *(self.program.run(body, text) for body in BODIES))
        return fault and f"{self.script.name}:{span.line + 1}.{place}:{span.kind}: {fault}"

    def fault(self, span, place, text, ran, plain):
        bad = lines.first_bad(lines.of_text(text)) if self.family == "lines" else self.bad
        entry = self.entries[span.line]
        last = b"" if bad is None else f"line {bad + 1}: bad\n".encode()
        if ran != plain:
            return f"the gateways differ: {short(ran)}, but plain {short(plain)}"
        if ran.status != (0 if bad is None else 2):
            return f"status {ran.status}"
        if not ran.printed.startswith(self.before(entry)):
            return "what stands before it prints otherwise"
        if not ran.printed.endswith(last) or bad is None and b": bad" in ran.printed[-40:]:
            return f"the last line isn't {last!r}: {ran.printed[-60:]!r}"
        if bad == entry and ran.printed != self.before(entry) + last:
            return "the bad line prints something"
        if (self.family, span.kind) == ("datagrams", "cut") and ran.printed != self.cut_before(span, place):
            return "it isn't answered as one that is cut before the message"
        return None

    def before(self, entry):
        """What the lines before this one print."""
        if entry not in self.kept:
            self.kept[entry] = self.program.run(BODIES[0], self.script.text(self.script.lines[:entry])).printed
        return self.kept[entry]

    def cut_before(self, span, place):
        """What the script prints with the datagram cut after its last whole message before this place."""
        whole = max([0, *messages(bytes_of(self.script.lines[span.line])[1][:place])])
        if (span.line, whole) not in self.kept:
            changed = self.damages.made(span, whole)
            self.kept[span.line, whole] = self.program.run(BODIES[0], self.script.text(changed)).printed
        return self.kept[span.line, whole]


def short(ran):
    printed = ran.printed if len(ran.printed) < 300 else ran.printed[:100] + b" .. " + ran.printed[-190:]
    return f"status {ran.status}, {printed!r}"


def undamaged(program, script):
    """What a script as it stands doesn't do as it is told; a text, or None."""
    runs = [program.run(body, script.text()) for body in BODIES]
    bad = lines.first_bad(script.lines)
    wanted = (0 if bad is None else 2) if script.status is None else script.status
    for ran in runs:
        if ran.status != wanted or script.printed is not None and ran.printed != script.printed:
            return f"{script.name}: undamaged: {short(ran)}"
    return None if runs[0] == runs[1] else f"{script.name}: undamaged: the gateways differ"


def show(program, chosen, wanted):
    """Shows one damaged script, and what it prints; says whether it is as it must be."""
    name, _, place = wanted.partition(":")
    script = next((it for it in chosen if it.name == name), None)
    for piece in [Piece(program, script, family, True) for family in FAMILIES if script]:
        found = piece.damages.called(place)
        if found:
            return show_one(piece, found)
    sys.exit(f"no such damage: {wanted}")


def show_one(piece, found):
    text = piece.script.text(piece.damages.made(*found))
    sys.stdout.buffer.write(text + (b"" if text.endswith(b"\n") else b"\n"))
    runs = [piece.program.run(body, text) for body in BODIES]
    for body, ran in zip(BODIES, runs):
        print(f"-- {' '.join(body)}: status {ran.status}", flush=True)
        sys.stdout.buffer.write(ran.printed)
        sys.stdout.buffer.flush()
    fault = piece.fault(*found, text, *runs)
    print(f"-- {fault or 'as it must be'}")
    return not fault


def counted(chosen, family, every):
    return sum(Damages(script, family, every).count for script in chosen)


def part_of(chosen, seed):
    """The scripts of which a part is tried: the wide ones are dear, so there are two of them."""
    wide = [it for it in chosen if is_wide(it)]
    few = random.Random(seed).sample(wide, min(WIDE, len(wide)))
    return [it for it in chosen if it in few or it not in wide]


def arguments():
    parser = shares.parser(__doc__, "SCRIPT:PLACE:KIND")
    parser.add_argument("--every", action="store_true")
    return parser.parse_args()


def main():
    given = arguments()
    chosen = [it for it in all_scripts() if not given.words or any(word in it.name for word in given.words)]
    if given.list:
        counts = {family: counted(chosen, family, given.every) for family in FAMILIES}
        print(f"{len(chosen)} scripts: " + ", ".join(f"{family} {counts[family]:,}" for family in FAMILIES) + " damaged scripts")
        return 0
    if not chosen or not os.access(given.program, os.X_OK):
        sys.exit(f"{given.program} isn't built" if chosen else "no such script")
    path = os.path.abspath(given.program)
    if given.only:
        return 0 if show(Program(path), chosen, given.only) else 1
    began, program = time.monotonic(), Program(path)
    chosen = chosen if given.all else part_of(chosen, given.seed)
    faults = [fault for fault in (undamaged(program, script) for script in chosen) if fault]
    tried, found = len(chosen), len(faults)
    if not faults:
        done = shares.work_as_given("hostile", given, EACH_JOB, lambda: pieces(Program(path), chosen, given.every))
        faults, found = done.faults, done.counts["faults"]
        tried += sum(done.counts[family] for family in FAMILIES)
        counts = ", ".join(f"{family} {done.counts[family]:,}" for family in FAMILIES)
        print(f"hostile: {len(chosen)} scripts damaged: {counts}; {done.spent:.0f} s of a processor, {time.monotonic() - began:.0f} s")
    for fault in faults:
        print(fault)
    print(f"hostile: {tried - found} passed, {found} failed")
    return 1 if found else 0


def pieces(program, chosen, every):
    return [Piece(program, script, family, every) for script in chosen for family in FAMILIES]


if __name__ == "__main__":
    sys.exit(main())
