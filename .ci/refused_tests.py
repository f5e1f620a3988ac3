#!/usr/bin/env python3
"""Refuses tests each allocation in turn, by the library that `.ci/refused.py` preloads, and judges what their calls left.

    .ci/refused_tests.py [--binary CRATE=PATH ..] [--jobs N] [--most N] [--list] [WORD ..]
    .ci/refused_tests.py [--binary CRATE=PATH ..] --only CRATE:TEST:AT

A test of `wire_tests`, `row_tests`, `rule_tests` or `serve_tests` is a story. Where one of its calls answers that memory was refused, all that the
story's values hold is listed, as it was before the call, and the call is made once more: so the story comes out as without the
refusal, but for a line `refused CALL as before`. A run is as it must be if its test passes, having done without the memory; if it tells
such lines, and else what it tells without; or if the memory was the test's own, for its lines and lists. Calls on large values, as those
that fill a table up to its limit, aren't compared. Anything else is a fault: another answer, a value that changed, a signal, a test that
doesn't end. Two tests of `board_tests`, of a board and of workers, say of each answer whether it is one that a refusal leaves.

Binaries are those of `rt test` (crates/CRATE/out/CRATE_tests), if not given. Of a test with more than --most allocations (1,000) so
many are refused: half of them the first, the others evenly spread. --list counts the allocations, --only shows one run, WORDs
choose tests whose names contain one. It is run by hand: all of it takes ten minutes of a processor. The last line counts the runs that
were as they must be, and those that weren't; the status is 1 where one wasn't. Without a C compiler nothing is run, and it is said so.
"""
import argparse
import os
import re
import signal
import subprocess
import sys
import tempfile
import time
from collections import Counter, namedtuple
from concurrent.futures import ThreadPoolExecutor

sys.dont_write_bytecode = True
import preloaded  # noqa: E402

ROOT = os.path.dirname(os.path.dirname(os.path.abspath(__file__)))
SECONDS = 120
# The tests of each crate that are meant.
CRATES = {"wire_tests": "", "row_tests": "", "rule_tests": "", "serve_tests": "",
          "board_tests": ("boards::refused::", "workers::refused::")}

# How a test ends that answers an error, and one that asserts what isn't so.
ENDS = (101, -signal.SIGABRT)
TEXTS = re.compile(r'assertion `left == right` failed[^\n]*\n  left: "(.*)"\n right: "(.*)"\n')
REFUSED = re.compile(r" ?refused (.*) (as before|as it must be)")
OWN = ("the test itself was refused memory", "error: ")
ESCAPED = re.compile(r"\\(u\{([0-9a-f]+)\}|.)")
PLAIN = {"n": "\n", "t": "\t", "r": "\r", "0": "\0"}

Test = namedtuple("Test", "crate binary name calls")


def unescaped(text):
    return ESCAPED.sub(lambda it: chr(int(it[2], 16)) if it[2] else PLAIN.get(it[1], it[1]), text)


class Runner:
    """Runs tests with an allocation refused."""

    def __init__(self, library):
        self.library = library

    def run(self, binary, test, at, counter=None):
        words = preloaded.environment(self.library, "memory", at, counter)
        try:
            ran = subprocess.run([binary, test], env=words, stdin=subprocess.DEVNULL, stdout=subprocess.PIPE,
                                 stderr=subprocess.STDOUT, timeout=SECONDS, pass_fds=[counter] if counter else [])
        except subprocess.TimeoutExpired:
            return None, "it doesn't end"
        return ran.returncode, ran.stdout.decode(errors="replace")

    def count(self, binary, test):
        """How many allocations a test makes with ample memory."""
        with tempfile.TemporaryFile() as file:
            count = preloaded.Count(file.fileno())
            status, printed = self.run(binary, test, 0, count.file)
            if status != 0:
                sys.exit(f"{test} fails with ample memory: {printed}")
            return count.calls()


def judged(status, printed):
    """What a run was, and the calls that were refused and compared."""
    if status == 0:
        return "passed", []
    if status not in ENDS:
        return "fault", []
    texts = TEXTS.search(printed)
    if texts is None:
        return ("own" if any(it in printed for it in OWN) else "fault"), []
    left, right = (unescaped(text).split("\n") for text in texts.groups())
    found = [(line, REFUSED.fullmatch(line)) for line in left]
    refused = [it[1] for _, it in found if it]
    if refused and [line for line, it in found if not it] == right:
        return "compared", refused
    return ("not compared" if not refused and "out of memory" in printed else "fault"), []


def tests_of(runner, crate, binary, words):
    ran = subprocess.run([binary, "--list"], stdout=subprocess.PIPE, stderr=subprocess.DEVNULL, check=True)
    listed = ran.stdout.decode()
    names = [line.split(": ")[0] for line in listed.splitlines() if line.endswith(": test")]
    for name in names:
        is_wanted = not words or any(word in f"{crate}:{name}" for word in words)
        if is_wanted and name.startswith(CRATES[crate]):
            yield Test(crate, binary, name, runner.count(binary, name))


def places(calls, most):
    """Which allocations are refused: all, or the first half of so many, and the others evenly spread behind them."""
    first = min(calls, most if calls <= most else most // 2)
    spread = 0 if first == calls else most - first
    return [*range(1, first + 1), *(first + (calls - first) * it // spread for it in range(1, spread + 1))]


def arguments():
    parser = argparse.ArgumentParser(description=__doc__.split("\n")[0])
    parser.add_argument("--binary", action="append", default=[], metavar="CRATE=PATH")
    parser.add_argument("--jobs", type=int, default=os.cpu_count() or 1)
    parser.add_argument("--most", type=int, default=1000)
    parser.add_argument("--list", action="store_true")
    parser.add_argument("--only", metavar="CRATE:TEST:AT")
    parser.add_argument("words", nargs="*", metavar="WORD")
    return parser.parse_args()


def binaries(given):
    """The test binary of each crate that has one."""
    built = {crate: os.path.join(ROOT, "crates", crate, "out", f"{crate}_tests") for crate in CRATES}
    built |= dict(it.split("=", 1) for it in given)
    for crate, path in built.items():
        if os.access(path, os.X_OK):
            yield crate, os.path.abspath(path)
        else:
            print(f"refused_tests: {crate} isn't built: rt test")


def show(runner, built, wanted):
    crate, name, at = re.fullmatch(r"(\w+):(.*):(\d+)", wanted).groups()
    status, printed = runner.run(built[crate], name, int(at))
    print(printed)
    kind, refused = judged(status, printed)
    print(f"-- status {status}; {kind}", *refused)
    return 1 if kind == "fault" else 0


def refuse(runner, test, given, pool):
    """Refuses the allocations of a test; what the runs were, and which calls were compared."""
    kinds, calls = Counter(), Counter()
    at = places(test.calls, given.most)
    for place, (kind, refused) in zip(at, pool.map(lambda it: judged(*runner.run(test.binary, test.name, it)), at)):
        kinds[kind] += 1
        calls.update(call.split(" ")[0].rstrip(":") for call in refused)
        if kind == "fault":
            print(f"fault: {test.crate}:{test.name}:{place}")
    return kinds, calls


def run_all(runner, tests, given):
    began, kinds, calls = time.monotonic(), Counter(), Counter()
    with ThreadPoolExecutor(given.jobs) as pool:
        for test in tests:
            own, compared = refuse(runner, test, given, pool)
            counts = ", ".join(f"{count:,} {kind}" for kind, count in sorted(own.items()))
            print(f"{test.crate}:{test.name}: {test.calls:,} allocations: {counts}", flush=True)
            kinds, calls = kinds + own, calls + compared
    print("compared: " + ", ".join(f"{call} {count:,}" for call, count in sorted(calls.items())))
    tried, found = sum(kinds.values()), kinds["fault"]
    print(f"refused_tests: {len(tests)} tests, {tried:,} allocations refused: {sum(calls.values()):,} calls compared, "
          f"{kinds['passed']:,} runs did without, {kinds['own']:,} of the tests' own, {kinds['not compared']:,} not compared; "
          f"{time.monotonic() - began:.0f} s")
    print(f"refused_tests: {tried - found} passed, {found} failed")
    return 1 if found or not kinds["compared"] else 0


def main():
    given = arguments()
    if preloaded.COMPILER is None:
        print("refused_tests: skipped: there is no C compiler")
        return 0
    with tempfile.TemporaryDirectory(prefix="refused-") as folder:
        runner, built = Runner(preloaded.built(folder)), dict(binaries(given.binary))
        if given.only:
            return show(runner, built, given.only)
        tests = [test for crate, path in built.items() for test in tests_of(runner, crate, path, given.words)]
        if given.list:
            for test in tests:
                print(f"{test.crate}:{test.name}: {test.calls:,}")
            return 0
        return run_all(runner, tests, given)


if __name__ == "__main__":
    sys.exit(main())
