#!/usr/bin/env python3
"""Compares the program with this model on generated scripts and rule files.

Run by hand, from anywhere: model/compare.py [SCRIPTS] [FILES] [SEED]. So many scripts are replayed
by both (1,000 if not given) and so many rule files checked (1,000), in either syntax, half of them with an access
security file, from one seed (1). What is printed and the status must be equal. Each difference is printed, and its script is left in a file;
after five the run ends. The model was written from the protocol's tables and the rules of the
gateway, by an author who knew the definitions of the crates.
"""
import os
import random
import subprocess
import sys
import tempfile

import access
import rules
from generated import ASKED, RULES, USERS, RuleFiles, Scripts
from replay import Replay
from rows import FIRST, LAST

PROGRAM = os.path.join(os.path.dirname(os.path.abspath(__file__)), "../crates/pvgate/out/pvgate")
RIGHTS = {0: "none", 1: "read", 3: "write"}
MOST_DIFFERENCES = 5


def program(*arguments, script=""):
    done = subprocess.run([PROGRAM, *arguments], input=script.encode(), capture_output=True)
    return done.stdout.decode(), done.returncode


def difference(what, got, want):
    """Prints where two texts and statuses part."""
    pairs = enumerate(zip(got[0].split("\n"), want[0].split("\n")), 1)
    number, (ours, theirs) = next((p for p in pairs if p[1][0] != p[1][1]), (0, ("", "")))
    print(f"{what}: line {number}, statuses {got[1]} and {want[1]}", ours, theirs, sep="\n  ")


def beginning(source, scripts):
    """A first number, and the script; where that one is near the last, numbers mostly come again."""
    if source.random() < 0.7:
        return scripts.script(), FIRST
    again = "limit reuses-numbers 1\n" if source.random() < 0.9 else ""
    scripts.first = LAST - source.choice([0, 1, 2, 3, 4, 6, 8, 12])
    return again + scripts.script(), scripts.first


def compare_scripts(count, seed):
    differences = 0
    for number in range(count):
        source = random.Random(f"{seed} script {number}")
        script, first = beginning(source, Scripts(source))
        want = Replay(script, first).run()
        got = program("replay", "--first", str(first), script=script)
        if got != want:
            with tempfile.NamedTemporaryFile("w", suffix=".replay", delete=False) as kept:
                kept.write(script)
            difference(kept.name, got, want)
            differences += 1
        if differences == MOST_DIFFERENCES:
            break
    print(f"{count} scripts, {differences} differences")


def checked(files, name, host, user, plain):
    """What `check-rules` prints of a rule file with a group file or an access security file, and its status."""
    try:
        read = rules.read_rules(files["rules"], plain)
    except rules.Fault as fault:
        return f"line {fault.line}: {fault.cause}\n", 1
    other = "access" if "access" in files else "groups"
    try:
        other_read = (access.read_access if other == "access" else rules.read_groups)(files.get(other, ""))
    except rules.Fault as fault:
        return f"{other} line {fault.line}: {fault.cause}\n", 1
    lead = rules.resolved(read, host, name)
    answer = "refused"
    if lead:
        grant = access.Grant(3 if lead.group is None else other_read.get(lead.group, 3)) if other == "groups" else \
            other_read.granted(user, host, lead.group or access.DEFAULT, lead.level)
        answer = f"admitted {lead.real} {lead.group or '-'} {RIGHTS[grant.right]}{' recorded' * grant.recorded}"
    return f"ok {len(read.rows)} rows {read.order}\n{answer}\n", 0


def drawn(source):
    """The texts of files by what they are, and a name, a host, perhaps a user, and whether groups are plain."""
    files = RuleFiles(source)
    texts = {"rules": files.rules(), "groups": files.groups()}
    name, host = files.pick(ASKED), files.pick("lab7", "LAB7", "desk1", "10.0.0.5", "lab9")
    plain, user = files.chance(0.5), None
    if files.chance(0.5):
        # Few names are refused, so that most files say what is granted.
        rows = [".* ALLOW" + files.pick("", " ops", " g2", " ops 0", " g2 0"), *(files.pick(RULES) for _ in range(files.pick(0, 1, 2)))]
        texts = {"rules": "\n".join(rows), "access": "\n".join(Scripts(source).access())}
        plain, user = False, files.pick(*USERS, None)
    return {what: text for what, text in texts.items() if text is not None}, name, host, user, plain


def compare_rules(count, seed):
    differences = 0
    with tempfile.TemporaryDirectory() as room:
        for number in range(count):
            files, name, host, user, plain = drawn(random.Random(f"{seed} rules {number}"))
            arguments = ["check-rules", f"{room}/rules", "--name", name, "--host", host]
            for what, text in files.items():
                with open(f"{room}/{what}", "w", newline="") as file:
                    file.write(text)
                arguments += [f"--{what}", f"{room}/{what}"] * (what != "rules")
            arguments += ["--user", user] * (user is not None) + ["--plain-groups"] * plain
            want, got = checked(files, name, host, user, plain), program(*arguments)
            if got != want:
                difference(repr((files, *arguments[2:])), got, want)
                differences += 1
            if differences == MOST_DIFFERENCES:
                break
    print(f"{count} rule files, {differences} differences")


def main():
    numbers = [int(word) for word in sys.argv[1:]] + [1_000, 1_000, 1][len(sys.argv) - 1:]
    compare_scripts(numbers[0], numbers[2])
    compare_rules(numbers[1], numbers[2])


if __name__ == "__main__":
    main()
