"""Tries of edits: many of different functions in one check first, and what isn't refused so alone."""
import functools
import os
import re
import shutil
import signal
import subprocess
import sys

from refusals.edits import GATE, ROOT, crates, path_of

REFUSED, PROVED, BAD, UNTRIED = "refused", "still proved", "no longer applies", "not tried"
# What rt must-fail says of an edit, and what it means here.
MEANINGS = {"refused, as it must be": REFUSED, "NOT REFUSED": PROVED, "BAD EDIT": BAD, "NOT TRIED": UNTRIED}
# What a crate's library is made from, and where rt's own modules are.
PARTS = ("src", "specs", "proofs")
KIT = "/opt/rattle/bin"
# How many edits are tried together at most.
TOGETHER = 12
PLACE = re.compile(r"(?:note: )?(?:\./)?((?:src|specs|proofs)/\S+?):(\d+):\d+: (.*)")
# What may come of an edit that can't be read: rt must-fail knows.
UNREAD = re.compile(r"(?:\./)?(?:src|specs)/\S+?:\d+:\d+: error")
# What says nothing of a function's own goals: a proof that names what an edit took away, or that rests on what isn't proved.
NOT_ITS_OWN = re.compile(r"has no field|is not in scope|has no `|depends? on|was not admitted")


def linked(source, target):
    """Links a file to its place in the copy, or copies it where that can't be; rt never writes into a library's file."""
    try:
        os.link(source, target)
    except OSError:
        shutil.copy2(source, target)


def copied(room):
    """Copies the crates to a scratch repository, without their edits, and with the libraries that are built."""
    for name in ("crates.txt", "HANDLES"):
        shutil.copy(f"{ROOT}/{name}", room)
    for name in crates():
        source, target = f"{ROOT}/crates/{name}", f"{room}/crates/{name}"
        os.makedirs(target)
        for part in PARTS:
            if os.path.isdir(f"{source}/{part}"):
                shutil.copytree(f"{source}/{part}", f"{target}/{part}")
        if os.path.isfile(f"{source}/out/rlib/stamp") or is_newer(f"{source}/out/rlib/{name}.rlib", source):
            shutil.copytree(f"{source}/out/rlib", f"{target}/out/rlib", copy_function=linked)
    stamped(room)


def is_newer(library, crate):
    """Whether a crate has a library that was built after its sources were written."""
    files = [f"{at}/{it}" for part in PARTS for at, _, its in os.walk(f"{crate}/{part}") for it in its]
    return os.path.isdir(library) and os.path.getmtime(library) > max(map(os.path.getmtime, files))


def stamped(room):
    """Has rt take the libraries in the copy for what they are: `rt ci` leaves them without the stamp by which `rt check` knows a
    library of these files, and would build it anew for minutes. So it does with one that is older than a source of its own or of
    a crate below, and where this rt makes its stamps otherwise."""
    sys.path.insert(0, KIT)
    try:
        from rtlib import Crate, crates_below
        # A stamp is made of those of all crates below.
        Crate.stamp = functools.cache(Crate.stamp)
        for it in crates_below(room):
            rlib = os.path.dirname(it.rlib)
            is_stamped = os.path.isfile(f"{rlib}/stamp")
            if not is_stamped and all(is_newer(it.rlib, crate.folder) for crate in (it, *it.below())):
                with open(f"{rlib}/stamp", "w", encoding="utf-8") as file:
                    file.write(it.stamp())
    except (ImportError, AttributeError):
        pass
    sys.path.remove(KIT)


def gathered(found):
    """Groups of edits to try together, with the texts that they make, and the edits that don't apply."""
    groups, bad = [], []
    for edit in found:
        texts, _ = edit.change({})
        if not texts:
            bad.append(edit)
            continue
        functions = edit.functions()
        group = next((it for it in groups if functions and fits(edit, functions, it)), None)
        if not group:
            group = {"edits": [], "functions": set(), "texts": {}}
            groups.append(group)
        group["texts"], _ = edit.change(group["texts"])
        group["edits"].append((edit, functions or set()))
        group["functions"] |= functions or set()
    return groups, bad


def fits(edit, functions, group):
    """Whether an edit can be tried with a group: it changes other functions, and all of the group are edits of functions."""
    is_open = group["functions"] and len(group["edits"]) < TOGETHER
    return is_open and not functions & group["functions"] and edit.change(group["texts"])[0]


def write(texts, folder):
    for file, text in texts.items():
        with open(f"{folder}/{file}", "w", encoding="utf-8") as it:
            it.write(text)


def refusal(said, functions, texts):
    """The line of a check that refuses the goals of one of these functions, or None."""
    for line in said:
        at = PLACE.match(line)
        if not at or NOT_ITS_OWN.search(at[3]):
            continue
        for file, (name, first, last) in functions:
            answers = path_of(texts[file], file, (name, first, last)).replace("::", "/")
            is_goal = at[1] == file and first <= int(at[2]) <= last and "it is not proved" in at[3]
            is_answer = re.fullmatch(rf"proofs/(\w+/)*{answers}/\w+\.antt", at[1]) and at[3].startswith("error")
            if is_goal or is_answer:
                return line
    return None


def told(edit, meant, why):
    print(f"{meant}: {edit.crate}/{edit.name}{why and ': '}{why[:200]}", flush=True)
    return meant


def never():
    return False


def end(session):
    """Ends all that runs in a session: a check has its prover in a group of its own."""
    for pid in filter(str.isdigit, os.listdir("/proc")):
        try:
            with open(f"/proc/{pid}/stat", encoding="utf-8", errors="replace") as file:
                if int(file.read().rpartition(")")[2].split()[3]) == session:
                    os.kill(int(pid), signal.SIGKILL)
        except (OSError, IndexError):
            continue


def ran(words, is_late, **how):
    """What a command says, and its status: None where it was ended, since it was late."""
    with subprocess.Popen(words, stdout=subprocess.PIPE, stderr=subprocess.STDOUT, text=True, start_new_session=True, **how) as process:
        while True:
            try:
                return process.communicate(timeout=1)[0], process.returncode
            except subprocess.TimeoutExpired:
                if is_late():
                    end(process.pid)
                    return "", None


def checked(folder, jobs, paths=(), is_late=never):
    """The lines of a check of a crate in the copy, or of these functions alone, and whether that is proved: None where the
    check came to no verdict."""
    words = ["rt", "check", *(["--jobs", str(jobs)] if jobs else [])]
    words += [it for path in paths for it in ("--only", path)]
    said, status = ran(words, is_late, cwd=folder)
    said = said.splitlines()
    verdict = "only=" if paths else "logic=not-proved"
    is_refused = status == 1 and any(it.startswith(verdict) for it in said)
    return said, status == 0 if status == 0 or is_refused else None


def tried_together(group, folder, jobs, is_whole, is_late):
    """Tries a group of edits in one check, of the functions that they change alone unless the whole crate is to be checked,
    and gives what came of each that is refused, and the edits to try alone."""
    texts = group["texts"]
    whole = is_whole or not group["functions"]
    paths = [] if whole else sorted(path_of(texts[file], file, it) for file, it in group["functions"])
    write(texts, folder)
    said, is_proved = checked(folder, jobs, paths, is_late)
    if is_proved is None and paths and not is_late():
        said, is_proved = checked(folder, jobs, is_late=is_late)
    for file in texts:
        shutil.copy(f"{ROOT}/crates/{os.path.basename(folder)}/{file}", f"{folder}/{file}")
    # (what follows begins again with what was proved)
    shutil.rmtree(f"{folder}/out/incremental", ignore_errors=True)
    came, left = [], []
    for edit, functions in group["edits"]:
        why = refusal(said, functions, texts) if is_proved is False else None
        if is_proved is False and len(group["edits"]) == 1 and not any(UNREAD.match(it) for it in said):
            why = why or next((it for it in said if PLACE.match(it) and not NOT_ITS_OWN.search(it)), None)
        if why:
            came.append((edit, told(edit, REFUSED, why)))
        else:
            left.append(edit)
    return came, left


def tried_alone(found, crate, room, jobs, is_late=never):
    """Tries edits one by one as the must-fail edits of the copy, prints what came of each, and gives that."""
    shutil.rmtree(f"{room}/crates/{crate}/{GATE}", ignore_errors=True)
    if not found:
        return []
    os.makedirs(f"{room}/crates/{crate}/{GATE}")
    for edit in found:
        shutil.copy(edit.path, f"{room}/crates/{crate}/{GATE}")
    environment = os.environ | ({"RT_JOBS": str(jobs)} if jobs else {})
    said, came = ran(["rt", GATE, crate], is_late, cwd=room, env=environment)[0], []
    for edit in found:
        line = re.search(rf"^rt: {GATE} {crate}/{re.escape(edit.name)}: ({'|'.join(MEANINGS)})(.*)$", said, re.M)
        meant = MEANINGS[line[1]] if line else UNTRIED
        came.append((edit, told(edit, meant, line[2].strip(" :") if line else said[-200:].replace("\n", " "))))
    shutil.rmtree(f"{room}/crates/{crate}/{GATE}", ignore_errors=True)
    return came


def tried(found, crate, room, jobs, is_whole, is_over=never, is_late=never):
    """Tries edits of a crate in the scratch repository until it is over, prints what came of each, and gives that. What runs
    still where it is late is ended."""
    folder, came = f"{room}/crates/{crate}", []
    groups, alone = gathered(found)
    if is_whole and groups:
        said, is_proved = checked(folder, jobs)
        if not is_proved:
            print("\n".join(said[-5:]))
            return [(it, told(it, UNTRIED, "the crate isn't proved as it stands")) for it in found]
    for group in groups:
        if is_over():
            break
        refused, left = tried_together(group, folder, jobs, is_whole, is_late)
        came, alone = came + refused, alone + left
    return came + ([] if is_over() else tried_alone(alone, crate, room, jobs, is_late))
