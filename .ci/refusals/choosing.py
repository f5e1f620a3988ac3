"""Which edits are tried first where there is no time for all."""
import hashlib
import subprocess

from refusals.edits import ROOT, TRIED, crates, edits

DAYS = 3
# What stands in a repository before its first commit.
NOTHING = "4b825dc642cb6eb9a060e54bf8d69288fbee4904"


def git(*words):
    """What git prints, nothing where it fails."""
    ran = subprocess.run(["git", *words], cwd=ROOT, stdout=subprocess.PIPE, stderr=subprocess.DEVNULL, text=True)
    return ran.stdout.strip() if ran.returncode == 0 else ""


def begin():
    """The parent of the first commit of the last days: what is before it is tried by earlier runs."""
    first = git("log", f"--since={DAYS} days ago", "--reverse", "--format=%H").split("\n")[0]
    return (git("rev-parse", "--verify", "-q", f"{first}^") or NOTHING) if first else git("rev-parse", "HEAD")


def changed_since(commit):
    """The crates whose sources, definitions, proofs or edits changed since a commit; all where it isn't known."""
    if not git("rev-parse", "--verify", "-q", f"{commit}^{{tree}}") and commit != NOTHING:
        return set(crates())
    files = git("diff", "--name-only", commit, "--", "crates").split("\n")
    parts = [it.split("/") for it in files if it.count("/") > 2]
    return {it[1] for it in parts if it[2] in ("src", "specs", "proofs", TRIED)}


def order_of(text):
    """A place in an order that hangs on the commit, and else on nothing that anybody chose."""
    return hashlib.sha256(f"{git('rev-parse', 'HEAD')} {text}".encode()).hexdigest()


def parts(names, since, size):
    """The edits of these crates in parts of one crate each, in the order in which they are tried: first those of crates that
    changed since a commit, then the others; the parts of both in an order that hangs on the commit."""
    changed = changed_since(since or begin())
    found = []
    for crate in names:
        mixed = sorted(edits(crate, TRIED), key=lambda it: order_of(f"{it.crate}/{it.name}"))
        found += [(crate, mixed[at : at + size]) for at in range(0, len(mixed), size)]
    return sorted(found, key=lambda it: (it[0] not in changed, order_of(f"{it[0]} {it[1][0].name}"))), changed
