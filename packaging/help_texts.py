"""The help texts of the built program, from which the manual page and the completion are made."""
import re
import subprocess
from collections import namedtuple

# name: of the subcommand, '' for the program itself. summary: one line. text: its whole help, in lines.
Command = namedtuple("Command", "name summary text")

OPTION = re.compile(r" {2,6}(?:(-\w), |    )?(--[\w-]+)(?: <(\w+)>)?")


def output(program, *words):
    """What the program prints, called by its own name."""
    return subprocess.run(["pvgate", *words], executable=program, stdin=subprocess.DEVNULL, stdout=subprocess.PIPE, check=True, timeout=60).stdout.decode()


def version(program):
    return output(program, "--version").split()[1]


def commands(program):
    """The program's own help, and that of each subcommand, in the order in which it tells them."""
    own = output(program, "--help").splitlines()
    found = [Command("", own[0], own)]
    for line in own[own.index("Commands:") + 1:]:
        words = re.fullmatch(r"  (\S+)  +(.*)", line)
        if not words:
            break
        if words.group(1) != "help":
            text = output(program, words.group(1), "--help").splitlines()
            found.append(Command(words.group(1), words.group(2), text))
    return found


def options(command):
    """The options of a command: each with its short form, or '', and what it takes, or ''."""
    found = []
    for line in command.text[command.text.index("Options:") + 1:]:
        option = OPTION.match(line)
        if option:
            found.append((option.group(2), option.group(1) or "", option.group(3) or ""))
        elif line and not line.startswith(" "):
            break
    return found


def arguments(command):
    """The names of a command's arguments, in order."""
    usage = next(line for line in command.text if line.startswith("Usage: "))
    return re.findall(r"<(\w+)>", usage)
