"""PVLIST rule files and group files, and where a name leads."""
import re
from dataclasses import dataclass, field
from typing import NamedTuple, Optional

from wire import is_name, is_word

ALLOW_DENY, DENY_ALLOW = "ALLOW, DENY", "DENY, ALLOW"
RIGHTS = {"NONE": 0, "READ": 1, "WRITE": 3}
MOST_ROWS, MOST_BYTES = 4_096, 1_024
SPECIAL = set("\\.+*?[]{}^$")
SPECIAL_INSIDE = set("\\[]^-&~")


class Fault(Exception):
    """The first faulty line, counted from 1, and what is wrong with it."""

    def __init__(self, line, cause):
        super().__init__(line, cause)
        self.line, self.cause = line, cause


class Refused(Exception):
    """What is wrong with a line."""


@dataclass
class Row:
    pattern: re.Pattern
    verb: str
    real: Optional[str] = None
    group: Optional[str] = None
    level: int = 1
    hosts: list = field(default_factory=list)


class Lead(NamedTuple):
    """Where a name leads, and by which group and level."""
    real: str
    group: Optional[str] = None
    level: int = 1


@dataclass
class Rules:
    order: str
    rows: list


def words(text):
    return [word for word in re.split(r"[ \t]+", text) if word]


def lines(text):
    """The lines of a file, each without its LF or CR LF."""
    found = text.split("\n")
    last = found.pop()
    found = [line.removesuffix("\r") for line in found]
    return found + [last] if last else found


def bracket(body):
    """The members of a bracket, as a regular expression has them."""
    def escaped(char):
        return "\\" + char if char in SPECIAL_INSIDE else char
    out, at = "", 0
    while at < len(body):
        if at + 2 < len(body) and body[at + 1] == "-":
            out += escaped(body[at]) + "-" + escaped(body[at + 2])
            at += 3
        else:
            out += escaped(body[at])
            at += 1
    return out


def bracket_at(pattern, at):
    """The bracket that begins there, and where it ends."""
    start = at + 1
    negation = "^" if pattern[start:start + 1] == "^" else ""
    start += len(negation)
    end = pattern.find("]", start + 1 if pattern[start:start + 1] == "]" else start)
    if end < 0:
        raise Refused("BadPattern")
    return "[" + negation + bracket(pattern[start:end]) + "]", end + 1


def translated(pattern, plain=False):
    """A pattern as a regular expression, and how many groups it opens. In the plain syntax `(`, `)` and `|` make groups
    without a backslash, and stand for themselves after one; in the escaped syntax it is the other way round."""
    out, groups, at = "", 0, 0
    bare, escaped = ("{}]", SPECIAL | set("()|")) if plain else ("()|{}]", SPECIAL)
    while at < len(pattern):
        char, after = pattern[at], pattern[at + 1:at + 2]
        if char == "\\":
            if not after or not 33 <= ord(after) <= 126 or after.isalnum():
                raise Refused("BadPattern")
            groups += after == "(" and not plain
            out += "\\" + after if after in escaped else after
            at += 2
        elif char == "[":
            text, at = bracket_at(pattern, at)
            out += text
        elif 33 <= ord(char) <= 126:
            groups += char == "(" and plain
            out += "\\" + char if char in bare else char
            at += 1
        else:
            raise Refused("BadPattern")
    return "^(?:" + out + ")$", groups


def compiled(pattern, plain):
    text, groups = translated(pattern, plain)
    try:
        return re.compile(text), groups
    except re.error:
        raise Refused("BadPattern") from None


def behind_two_words(line):
    """The words behind the second one, where commas part words too."""
    rest = re.sub(r"^[ \t]*[^ \t]+[ \t]+[^ \t]+", "", line)
    return words(rest.replace(",", " "))


def order_of(line):
    order = ", ".join(word.upper() for word in behind_two_words(line))
    if order not in (ALLOW_DENY, DENY_ALLOW):
        raise Refused("BadOrder")
    return order


def listed_hosts(line):
    hosts = behind_two_words(line)
    if hosts and hosts[0].upper() == "FROM":
        hosts = hosts[1:]
        if not hosts:
            raise Refused("BadFrom")
    if not all(is_word(host) for host in hosts):
        raise Refused("BadFrom")
    return hosts


def security_of(found):
    """The group and the level of a row, from the words that name them."""
    if not found:
        return None, 1
    if not is_word(found[0]) or len(found) > 2 or found[1:] not in ([], ["0"], ["1"]):
        raise Refused("BadGroup")
    return found[0], int(found[1]) if found[1:] else 1


def is_real(text, groups):
    """Whether a text is a real name, with references to so many groups."""
    if not all(33 <= ord(char) <= 126 for char in text):
        return False
    references = re.findall(r"\\(.?)", text)
    return all(digit in "123456789" and digit and int(digit) <= groups for digit in references)


def row_of(line, found, plain):
    verb = found[1].upper()
    if verb == "DENY":
        hosts = listed_hosts(line)
        return Row(compiled(found[0], plain)[0], verb, hosts=hosts)
    rest = found[2:] if verb == "ALLOW" else found[3:]
    group, level = security_of(rest)
    pattern, groups = compiled(found[0], plain)
    if verb == "ALLOW":
        return Row(pattern, verb, None, group, level)
    if len(found) < 3 or not is_real(found[2], groups):
        raise Refused("BadReference")
    return Row(pattern, verb, found[2], group, level)


def meaningful(text):
    """The numbers, texts and words of the lines that aren't blank."""
    for number, line in enumerate(lines(text), 1):
        if len(line.encode()) > MOST_BYTES:
            raise Fault(number, "LineTooLong")
        line = line.partition("#")[0]
        if words(line):
            yield number, line, words(line)


def read_rules(text, plain=False):
    rules = Rules(ALLOW_DENY, [])
    for number, line, found in meaningful(text):
        try:
            if [word.upper() for word in found[:2]] == ["EVALUATION", "ORDER"]:
                rules.order = order_of(line)
                continue
            if len(found) < 2 or found[1].upper() not in ("ALLOW", "ALIAS", "DENY"):
                raise Refused("NoVerb")
            if len(rules.rows) >= MOST_ROWS:
                raise Refused("TooManyLines")
            rules.rows.append(row_of(line, found, plain))
        except Refused as refused:
            raise Fault(number, str(refused)) from None
    return rules


def read_groups(text):
    """The rights of groups, by name."""
    groups = {}
    for count, (number, _, found) in enumerate(meaningful(text)):
        if count >= MOST_ROWS:
            raise Fault(number, "TooManyLines")
        if len(found) != 2 or not is_word(found[0]) or found[1].upper() not in RIGHTS:
            raise Fault(number, "BadGroup")
        groups[found[0]] = RIGHTS[found[1].upper()]
    return groups


def real_name(row, match):
    def reference(found):
        number = int(found[1])
        return (match[number] or "") if number <= match.re.groups else ""
    return re.sub(r"\\([1-9])", reference, row.real)


def resolved(rules, host, name):
    """Where a name leads at a host, None where it is refused."""
    if rules is None:
        return Lead(name)
    deciding = None
    for row in rules.rows:
        match = row.pattern.match(name)
        if not match:
            continue
        if row.verb != "DENY":
            deciding = row, match
        elif row.hosts:
            if host.lower() in (listed.lower() for listed in row.hosts):
                return None
        elif rules.order == ALLOW_DENY:
            return None
    if deciding is None:
        return None
    row, match = deciding
    real = name if row.verb == "ALLOW" else real_name(row, match)
    return Lead(real, row.group, row.level) if is_name(real) else None
